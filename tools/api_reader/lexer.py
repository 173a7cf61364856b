"""Words of a Rattle source.

A token has a kind, its text, and where it begins and ends in the source. The kinds are:

name      a name or a keyword; in a contract it may end with primes, as x'
lifetime  'a
text      a string, a character, or a byte of either
number    a number
open      ( [ {
close     ) ] }
mark      any other sign; `::`, `->` and `=>` are one token
comment   // or /* */ which documents nothing
doc       /// or /** */, on the item below
inner     //! or /*! */, on the module that it is in
"""
import bisect
import re
from collections import namedtuple

Token = namedtuple("Token", "kind text start end")

NAME = re.compile(r"[^\W\d]\w*'*", re.UNICODE)
NUMBER = re.compile(r"\d\w*")
RAW = re.compile(r"b?r(#*)\"")
CHARACTER = re.compile(r"b?'(?:\\(?:x[0-9a-fA-F]{2}|u\{[0-9a-fA-F_]+\}|.)|[^\\'\n])'")
LIFETIME = re.compile(r"'[^\W\d]\w*", re.UNICODE)
STRING = re.compile(r"b?\"(?:[^\"\\]|\\.)*\"", re.DOTALL)
MARKS = ("::", "->", "=>", "..=", "..")
PAIRS = {"(": ")", "[": "]", "{": "}"}


class SourceError(Exception):
    """A source that can't be read, as a sentence."""


class Source:
    """A file's path and text, its tokens, and its lines."""

    def __init__(self, path, text):
        self.path, self.text = path, text
        self.starts = [0] + [it.end() for it in re.finditer("\n", text)]
        self.tokens = list(tokens_of(self))
        self.closers = closers_of(self.tokens)

    def line(self, at):
        """The number of the line of a place."""
        return bisect.bisect_right(self.starts, at)

    def fail(self, at, sentence):
        """Raises an error that names the line."""
        raise SourceError(f"{self.path}:{self.line(at)}: {sentence}")


def comment_end(source, at):
    """Where a comment ends that begins here. /* */ may hold others."""
    text = source.text
    if text.startswith("//", at):
        end = text.find("\n", at)
        return len(text) if end < 0 else end
    depth, here = 0, at
    while here < len(text):
        if text.startswith("/*", here):
            depth, here = depth + 1, here + 2
        elif text.startswith("*/", here):
            depth, here = depth - 1, here + 2
            if depth == 0:
                return here
        else:
            here += 1
    return source.fail(at, "a comment that has no end")


def comment_kind(text):
    """Whether a comment documents the item below, the module, or nothing."""
    if text.startswith(("//!", "/*!")):
        return "inner"
    is_doc = text.startswith(("///", "/**")) and not text.startswith(("////", "/***")) and text != "/**/"
    return "doc" if is_doc else "comment"


def text_end(source, at):
    """Where a string or a character ends that begins here, or None if there is none."""
    raw = RAW.match(source.text, at)
    if raw:
        end = source.text.find('"' + raw[1], raw.end())
        return end + 1 + len(raw[1]) if end >= 0 else source.fail(at, "a string that has no end")
    match = CHARACTER.match(source.text, at) or STRING.match(source.text, at)
    if not match and source.text.startswith(('"', 'b"'), at):
        source.fail(at, "a string that has no end")
    return match.end() if match else None


def word_at(source, at):
    """The kind and the end of what begins here, which is no blank."""
    text = source.text
    if text.startswith(("//", "/*"), at):
        end = comment_end(source, at)
        return comment_kind(text[at:end]), end
    end = text_end(source, at)
    if end:
        return "text", end
    for kind, pattern in (("lifetime", LIFETIME), ("name", NAME), ("number", NUMBER)):
        match = pattern.match(text, at)
        if match:
            return kind, match.end()
    if text[at] in PAIRS:
        return "open", at + 1
    if text[at] in PAIRS.values():
        return "close", at + 1
    return "mark", at + next((len(it) for it in MARKS if text.startswith(it, at)), 1)


def tokens_of(source):
    """The tokens of a source. Each bracket has to be closed by its own kind."""
    at, stack = 0, []
    while at < len(source.text):
        if source.text[at].isspace():
            at += 1
            continue
        kind, end = word_at(source, at)
        token = Token(kind, source.text[at:end], at, end)
        if kind == "open":
            stack.append(token)
        elif kind == "close" and (not stack or PAIRS[stack.pop().text] != token.text):
            source.fail(at, f"a {token.text} that closes nothing")
        yield token
        at = end
    if stack:
        source.fail(stack[-1].start, f"a {stack[-1].text} that is never closed")


def closers_of(tokens):
    """For each token that opens a bracket, by its place, the place of the one that closes it."""
    found, stack = {}, []
    for at, token in enumerate(tokens):
        if token.kind == "open":
            stack.append(at)
        elif token.kind == "close":
            found[stack.pop()] = at
    return found


def lexed(text):
    """The tokens of a text, or None if it is no code."""
    try:
        return Source("", text).tokens
    except SourceError:
        return None
