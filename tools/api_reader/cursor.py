"""A place in the tokens of a source, and the steps over names, brackets, docs and attributes from there."""
import re


class Cursor:
    """A place in a source's tokens, from the first one to the last."""

    def __init__(self, source):
        self.source, self.tokens, self.at = source, source.tokens, 0

    def peek(self, ahead=0):
        """The text of a token ahead of here, or nothing after the last. Docs and comments count too."""
        at = self.at + ahead
        return self.tokens[at].text if at < len(self.tokens) else ""

    def fail(self, sentence):
        """Raises an error that names this line."""
        at = self.tokens[min(self.at, len(self.tokens) - 1)].start
        self.source.fail(at, sentence)

    def expect(self, text):
        """Steps over a token that has to be this one."""
        if self.peek() != text:
            self.fail(f"{text} has to stand here, and not {self.peek() or 'the end'}")
        self.at += 1

    def name(self):
        """Steps over a name and returns it."""
        if self.at >= len(self.tokens) or self.tokens[self.at].kind != "name":
            self.fail(f"a name has to stand here, and not {self.peek() or 'the end'}")
        self.at += 1
        return self.tokens[self.at - 1].text

    def skip(self):
        """Steps over a bracket and what is in it; returns where that begins and ends in the source."""
        if self.at not in self.source.closers:
            self.fail(f"a bracket has to open here, and not {self.peek() or 'the end'}")
        first, last = self.at, self.source.closers[self.at]
        self.at = last + 1
        return self.tokens[first].start, self.tokens[last].end

    def until(self, *ends):
        """Steps on to one of these tokens outside of brackets, and returns the tokens before it."""
        first = self.at
        while self.peek() not in ends:
            if self.at >= len(self.tokens) or self.tokens[self.at].kind == "close":
                self.fail(f"{' or '.join(ends)} has to stand before here")
            self.at = self.source.closers.get(self.at, self.at) + 1
        return self.tokens[first : self.at]

    def angles(self):
        """Steps over `<` and what is in it, if it is here; returns the tokens in it."""
        first, depth = self.at, 0
        if self.peek() != "<":
            return []
        while True:
            depth += (self.peek() == "<") - (self.peek() == ">")
            if self.at >= len(self.tokens):
                self.fail("a < that is never closed")
            self.at = self.source.closers.get(self.at, self.at) + 1
            if depth == 0:
                return self.tokens[first + 1 : self.at - 1]

    def cut(self, first, last=None):
        """The text from a token to the one before here, or before `last`, without the indentation of its first line."""
        start, end = self.tokens[first].start, self.tokens[(self.at if last is None else last) - 1].end
        indent = start - self.source.starts[self.source.line(start) - 1]
        return re.sub(rf"\n[ ]{{1,{indent}}}", "\n", self.source.text[start:end]) if indent else self.source.text[start:end]

    def above(self):
        """Steps over docs, comments and attributes; returns the docs, the comments and the attributes of what follows."""
        docs, notes, attributes = [], [], []
        while self.at < len(self.tokens):
            token = self.tokens[self.at]
            if token.kind in ("doc", "comment"):
                (docs if token.kind == "doc" else notes).append(token)
                self.at += 1
            elif token.text == "#":
                first = self.at
                self.at += 2 if self.peek(1) == "!" else 1
                self.skip()
                # An attribute of the whole file isn't one of the item below.
                attributes += [self.cut(first)] if self.tokens[first + 1].text != "!" else []
            else:
                break
        return docs, notes, attributes

    def visibility(self):
        """Steps over `pub` and its brackets; returns them."""
        first = self.at
        if self.peek() == "pub":
            self.at += 1
            if self.peek() == "(" and self.peek(1) in ("crate", "super", "self", "in"):
                self.skip()
        return self.cut(first) if self.at > first else ""
