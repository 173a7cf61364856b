"""Wrong bodies, as files of edits have them.

A file has paragraphs, and each is one wrong body: lines `file: PATH` of the crate, and below it pairs of lines `old: TEXT` and
`new: TEXT`, if the old text is in that file once. A line `file:` holds on until the next one. Further lines of a paragraph:

    at: NAME, NAME      the functions that refuse it, by the ends of their names, if that isn't the one that it is in; `*` where
                        only a check of the whole crate does, as of a law of an `impl`
    error: TEXT         what the compiler says of it, if it isn't left to the prover
    # ..                what it gets wrong, in words
"""
import dataclasses
import os


def bytes_of(path):
    """The bytes of a file."""
    with open(path, "rb") as it:
        return it.read()


@dataclasses.dataclass(frozen=True)
class Pair:
    """A text of a file of the crate, and what comes in its place."""

    path: str
    old: str
    new: str


@dataclasses.dataclass(frozen=True)
class WrongBody:
    """Pairs that are applied together."""

    crate: str
    place: str
    pairs: tuple
    at: tuple
    error: str


class BadEdit(Exception):
    """A file that can't be read as edits."""


def paragraphs(text):
    """The paragraphs of a text, each as its first line's number and its lines."""
    found, lines = [], []
    for number, line in enumerate([*text.split("\n"), ""], 1):
        if line.strip():
            lines.append(line)
        elif lines:
            found.append((number - len(lines), lines))
            lines = []
    return found


def read_paragraph(lines, path, place):
    """The pairs, the names and the error of a paragraph, and the file that holds on."""
    pairs, old, at, error = [], None, [], ""
    for line in lines:
        word, _, rest = line.partition(":")
        rest = rest.removeprefix(" ")
        if word == "file":
            path = rest.strip()
        elif word == "old":
            old = rest
        elif word == "new" and old and path:
            pairs.append(Pair(path, old, rest))
            old = None
        elif word == "at":
            at += [it.strip() for it in rest.split(",")]
        elif word == "error":
            error = rest
        elif not line.startswith("#"):
            raise BadEdit(f"{place}: no line of a wrong body: {line}")
    if old is not None:
        raise BadEdit(f"{place}: an old text without a new one: {old}")
    return pairs, at, error, path


def read_file(file, crate):
    """The wrong bodies of a file."""
    found, path = [], ""
    with open(file, encoding="utf-8") as it:
        text = it.read()
    for number, lines in paragraphs(text):
        place = f"{crate}/{os.path.basename(file)}:{number}"
        pairs, at, error, path = read_paragraph(lines, path, place)
        if pairs:
            found.append(WrongBody(crate, place, tuple(pairs), tuple(at), error))
    return found


def of_crate(root, crate, bodies=""):
    """The wrong bodies of a crate: those that the gate tries, and those of this folder; or those of another folder of bodies alone."""
    found, own = [], (f"{root}/crates/{crate}/must-fail", f"{root}/strength/bodies/{crate}")
    for folder in [f"{bodies}/{crate}"] if bodies else own:
        for name in sorted(os.listdir(folder)) if os.path.isdir(folder) else []:
            if name.endswith(".edit"):
                found += read_file(f"{folder}/{name}", crate)
    return found


def applied(pairs, texts):
    """The texts with these pairs in them, or None if an old text isn't there once."""
    changed = dict(texts)
    for pair in pairs:
        if changed.get(pair.path, "").count(pair.old) != 1:
            return None
        changed[pair.path] = changed[pair.path].replace(pair.old, pair.new)
    return changed
