"""What is kept of an item: its docs, its signature, the clauses of its contract, and the items in it."""
import re
import textwrap


class Clause:
    """A clause of a contract as the source has it, and the docs or the comment above it."""

    def __init__(self, text, note):
        self.text, self.note = text, note


class Item:
    """An item with its docs, its signature, its clauses and the items in it."""

    def __init__(self, kind, name, source, at):
        self.kind, self.name, self.source, self.at = kind, name, source, at
        self.docs, self.note, self.attributes, self.visibility = "", "", [], ""
        self.signature, self.clauses, self.children = "", [], []
        # The tokens of its generics; of an impl, those of its trait and of its type; of a use, its paths.
        self.generics, self.trait, self.type, self.paths = [], [], [], []
        # Of a module whether it is in a file of its own; and where the text of a body begins and ends that wasn't read.
        self.has_file, self.body = False, None

    @property
    def is_public(self):
        """Whether other crates may name it, if they may name what it is in."""
        return self.visibility == "pub"


def doc_text(tokens):
    """The Markdown of doc comments."""
    lines = []
    for token in tokens:
        if token.text.startswith("/*"):
            lines += textwrap.dedent(" " + token.text[3:-2]).strip("\n").splitlines()
        else:
            lines.append(re.sub(r"^ ", "", token.text[3:].rstrip()))
    return "\n".join(lines)


def note_text(tokens):
    """The text of comments that document nothing."""
    return " ".join(re.sub(r"^/[/*]+\s*|\s*\*/$", "", it.text) for it in tokens)
