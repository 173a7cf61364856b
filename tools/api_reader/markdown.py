"""Markdown of doc comments, as far as they use it: paragraphs, headings, tables, blocks of code, and code in backticks.

Any other form is refused, so no page shows its signs as text. A table or some sentences say the same as a list."""
import re

from .lexer import SourceError

HEADING = re.compile(r"(#{1,6}) +(.*)$")
FENCE = re.compile(r"(`{3,})(\w*)$")
RULE = re.compile(r"\|(?: *:?-+:? *\|)+$")
CODE = re.compile(r"(?<!`)(`+)(?!`)(.+?)(?<!`)\1(?!`)", re.S)
# Forms that begin a line, and those within one.
REFUSED = (
    (re.compile(r"^\s*(?:[-*+]|\d+[.)]) ", re.M), "a list"),
    (re.compile(r"^\s*>", re.M), "a quotation"),
    (re.compile(r"^(?: {4}|\t)", re.M), "an indented block"),
    (re.compile(r"^\s*(?:=+|-{3,}|\*{3,}|_{3,}|~{3,}.*)\s*$", re.M), "a line of signs"),
    (re.compile(r"\]\(|\]\["), "a link"),
    (re.compile(r"</?[A-Za-z!]"), "an element of HTML"),
    (re.compile(r"&#?\w+;"), "an entity of HTML"),
    (re.compile(r"\\[!-/:-@\[-`{-~]"), "a backslash before a sign"),
    (re.compile(r"(?<!\w)([*_]{1,3})(?=\S)[^*_]+?(?<=\S)\1(?!\w)"), "an emphasis"),
    (re.compile(r"`"), "a backtick without its other one"),
)


def blocks(text):
    """The blocks of a text: of each its kind, its number or its rows or nothing, and its text. A heading's number is its level."""
    lines, found = text.split("\n"), []
    while lines:
        heading, fence = HEADING.match(lines[0]), FENCE.match(lines[0])
        if not lines[0].strip():
            lines.pop(0)
        elif fence:
            found.append(("code", 0, fenced(lines, fence[1])))
        elif heading:
            found.append(("heading", len(heading[1]), lines.pop(0)[heading.end(1) :].strip()))
        elif begins_table(lines):
            found.append(("table", rows_of(lines), ""))
        else:
            found.append(("paragraph", 0, paragraph(lines)))
    return found


def begins_table(lines):
    """Whether a table begins some lines: its second line is a rule."""
    return len(lines) > 1 and RULE.match(lines[1].strip()) is not None


def fenced(lines, mark):
    """Takes a block of code off some lines, and returns what is between its fences."""
    if mark not in lines[1:]:
        raise SourceError(f"a block of code isn't ended: {lines[0]}")
    end = lines.index(mark, 1)
    inside = "\n".join(lines[1:end])
    del lines[: end + 1]
    return inside


def rows_of(lines):
    """Takes a table off some lines, and returns the cells of its rows, without the rule below its head."""
    rows = []
    del lines[1]
    while lines and lines[0].strip().startswith("|"):
        cells = re.split(r"(?<!\\)\|", lines.pop(0).strip())[1:-1]
        rows.append([allowed(it.strip().replace("\\|", "|")) for it in cells])
    if any(len(it) != len(rows[0]) for it in rows):
        raise SourceError(f"a row of a table has more cells than its head, or fewer: | {' | '.join(rows[0])} |")
    return rows


def paragraph(lines):
    """Takes a paragraph off some lines, and returns its text."""
    taken = []
    while lines and lines[0].strip() and not (FENCE.match(lines[0]) or HEADING.match(lines[0]) or begins_table(lines)):
        taken.append(lines.pop(0))
    return allowed("\n".join(taken))


def allowed(text):
    """A text as it is. An error if it has a form that isn't read."""
    plain = CODE.sub("code", text)
    for form, what in REFUSED:
        match = form.search(plain)
        if match:
            raise SourceError(f"a comment has {what}, which no page shows: {plain[match.start():].strip()[:60]!r}")
    return text


def pieces(text):
    """The pieces of a sentence: of each whether it is code, and its text."""
    found, end = [], 0
    for match in CODE.finditer(text):
        code = match[2].replace("\n", " ")
        is_padded = code.startswith(" ") and code.endswith(" ") and code.strip()
        found += [(False, text[end : match.start()]), (True, code[1:-1] if is_padded else code)]
        end = match.end()
    return [it for it in [*found, (False, text[end:])] if it[1]]
