"""The parts of the pages that are made from the tree.

A part begins with a line `<!-- made: KIND ARGUMENTS -->` and ends with a line `<!-- end -->`. The kinds are:

proved                 what each crate's root lists under 'What is proved'
definitions            what each crate's root lists under 'What to believe'
shapes                 the table of sequences in the root of crossterm_parse
rows PATH HEAD HEAD    the rows `A -> B` of a file of crates/probe/rows, without those that are errors
file PATH              a file, as a block of code
clauses PATH FN NAME.. clauses of a function, as a block of code
figures PATH           a file whose lines have cells between tabs, as a table
reading FN FILE..      the command that checks one function, FN as CRATE:PATH, with the lines of these files of definitions, CRATE:NAME each
"""
import os
import re


ROOT = os.path.dirname(os.path.dirname(os.path.abspath(__file__)))
PART = re.compile(r"^<!-- made: (.*?) -->\n(.*?)^<!-- end -->\n", re.M | re.S)
# Parts that are tables.
TABLES = ("proved", "definitions", "shapes")


class PageError(Exception):
    """A part that can't be made, as a sentence."""


def read(path):
    """A file of the tree."""
    try:
        with open(f"{ROOT}/{path}", encoding="utf-8") as file:
            return file.read()
    except OSError as error:
        raise PageError(f"{path} can't be read: {error.strerror}") from error


def crates():
    """The crates and those that each names, in the order of crates.txt."""
    rows = [line.split("#")[0].partition(":") for line in read("crates.txt").splitlines()]
    return {head.split()[0]: rest.split() for head, _, rest in rows if head.strip()}


def with_below(crate):
    """A crate and all those below it."""
    needs, found = crates(), {crate}
    while more := {it for one in found for it in needs[one] if it in needs} - found:
        found |= more
    return found


def root_of(crate):
    """The path of a crate's root."""
    paths = [f"crates/{crate}/src/{name}.rt" for name in ("lib", "main")]
    return next(path for path in paths if os.path.exists(f"{ROOT}/{path}"))


def rows_below(crate, heading):
    """The cells of the table that a crate's root has below a line that begins so, without its head."""
    lines = [line.removeprefix("//!").strip() for line in read(root_of(crate)).splitlines() if line.startswith("//!")]
    found, within = [], False
    for line in lines:
        if line.startswith(heading):
            within = True
        elif within and line.startswith("|"):
            found.append([cell.strip() for cell in line.strip("|").split(" | ")])
        elif within and line and found:
            break
    return [[cell.strip(" |") for cell in row] for row in found[2:]]


def table(heads, rows):
    """A table of these heads and rows."""
    lines = ["| " + " | ".join(cells) + " |" for cells in [heads, *rows]]
    return "\n".join([lines[0], "|" + "---|" * len(heads), *lines[1:]])


def proved():
    rows = []
    for crate in crates():
        link = f"[`{crate}`](../{root_of(crate)})"
        for promise, contract in rows_below(crate, "What is proved"):
            rows.append([link, promise, contract])
            link = ""
    rows.append(["all others", "safety alone", ""])
    return table(["Crate", "Proved", "By the contract of"], rows)


def definitions():
    rows = []
    for crate in crates():
        for cells in rows_below(crate, "What to believe"):
            path = f"crates/{crate}/specs/{cells[0].strip('`')}.antt"
            subject, contract = cells[-2], cells[-1]
            rows.append([f"[`{crate}`: `{cells[0].strip('`')}`](../{path})", str(len(read(path).splitlines())), subject, contract])
    return table(["Definitions", "Lines", "Of", "Contract"], rows)


def shapes():
    return table(["Shape", "Ends at"], rows_below("crossterm_parse", "A sequence has one of these shapes"))


def code(text):
    """A code span in a cell."""
    mark = "``" if "`" in text else "`"
    return f"{mark} {text} {mark}" if mark == "``" else f"`{text}`".replace("|", "\\|")


def file(path):
    """A whole file, which is Rattle or a proof."""
    kind = "text" if path.endswith(".antt") else "rust"
    return f"```{kind}\n{read(path)}```"


def clauses(path, function, *names):
    """Clauses of a function, with what is before the first of them left out."""
    start = re.search(rf"^( *)(?:pub )?fn {function}\b", read(path), re.M)
    if not start:
        raise PageError(f"{path} has no function {function}")
    head = read(path)[start.end() :].split(f"\n{start[1]}{{\n")[0]
    found = re.findall(r"^ *(ensures (\w+) \{.*?\}) *$(?=\n *(?:ensures|//)|\Z)", head, re.M | re.S)
    texts = {name: text for text, name in found}
    lacking = [name for name in names if name not in texts]
    if lacking:
        raise PageError(f"{function} in {path} has no clause {', '.join(lacking)}")
    joined = "\n".join(re.sub(r"\n +", "\n    ", texts[name]) for name in names)
    return f"```text\n{joined}\n```"


def figures(path):
    heads, *rows = [line.split("\t") for line in read(path).splitlines()]
    return table(heads, rows)


def reading(function, *names):
    crate, _, path = function.partition(":")
    files = ["crates/{}/specs/{}.antt".format(*name.split(":")) for name in names]
    lines = sum(len(read(file).splitlines()) for file in files)
    return f"```sh\ncd crates/{crate} && rt check --only {path}    # to read: {len(files)} files, {lines} lines\n```"


def written_form(paragraph, olds, source):
    """The cell of what to write in place of a wrong body: its old texts, or what a line `# write: CELL` of it says. Each code of that cell is
    one of the source, spaces apart, or a word of crates.txt, or the name of a file."""
    said = re.search(r"^# write: (.*)$", paragraph, re.M)
    if not said:
        return code(" ".join(olds))
    known = re.sub(r"\s", "", source)
    for each in re.findall(r"`([^`]+)`", said[1]):
        if re.sub(r"\s", "", each) not in known and each not in read("crates.txt").split() and not os.path.exists(f"{ROOT}/{each}"):
            raise PageError(f"no source has `{each}`, which the table of messages says to write")
    return said[1]


def messages(path):
    """What a file of wrong bodies says of messages: each with the form that leads to it, and the one that passes."""
    rows, crate = [], os.path.basename(os.path.dirname(path))
    source = read(f"crates/{crate}/" + re.search(r"^file: (.*)$", read(path), re.M)[1])
    for paragraph in re.split(r"\n\n+", read(path)):
        lines = {word: re.findall(rf"^{word}: ?(.*)$", paragraph, re.M) for word in ("error", "old", "new")}
        if lines["error"]:
            written = " ".join(filter(None, lines["new"]))
            instead = code(written) if written else "without it"
            rows.append([lines["error"][0].replace("`", ""), instead, written_form(paragraph, lines["old"], source)])
    return table(["Message", "Instead of", "Write"], rows)


def lent(crate):
    """The files of a crate's lemmas that its root names for the crates above."""
    line = re.search(r"^//! Crates above cite the lemmas of (.*?)\.$", read(root_of(crate)), re.M)
    return re.findall(r"`(\w+)`", line[1]) if line else []


MAKERS = {"messages": messages, "proved": proved, "definitions": definitions, "shapes": shapes, "file": file, "clauses": clauses, "figures": figures, "reading": reading}


def made(words):
    """What is in a part that is asked for by these words."""
    kind, *arguments = words.split()
    if kind not in MAKERS:
        raise PageError(f"there is no part '{kind}'; there are {', '.join(MAKERS)}")
    return MAKERS[kind](*arguments)


def with_parts(text):
    """A page with its parts made anew."""
    return PART.sub(lambda part: f"<!-- made: {part[1]} -->\n{made(part[1])}\n<!-- end -->\n", text)


def without_parts(text, kinds=TABLES):
    """A page without the parts of these kinds."""
    return PART.sub(lambda part: "" if part[1].split()[0] in kinds else part[0], text)
