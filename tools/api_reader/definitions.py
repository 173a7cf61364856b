"""Pages of the definitions that contracts cite: the files `specs/` of each crate, with a place for each definition.

They are shown as they are. Of their language this reads no more than which names a line defines and which names it uses.
"""
import html
import os
import re

NAME = re.compile(r"[^\W\d]\w*'*", re.UNICODE)
DEFINES = re.compile(r"^\s*(?:pub )?(?:abbrev|data|record)(?: pub)? ([^\W\d]\w*'*)", re.UNICODE)
MAKES = re.compile(r"^\s+([^\W\d]\w*'*) :", re.UNICODE)
USES = re.compile(r"^\s*(?:pub |ghost )?use ([\w.]+?)(?:\.\{(.*)\}| as (\w+))?;?$", re.DOTALL)
ALIAS = re.compile(r"([^\W\d]\w*'*)(?: as ([^\W\d]\w*'*))?", re.UNICODE)
WORDS = set("use pub abbrev data record where module mod as".split())


def imported(text):
    """The names that a use line brings, each with the path and the name that it has there; nothing if the text is no such line."""
    match = USES.match(text)
    if not match:
        return {}
    path = match[1].removeprefix("Rattle.")
    if match[2] is None:
        above, _, last = path.rpartition(".")
        return {match[3] or last: (above, last)}
    words = [ALIAS.fullmatch(it.strip()) for it in match[2].split(",")]
    return {it[2] or it[1]: (path, it[1]) for it in words if it}


class File:
    """A file of definitions: its path, its lines, what each of them defines, and what it imports."""

    kind = "definitions"

    def __init__(self, crate, file, text):
        self.crate, self.file, self.lines = crate, file, text.rstrip("\n").split("\n")
        self.path = file.removeprefix("crates/").removesuffix(".antt").split("/")
        self.name, self.full = "::".join(self.path[2:]), "::".join(self.path)
        self.page = self.href = ".".join(self.path) + ".html"
        # The line of each name that it defines, those that are surely meant if they are in its lines, and what its use lines bring. A
        # small name of a case, as `text`, may also be a variable's.
        self.names, self.own, self.scope = {}, set(), {}
        for at, line in enumerate(self.lines):
            match = DEFINES.match(line) or MAKES.match(line)
            if match:
                self.names.setdefault(match[1], at)
                self.own |= {match[1]} if DEFINES.match(line) or match[1][0].isupper() else set()
            self.scope.update(imported(line))

    def above(self, at):
        """The comment above a line, without its marks."""
        first = at
        while first and self.lines[first - 1].strip().startswith("-- "):
            first -= 1
        return " ".join(it.strip().removeprefix("-- ") for it in self.lines[first:at])

    @property
    def docs(self):
        """The comment that it begins with."""
        count = next((at for at, it in enumerate(self.lines) if not it.startswith("--")), len(self.lines))
        return self.above(count)


class Definitions:
    """All files of definitions of some crates."""

    def __init__(self, root, crates, links):
        self.files, self.links = {}, links
        for crate in crates:
            for folder, _folders, names in sorted(os.walk(f"{root}/crates/{crate}/specs")):
                for name in sorted(names):
                    file = os.path.relpath(f"{folder}/{name}", root)
                    if name.endswith(".antt"):
                        with open(f"{root}/{file}", encoding="utf-8") as opened:
                            found = File(crate, file, opened.read())
                        self.files.update({".".join(found.path): found} if found.names else {})

    def of(self, crate):
        """The files of a crate."""
        return [it for it in self.files.values() if it.crate == crate]

    def target(self, where):
        """The place of a definition by its path and its name, or None if it is in no file here."""
        path, name = where
        file = self.files.get(path)
        return f"{file.page}#{name}" if file and name in file.names else None

    def main(self, file):
        """What a file's page has in its main part."""
        places = {at: name for name, at in file.names.items()}
        lines = "".join(self.line(file, at, line, places.get(at)) for at, line in enumerate(file.lines))
        title = "::<wbr>".join(html.escape(it) for it in file.path)
        head = f'<h1><span class="kind">definitions</span> {title}</h1><p class="file">{html.escape(file.file)}</p>'
        return f'{head}<pre class="definitions"><code>{lines}</code></pre>'

    def line(self, file, at, line, name):
        """A line, with its place if it defines a name, and links on the names that it uses."""
        anchor = f' id="{name}"' if name else ""
        indent = len(line) - len(line.lstrip(" "))
        if line.strip().startswith("--"):
            inner = f'<span class="c">{html.escape(line, quote=False)}</span>'
        else:
            inner, end = "", 0
            for match in NAME.finditer(line):
                inner += html.escape(line[end : match.start()], quote=False) + self.word(file, at, line, match)
                end = match.end()
            inner += html.escape(line[end:], quote=False)
        return f'<span class="l"{anchor} style="--in: {indent}">{inner}\n</span>'

    def word(self, file, at, line, match):
        """A name of a line: what the line defines, a word of the language, a link, or plain text."""
        name = match[0]
        if file.names.get(name) == at:
            return f'<b class="d">{html.escape(name)}</b>'
        if name in WORDS:
            return f'<span class="k">{name}</span>'
        is_field = line[: match.start()].endswith(".") and not USES.match(line)
        where = (".".join(file.path), name) if name in file.own else file.scope.get(name)
        target = self.target(where) if where and not is_field else None
        if where and not is_field and not target:
            declared = self.links.declared(where)
            target = declared.href if declared else None
        return f'<a href="{html.escape(target)}">{html.escape(name)}</a>' if target else html.escape(name)
