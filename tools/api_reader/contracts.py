"""Contracts as HTML: clauses, what is above them, and the files that define their names."""
import html
import re

from .definitions import imported

NAMES = re.compile(r"[^\W\d]\w*'*", re.UNICODE)


def ghosts_of(items):
    """The names that contracts of these items import, each with the path and the name of its definition."""
    found = {}
    for item in items:
        if item.kind == "ghost use":
            found.update(imported(item.signature))
    return found


class Contracts:
    """Writes contracts as HTML."""

    def __init__(self, code, prose):
        self.code, self.prose, self.definitions = code, prose, code.definitions

    def folded(self, clauses, scope, level, word="Contract"):
        """A contract that unfolds: of each clause its text, what is said above it, and its anchor if it has one."""
        if not clauses:
            return ""
        count = f"{len(clauses)} clause" + ("s" if len(clauses) != 1 else "")
        inner = "".join(self.clause(*clause, scope, level) for clause in clauses)
        return f'<details class="contract"><summary>{word} ({count})</summary>{inner}{self.defined(clauses, scope)}</details>\n'

    def clause(self, text, note, anchor, scope, level):
        """A clause below what is said above it."""
        place = f' id="{anchor}"' if anchor else ""
        above = f'<div class="note">{self.prose.whole(note, scope, level)}</div>' if note else ""
        return f'{above}<pre class="clause"{place}><code>{self.code.block(text, scope, "clause")}</code></pre>'

    def defined(self, clauses, scope):
        """The files that define names of these clauses."""
        files = {}
        for text, _note, _anchor in clauses:
            for match in NAMES.finditer(text):
                where = scope.ghosts.get(match[0])
                target = self.definitions.target(where) if where else None
                if target:
                    files.setdefault(where[0], {})[match[0]] = target
        rows = "".join(self.names(path, names) for path, names in files.items())
        return f'<p class="label">Defined in</p><ul class="defined">{rows}</ul>' if rows else ""

    def names(self, path, names):
        """A file of definitions, and names that it defines."""
        file = self.definitions.files[path]
        links = ", ".join(f'<a href="{html.escape(target)}"><code>{html.escape(name)}</code></a>' for name, target in names.items())
        return f'<li>{links}: <a class="file" href="{file.page}">{html.escape(file.file)}</a></li>'


def clauses_of(item, members=None):
    """The clauses of a function, and the ghost items of a trait, an impl or a struct; with their anchors, if they are among these members."""
    found = [(it.text, it.note, "") for it in item.clauses]
    for child in item.children:
        if child.kind == "ghost":
            anchor = members[child.name][0].anchor if members and child.name in members else ""
            found.append((child.signature, child.docs or child.note, anchor))
    return found
