"""The crates' modules, and where each public item is reached from outside.

An item's home is the module that its page is of: the one that it is written in, if other crates can name that, and else the first that names it
by `pub use`.
"""
import os

from .items import read_file
from .lexer import Source, SourceError

TYPES = ("struct", "enum", "trait", "type")
KINDS = (*TYPES, "fn", "const", "static", "macro")


class Module:
    """A module: its crate, its path in it, its docs and its items."""

    kind = "mod"

    def __init__(self, crate, path, parent, docs, items, source, is_public):
        self.crate, self.path, self.parent, self.docs = crate, path, parent, docs
        self.items, self.source, self.is_public = items, source, is_public
        # What is named in it: entries, submodules, and uses as pairs of an item and a path.
        self.names, self.uses, self.globs, self.modules, self.entries = {}, {}, [], {}, []

    @property
    def full(self):
        """Its path from the crate's name on, with colons."""
        return "::".join([self.crate, *self.path])

    @property
    def name(self):
        """The last part of its path."""
        return self.path[-1] if self.path else self.crate

    @property
    def page(self):
        """The name of its page."""
        return ".".join([self.crate, *self.path]) + ".html"

    @property
    def href(self):
        """The place that a link to it leads to."""
        return self.page


class Entry:
    """An item that can be named: one of a module, or one of a type's or a trait's."""

    def __init__(self, item, module, owner=None):
        self.item, self.module, self.owner = item, module, owner
        self.kind, self.name = item.kind, item.name
        # Its page's module and its place there, once it has them; what a type or a trait has, by name; and the impls of it.
        self._home, self.anchor, self.members, self.impls = None, "", {}, []

    @property
    def home(self):
        """The module whose page shows it, or None."""
        return self.owner.home if self.owner else self._home

    @home.setter
    def home(self, module):
        self._home = module

    @property
    def full(self):
        """Its path as other crates write it."""
        above = self.owner.full if self.owner else (self.home or self.module).full
        return f"{above}::{self.name}"

    @property
    def href(self):
        """The place that a link to it leads to."""
        return f"{self.home.page}#{self.anchor}"


class Tree:
    """All modules of some crates, read from their sources."""

    def __init__(self, root, crates):
        self.root, self.files, self.roots, self.modules = root, {}, {}, []
        for crate in crates:
            self.roots[crate] = self.load(crate, (), None, f"crates/{crate}/src/lib.rt", True, "")
            self.all_read(crate)

    def load(self, crate, path, parent, file, is_public, docs):
        """The module of a file, and those in it."""
        if not os.path.exists(f"{self.root}/{file}"):
            raise SourceError(f"{file}: it has the module {'::'.join([crate, *path])}, and isn't there")
        try:
            with open(f"{self.root}/{file}", encoding="utf-8") as opened:
                source = Source(file, opened.read())
        except (OSError, UnicodeDecodeError) as error:
            raise SourceError(f"{file}: it can't be read: {error}") from error
        self.files[file] = source
        inner, items = read_file(source)
        return self.fill(Module(crate, path, parent, inner or docs, items, source, is_public), os.path.dirname(file))

    def fill(self, module, folder):
        """Enters a module's items, and loads its submodules."""
        self.modules.append(module)
        inside = folder if not module.path else f"{folder}/{module.name}"
        for item in module.items:
            if item.kind == "mod":
                path, is_public = (*module.path, item.name), module.is_public and item.is_public
                if item.has_file:
                    child = self.load(module.crate, path, module, f"{inside}/{item.name}.rt", is_public, item.docs)
                else:
                    child = Module(module.crate, path, module, item.docs, item.children, module.source, is_public)
                    self.fill(child, inside)
                module.modules[item.name] = child
            elif item.kind == "use":
                for path, name in item.paths:
                    module.globs += [(item, path[:-1])] if name == "*" else []
                    module.uses.setdefault(name, []).append((item, path))
            elif item.kind in KINDS:
                entry = Entry(item, module)
                module.names.setdefault(item.name, []).append(entry)
                module.entries.append(entry)
                self.members(entry)
        return module

    def members(self, entry):
        """Enters what an enum, a struct or a trait has in itself. The signature shows fields that have neither a name nor docs."""
        for child in entry.item.children:
            is_bare = child.kind == "field" and not child.name.isidentifier() and not child.docs
            if (entry.kind == "trait" or child.is_public) and not is_bare:
                if child.kind in ("field", "variant", "fn", "const", "type") or (entry.kind, child.kind) == ("trait", "ghost"):
                    entry.members.setdefault(child.name, []).append(Entry(child, entry.module, entry))

    def all_read(self, crate):
        """Raises an error if a file of a crate is in no module."""
        for folder, _folders, names in sorted(os.walk(f"{self.root}/crates/{crate}/src")):
            for name in sorted(names):
                file = os.path.relpath(f"{folder}/{name}", self.root)
                if name.endswith(".rt") and file not in self.files:
                    raise SourceError(f"{file}: no module names this file")

    def public_modules(self):
        """The modules that other crates can name, those near the root first."""
        order = {crate: at for at, crate in enumerate(self.roots)}
        return sorted((it for it in self.modules if it.is_public), key=lambda it: (order[it.crate], len(it.path), it.path))
