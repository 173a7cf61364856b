"""What each page has, and the anchor of each item on it."""
from .links import path_of, reached
from .tree import Entry

# The sections of a page: their headings, and the kinds of the items below them.
SECTIONS = (
    ("Macros", ("macro",)),
    ("Structs", ("struct",)),
    ("Enums", ("enum",)),
    ("Traits", ("trait",)),
    ("Functions", ("fn",)),
    ("Type aliases", ("type",)),
    ("Constants", ("const", "static")),
)


class Places:
    """The items of each page in the order of the sources, with anchors that are unique on the page."""

    def __init__(self, tree, links):
        self.tree, self.links = tree, links
        self.on_page = {module: [] for module in tree.public_modules()}
        self.taken = {module: set() for module in self.on_page}
        for module in tree.modules:
            for entry in module.entries:
                if entry.home:
                    self.on_page[entry.home].append(entry)
        for entries in self.on_page.values():
            for entry in entries:
                entry.anchor = self.anchor(entry.home, entry.name, entry.kind)
        for entries in self.on_page.values():
            for entry in entries:
                self.place_members(entry)

    def anchor(self, module, name, kind):
        """An anchor that no other item of the page has: the name, or the kind and the name, or a number after that."""
        wanted = [name, f"{kind}.{name}", *(f"{kind}.{name}.{count}" for count in range(2, 100))]
        found = next(it for it in wanted if it not in self.taken[module])
        self.taken[module].add(found)
        return found

    def place_members(self, entry):
        """Anchors for what a type or a trait has, and for the impls that are shown with it."""
        for block in entry.impls:
            if shown_at(block) is entry and block.item.trait:
                block.home = entry.home
                block.anchor = self.anchor(entry.home, f"{entry.name}.impl.{path_of(block.item.trait)[-1]}", "impl")
        for found in entry.members.values():
            for member in found:
                block = getattr(member, "block", None)
                above = block.anchor if block and block.item.trait else entry.name
                member.anchor = self.anchor(entry.home, f"{above}.{member.name}", member.kind)

    def sections(self, module):
        """The headings of a page with their items."""
        for heading, kinds in SECTIONS:
            entries = [it for it in self.on_page[module] if it.kind in kinds]
            if entries:
                yield heading, entries

    def submodules(self, module):
        """The modules in a module that other crates can name."""
        return [it for it in module.modules.values() if it.is_public]

    def reexports(self, module):
        """What a page names by `pub use` that is at home on another one: the line, the target and the name."""
        for item, target, name in self.links.public_uses(module):
            if not (isinstance(target, Entry) and target.home is module):
                yield item, target, name

    def calls(self, module):
        """The macros that a module calls for items, and those that its private modules do."""
        own = [it for it in module.items if it.kind == "call"]
        return own + [call for it in module.modules.values() if not it.is_public for call in self.calls(it)]

    def counts(self):
        """How many public items there are of each kind, those of types and traits too."""
        found = {"mod": len(self.on_page), "method": 0, "variant": 0, "field": 0}
        for entry in self.all():
            kind = "method" if entry.owner and entry.kind == "fn" else entry.kind
            found[kind] = found.get(kind, 0) + 1
        return found

    def all(self):
        """All public items but modules."""
        for entries in self.on_page.values():
            for entry in entries:
                yield entry
                for members in entry.members.values():
                    yield from members

    def unreached(self, crate):
        """The items of a crate that are `pub` and that no other crate can name."""
        modules = [it for it in self.tree.modules if it.crate == crate]
        return [entry for it in modules for entry in it.entries if entry.item.is_public and not entry.home]


def shown_at(block):
    """The type or the trait that an impl is shown with, or None: one of a private trait or of a private type isn't shown."""
    if block.item.trait and isinstance(block.trait, Entry) and not reached(block.trait):
        return None
    if isinstance(block.type, Entry):
        return reached(block.type)
    return reached(block.trait)


def is_model(block):
    """Whether an impl says what clauses see of a type."""
    return path_of(block.item.trait)[-1:] == ["Model"]
