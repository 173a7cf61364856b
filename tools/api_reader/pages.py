"""The page of a module, as HTML."""
import html
import re

from .code import Scope, escape, kind_of, link
from .contracts import Contracts, clauses_of, ghosts_of
from .links import reached
from .places import is_model, shown_at


class Pages:
    """Writes the pages of a tree's modules."""

    def __init__(self, places, code, prose):
        self.places, self.links, self.code, self.prose = places, places.links, code, prose
        self.contracts = Contracts(code, prose)
        self.ghosts = {}

    def scope(self, entry, block=None):
        """The scope of an item, or of an impl's or a trait's part."""
        module = entry.module
        if module not in self.ghosts:
            self.ghosts[module] = ghosts_of(module.items)
        above = block.item if block else entry.owner.item if entry.owner else entry.item
        ghosts = {**self.ghosts[module], **ghosts_of(above.children)}
        owner = entry.owner or (entry if entry.kind in ("struct", "enum", "trait") else None)
        scope = Scope(module, owner, (), ghosts, self.near(module, entry.item.signature)).inside(entry.item)
        return scope.inside(above)

    def near(self, module, signature):
        """The types that a signature names."""
        paths = re.findall(r"(?:\w+::)*[A-Z]\w+", signature)
        found = [reached(self.links.resolve(module, path.split("::"))) for path in paths]
        return [it for it in found if it and it.kind == "enum"]

    def module(self, module):
        """What a module's page has in its main part."""
        scope = Scope(module)
        parts = [f'<h1><span class="kind">{kind_of(module)}</span> {crumbs(module)}</h1>']
        parts.append(f'<p class="file">{place(module.source.path)}</p>')
        parts.append(f'<div class="docs">{self.prose.whole(module.docs, scope, 2)}</div>' if module.docs else "")
        parts.append(self.overview(module))
        for heading, entries in self.places.sections(module):
            parts.append(f'<h2 id="{anchor_of(heading)}">{heading}</h2>')
            parts += [self.entry(it) for it in entries]
        parts.append(self.calls(module))
        parts.append(self.unreached(module) if not module.path else "")
        return "\n".join(it for it in parts if it)

    def overview(self, module):
        """The lists at the top of a page: submodules, what is named from elsewhere, and the page's own items."""
        parts = []
        modules = self.places.submodules(module)
        if modules:
            parts.append(self.rows("Modules", [(link(it, it.name), it.docs) for it in modules]))
        named = []
        for _item, target, name in self.places.reexports(module):
            seen = reached(target)
            shown = f"{link(seen, escape(name))} <small>{kind_of(seen)} of {above(seen)}</small>" if seen else escape(name)
            docs = (target.docs if target.kind == "mod" else target.item.docs) if target else ""
            named.append((shown, docs))
        if named:
            parts.append(self.rows("Re-exports", named))
        for heading, entries in self.places.sections(module):
            rows = [(link(it, escape(it.name) + ("!" if it.kind == "macro" else "")), it.item.docs) for it in entries]
            parts.append(self.rows(heading, rows))
        files = [] if module.path else self.code.definitions.of(module.crate)
        if files:
            parts.append(self.rows("Definitions", [(link(it, escape(it.name)), it.docs) for it in files]))
        return f'<section class="overview" aria-label="Overview">{"".join(parts)}</section>'

    def rows(self, heading, rows):
        """A list of names with the first sentences of their docs."""
        lines = "".join(f"<li><code>{name}</code> <span>{self.prose.sentence(docs)}</span></li>" for name, docs in rows)
        anchor = f' id="{anchor_of(heading)}"' if heading in ("Modules", "Re-exports", "Definitions") else ""
        return f"<h2{anchor}>{heading}</h2><ul class=\"rows\">{lines}</ul>"

    def calls(self, module):
        """The macros that a module, or a private one in it, calls for items. What they write isn't known here."""
        calls = self.places.calls(module)
        if not calls:
            return ""
        scope = Scope(module)
        rows = "".join(self.signature(it, scope) + self.docs(it, scope, 4) for it in calls)
        return f"<h2>Written by macros</h2><p>These calls write items that aren't listed here.</p>{rows}"

    def unreached(self, module):
        """The items of a crate that are public in their module alone."""
        entries = self.places.unreached(module.crate)
        if not entries:
            return ""
        rows = "".join(f"<li><code>{escape(it.full)}</code></li>" for it in entries)
        said = f"{len(entries)} more items are <code>pub</code>, and no other crate can name them"
        return f"<details><summary>{said}</summary><ul>{rows}</ul></details>"

    def entry(self, entry):
        """An item with all that it has."""
        scope = self.scope(entry)
        item = entry.item
        name = escape(entry.name) + ("!" if entry.kind == "macro" else "")
        where = f' <span class="file">{place(f"{item.source.path}:{item.source.line(item.at)}")}</span>'
        head = f'<h3><span class="kind">{kind_of(entry)}</span> <a href="#{entry.anchor}">{name}</a></h3>{where}'
        parts = [f'<section class="item" id="{entry.anchor}">', head, self.signature(item, scope), self.docs(item, scope, 4)]
        if entry.kind in ("struct", "enum"):
            parts.append(self.type_parts(entry, scope))
        elif entry.kind == "trait":
            parts.append(self.trait_parts(entry, scope))
        else:
            parts.append(self.contracts.folded(clauses_of(item), scope, 5))
        return "\n".join(it for it in [*parts, "</section>"] if it)

    def signature(self, item, scope):
        """The signature of an item, as the source has it, with the attributes that say something to users."""
        shown = [it for it in item.attributes if it.startswith("#[error")]
        if item.kind in ("struct", "enum") and any(it.name.isidentifier() for it in item.children if it.kind != "ghost"):
            hidden = sum(it.kind == "field" and not it.is_public for it in item.children)
            text = item.signature + (" { .. }" if hidden < len(item.children) else " { /* private fields */ }")
        else:
            text = private_gone(item)
        text = "\n".join([*shown, text])
        return f'<pre class="signature"><code>{self.code.block(text, scope)}</code></pre>'

    def docs(self, item, scope, level):
        """The docs of an item, if it has some."""
        return f'<div class="docs">{self.prose.whole(item.docs, scope, level)}</div>' if item.docs else ""

    def type_parts(self, entry, scope):
        """The contract, fields or variants, methods and impls of a type."""
        blocks = sorted((it for it in entry.impls if shown_at(it) is entry), key=lambda it: it.item.source is not entry.item.source)
        model = [clause for it in blocks if is_model(it) for clause in clauses_of(it.item)]
        parts = [self.contracts.folded(clauses_of(entry.item) + model, scope, 5)]
        for heading, kind in (("Fields", "field"), ("Variants", "variant")):
            own = [it for found in entry.members.values() for it in found if it.kind == kind]
            if own:
                inner = "".join(self.small(it, scope) for it in own)
                parts.append(f'<h4>{heading}</h4><ul class="members">{inner}</ul>')
        methods = "".join(self.methods(it, entry) for it in blocks if not it.item.trait)
        parts.append(f"<h4>Methods</h4>{methods}" if methods else "")
        parts.append(self.implements(entry, [it for it in blocks if it.item.trait and not is_model(it)]))
        return "\n".join(it for it in parts if it)

    def small(self, member, scope):
        """A field or a variant."""
        item = member.item
        notes = "".join(f'<div class="note"><code>{escape(it)}</code></div>' for it in item.attributes)
        text = re.sub(rf"^(pub )?{member.name}\b", "", item.signature) if member.name.isidentifier() else item.signature
        name = f'<a href="#{member.anchor}">{escape(member.name)}</a>' if member.name.isidentifier() else ""
        shown = f"{name}{self.code.inline(text, scope)}"
        return f'<li id="{member.anchor}"><code>{shown}</code>{notes}{self.docs(item, scope, 6)}</li>'

    def methods(self, block, entry):
        """The public methods and constants of an impl without a trait."""
        own = [it for found in entry.members.values() for it in found if getattr(it, "block", None) is block]
        if not own:
            return ""
        scope = self.scope(own[0], block)
        head = f'<pre class="impl"><code>{self.code.block(block.item.signature, scope)}</code></pre>'
        return f"{head}{self.docs(block.item, scope, 5)}" + "\n".join(self.method(it, self.scope(it, block)) for it in own)

    def method(self, member, scope, level=5):
        """A method, a constant or a type of a type or a trait."""
        item = member.item
        word = "provided " if member.owner.kind == "trait" and item.body else ""
        kind = word + ("associated type" if member.kind == "type" else kind_of(member))
        head = f'<h{level}><span class="kind">{kind}</span> <a href="#{member.anchor}">{escape(member.name)}</a></h{level}>'
        inner = self.signature(item, scope) + self.docs(item, scope, level + 1) + self.contracts.folded(clauses_of(item), scope, 6)
        return f'<div class="member" id="{member.anchor}">{head}{inner}</div>'

    def implements(self, entry, blocks):
        """The traits that a type has, derived and written."""
        derived = derives(entry.item)
        if not blocks and not derived:
            return ""
        row = f'<p class="derived">Derived: {", ".join(derived)}</p>' if derived else ""
        return "<h4>Implements</h4>" + row + "".join(self.block(it, entry) for it in blocks)

    def block(self, block, entry):
        """An impl of a trait, folded."""
        own = [it for found in entry.members.values() for it in found if getattr(it, "block", None) is block]
        scope = self.scope(block, block)
        scope.owner = entry if entry.kind != "trait" else None
        clauses = clauses_of(block.item)
        inner = self.docs(block.item, scope, 5) + self.contracts.folded(clauses, scope, 6)
        if own:
            inner += "".join(self.method(it, self.scope(it, block)) for it in own)
        else:
            inner += "".join(self.signature(it, scope) + self.docs(it, scope, 5) for it in block.item.children if it.kind in ("fn", "type", "const"))
        head = f'<summary><code>{self.code.inline(" ".join(block.item.signature.split()), scope)}</code></summary>'
        return f'<details class="impl" id="{block.anchor}">{head}{inner or "<p>It has nothing of its own.</p>"}</details>'

    def trait_parts(self, entry, scope):
        """The contract, the members and the implementors of a trait."""
        parts = [self.contracts.folded(clauses_of(entry.item, entry.members), scope, 5)]
        own = [it for found in entry.members.values() for it in found if it.kind != "ghost"]
        if own:
            parts.append("<h4>Members</h4>" + "\n".join(self.method(it, self.scope(it)) for it in own))
        there = [it for it in entry.impls if shown_at(it) and shown_at(it) is not entry]
        here = [it for it in entry.impls if shown_at(it) is entry]
        if there or here:
            parts.append("<h4>Implementors</h4>" + "".join(self.block(it, entry) for it in here))
            rows = "".join(f"<li><code>{link(it, escape(' '.join(it.item.signature.split())))}</code></li>" for it in there)
            parts.append(f'<ul class="implementors">{rows}</ul>' if there else "")
        return "\n".join(it for it in parts if it)


def derives(item):
    """The traits that attributes derive for a type, those with conditions too."""
    found = []
    for attribute in item.attributes:
        match = re.match(r"#\[derive(?:_where)?\(([^;]*)(?:;(.*))?\)\]$", " ".join(attribute.split()))
        if match:
            where = f" if {match[2].strip()} has it" if match[2] and "," not in match[2] else f" if {match[2].strip()} have it" if match[2] else ""
            found += [f"<code>{html.escape(it.strip())}</code>{html.escape(where)}" for it in match[1].split(",") if it.strip()]
    return found


def private_gone(item):
    """A signature in which private fields of a tuple are `_`."""
    text = item.signature
    if item.kind == "struct":
        for field in item.children:
            if not field.is_public:
                text = re.sub(rf"(?<=[(\s]){re.escape(field.signature)}(?=[,)])", "_", text, count=1)
    return text


def above(target):
    """The path of what an item or a module is in."""
    return escape(target.full.rpartition("::")[0] or target.full)


def place(path):
    """A path of a file, which a line may break after each slash."""
    return escape(path).replace("/", "/<wbr>")


def anchor_of(heading):
    """The anchor of a section."""
    return "section." + heading.replace(" ", "-").lower()


def crumbs(module):
    """A module's path, with a link on each module above it."""
    above, here = [], module
    while here:
        above.insert(0, escape(here.name) if here is module else link(here, escape(here.name)))
        here = here.parent
    return "::".join(above)
