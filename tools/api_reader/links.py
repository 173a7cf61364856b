"""Which item a name means: by the `use` lines of its module, and else by its being the only public item of that name."""
import re

from .tree import Entry, Module

# A path of Rust, with an argument list or a `!` after it.
PATH = re.compile(r"^(?:&(?:mut )?)?((?:[A-Za-z_]\w*::)*[A-Za-z_]\w*)(?:!|\(.*\)|<.*>)?$")


def path_of(tokens):
    """The names of the path that some tokens of a type begin with: of `&'a fmt::Formatter<W>` those are fmt and Formatter."""
    at = 0
    while at < len(tokens) and (tokens[at].text in ("&", "mut") or tokens[at].kind == "lifetime"):
        at += 1
    names = []
    while at < len(tokens) and tokens[at].kind == "name":
        names.append(tokens[at].text)
        if at + 1 >= len(tokens) or tokens[at + 1].text != "::":
            break
        at += 2
    return names


def generic_names(tokens):
    """The names that generics declare: of `<'a, A: Allocator, const N: usize>` those are A and N."""
    names, depth, is_first = set(), 0, True
    for token in tokens:
        if is_first and token.kind == "name" and token.text != "const":
            names.add(token.text)
            is_first = False
        depth += (token.kind == "open" or token.text == "<") - (token.kind == "close" or token.text == ">")
        is_first = is_first and token.kind != "lifetime" or (token.text == "," and depth == 0)
    return names


class Links:
    """Resolves names in a tree, and gives each public item its home and its impls."""

    def __init__(self, tree):
        self.tree, self.by_name, self.blanket = tree, {}, []
        self.settle_homes()
        for module in tree.modules:
            for item in module.items:
                if item.kind == "impl":
                    self.settle_impl(module, item)
        self.enter_names()

    def settle_homes(self):
        """Gives each item that other crates can name its home."""
        public = self.tree.public_modules()
        for module in public:
            for entry in module.entries:
                if entry.item.is_public and entry.kind != "macro":
                    entry.home = module
        for module in self.tree.modules:
            for entry in module.entries:
                if entry.kind == "macro" and "#[macro_export]" in entry.item.attributes:
                    entry.home = self.tree.roots[module.crate]
        for module in public:
            for _item, target, _name in self.public_uses(module):
                if isinstance(target, Entry) and not target.owner and target.home is None and target.module.crate == module.crate:
                    target.home = module

    def public_uses(self, module):
        """What a module names by `pub use`, with the line and the name; None for what is of no crate here."""
        for name, found in module.uses.items():
            for item, path in found:
                if item.is_public:
                    yield item, self.resolve(module, path), name

    def named(self, module, name, seen):
        """What a name means in a module, or None."""
        if name in module.names:
            return module.names[name][0]
        if name in module.modules:
            return module.modules[name]
        for _item, path in module.uses.get(name, []):
            if (module, name) not in seen:
                return self.resolve(module, path, seen | {(module, name)})
        for _item, path in module.globs:
            # A glob's own path is looked up without that glob: if its crate isn't here, the first name of it would be looked for in it for ever.
            glob = (module, tuple(path))
            if glob in seen:
                continue
            target = self.resolve(module, path, seen | {glob})
            if isinstance(target, Module) and target is not module and (target, name) not in seen:
                found = self.named(target, name, seen | {(target, name)})
                if found:
                    return found
        return None

    def resolve(self, module, path, seen=frozenset()):
        """What a path means in a module: a module or an entry, or None if it is of no crate here."""
        first, rest = path[0], path[1:]
        if first == "crate":
            here = self.tree.roots[module.crate]
        elif first == "self":
            here = module
        elif first == "super":
            here = module.parent
        else:
            here = self.named(module, first, seen) or self.tree.roots.get(first)
        for name in rest:
            if isinstance(here, Module):
                here = here.parent if name == "super" else self.named(here, name, seen)
            elif isinstance(here, Entry):
                here = here.members.get(name, [None])[0]
            else:
                return None
        return here

    def settle_impl(self, module, item):
        """Enters an impl at its type, or at its trait if the type is of no crate here, or at a type that it speaks of."""
        generics = generic_names(item.generics)
        own = path_of(item.type)
        owner = None if own and own[0] in generics else self.resolve(module, own) if own else None
        trait = self.resolve(module, path_of(item.trait)) if item.trait else None
        if not isinstance(owner, Entry) and not isinstance(trait, Entry):
            paths = [[it.text] for it in [*item.trait, *item.type] if it.kind == "name" and it.text not in generics]
            owner = next((it for it in (self.resolve(module, path) for path in paths) if isinstance(it, Entry)), None)
        block = Entry(item, module)
        block.trait, block.type = trait, owner
        for place in (owner, trait):
            if isinstance(place, Entry):
                place.impls.append(block)
        if isinstance(owner, Entry):
            for child in item.children:
                is_named = child.is_public or (item.trait and child.kind == "fn")
                if child.kind in ("fn", "const", "type") and is_named:
                    entry = Entry(child, module, owner)
                    entry.block = block
                    # A method of its own comes before one of a trait.
                    owner.members.setdefault(child.name, []).insert(0 if not item.trait else len(owner.members[child.name]), entry)

    def enter_names(self):
        """Enters all public items by their last name, for mentions that no module's `use` line settles."""
        for module in self.tree.public_modules():
            self.by_name.setdefault(module.name, []).append(module)
        for module in self.tree.modules:
            for entry in module.entries:
                if entry.home:
                    self.by_name.setdefault(entry.name, []).append(entry)
                    for found in entry.members.values():
                        self.by_name.setdefault(found[0].name, []).append(found[0])

    def mention(self, scope, text):
        """What a span of prose names, or None: a variant of a type in the signature, what its module or its type knows by that path, what its
        crate's root knows, or the only public item that has it."""
        match = PATH.match(text)
        if not match:
            return None
        path, is_macro = match[1].split("::"), text[match.end(1) :].startswith("!")
        if path[0] == "Self" and scope.owner:
            path[:1] = [scope.owner.name]
        if is_macro:
            return next((it for it in self.by_name.get(path[-1], []) if it.kind == "macro"), None)
        own = scope.owner.members.get(path[0], [None])[0] if scope.owner and len(path) == 1 else None
        near = [it for entry in scope.near for it in entry.members.get(path[0], []) if it.kind == "variant" and len(path) == 1]
        for found in (*near, self.resolve(scope.module, path), own, self.resolve(self.tree.roots[scope.module.crate], path)):
            # A word alone is no module, but it may be a crate.
            is_module = isinstance(found, Module) and len(path) == 1 and found.path
            if reached(found) and not is_module:
                return found
        return self.only(scope.module, path)

    def declared(self, where):
        """The public type, or its variant, that a contract imports by the path of its declaration, or None."""
        crate, *path = where[0].split(".")
        if path[:2] != ["specs", "declared"] or crate not in self.tree.roots:
            return None
        here = self.tree.roots[crate]
        names = [it for it in path[2:] if it != "TheVariants"]
        for name in names[:-1]:
            here = here.modules.get(name) if here else None
        entry = here.names.get(names[-1], [None])[0] if here else None
        found = entry.members.get(where[1], [None])[0] if entry and path[-1] == "TheVariants" else entry
        return reached(found)

    def only(self, module, path):
        """The only public item whose path ends so, or None. A word alone is no field and no variant, and an item of a module rather than a
        method; in small letters, which may be any word, it is looked for in the modules above and below alone."""
        ends = "::" + "::".join(path)
        fitting = [it for it in self.by_name.get(path[-1], []) if f"::{it.full}".endswith(ends) and it.kind != "macro"]
        if len(path) == 1:
            fitting = [it for it in fitting if isinstance(it, Entry) and it.kind not in ("field", "variant", "ghost")]
            if path[0].islower():
                fitting = [it for it in fitting if is_above(it.home, module) or is_above(module, it.home)]
            fitting = [it for it in fitting if not it.owner] or fitting
        return fitting[0] if len(fitting) == 1 else None


def is_above(module, other):
    """Whether a module is another one, or has it in itself."""
    return module.crate == other.crate and other.path[: len(module.path)] == module.path


def reached(target):
    """A target if it has a page, else None."""
    if isinstance(target, Module):
        return target if target.is_public else None
    return target if isinstance(target, Entry) and target.home else None
