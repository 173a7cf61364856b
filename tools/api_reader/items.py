"""Items of a Rattle source: a small recursive reader over its tokens.

It reads modules, functions, types, traits, impls, constants, macros and `use` lines, with what is in them, and skips bodies. What it doesn't
know is an error, so that nothing is left out unsaid.
"""
from .item import Clause, Item, doc_text, note_text
from .shapes import Shapes

CLAUSES = ("ensures", "requires")
# Words that may come before `fn`.
BEFORE_FN = ("final", "const", "unsafe", "extern")


class Reader(Shapes):
    """Reads the items of one file."""

    def all(self, end, within):
        """The items up to a closing bracket, or to the file's end. `within` is what they are in."""
        found = []
        while self.at < end:
            first_token = self.tokens[self.at]
            docs, notes, attributes = self.above()
            if self.at >= end:
                if docs or attributes:
                    self.source.fail(first_token.start, "docs or attributes of nothing")
                break
            item = self.item(within)
            item.docs, item.note, item.attributes = doc_text(docs), note_text(notes), attributes
            found.append(item)
        return found

    def item(self, within):
        """The item that begins here."""
        first = self.at
        visibility = self.visibility()
        kind = self.kind()
        if kind is None:
            self.fail(f"no item that this reader knows begins with {self.peek() or 'the end'}, within a {within}")
        item = getattr(self, f"read_{kind}")(first)
        item.visibility = visibility
        return item

    def kind(self):
        """The kind of the item that begins here, or None."""
        word = self.peek()
        ahead = 0
        while self.peek(ahead) in BEFORE_FN or self.peek(ahead).startswith('"'):
            ahead += 1
        if self.peek(ahead) == "fn":
            return "fn"
        if word in ("use", "mod", "struct", "enum", "trait", "impl", "const", "static", "type", "ghost"):
            return word
        if word == "macro_rules" and self.peek(1) == "!":
            return "macro"
        return "call" if self.tokens[self.at].kind == "name" and self.peek(1) == "!" else None

    def begun(self, kind, word, first):
        """An item of a kind whose word and name are here."""
        self.expect(word)
        item = Item(kind, self.name(), self.source, self.tokens[first].start)
        item.generics = self.angles()
        return item

    def clauses(self, item):
        """Reads the clauses of a function up to its body or its end."""
        notes = []
        while self.peek() not in ("{", ";"):
            token = self.tokens[self.at] if self.at < len(self.tokens) else self.fail("a function without a body")
            if token.kind == "comment":
                notes.append(token)
                self.at += 1
                continue
            if token.text not in CLAUSES:
                self.fail(f"no clause begins with {token.text}")
            first = self.at
            self.until("{")
            self.skip()
            item.clauses.append(Clause(self.cut(first), note_text(notes)))
            notes = []

    def read_fn(self, first):
        """Reads a function, with its clauses."""
        while self.peek() != "fn":
            self.at += 1
        item = self.begun("fn", "fn", first)
        self.until("{", ";", *CLAUSES)
        last = self.at
        # Comments above the first clause are of it.
        while self.tokens[last - 1].kind == "comment":
            last -= 1
        item.signature = self.cut(first, last).rstrip()
        self.at = last
        self.clauses(item)
        if self.peek() == "{":
            item.body = self.skip()
        else:
            self.expect(";")
        return item

    def read_use(self, first):
        """Reads a use line."""
        self.expect("use")
        item = Item("use", "", self.source, self.tokens[first].start)
        item.paths = list(self.use_tree([]))
        self.expect(";")
        item.signature = self.cut(first)
        return item

    def use_tree(self, above):
        """The paths of a use, each with the name that it gets here; `*` names all."""
        path = list(above)
        while True:
            if self.peek() == "{":
                end = self.source.closers[self.at]
                self.at += 1
                while self.at < end:
                    yield from self.use_tree(path)
                    if self.at < end:
                        self.expect(",")
                self.at = end + 1
                return
            path.append("*" if self.peek() == "*" else self.name_or_colons())
            if path[-1] == "*":
                self.at += 1
            if self.peek() != "::":
                break
            self.at += 1
        if path[-1] == "self":
            path.pop()
        alias = path[-1]
        if self.peek() == "as":
            self.at += 1
            alias = self.name()
        yield path, alias

    def name_or_colons(self):
        """A name of a path, which may begin with `::`."""
        if self.peek() == "::":
            self.at += 1
        return self.name()

    def read_mod(self, first):
        """Reads a module."""
        item = self.begun("mod", "mod", first)
        item.has_file = self.peek() == ";"
        if item.has_file:
            self.at += 1
        else:
            item.children = self.inside("mod")
        return item

    def inside(self, within):
        """The items in the braces that are here."""
        end = self.source.closers.get(self.at)
        self.expect("{")
        found = self.all(end, within)
        self.expect("}")
        return found

    def read_trait(self, first):
        """Reads a trait."""
        item = self.begun("trait", "trait", first)
        self.until("{")
        item.signature = self.cut(first)
        item.children = self.inside("trait")
        return item

    def read_impl(self, first):
        """Reads an impl."""
        self.expect("impl")
        item = Item("impl", "", self.source, self.tokens[first].start)
        item.generics = self.angles()
        head = self.until("{")
        item.signature = self.cut(first)
        words = [token.text for token in head]
        head = head[: words.index("where")] if "where" in words else head
        at = words.index("for") if "for" in words else None
        item.trait, item.type = (head[:at], head[at + 1 :]) if at is not None else ([], head)
        item.children = self.inside("impl")
        return item

    def read_const(self, first):
        """Reads a constant."""
        return self.to_semicolon("const", first)

    def read_static(self, first):
        """Reads a static."""
        return self.to_semicolon("static", first)

    def read_type(self, first):
        """Reads a type alias."""
        return self.to_semicolon("type", first)

    def to_semicolon(self, kind, first):
        """An item that ends with a semicolon."""
        item = self.begun(kind, kind, first)
        self.until(";")
        self.at += 1
        item.signature = self.cut(first)
        return item

    def read_ghost(self, first):
        """Reads a ghost item, or what contracts import."""
        self.expect("ghost")
        kind = "ghost use" if self.peek() == "use" else "ghost"
        item = Item(kind, self.peek(), self.source, self.tokens[first].start)
        self.until(";")
        item.signature = self.cut(first)
        self.at += 1
        return item

    def read_macro(self, first):
        """Reads a macro, with what it takes but not what it writes."""
        self.expect("macro_rules")
        self.expect("!")
        item = Item("macro", self.name(), self.source, self.tokens[first].start)
        end, first = self.source.closers[self.at], self.at
        item.body = self.skip()
        self.at = first + 1
        arms = []
        while self.at < end:
            arm = self.at
            self.skip()
            arms.append(self.cut(arm))
            self.expect("=>")
            self.skip()
            self.at += self.peek() == ";"
        self.at = end + 1
        item.signature = "\n".join(["macro_rules! " + item.name + " {", *(f"    {arm} => {{ .. }};" for arm in arms), "}"])
        return item

    def read_call(self, first):
        """A macro that writes items. What it writes isn't known here."""
        item = Item("call", self.name(), self.source, self.tokens[first].start)
        self.expect("!")
        item.body = self.skip()
        self.at += self.peek() == ";"
        item.signature = self.cut(first)
        return item


def read_file(source):
    """The docs of a file and its items."""
    reader = Reader(source)
    inner = []
    while reader.at < len(source.tokens) and source.tokens[reader.at].kind == "inner":
        inner.append(source.tokens[reader.at])
        reader.at += 1
    return doc_text(inner), reader.all(len(source.tokens), "file")
