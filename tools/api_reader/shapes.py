"""Structs and enums, with their fields and variants."""
from .cursor import Cursor
from .item import Item, doc_text, note_text


class Shapes(Cursor):
    """Reads structs and enums."""

    def read_struct(self, first):
        """Reads a struct, with its fields."""
        item = self.begun("struct", "struct", first)
        self.until("{", "(", ";")
        if self.peek() == "(":
            self.tuple_fields(item)
            self.until(";")
        item.signature = self.cut(first)
        if self.peek() == ";":
            item.signature += ";"
            self.at += 1
        else:
            self.members(item, self.field)
        return item

    def tuple_fields(self, item):
        """Reads the fields of a struct in brackets."""
        end = self.source.closers[self.at]
        self.at += 1
        while self.at < end:
            docs, _notes, attributes = self.above()
            first = self.at
            field = Item("field", str(len(item.children)), self.source, self.tokens[first].start)
            field.visibility = self.visibility()
            self.type_until(end)
            field.signature, field.docs, field.attributes = self.cut(first), doc_text(docs), attributes
            item.children.append(field)
            self.at += self.peek() == ","
        self.expect(")")

    def type_until(self, end):
        """Steps over a type up to a comma outside of brackets, or to the closing bracket at `end`."""
        depth = 0
        while self.at < end and not (self.peek() == "," and depth == 0):
            depth += (self.peek() == "<") - (self.peek() == ">")
            self.at = self.source.closers.get(self.at, self.at) + 1

    def members(self, item, read):
        """Reads what is in the braces of a struct or an enum, between commas."""
        end = self.source.closers[self.at]
        self.expect("{")
        while True:
            docs, notes, attributes = self.above()
            if self.at >= end:
                break
            member = read(end)
            member.docs, member.note, member.attributes = doc_text(docs), note_text(notes), attributes
            item.children.append(member)
            self.at += self.peek() == ","
        self.expect("}")

    def field(self, end):
        """Reads a field with a name, or a ghost one."""
        first = self.at
        visibility = self.visibility()
        kind = "ghost" if self.peek() == "ghost" else "field"
        self.at += kind == "ghost"
        item = Item(kind, self.name(), self.source, self.tokens[first].start)
        item.visibility = visibility
        self.expect(":")
        self.type_until(end)
        item.signature = self.cut(first)
        return item

    def variant(self, end):
        """Reads a variant of an enum, with the fields that it holds."""
        first = self.at
        item = Item("variant", self.name(), self.source, self.tokens[first].start)
        item.visibility = "pub"
        self.type_until(end)
        item.signature = self.cut(first)
        return item

    def read_enum(self, first):
        """Reads an enum, with its variants."""
        item = self.begun("enum", "enum", first)
        self.until("{")
        item.signature = self.cut(first)
        self.members(item, self.variant)
        return item
