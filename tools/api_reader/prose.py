"""Doc comments as HTML: Markdown, with links on the names of public items in backticks."""
import re

from .code import escape, link
from .lexer import SourceError
from .links import reached
from .markdown import blocks, pieces

GROUP = re.compile(r"^((?:\w+::)+)\{([\w\s,]+)\}$")


class Prose:
    """Writes doc comments of a tree as HTML."""

    def __init__(self, code):
        self.code, self.links = code, code.links

    def whole(self, text, scope, level):
        """All of a doc comment. Its headings begin at this level."""
        try:
            found = blocks(text)
        except SourceError as error:
            raise SourceError(f"{scope.module.source.path}: {error}") from error
        return "".join(self.block(*it, scope, level) for it in found)

    def block(self, kind, extra, text, scope, level):
        """A block of a doc comment."""
        if kind == "code":
            return self.example(text, scope)
        if kind == "table":
            return self.table(extra, scope)
        tag = f"h{min(6, extra + level - 1)}" if kind == "heading" else "p"
        return f"<{tag}>{self.inline(text, scope)}</{tag}>\n"

    def table(self, rows, scope):
        """A table. A name in the first column below the head `Definitions` is a file's, and not an item's."""
        is_definitions = rows[0][0] == "Definitions"
        parts = []
        for at, row in enumerate(rows):
            cells = [self.definition(it, scope) if at and is_definitions and not column else self.inline(it, scope) for column, it in enumerate(row)]
            tag = "td" if at else "th"
            parts.append("<tr>" + "".join(f"<{tag}>{it}</{tag}>" for it in cells) + "</tr>\n")
        body = f"<tbody>\n{''.join(parts[1:])}</tbody>\n" if parts[1:] else ""
        return f'<div class="wide"><table>\n<thead>\n{parts[0]}</thead>\n{body}</table></div>\n'

    def inline(self, text, scope):
        """A text with its code in backticks, which has links."""
        return "".join(self.span(it, scope) if is_code else escape(it) for is_code, it in pieces(text))

    def sentence(self, text):
        """The first sentence of a doc comment, without links in it."""
        return "".join(f"<code>{escape(it)}</code>" if is_code else escape(it) for is_code, it in pieces(first_sentence(text)))

    def definition(self, text, scope):
        """A cell that names a file of definitions, with a link to it."""
        parts = []
        for is_code, it in pieces(text):
            file = self.code.definitions.files.get(f"{scope.module.crate}.specs.{it}") if is_code else None
            inner = link(file, escape(it)) if file else escape(it)
            parts.append(f"<code>{inner}</code>" if is_code else inner)
        return "".join(parts)

    def example(self, text, scope):
        """A block of code."""
        return f'<pre class="example"><code>{self.code.block(text.rstrip(), scope, "example")}</code></pre>\n'

    def span(self, text, scope):
        """Code within a sentence."""
        file = self.code.definitions.files.get(f"{scope.module.crate}.{text.removesuffix('.antt').replace('/', '.')}")
        if file and text.endswith(".antt"):
            return f"<code>{link(file, escape(text))}</code>"
        group = GROUP.match(text)
        if group:
            names = [it.strip() for it in group[2].split(",")]
            inner = ", ".join(self.named(scope, group[1] + it, it) for it in names)
            prefix = group[1].removesuffix("::")
            above = self.links.mention(scope, prefix) or reached(self.links.resolve(scope.module, prefix.split("::")))
            return f"<code>{link(above, broken(prefix)) if above else broken(prefix)}::<wbr>{{{inner}}}</code>"
        target = self.links.mention(scope, text)
        if target:
            return f"<code>{link(target, broken(text))}</code>"
        return f"<code>{self.code.inline(text, scope)}</code>"

    def named(self, scope, path, text):
        """A text that is a link if the path is a public item."""
        target = self.links.mention(scope, path)
        return link(target, broken(text)) if target else broken(text)


def broken(text):
    """A path, which a line may break after each pair of colons."""
    return escape(text).replace("::", "::<wbr>")


def first_sentence(text):
    """The first sentence of Markdown, or its first paragraph if that ends without one."""
    paragraph = " ".join(text.split("\n\n")[0].split())
    match = re.match(r"((?:`[^`]*`|[^`.]|\.(?!\s|$))*\.)(?=\s|$)", paragraph)
    return match[1] if match else paragraph.removesuffix(":")


def plain(text):
    """Markdown of a sentence as plain text."""
    return text.replace("`", "")
