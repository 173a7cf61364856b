"""Code as HTML: words in their colours, each name of a public item as a link to it, and each line in a span so that it can be wrapped."""
import html
import re

from .lexer import lexed
from .links import generic_names, path_of, reached

KEYWORDS = set(
    "as break const continue crate dyn else ensures enum extern false final fn for ghost if impl in let loop macro_rules match mod "
    "move mut pub ref requires return self Self static struct super trait true type unsafe use where while".split()
)
DECLARES = set("fn struct enum trait mod const static type macro_rules !".split())
COLOURS = {"text": "s", "comment": "c", "doc": "c", "inner": "c", "number": "n", "lifetime": "t"}


class Scope:
    """The place of a piece of code: its module, the type or trait around it, names that mean no item, and what its contracts import."""

    def __init__(self, module, owner=None, generics=(), ghosts=None, near=()):
        self.module, self.owner, self.generics = module, owner, set(generics)
        self.ghosts, self.near = ghosts or {}, near

    def inside(self, item):
        """The scope of what is in an item with generics."""
        return Scope(self.module, self.owner, self.generics | generic_names(item.generics), self.ghosts, self.near)


def escape(text):
    """A text as HTML."""
    return html.escape(text, quote=False)


def link(target, inner):
    """A link to an entry or a module."""
    return f'<a href="{html.escape(target.href)}" title="{html.escape(kind_of(target) + " " + target.full)}">{inner}</a>'


def kind_of(target):
    """What a target is, in a word."""
    words = {"mod": "module", "fn": "function", "const": "constant", "ghost": "ghost item"}
    if target.kind == "fn" and getattr(target, "owner", None):
        return "method"
    if target.kind == "mod" and not target.path:
        return "crate"
    return words.get(target.kind, target.kind)


class Code:
    """Writes code of a tree as HTML."""

    def __init__(self, links, definitions):
        self.links, self.definitions = links, definitions

    def block(self, text, scope, kind=""):
        """Some lines of code, each in a span of its own. The kind is clause or example, or nothing for a signature."""
        lines = "".join(self.pieces(text, scope, kind)).split("\n")
        return "".join(f'<span class="l"{indented(line)}>{line}\n</span>' for line in lines)

    def inline(self, text, scope):
        """Code within a sentence."""
        return "".join(self.pieces(text, scope, ""))

    def pieces(self, text, scope, kind):
        """The HTML of each token, and the blanks between them."""
        tokens = lexed(text)
        if tokens is None:
            yield escape(text)
            return
        at, end = 0, 0
        while at < len(tokens):
            yield text[end : tokens[at].start]
            count, piece = self.piece(tokens, at, scope, kind)
            yield piece
            at += count
            end = tokens[at - 1].end
        yield text[end:]

    def piece(self, tokens, at, scope, kind):
        """The HTML of the token here, or of the path that begins here, and how many tokens it is of."""
        token = tokens[at]
        if token.kind == "name" and (token.text not in KEYWORDS or follows(tokens, at) == "::"):
            before = tokens[at - 1].text if at else ""
            if before in DECLARES and not (before == "const" and token.text == "fn"):
                return 1, f'<b class="d">{escape(token.text)}</b>'
            return self.path(tokens, at, scope, kind)
        if token.kind == "name":
            return 1, f'<span class="k">{token.text}</span>'
        colour = COLOURS.get(token.kind)
        if not colour:
            return 1, escape(token.text)
        lines = [f'<span class="{colour}">{escape(line)}</span>' if line else "" for line in token.text.split("\n")]
        return 1, "\n".join(lines)

    def path(self, tokens, at, scope, kind):
        """A path, with a link on the longest front of it that is a public item."""
        names = path_of(tokens[at:])
        text = escape("::".join(names))
        # After `x.` comes a field; after `λ x. ` comes anything.
        is_field = at > 0 and tokens[at - 1].text == "." and tokens[at - 1].end == tokens[at].start
        if kind == "clause" and not is_field and names[0] in scope.ghosts:
            where = scope.ghosts[names[0]]
            declared = self.links.declared(where)
            place = self.definitions.target(where) or (declared.href if declared else None)
            title = html.escape("::".join([*where[0].split("."), where[1]]))
            start, end = (f'a href="{html.escape(place)}"', "a") if place else ("span", "span")
            return 1, f'<{start} class="g" title="{title}">{escape(names[0])}</{end}>'
        is_label = is_field or follows(tokens, at + 2 * len(names) - 2) == ":" or names[0] in scope.generics
        if is_label or (kind == "clause" and not re.match(r"[A-Z]\w", names[0])):
            return 2 * len(names) - 1, text
        for count in range(len(names), 0, -1):
            target = self.target(names[:count], scope, kind)
            if not target and kind == "example" and follows(tokens, at) == "!":
                target = next((it for it in self.links.by_name.get(names[0], []) if it.kind == "macro"), None)
            if target:
                return 2 * count - 1, link(target, escape("::".join(names[:count])))
        if names[0] in KEYWORDS:
            return 1, f'<span class="k">{names[0]}</span>'
        return 2 * len(names) - 1, text

    def target(self, names, scope, kind):
        """The public item that a path in code means, or None. A name in small letters alone is a value and not a module. An example may name what
        its module doesn't, if it is the only public item of that name."""
        if names[0] == "Self":
            if not scope.owner or len(names) == 1:
                return None
            return reached(scope.owner.members.get(names[1], [None])[0]) if len(names) == 2 else None
        found = reached(self.links.resolve(scope.module, names))
        if found and found.kind == "mod" and len(names) == 1:
            return None
        if not found and kind == "example" and names[0][0].isupper():
            return self.links.mention(Scope(scope.module), "::".join(names))
        return found


def indented(line):
    """An attribute with how far a line is indented, so that the rest of it is too if it is wrapped."""
    count = len(line) - len(line.lstrip(" "))
    return f' style="--in: {count}"' if count else ""


def follows(tokens, at):
    """The text of the token after one."""
    return tokens[at + 1].text if at + 1 < len(tokens) else ""
