"""The whole site: the index, the page of each module, and the names that the search looks through."""
import html
import json
import os
import shutil

from .code import Code, kind_of, link
from .definitions import Definitions
from .links import Links
from .pages import Pages, anchor_of
from .places import Places
from .prose import Prose, first_sentence, plain
from .tree import Tree

HERE = os.path.dirname(os.path.abspath(__file__))
# Files that are copied as they are.
FILES = ("api.css", "search.js")
ABOUT = (
    "The public items of the libraries: signatures, what they do, their contracts, and the definitions that contracts cite. "
    "Of a trait that an attribute derives, the name alone is told."
)
PAGE = """<!DOCTYPE html>
<html lang="en">
<head>
<meta charset="utf-8">
<meta name="viewport" content="width=device-width, initial-scale=1">
<meta name="color-scheme" content="light dark">
<title>{title}</title>
<link rel="stylesheet" href="api.css">
</head>
<body>
<a class="skip" href="#main">Skip to the content</a>
<header>
<a class="home" href="index.html">Gelvanh API</a>
<form role="search" action="index.html">
<label for="q">Search</label>
<input id="q" name="q" type="search" placeholder="Name, path or word" autocomplete="off" spellcheck="false">
<kbd title="This key goes to the search">/</kbd>
</form>
</header>
<section id="results" aria-label="Results" hidden></section>
<div class="columns">
{side}
<main id="main">
{main}
</main>
</div>
<script src="names.js"></script>
<script src="search.js"></script>
</body>
</html>
"""


class Site:
    """The pages of some crates of a repository, the lowest first. The index lists them in another order."""

    def __init__(self, root, crates, listed):
        self.tree, self.listed = Tree(root, crates), listed
        self.links = Links(self.tree)
        self.places = Places(self.tree, self.links)
        self.definitions = Definitions(root, crates, self.links)
        self.code = Code(self.links, self.definitions)
        self.prose = Prose(self.code)
        self.pages = Pages(self.places, self.code, self.prose)

    def write(self, folder):
        """Writes all files into a folder, and takes its pages away that it no longer has. Returns the names of the files."""
        os.makedirs(folder, exist_ok=True)
        files = {"index.html": self.index(), "names.js": self.names()}
        for module in self.places.on_page:
            files[module.page] = PAGE.format(title=html.escape(module.full), side=self.side(module), main=self.pages.module(module))
        for file in self.definitions.files.values():
            files[file.page] = PAGE.format(title=html.escape(file.full), side=self.definitions_side(file), main=self.definitions.main(file))
        for name in os.listdir(folder):
            if name.endswith(".html") and name not in files and is_own(f"{folder}/{name}"):
                os.remove(f"{folder}/{name}")
        for name, text in files.items():
            with open(f"{folder}/{name}", "w", encoding="utf-8") as file:
                file.write(text)
        for name in FILES:
            shutil.copyfile(f"{HERE}/{name}", f"{folder}/{name}")
        return [*files, *FILES]

    def side(self, module):
        """The list beside a page: its crate's modules, and its own items."""
        modules = sorted((it for it in self.places.on_page if it.crate == module.crate), key=lambda it: it.path)
        rows = "".join(f"<li>{self.side_row(it, it is module)}</li>" for it in modules)
        parts = [f'<h2>Crate</h2><ul>{rows}</ul>']
        for heading, entries in self.places.sections(module):
            rows = "".join(f'<li><a href="#{it.anchor}">{html.escape(it.name)}</a></li>' for it in entries)
            parts.append(f'<h2><a href="#{anchor_of(heading)}">{heading}</a></h2><ul>{rows}</ul>')
        return f'<nav aria-label="Modules and items">{"".join(parts)}</nav>'

    def definitions_side(self, file):
        """The list beside a page of definitions: its crate, and that crate's files."""
        rows = "".join(f"<li>{self.side_row(it, it is file)}</li>" for it in self.definitions.of(file.crate))
        root = self.tree.roots[file.crate]
        return f'<nav aria-label="Definitions"><h2>Crate</h2><ul><li>{self.side_row(root, False)}</li></ul><h2>Definitions</h2><ul>{rows}</ul></nav>'

    def side_row(self, module, is_here):
        """A row of a list beside a page."""
        name = html.escape(module.name if module.kind == "definitions" else "::".join(module.path) or module.crate)
        return f'<a href="{module.page}" aria-current="page">{name}</a>' if is_here else f'<a href="{module.page}">{name}</a>'

    def index(self):
        """The page of all crates."""
        parts = ["<h1>Gelvanh API</h1>", f"<p>{ABOUT}</p>"]
        for crate in self.listed:
            module = self.tree.roots[crate]
            own = [it for it in self.places.on_page if it.crate == crate]
            count = sum(len(self.places.on_page[it]) for it in own)
            sentence = self.prose.sentence(module.docs)
            inner = " ".join(link(it, f"<code>{html.escape('::'.join(it.path))}</code>") for it in sorted(own, key=lambda it: it.path) if it.path)
            below = f'<p class="modules">{inner}</p>' if inner else ""
            head = f'<h2>{link(module, crate)} <small>{count} item{"s" if count != 1 else ""}</small></h2>'
            parts.append(f'<section class="crate" id="{crate}">{head}<p>{sentence}</p>{below}</section>')
        side = "".join(f'<li><a href="{self.tree.roots[it].page}">{it}</a></li>' for it in self.listed)
        side = f'<nav aria-label="Crates"><h2>Crates</h2><ul>{side}</ul></nav>'
        return PAGE.format(title="Gelvanh API", side=side, main="\n".join(parts))

    def names(self):
        """A script with all names: of each its name, its path, its kind, its first sentence and its place."""
        rows = [[it.name, it.full, kind_of(it), plain(first_sentence(it.docs)), it.href] for it in self.places.on_page]
        for entry in self.places.all():
            rows.append([entry.name, entry.full, kind_of(entry), plain(first_sentence(entry.item.docs)), entry.href])
        for file in self.definitions.files.values():
            for name, at in file.names.items():
                sentence = first_sentence(file.above(at).replace("`", ""))
                rows.append([name, f"{file.full}::{name}", "definition", sentence, f"{file.page}#{name}"])
        lines = ",\n".join(json.dumps(row, ensure_ascii=False) for row in rows)
        return f"const NAMES = [\n{lines}\n];\n"


def is_own(path):
    """Whether a file is a page that this writes, so that it may be taken away."""
    with open(path, encoding="utf-8", errors="replace") as file:
        return '<link rel="stylesheet" href="api.css">' in file.read(1000)
