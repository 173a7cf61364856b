"""Checks of what was read and of what was written."""
import html.parser
import json
import os
import re

# Elements that have no end.
VOID = set("meta link input br hr img wbr col".split())
VISIBLE = ("fn", "struct", "enum", "trait", "mod", "const", "static", "type", "use", "any fn")


def counted_tokens(source, bodies):
    """How often `pub` is before each kind of item in a source, and `fn` before a name, by its tokens alone; those in bodies don't count."""
    found = dict.fromkeys(VISIBLE, 0)
    tokens = [it for it in source.tokens if it.kind not in ("comment", "doc", "inner")]
    tokens = [it for it in tokens if not any(first <= it.start < last for first, last in bodies)]
    for at, token in enumerate(tokens[:-1]):
        after = [it.text for it in tokens[at + 1 : at + 6]]
        if token.text == "pub":
            while len(after) > 1 and after[0] in ("final", "const", "unsafe") and after[1] in ("fn", "unsafe", "const"):
                after.pop(0)
            if after[0] in found:
                found[after[0]] += 1
        elif token.text == "fn" and tokens[at + 1].kind == "name":
            found["any fn"] += 1
    return found


def counted_items(items, found, bodies):
    """How many items of each kind were read as `pub`, and how many functions. Enters the places of their bodies."""
    for item in items:
        if item.is_public and item.kind in found:
            found[item.kind] += 1
        found["any fn"] += item.kind == "fn"
        bodies += [item.body] if item.body else []
        counted_items(item.children, found, bodies)
    return found


def reading_faults(tree):
    """A sentence for each kind of item of which a file has more than were read, or fewer."""
    faults = []
    for path, source in tree.files.items():
        items, bodies = next(it.items for it in tree.modules if it.source is source), []
        read = counted_items(items, dict.fromkeys(VISIBLE, 0), bodies)
        there = counted_tokens(source, bodies)
        for kind in VISIBLE:
            if there[kind] != read[kind]:
                words = kind if kind == "any fn" else f"pub {kind}"
                faults.append(f"{path}: it has {there[kind]} times `{words}`, and {read[kind]} were read")
    return faults


class Parsed(html.parser.HTMLParser):
    """A page's anchors and links, and whether its elements end as they begin."""

    def __init__(self):
        super().__init__()
        self.open, self.anchors, self.links, self.faults = [], set(), [], []

    def handle_starttag(self, tag, attrs):
        """Notes what begins."""
        for name, value in attrs:
            if name == "id":
                self.faults += [f"the anchor {value} stands there twice"] if value in self.anchors else []
                self.anchors.add(value)
            elif name in ("href", "src"):
                self.links.append(value)
        if tag not in VOID:
            self.open.append(tag)
        if tag == "a" and self.open.count("a") > 1:
            self.faults.append(f"line {self.getpos()[0]} has a link within a link")

    def handle_endtag(self, tag):
        """Notes what ends."""
        if not self.open or self.open.pop() != tag:
            self.faults.append(f"line {self.getpos()[0]} ends a {tag} that isn't open")
            self.open = []


def parsed(folder):
    """All pages of a folder, by their names, and the places that the search leads to."""
    pages = {}
    for name in sorted(os.listdir(folder)):
        if name.endswith(".html"):
            pages[name] = Parsed()
            with open(f"{folder}/{name}", encoding="utf-8") as file:
                pages[name].feed(file.read())
            pages[name].close()
            pages[name].faults += [f"a {tag} is never ended" for tag in pages[name].open]
    with open(f"{folder}/names.js", encoding="utf-8") as file:
        pages["names.js"] = Parsed()
        pages["names.js"].links = [row[-1] for row in json.loads(file.read().removeprefix("const NAMES = ").removesuffix(";\n"))]
    return pages


def page_faults(folder, site):
    """A sentence for each page that isn't sound, each link that leads nowhere, and each public item without its place."""
    pages = parsed(folder)
    faults = [f"{name}: {sentence}" for name, page in pages.items() for sentence in page.faults]
    for name, page in pages.items():
        for target in page.links:
            file, _, anchor = target.partition("#")
            if re.match(r"[a-z]+:", target):
                continue
            if file and not os.path.exists(f"{folder}/{file}"):
                faults.append(f"{name}: the link {target} leads to no file")
            elif anchor and (file or name) in pages and anchor not in pages[file or name].anchors:
                faults.append(f"{name}: the link {target} leads to no place")
    for module in site.places.on_page:
        if module.page not in pages:
            faults.append(f"the module {module.full} has no page")
    for entry in site.places.all():
        if entry.home.page in pages and entry.anchor not in pages[entry.home.page].anchors:
            faults.append(f"{entry.full} has no place on {entry.home.page}")
    return faults
