"""Which wrong bodies a landing tries.

`rt ci` proves every crate as it is. Whether a wrong body is refused mostly changes with its own text, with the text, the contract or the
proof of the function that it turns, or with a definition that these name. So a landing tries those that this touches since the landing before,
and of the others a share, another one each time. What else may change an answer, as the contract of a function that is called, or another
kit, is seen by the shares alone. The file strength/landed names the commit of the landing before: each landing writes it.
"""
import collections
import dataclasses
import functools
import graphlib
import hashlib
import os
import re
import subprocess

import places

# A definition of a file of specs or proofs: its name comes first in its line.
DEFINED = re.compile(r"^(?:(?:pub|abbrev|unfoldable|opaque|data|record|ghost)\s+)*([^\s:(){},]+)\s*(?:\{[^}]*\}\s*)*:(?=\s)", re.M)
# An item of a source that isn't a function, by the name of its type or of its value.
ITEM = re.compile(r"^(?:pub(?:\([^)]*\))? )?(?:unsafe )?(?:struct|enum|trait|type|const|impl(?:<[^{]*?>)?(?: [^{]*? for)?) &?(?:mut )?(\w+)", re.M)
WORD = re.compile(r"[^\s(){}\[\]<>,.;:&⟦⟧]+")
LANDED = "strength/landed"
# A share has so many portions, each of one crate and of about so many of its wrong bodies.
PORTIONS, PORTION = 2, 24
REASONS = ("new", "of functions that changed", "of functions that name what changed", "of the share")


def number_of(it):
    """A number that a thing keeps when others come and go."""
    return int(hashlib.sha256(repr(it).encode()).hexdigest(), 16)


def portion_of(own, functions, at, many):
    """The wrong bodies of a crate's portion. Those of one function go to different portions, since they can't be checked together."""
    found, counts = [], collections.Counter()
    for body in own:
        turned = tuple(functions[body])
        if (number_of(turned) + counts[turned]) % many == at:
            found.append(body)
        counts[turned] += 1
    return found


def ring(counts):
    """All portions of crates with these counts of wrong bodies: crate, portion and the crate's number of portions. Each crate's are spread
    evenly, so that a share has different crates."""
    portions = {crate: -(-count // PORTION) for crate, count in counts.items()}
    found = [(crate, at, many) for crate, many in portions.items() for at in range(many)]
    return sorted(found, key=lambda it: ((it[1] + 0.5) / it[2], it[0]))


def share_of(counts, turn):
    """The portions that a landing takes of those that nothing touched, by its number."""
    found = ring(counts)
    return [found[(turn * PORTIONS + at) % len(found)] for at in range(min(PORTIONS, len(found)))]


def outside_functions(text):
    """What of a source is in no function, by the names of the items."""
    kept, at = "", 0
    for it in places.functions_of(text):
        kept, at = kept + text[at : max(at, it.start)], max(at, it.end)
    return by_heads(ITEM, kept + text[at:])


def without_comments(file, text):
    """A source, or a file of specs or proofs, without the lines that are comments: these change no answer."""
    mark = "//" if file.endswith(".rt") else "--"
    return re.sub(rf"^[ \t]*{mark}.*\n", "", text, flags=re.M)


def definitions(text):
    """The definitions of a file of specs or proofs by their names."""
    return by_heads(DEFINED, text)


def by_heads(heads, text):
    """The parts of a text by their names: each from its head to the next one."""
    found, starts = collections.defaultdict(str), [*heads.finditer(text)]
    for head, end in zip(starts, [*(it.start() for it in starts[1:]), len(text)]):
        found[head[1]] += text[head.start() : end].strip()
    return found


def functions_in(text):
    """The functions of a source with their contracts, by owner and name."""
    found = collections.defaultdict(str)
    for it in places.functions_of(text):
        found[it.owner, it.name] += text[it.start : it.end]
    return found


def names_one(text, words):
    """Whether a text names one of these words."""
    return not words.isdisjoint(WORD.findall(text))


class Changes:
    """What differs between a commit and the files as they are."""

    def __init__(self, root, commit):
        self.root, self.commit = root, commit
        said = self.git("diff", "--name-only", "--no-renames", commit, "--", "crates", "strength/bodies")
        said += self.git("ls-files", "--others", "--exclude-standard", "--", "crates", "strength/bodies")
        self.files = {it for it in said.split("\n") if it}
        self.words = {}
        for crate, needs in self.crates():
            words = set().union(*(self.words[it] for it in needs))
            words.update(it for file in self.files if file.startswith(f"crates/{crate}/") for it in self.changed_names(file))
            self.words[crate] = self.closed(crate, words)

    def git(self, *words):
        return subprocess.run(["git", *words], cwd=self.root, capture_output=True, text=True, errors="replace", check=True).stdout

    def now(self, file):
        """A file as it is, or nothing."""
        if not os.path.isfile(f"{self.root}/{file}"):
            return ""
        with open(f"{self.root}/{file}", encoding="utf-8") as it:
            return it.read()

    def then(self, file):
        """A file as it was at the commit, or nothing."""
        how = {"cwd": self.root, "capture_output": True, "text": True, "errors": "replace"}
        ran = subprocess.run(["git", "show", f"{self.commit}:{file}"], check=False, **how)
        return ran.stdout if not ran.returncode else ""

    @functools.lru_cache(maxsize=None)
    def differing(self, file, reads):
        """The names under which a file reads otherwise than it did, but for its comments."""
        old, new = (reads(without_comments(file, text)) for text in (self.then(file), self.now(file)))
        return {it for it in {*old, *new} if old.get(it) != new.get(it)}

    def changed_names(self, file):
        """The names of definitions, lemmas and items of a file that changed. A file that answers for one function has none."""
        if file.endswith(".rt"):
            return self.differing(file, outside_functions)
        is_shared = file.endswith(".antt") and not file.endswith(("/Answers.antt", "/Invariants.antt", "/Proof.antt", "/Lib.antt"))
        return self.differing(file, definitions) if is_shared else set()

    def crates(self):
        """The crates with those that each names, lowest first: a name means nothing to crates that aren't above its own."""
        rows = [line.split("#")[0].partition(":") for line in self.now("crates.txt").split("\n")]
        needs = {head.split()[0]: deps.split() for head, _, deps in rows if head.strip()}
        needs = {crate: [it for it in deps if it in needs] for crate, deps in needs.items()}
        return [(crate, needs[crate]) for crate in graphlib.TopologicalSorter(needs).static_order()]

    def closed(self, crate, words):
        """These words, and each definition of a crate that names one of them, by whatever way."""
        if not words:
            return words
        listed = self.git("ls-files", "-co", "--exclude-standard", "--", f"crates/{crate}/specs/*.antt").split("\n")
        texts = [pair for file in listed if file for pair in definitions(self.now(file)).items()]
        count = -1
        while count != len(words):
            count = len(words)
            words = words | {name for name, text in texts if name not in words and names_one(text, words)}
        return words

    def is_new(self, body):
        """Whether a wrong body's texts weren't in its file at the commit."""
        name = os.path.basename(body.place.partition(":")[0])
        for home in (f"strength/bodies/{body.crate}/{name}", f"crates/{body.crate}/must-fail/{name}"):
            if home in self.files:
                lines = {it.strip() for it in self.then(home).split("\n")}
                return not all({f"old: {it.old}".strip(), f"new: {it.new}".strip()} <= lines for it in body.pairs)
        return False

    def proofs_of(self, body, names):
        """The folders of the proofs of these functions. That of a recursive one has a + before its name."""
        paths = [it.rpartition("::") for it in names]
        return tuple(f"crates/{body.crate}/proofs/{'/'.join([*front.split('::'), '']) if front else ''}{plus}{name}/"
                     for front, _, name in paths for plus in ("", "+"))

    def reason(self, body, texts, names):
        """Why a wrong body's answer may differ from that of the commit, as an index of REASONS, or None."""
        if self.is_new(body):
            return 0
        folders = self.proofs_of(body, names)
        if any(it.startswith(folders) for it in self.files):
            return 1
        text = "".join(it for path, it in texts.items() if f"crates/{body.crate}/{path}".startswith(folders))
        for pair in body.pairs:
            path = f"crates/{body.crate}/{pair.path}"
            function = places.function_at(texts[pair.path], pair) if pair.old in texts.get(pair.path, "") else None
            if path in self.files and (function is None or (function.owner, function.name) in self.differing(path, functions_in)):
                return 1
            if function:
                text += function.owner + texts[pair.path][function.start : function.end]
        return 2 if names_one(text, self.words[body.crate]) else None


@dataclasses.dataclass(frozen=True)
class Landing:
    """What a landing tries: wrong bodies with their reasons, and its share."""

    tried: dict
    share: list
    cut: int

    def told(self, total):
        """What is tried and what is left out, as a sentence."""
        counts = collections.Counter(self.tried.values())
        parts = ", ".join(f"{counts[at]} {reason}" for at, reason in enumerate(REASONS))
        share = ", ".join(f"{crate} {at + 1} of {many}" for crate, at, many in self.share)
        beyond = f", {self.cut} of them touched but beyond --most" if self.cut else ""
        return f"wrong bodies: {len(self.tried)} are tried ({parts}: {share}); {total - len(self.tried)} are left out{beyond}"


def landing(bodies, functions, reasons, turn, most):
    """What the landing of this number tries of wrong bodies by crate, whose functions these are: those with a reason, no more than so many but
    all that are new, and its share of the others."""
    touched = sorted((it for it in reasons if reasons[it] is not None), key=lambda it: (reasons[it], number_of(it.pairs)))
    kept = [it for at, it in enumerate(touched) if at < most or reasons[it] == 0]
    tried = {it: reasons[it] for it in kept}
    share = share_of({crate: len(own) for crate, own in bodies.items() if own}, turn)
    for crate, at, many in share:
        tried.update({it: 3 for it in portion_of(bodies[crate], functions, at, many) if it not in tried})
    return Landing(tried, share, len([it for it in touched if it not in tried]))


def landed(root):
    """The commit of the landing before, or None if this history lacks it, and how many landings there were."""
    with open(f"{root}/{LANDED}", encoding="utf-8") as it:
        commit = it.read().strip()
    how = {"cwd": root, "capture_output": True, "text": True}
    is_known = subprocess.run(["git", "merge-base", "--is-ancestor", commit, "HEAD"], check=False, **how).returncode == 0
    count = subprocess.run(["git", "rev-list", "--count", "HEAD", "--", LANDED], check=True, **how).stdout
    return commit if is_known else None, int(count)
