"""The place of a text: its function, and the names by which the prover may speak of that."""
import dataclasses
import re

FUNCTION = re.compile(r"^( *)(?:pub(?:\([^)]*\))? )?(?:final )?(?:const )?(?:unsafe )?(?:extern \S+ )?fn (\w+)", re.M)
OWNER = re.compile(r"^(?:pub(?:\([^)]*\))? )?(?:unsafe )?(impl|trait)\b", re.M)


@dataclasses.dataclass(frozen=True)
class Function:
    """A function of a file: its name, its lines, and the head of the impl or trait that holds it."""

    name: str
    start: int
    end: int
    owner: str


def end_of(text, start, indent):
    """Where the item that begins here ends, by the formatter's layout: at its closing brace, or if it has no body at its semicolon."""
    at, is_open = start, False
    for line in text[start:].split("\n"):
        at += len(line) + 1
        if is_open and line == indent + "}":
            break
        if not is_open and (line == indent + "{}" or line.endswith(";") or line.startswith(f"{indent}{{") and line.endswith("}")):
            break
        if not is_open and line.count("{") == line.count("}") and line.endswith("}") and " fn " in f" {line}":
            break
        is_open = is_open or line.endswith("{")
    return at


def owner_of(text, start, indent):
    """The head of the impl or trait around a method, as one line."""
    if not indent:
        return ""
    heads = [it for it in OWNER.finditer(text) if it.start() < start]
    if not heads:
        return ""
    head = text[heads[-1].start() : text.find("{", heads[-1].start())]
    return " ".join(head.split())


def functions_of(text):
    """The functions of a file."""
    return [
        Function(it[2], it.start(), end_of(text, it.start(), it[1]), owner_of(text, it.start(), it[1]))
        for it in FUNCTION.finditer(text)
    ]


def function_at(text, pair):
    """The function that an old text is in, or begins above."""
    at = text.index(pair.old)
    for place in (at, at + len(pair.old) - 1):
        inside = [it for it in functions_of(text) if it.start <= place < it.end]
        if inside:
            return inside[-1]
    return None


def without_parameters(head):
    """A head without its bounds and what is between angle brackets, and the names that it declares in the first ones."""
    depth, kept, declared = 0, "", ""
    for at, letter in enumerate(head):
        depth += letter == "<"
        if depth == 0:
            kept += letter
        elif not re.search(r"\w", kept.removeprefix("impl")):
            declared += letter
        depth -= letter == ">" and head[at - 1] != "-"
    kept = re.sub(r"\b(?:where|requires|ensures)\b.*", "", kept)
    return kept, set(re.findall(r"[<,] *(?:const )?(\w+)", declared))


def owner_fits(segment, head):
    """Whether a method's owner may have this name: the type's, or the type's and the trait's."""
    plain, declared = without_parameters(head)
    named = re.match(r"(?:pub(?:\([^)]*\))? )?(?:unsafe )?trait (\w+)", plain)
    if named:
        return segment == named[1]
    trait, _, of = plain.removeprefix("impl").strip().rpartition(" for ")
    words = re.findall(r"\w+", of)
    word = words[-1] if words else ""
    if not trait:
        # Of a type with some arguments the prover's name has these too, between `+`.
        return segment.partition("+")[0] == word
    trait = re.findall(r"\w+", trait)[-1]
    if word in declared or not re.fullmatch(r"[\w:]+", of.strip()):
        return trait in segment
    return segment.lower().startswith(word.lower()) and trait in segment


def module_of(path):
    """The module of a file of sources, or nothing for the crate's root."""
    module = re.sub(r"^src/|(/mod)?\.rt$", "", path).replace("/", "::")
    return "" if module in ("lib", "main") else module


def names_of(names, path, function):
    """Those of the prover's names that may be this function's: in its file's module, else (a type may be elsewhere) anywhere."""
    module = module_of(path)
    module += "::" if module else ""
    if not function.owner:
        return [it for it in names if it == module + function.name]
    fitting = []
    for name in names:
        parts = name.split("::")
        if len(parts) > 1 and parts[-1] == function.name and owner_fits(parts[-2], function.owner):
            fitting.append(name)
    return [it for it in fitting if it.startswith(module)] or fitting


def owner_name(head):
    """The name that the prover gives an owner in an archive: the type's, with the trait's behind it."""
    plain, _ = without_parameters(head)
    trait, _, of = plain.removeprefix("impl").strip().rpartition(" for ")
    return "".join(re.findall(r"\w+", it)[-1] for it in (of, trait) if it)


def names_in(texts):
    """The names of the functions of these texts, by the files and owners that they are in."""
    found = []
    for path, text in texts.items():
        if path.startswith("src/"):
            for it in functions_of(text):
                parts = [module_of(path), owner_name(it.owner) if it.owner else "", it.name]
                found.append("::".join(part for part in parts if part))
    return found
