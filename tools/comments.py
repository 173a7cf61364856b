"""What comments have to be.

Those of sources, definitions, lemmas, tests, scripts and bindings are in plain English, as far as words show it. Of the crates but those of
tests, each public function that returns a `Result` names its errors below `# Errors`, and at least 60 items have an example. Each definition of
`specs/`, but for what a crate keeps inside, has a comment right above it, and no sentence of these comments has more than 25 words.
"""
import io
import itertools
import re
import tokenize

import parts

# Words of comments that say less than others: a function returns, a device reports, a text represents, a value is.
DIALECT = re.compile(r"\b(tells?|told|stands?|stood)\b", re.I)
# How often comments say `where`. It bounds places, as in 'where the cursor is': a condition is `if` or `when`.
WHERE, WHERES = re.compile(r"\bwhere\b", re.I), 33
# The least number of examples in the comments of items.
EXAMPLES = 60
# The most words of a sentence above a definition.
SENTENCE = 25
# Crates whose functions nobody calls from outside begin so: these functions need no `# Errors`.
UNCALLED = ("test_", "probe")
# What begins a line of a comment, by the end of the file's name.
MARKS = {".rt": r"//[/!]?", ".rs": r"//[/!]?", ".c": r"(?:/\*+|\*/?)", ".h": r"(?:/\*+|\*/?)", ".antt": r"--"}
# A definition of a file of specs, and its name.
DEFINED = re.compile(r"(?: {2})?(?:pub )?(?:abbrev|data|record|unfoldable|opaque)(?: pub)? ([^\s:(){},]+)")


def sources(files):
    """The sources of all crates but those of tests, each with its crate and its lines."""
    for path in files:
        crate = re.match(r"crates/(?!test_)(\w+)/src/.*\.rt$", path)
        if crate:
            yield path, crate[1], parts.read(path).splitlines()


def comments(lines, mark):
    """The lines that are comments, with their numbers, without examples and without what is in backticks."""
    is_example = False
    for at, line in enumerate(lines, 1):
        comment = re.match(rf"\s*{mark} ?(.*)$", line)
        if not comment:
            is_example = False
        elif comment[1].startswith("```"):
            is_example = not is_example
        elif not is_example:
            yield at, re.sub(r"`[^`]*`", "", comment[1])


def script_comments(text):
    """The comments of a script of Python, and its docstrings, each with the number of its first line."""
    last = tokenize.NEWLINE
    for token in tokenize.generate_tokens(io.StringIO(text).readline):
        is_text = token.type == tokenize.STRING and last in (tokenize.NEWLINE, tokenize.INDENT, tokenize.DEDENT)
        if token.type == tokenize.COMMENT or is_text:
            yield token.start[0], re.sub(r"`[^`]*`", "", token.string)
        if token.type not in (tokenize.NL, tokenize.COMMENT):
            last = token.type


def comments_of(path):
    """The comments of a file with the numbers of their lines; none of a file that is no source and no script."""
    suffix = re.search(r"\.\w+$|$", path.rpartition("/")[2])[0]
    if suffix in MARKS:
        return comments(parts.read(path).splitlines(), MARKS[suffix])
    if suffix not in ("", ".py", ".sh"):
        return iter(())
    text = parts.read(path)
    if suffix == ".py" or re.match(r"#!.*python", text):
        return script_comments(text)
    return comments(text.splitlines(), r"#(?!!)") if text.startswith("#!") else iter(())


def blocks(lines):
    """For each line the head of the `impl` or trait that it is in, or nothing."""
    head = ""
    for at, line in enumerate(lines):
        if re.match(r"(pub(\(\w+\))? |unsafe )*(impl|trait)\b", line):
            head = re.split(r"[{}]$", "\n".join(lines[at:]), maxsplit=1, flags=re.M)[0].replace("\n", " ")
        elif line.startswith("}"):
            head = ""
        yield head


def public_functions(lines):
    """The numbers of the lines on which public functions begin, but for those of a trait's `impl`, which inherit its comments."""
    for at, (line, head) in enumerate(zip(lines, blocks(lines))):
        function = re.match(r"\s*(pub )?((const|unsafe) )*fn \w", line)
        is_inherited = head.startswith("impl") and " for " in head
        if function and (head.startswith("pub trait") or function[1] and not is_inherited):
            yield at + 1


def returns_result(lines, number):
    """Whether the function on this line returns a `Result`."""
    head = re.split(r"\n\s*(?:ensures|requires|where)\b|\s\{$|;$", "\n".join(lines[number - 1 :]), maxsplit=1, flags=re.M)[0]
    return re.findall(r"\)\s+-> ([\w:]+)", head)[-1:] in (["Result"], ["io::Result"], ["fmt::Result"])


def names_errors(lines, number):
    """Whether the comment above this line has a section of errors."""
    above = itertools.takewhile(lambda line: re.match(r"\s*(///|#\[)", line), reversed(lines[: number - 1]))
    return "/// # Errors" in [line.strip() for line in above]


def sentences(text):
    """The sentences of a comment. What is in backticks is one word."""
    return re.split(r"(?<=[.?!])\s+", re.sub(r"`[^`]*`", "code", text))


def texts_of(lines):
    """The comments of a file of definitions as whole texts, with the numbers of their last lines."""
    for is_comment, group in itertools.groupby(enumerate(lines, 1), lambda it: re.match(r"\s*--", it[1]) is not None):
        if is_comment:
            block = list(group)
            yield block[-1][0], " ".join(re.sub(r"^\s*-+ ?", "", line) for _, line in block)


def definition_faults(path):
    """What is wrong with the comments of a file of definitions: each place, and a sentence."""
    lines = parts.read(path).splitlines()
    for at, line in enumerate(lines):
        name = DEFINED.match(line)
        if name and not re.match(r"\s*-- ", lines[at - 1]):
            yield f"{path}:{at + 1}", f"no comment right above says what {name[1]} is"
    for at, text in texts_of(lines):
        for it in sentences(text):
            if len(it.split()) > SENTENCE:
                yield f"{path}:{at}", f"a sentence has {len(it.split())} words, and {SENTENCE} are the most: {it[:60]}"


def faults(files):
    """What is wrong with the comments of these files: each place, and a sentence."""
    wheres, examples = [], 0
    for path in files:
        for at, text in comments_of(path):
            for word in DIALECT.findall(text):
                yield f"{path}:{at}", f"a comment says '{word}': say what it returns, reports, means or is"
            wheres += [f"{path}:{at}"] * len(WHERE.findall(text))
        if re.match(r"crates/\w+/specs/(?!inside/).*\.antt$", path):
            yield from definition_faults(path)
    for path, crate, lines in sources(files):
        examples += len(re.findall(r"^\s*/// ```", "\n".join(lines), re.M)) // 2
        for at in public_functions(lines):
            if not crate.startswith(UNCALLED) and returns_result(lines, at) and not names_errors(lines, at):
                yield f"{path}:{at}", "a public function returns a `Result`, and its comment has no section `# Errors`"
    if len(wheres) > WHERES:
        yield "comments", f"{len(wheres)} say 'where', and {WHERES} are the most; a condition is 'if' or 'when': {', '.join(wheres)}"
    if examples < EXAMPLES:
        yield "comments", f"they have {examples} examples; {EXAMPLES} are the least"
