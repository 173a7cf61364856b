"""The rows of the program `probe`, which `check sessions` and `check rows` play: what goes in, and what comes out.

They are the lines `INPUT -> OUTPUT` of the files in crates/probe/rows, and the blocks of crates/probe/README.md. The head of a file explains its
form, and has the number of its rows, so that a lost one is missed. A line that begins with `#` is a comment. With them come random keys, which
tools/probe_keys.py draws and cuts.
"""
import contextlib
import os
import re
import subprocess
import tempfile
from concurrent.futures import ThreadPoolExecutor
from typing import NamedTuple, Optional

import probe_keys

ROOT = os.path.dirname(os.path.dirname(os.path.abspath(__file__)))
FOLDER, PAGE = "crates/probe/rows", "crates/probe/README.md"
# A run that takes longer has failed.
SECONDS = 60
# A command line of program.txt: words, those of a second program, a writer, and a reader or an input.
WORDS = r"probe((?: [^ |<>]+)*)"
COMMAND = re.compile(rf"{WORDS}(?: \| {WORDS})?(?: > (/dev/full|\d+ bytes))?(?: < (/)| <<< (.*))?")
# A block of the page, and the one behind it that answers.
BLOCK = re.compile(r"```(play|say|serve|keys)\n(.*?)```\n```text\n(.*?)```", re.S)
# A row of play.txt with one piece, which is served too; there are more than so many, and each has so many events at most.
PIECE = re.compile(r"piece ((?:(?! / ).)*) / read event 1(?!.*(?:piece|raw) )")
PIECES, MOST = 40, 32


class RowError(Exception):
    """A row or a file of rows that can't be read, as a sentence."""


class Row(NamedTuple):
    """A line of a file."""

    place: str
    given: str
    want: str


class Run(NamedTuple):
    """A run of the program: its words and its input, and what it must write."""

    place: str
    words: list
    given: bytes
    want: bytes
    # The words of a second program, which reads what this one writes.
    second: Optional[list] = None
    # `/` as a reader that fails, `/dev/full` as a writer that fails, or `10 bytes` as one that takes ten.
    source: Optional[str] = None
    sink: Optional[str] = None

    def expected(self):
        """The status, and what must come on standard output and on standard error."""
        out, mark, fault = self.want.partition(b"probe: ")
        return int(bool(mark)), out, mark + fault

    def is_met(self, status, out, err):
        """Whether this came of the run. If the row ends with `..`, its error goes on in any way."""
        want = self.expected()
        if want[2].endswith(b"..\n") and err.startswith(want[2][:-3]):
            err = want[2]
        return want == (status, out, err)


def read(path):
    try:
        with open(f"{ROOT}/{path}", encoding="utf-8") as file:
            return file.read()
    except OSError as error:
        raise RowError(f"{path}: it can't be read: {error.strerror}") from error
    except ValueError as error:
        raise RowError(f"{path}: it isn't UTF-8") from error


def rows_of(path):
    """The rows of a file: there are as many as its head says."""
    found, said = [], None
    for at, line in enumerate(read(path).split("\n"), 1):
        if not line or line.startswith("#"):
            count = re.fullmatch(r"# (\d+) rows\.", line)
            said = int(count[1]) if count else said
            continue
        given, arrow, want = line.partition(" ->")
        if not arrow or want and not want.startswith(" "):
            raise RowError(f"{path}:{at}: it isn't INPUT -> OUTPUT: {line}")
        found.append(Row(f"{path}:{at}", given, want[1:]))
    if not found or len(found) != said:
        raise RowError(f"{path}: it has {len(found)} rows, and its head says {said or 'no number'}")
    return found


def bytes_of(text):
    """Bytes as a row spells them: `^[` is ESC, `^G` the bell, and `{c3 89}` and `{61*300}` are digits."""
    found = []
    for at, part in enumerate(re.split(r"\{([^{}]*)\}", text.replace("^[", "\x1b").replace("^G", "\x07"))):
        digits, _, times = part.partition("*")
        if "{" in part or "}" in part:
            raise ValueError("a brace is alone")
        found.append(bytes.fromhex(digits) * int(times or 1) if at % 2 else part.encode())
    return b"".join(found)


def lines_of(text):
    """The lines of a row, each as often as it says."""
    for line in text.split(" / "):
        times = re.search(r" \((\d+) times\)$", line)
        yield from [line[: times.start()]] * int(times[1]) if times else [line]


def joined(text):
    """The lines of a row, as they are."""
    return b"\n".join(map(bytes_of, lines_of(text)))


def acts(text):
    """The lines of a row, with the bytes of its acts as digits."""
    found = []
    for line in lines_of(text):
        word, _, rest = line.partition(" ")
        found.append(f"{word} {bytes_of(rest).hex()}".encode() if word in ("piece", "raw") else bytes_of(line))
    return b"".join(line + b"\n" for line in found)


def written(words, want):
    """What a row says that is written. Commands end no line."""
    is_whole = not want or words[:1] == ["say"] and "probe: " not in want
    return joined(want) + (b"" if is_whole else b"\n")


def of_lines(mode, row):
    """The run of a row of play.txt or keys.txt. One that is refused is given as it is."""
    given = joined(row.given) if row.want.startswith("probe: ") else acts(row.given)
    return [Run(row.place, [mode], given, written([mode], row.want))]


def of_bytes(row):
    """The runs of a row of numbered.txt: its bytes are played and served."""
    events = "" if row.want == "none" else row.want
    served = Run(row.place, ["serve"], bytes_of(row.given), written(["serve"], events))
    return [*of_lines("play", Row(row.place, f"piece {row.given} / read event 1", row.want)), served]


def of_commands(row):
    """The run of a row of say.txt or looks.txt."""
    return [Run(row.place, ["say"], joined(row.given), written(["say"], row.want))]


def of_page():
    """The runs of the page's blocks: a mode and its input, and the block that answers."""
    text, found = read(PAGE), []
    for block in BLOCK.finditer(text):
        place = f"{PAGE}:{text.count(chr(10), 0, block.start()) + 1}"
        mode, given, want = block.groups()
        found.append(Run(place, [mode], given.encode(), written([mode], want.rstrip("\n").replace("\n", " / "))))
    if not found:
        raise RowError(f"{PAGE}: it shows no run of probe")
    return found


def words_of(text):
    """The words of a command line; `''` is the empty one."""
    return ["" if it == "''" else bytes_of(it) if "{" in it else it for it in text.split(" ")[1:]]


def of_program(row):
    """The run of a row of program.txt."""
    line = COMMAND.fullmatch(row.given)
    if not line:
        raise RowError(f"{row.place}: it is no command line: {row.given}")
    words, second, sink, source, given = line.groups()
    words, second = words_of(words), second if second is None else words_of(second)
    return [Run(row.place, words, joined(given or ""), written(words, row.want), second, source, sink)]


FILES = {
    "play.txt": lambda row: of_lines("play", row),
    "numbered.txt": of_bytes,
    "say.txt": of_commands,
    "looks.txt": of_commands,
    "keys.txt": lambda row: of_lines("keys", row),
    "program.txt": of_program,
}


def runs():
    """All runs of the files and of the page."""
    others = sorted({*os.listdir(f"{ROOT}/{FOLDER}")} - FILES.keys())
    if others:
        raise RowError(f"{FOLDER}/{others[0]}: no form is known of this file")
    found = of_page()
    for name, form in FILES.items():
        for row in rows_of(f"{FOLDER}/{name}"):
            try:
                found += form(row)
            except ValueError as error:
                raise RowError(f"{row.place}: it can't be read: {error}") from error
    return found


def pieces():
    """The rows of play.txt whose one piece is served too: each with its bytes."""
    found = [(row.place, PIECE.match(row.given)) for row in rows_of(f"{FOLDER}/play.txt")]
    found = [(place, piece[1]) for place, piece in found if piece]
    if len(found) <= PIECES:
        raise RowError(f"{FOLDER}/play.txt: {len(found)} rows have one piece, and more than {PIECES} are wanted")
    return found


def unsaid(errors):
    """The errors of these that the page doesn't have, whatever their line. It has `..` for the rest of one."""

    def plain(text):
        return re.sub(r"line \d+", "line 1", text.replace("\\|", "|"))

    shown = [plain(it) for it in re.findall(r"`(probe: [^`]*)`", read(PAGE))]
    begun = tuple(it[:-2] for it in shown if it.endswith(".."))
    return [it for it in errors if plain(it) not in shown and not it.startswith(begun)]


def call(words, given, source=None, sink=None):
    """The status of a command, and what it wrote to both outputs."""
    how = {"input": given, "stdout": subprocess.PIPE}
    with contextlib.ExitStack() as stack:
        if source:
            del how["input"]
            how["stdin"] = os.open(source, os.O_RDONLY)
            stack.callback(os.close, how["stdin"])
        if sink == "/dev/full":
            how["stdout"] = stack.enter_context(open(sink, "wb"))
        elif sink:
            how["stdout"] = stack.enter_context(tempfile.TemporaryFile())
            # Past its bound a write fails, if the signal stays ignored as it is here.
            words, how["restore_signals"] = ["prlimit", f"--fsize={sink.split()[0]}", *words], False
        done = subprocess.run(words, stderr=subprocess.PIPE, env={}, timeout=SECONDS, **how)
        out = done.stdout or b""
        if sink and sink != "/dev/full":
            how["stdout"].seek(0)
            out = how["stdout"].read()
        return done.returncode, out, done.stderr


def outcome(program, run):
    """What comes of a run on a program: its status, and both outputs."""
    if run.second is None:
        return call([*program, *run.words], run.given, run.source, run.sink)
    made = call([*program, *run.words], run.given)
    return call([*program, *run.second], made[1])


def fault_of(program, run):
    """How what comes of a run on a program differs from its row, or nothing."""
    came = outcome(program, run)
    if run.is_met(*came):
        return ""
    want, seen = (f"status {status}, {(out + err)[-300:]!r}" for status, out, err in (run.expected(), came))
    return f"{run.place}: {' '.join(map(str, run.words))} of {run.given[:100]!r}\n    must give {want}\n    and gave  {seen}"


def served(program, place, piece):
    """How what a program serves of a piece differs from what it plays of it, or nothing."""
    run = Run(place, ["play"], acts(f"piece {piece} / read event 9 ({MOST} times)"), b"")
    lines = outcome(program, run)[1].split(b"\n")
    events = [it + b"\n" for it in lines if it and it != b"none" and not it.startswith(b"fault")]
    return fault_of(program, Run(place, ["serve"], bytes_of(piece), b"".join(events)))


def cut(program, drawn):
    """How a program cuts random keys otherwise than tools/probe_keys.py, or nothing."""
    status, out, err = call([*program, "keys"], probe_keys.given_of(drawn))
    wrong = f"status {status}, {err[-300:]!r}" if status or err else probe_keys.fault_in(drawn, out)
    return wrong and f"keys{' that pass releases' * drawn.passes}, bound to {' '.join(drawn.lists)}: {wrong}"


def tried(place, call, *arguments):
    """What a call finds wrong, or that it doesn't end."""
    try:
        return call(*arguments)
    except subprocess.TimeoutExpired:
        return f"{place}: it goes on after {SECONDS} seconds"
    except OSError as error:
        return f"{place}: it can't run: {error}"


def play(program):
    """Plays all rows and random keys on a program, as the words that run it. Returns how many runs that took, and what is wrong."""
    if not os.access(program[-1], os.X_OK):
        raise RowError(f"{program[-1]} isn't there, or can't be run")
    found = runs()
    calls = [(run.place, fault_of, program, run) for run in found]
    calls += [(place, served, program, place, piece) for place, piece in pieces()]
    calls += [("random keys", cut, program, drawn) for drawn in probe_keys.sets()]
    with ThreadPoolExecutor(2) as pool:
        faults = [it for it in pool.map(lambda it: tried(*it), calls) if it]
    errors = {run.expected()[2].decode().rstrip("\n") for run in found} - {""}
    return len(calls), faults + [f"{PAGE}: it has no `{it}`" for it in sorted(unsaid(errors))]
