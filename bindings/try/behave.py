"""Runs `behave` in terminals of 24 x 80, types, resizes and answers, and compares the lines that it prints.

behave.py PROGRAM [TEST..]: without a test's name it runs all that are of `behave`; those whose names begin with `example_` are of the examples.
"""
import fcntl
import os
import pty
import select
import struct
import subprocess
import sys
import tempfile
import termios
import time


class Terminal:
    """A program in a terminal of its own. Its standard error, a pipe, has lines."""

    def __init__(self, program, name, stdin=None, stdout=None, env=None, controlling=True):
        self.master, slave = pty.openpty()
        self.resize(80, 24)
        self.out, self.told = bytearray(), bytearray()

        def own():
            os.setsid()
            if controlling:
                fcntl.ioctl(slave, termios.TIOCSCTTY, 0)

        environment = {key: value for key, value in os.environ.items() if key != "NO_COLOR"}
        self.before = termios.tcgetattr(slave)
        self.process = subprocess.Popen(
            [program, name], stdin=slave if stdin is None else stdin, stdout=slave if stdout is None else stdout,
            stderr=subprocess.PIPE, preexec_fn=own, env={**environment, **(env or {})},
        )
        self.slave = slave

    def resize(self, columns, rows):
        fcntl.ioctl(self.master, termios.TIOCSWINSZ, struct.pack("HHHH", rows, columns, 640, 480))

    def type(self, text):
        data = text if isinstance(text, bytes) else text.encode()
        while data:
            data = data[os.write(self.master, data[:512]):]
            self.pump(0.0)

    def pump(self, seconds):
        """Takes what comes within some time."""
        error = self.process.stderr.fileno()
        for fd in select.select([self.master, error], [], [], seconds)[0]:
            try:
                data = os.read(fd, 65536)
            except OSError:
                data = b""
            if fd == error:
                self.told += data
            else:
                self.out += data

    def until(self, done, what):
        end = time.time() + 10
        while not done():
            if time.time() > end:
                self.process.kill()
                raise AssertionError(f"no {what} within 10 s; told {bytes(self.told)!r}, shown {bytes(self.out)!r}")
            self.pump(0.05)

    def wait_told(self, line, times=1):
        self.until(lambda: self.told.decode().splitlines().count(line) >= times, f"line {line!r}")

    def wait_shown(self, text, times=1):
        self.until(lambda: self.out.count(text) >= times, f"text {text!r}")

    def is_raw(self):
        return not termios.tcgetattr(self.slave)[3] & termios.ICANON

    def end(self):
        """The lines printed, if the program ended well and left the terminal's mode as it was."""
        self.until(lambda: self.process.poll() is not None, "end")
        for _ in range(5):
            self.pump(0.02)
        self.told += self.process.stderr.read()
        assert self.process.returncode == 0, (self.process.returncode, bytes(self.told))
        assert termios.tcgetattr(self.slave) == self.before, "the mode isn't as it was"
        os.close(self.master)
        os.close(self.slave)
        return self.told.decode().splitlines()


def keys(start):
    t = start("keys")
    t.wait_told("raw true")
    assert t.is_raw()
    rows = [
        ("a", "a  Press"), ("A", "A Shift Press"), ("é", "é  Press"), ("\n", "j Control Press"), ("\r", "Enter  Press"),
        ("\x1b", "Esc  Press"), ("\x1ba", "a Alt Press"), ("\x1b[A", "Up  Press"), ("\x1b[1;5C", "Right Control Press"),
        ("\x1b[15~", "F5  Press"), ("\x1b[97;1:3u", "a  Release"), ("\x1b[I", "FocusGained"),
        ("\x1b[200~two\nlines\x1b[201~", 'Paste("two\\nlines")'),
        ("\x1b[<0;20;10M", "Mouse(MouseEvent { kind: Down(Left), column: 19, row: 9, modifiers: KeyModifiers(0x0) })"),
        ("\x1b[<66;1;1M", "Mouse(MouseEvent { kind: ScrollLeft, column: 0, row: 0, modifiers: KeyModifiers(0x0) })"),
    ]
    for text, told in rows:
        t.type(text)
        t.wait_told(told)
    t.type("q")
    assert t.end() == ["raw true"] + [told for _, told in rows] + ["q  Press", "raw false"]


def resizes(start):
    t = start("keys")
    t.wait_told("raw true")
    t.type("a")
    t.wait_told("a  Press")
    t.resize(100, 30)
    t.wait_told("Resize(100, 30)")
    # Bytes that are no event yet.
    t.type("\x1b[1")
    time.sleep(0.1)
    t.resize(90, 20)
    t.wait_told("Resize(90, 20)")
    t.type(";2A")
    t.wait_told("Up Shift Press")
    t.type("q")
    assert t.end()[1:-2] == ["a  Press", "Resize(100, 30)", "Resize(90, 20)", "Up Shift Press"]
    t = start("chained")
    t.wait_told("ready")
    t.resize(70, 20)
    assert t.end() == ["ready", "Resize(70, 20) handled 1"]


def limits(start):
    t = start("limits")
    t.wait_told("ready")
    t.type("x")
    t.wait_told('Some("x  Press")')
    t.type("y")
    assert t.end() == ["zero false None", "short false true", "ready", "max true", "zero true", 'Some("x  Press")', "huge true", "y  Press"]


def two_threads(start):
    t = start("two_threads")
    t.wait_shown(b"\x1b[6n")
    t.type("\x1b[5;3R")
    t.wait_told("ready")
    t.type("x")
    assert t.end() == ["poll false true", "place (2, 4)", "ready", "x  Press"]
    t = start("shared_wait")
    t.wait_told("ready")
    t.type("x")
    assert t.end() == ["ready", "true true x  Press"]


def many(start):
    t = start("count")
    t.wait_told("ready")
    for _ in range(20):
        t.type("0123456789" * 50 + "\x1b[A")
    t.type("q")
    assert t.end() == ["ready", str(20 * 501)]


def queries(start):
    t = start("place")
    t.wait_shown(b"\x1b[6n")
    t.type("k\x1b[7;9R")
    # Nobody answers the second.
    assert t.end() == ["Ok((8, 6)) raw false", "Err(Other) raw false"]
    t = start("keyboard")
    for times, answer in enumerate(["\x1b[?1u\x1b[?62c", "\x1b[?62c"], 1):
        t.wait_shown(b"\x1b[?u\x1b[c", times)
        t.type(answer)
    assert t.end() == ["Ok(true)", "Ok(false)", "Err(Other)"]


def filters(start):
    for stdin, stdout in ((subprocess.PIPE, None), (subprocess.DEVNULL, subprocess.DEVNULL)):
        t = start("filter", stdin=stdin, stdout=stdout)
        t.wait_told("raw true")
        assert t.is_raw()
        t.type("xq")
        assert t.end() == ["size (80, 24)", "window 80 24 640 480", "raw true", "x  Press", "q  Press", "raw false"]
    t = start("no_terminal", stdin=subprocess.DEVNULL, stdout=subprocess.DEVNULL, controlling=False)
    assert t.end() == ["raw false", "poll false", "read false", "window false"]


def ends(start):
    t = start("end")
    t.wait_told("ready")
    t.type("\x04")
    t.wait_told("Err(UnexpectedEof)")
    t.type("\x04")
    t.wait_told("Err(UnexpectedEof)", 2)
    t.type("x\n")
    assert t.end() == ["ready", "Err(UnexpectedEof)", "Err(UnexpectedEof)", "x  Press"]


def hangups(start):
    t = start("hangup", controlling=False)
    t.wait_told("ready")
    os.close(t.master)
    t.process.wait(10)
    assert t.process.stderr.read().decode().splitlines() == ["Err(UnexpectedEof)"] * 3
    os.close(t.slave)


def colours(start):
    red = "\\u{1b}[38;5;9m"
    assert start("colours").end() == [red + red + "\\u{1b}[m"]
    assert start("colours", env={"NO_COLOR": ""}).end() == [red + red + "\\u{1b}[m"]
    assert start("colours", env={"NO_COLOR": "1"}).end() == ["\\u{1b}[m" + red + "\\u{1b}[m"]


def streams(start):
    t = start("stream")
    t.wait_told("ready")
    t.type("a")
    t.wait_told("a  Press")
    t.resize(81, 25)
    t.wait_told("Resize(81, 25)")
    t.type("b")
    t.wait_told("ready", 2)
    t.type("c\x1b\x04\x04")
    assert t.end() == [
        "ready", "a  Press", "Resize(81, 25)", "b  Press", "pending true", "threads 2", "threads 1",
        "ready", 'Ok("c  Press")', 'Ok("Esc  Press")', "Err(UnexpectedEof)", "over",
    ]


def escapes(start):
    """Esc behind other keys is Esc if nothing follows, whatever comes meanwhile, or another sequence does."""
    t = start("keys")
    t.wait_told("raw true")
    t.type("a\x1b")
    t.wait_told("a  Press")
    t.resize(90, 30)
    t.wait_told("Resize(90, 30)")
    t.wait_told("Esc  Press")
    t.type("b\x1b")
    t.wait_told("b  Press")
    t.type("\x1b[A")
    t.wait_told("Up  Press")
    t.type("q")
    told = t.end()
    assert sorted(told[1:4]) == ["Esc  Press", "Resize(90, 30)", "a  Press"], told
    assert told[4:] == ["b  Press", "Esc  Press", "Up  Press", "q  Press", "raw false"], told
    # Who polls with no time until nothing is there gets it too, whatever ends a wait.
    t = start("drain")
    t.wait_told("ready")
    t.type("a\x1b")
    t.wait_told("a  Press")
    t.resize(90, 30)
    assert "Esc  Press" in t.end()
    # Behind as much as is read at once the next byte decides, however late.
    t = start("29 read")
    t.wait_told("ready")
    for rest, told in (("\x1b[Aq", "341 Down, 1 Up, 1 Esc, 0 others"), ("[Aq", "341 Down, 1 Up, 0 Esc, 0 others")):
        os.write(t.master, b"\x1b[B" * 341 + b"\x1b")
        time.sleep(0.03)
        t.type(rest)
        t.wait_told(told)
    t.type("Q")
    assert len(t.end()) == 3


class TooSlow(Exception):
    """What couldn't be tried since this machine is too busy."""


def some_in_time(what, attempt, times):
    """Attempts something until it was in time so many times, or for ten seconds, in which it has to be once: a busy machine is late. Returns what
    the attempts in time returned; that of one that was late is None."""
    found, end = [], time.monotonic() + 10
    while len(found) < times and time.monotonic() < end:
        result = attempt()
        if result is not None:
            found.append(result)
    if not found:
        raise TooSlow(f"this machine is too slow: {what} was never in time within 10 s")
    return found


# The seconds before a key's ESC and before its rest, and how often they are tried.
GAPS = ((0, 0, 20), (0, 0.001, 20), (0, 0.025, 5))
# The ESC by itself: behind a key that is Esc.
APART = (0.015, 0.015, 5)


def cuts(start):
    """A key whose ESC ends a block, or comes shortly behind one, and whose rest comes up to 25 ms later, is that key, for each shim, way, size
    and gap. One of some may be torn, since nobody sees here whether the reader was late."""
    for shim in (29, 28, 25):
        for way in ("read", "poll", "stream"):
            t = start(f"{shim} {way}")
            t.wait_told("ready")
            t.told.clear()
            for size in (4, 700, 1024, 4096):
                for before, behind, times in GAPS if size == 4 else (*GAPS, APART):
                    told = some_in_time(f"a key within {before + behind} s", lambda: cut(t, size, before, behind), times)
                    whole = told.count(f"{size // 3} Down, 1 Up, 0 Esc, 0 others\n")
                    assert whole >= len(told) - 1, (shim, way, size, before, behind, told)
            t.type("Q")
            assert t.end() == []


def cut(t, size, before, behind):
    """Types a block of Downs, an ESC, and the rest of an Up, and returns the counts if that was in time."""
    begun = time.monotonic()
    block, esc = b"\x1b[B" * (size // 3), b"\x1b"
    for gap, part in [(0, block), (before, esc), (behind, b"[Aq")] if before else [(0, block + esc), (behind, b"[Aq")]:
        if gap:
            time.sleep(gap)
        assert os.write(t.master, part) == len(part)
    in_time = time.monotonic() - begun < 0.045
    t.until(lambda: t.told.endswith(b"\n"), "count")
    told = t.told.decode()
    t.told.clear()
    return told if in_time else None


def lone_escapes(start):
    """An ESC alone is Esc at once, and one behind another key is Esc if nothing follows, for each shim and way."""
    t = start("keys")
    t.wait_told("raw true")
    some_in_time("Esc", lambda: escape_takes(t) < 0.025 or None, 5)
    t.type("q")
    assert t.end()[-2:] == ["q  Press", "raw false"]
    for shim in (29, 28, 25):
        for way in ("read", "poll", "stream"):
            t = start(f"{shim} {way}")
            t.wait_told("ready")
            for typed in ("\x1b", "x\x1b"):
                t.type(typed)
                # Far longer than the rest of a key may be late.
                time.sleep(0.2)
                t.type("[Aq")
                t.wait_told(f"0 Down, 0 Up, 1 Esc, {1 + len(typed)} others")
            t.type("Q")
            t.end()


def escape_takes(t):
    """Types ESC after a pause, and returns how many seconds it takes until it is Esc."""
    time.sleep(0.1)
    count = t.told.count(b"Esc  Press") + 1
    begun = time.monotonic()
    t.type("\x1b")
    t.wait_told("Esc  Press", count)
    return time.monotonic() - begun


# Of the examples.


def example_hello(start):
    t = start("")
    t.wait_shown(b"Esc ends it")
    assert t.is_raw()
    t.type("x\x1b")
    assert t.end() == []
    assert bytes(t.out) == b"\x1b[?1049h\x1b[38;5;10mEsc ends it\x1b[39m\x1b[?1049l", bytes(t.out)


def example_event_read(start):
    t = start("")
    t.wait_shown(b"Esc ends it")
    t.until(t.is_raw, "raw mode")
    t.type("a")
    t.wait_shown(b"Char('a')")
    t.resize(100, 30)
    t.wait_shown(b"Resize(100, 30)")
    t.type("\x1b[200~two\x1b[201~\x1b[<0;20;10M\x1b[O")
    t.wait_shown(b'Paste("two")')
    t.wait_shown(b"column: 19, row: 9")
    t.wait_shown(b"FocusLost")
    t.type("\x1b")
    assert t.end() == []


def example_list(start):
    for typed, told in (("\x1b[B\x1b[B\x1b[<65;1;1M\x1b[A\r", b"You chose cheese."), ("\x1b[F\r", b"You chose figs."), ("\x1b", b"You chose nothing.")):
        t = start("")
        t.wait_shown(b"figs")
        t.type(typed)
        assert t.end() == []
        assert bytes(t.out).endswith(told + b"\r\n"), bytes(t.out)


def example_menu(start):
    for typed, chosen in (("\x1b[B\x1b[B\r", b"Rename\r\n"), ("\x1b[<65;1;1M\r", b"Save\r\n"), ("\x1b[<0;3;4M\r", b"Quit\r\n"), ("\x1b", b"")):
        t = start("")
        t.wait_shown(b"Quit")
        assert t.is_raw()
        # The window has room for half of it.
        t.resize(3, 2)
        t.wait_shown(b"\x1b[1mOpe\x1b[2;1H\x1b[0mSav")
        t.type(typed)
        assert t.end() == []
        assert bytes(t.out).endswith(b"\x1b[?1049l" + chosen), bytes(t.out)


def example_lines(start):
    t = start("")
    t.until(t.is_raw, "raw mode")
    t.wait_shown(b">")
    t.type("helo\x1b[Dl\r")
    t.wait_shown(b"\nhello\r\n")
    t.resize(40, 24)
    t.wait_shown(b"\x1b[1G\x1b[J")
    t.type("gone\x03\x1b[A!")
    t.wait_shown(b"!")
    t.type("\r\x04")
    assert t.end() == []
    lines = [line for line in bytes(t.out).split(b"\r\n") if b"\x1b" not in line]
    assert lines == [b"hello", b"hello!", b""], bytes(t.out)


def example_repl(start):
    with tempfile.NamedTemporaryFile() as history:
        t = start(history.name)
        t.until(t.is_raw, "raw mode")
        t.type("add 1 2\r")
        t.wait_shown(b"2 numbers, 3 in all")
        t.until(t.is_raw, "raw mode")
        t.type("s")
        t.wait_shown(b"\x1b[2mum")
        t.type("\t\r")
        t.wait_shown(b"2 numbers, 3 in all", 2)
        t.until(t.is_raw, "raw mode")
        t.type("\x1b[200~what\nis it\x1b[201~\r")
        t.wait_told("what: help lists what there is")
        t.until(t.is_raw, "raw mode")
        t.resize(40, 24)
        t.wait_shown(b"\x1b[1G\x1b[J")
        t.type("\x0c")
        t.wait_shown(b"\x1b[2J\x1b[1;1H")
        t.type("gone\x03")
        t.wait_shown(b"\x1b[?2004h", 5)
        t.type("\x1b[A\x1b[A\x1b[A 39\r")
        t.wait_shown(b"5 numbers, 45 in all")
        t.until(t.is_raw, "raw mode")
        t.type("\x04")
        assert t.end() == ["what: help lists what there is"]
        assert history.read() == b"add 1 2\nsum\nwhat is it\nadd 1 2 39\n"
        assert t.out.count(b"\x1b[?2004h") == t.out.count(b"\x1b[?2004l") == 6, bytes(t.out)


def example_keys(start):
    for typed, told in (("Ane\x7fna\r", b"Hello Anna."), ("\x1b", b"No name."), ("A" * 21 + "\r", b"Hello " + b"A" * 20 + b".")):
        t = start("")
        t.wait_shown(b"name:")
        t.type("A")
        t.wait_shown(b"\x1b[7GA")
        t.resize(40, 24)
        t.wait_shown(b"\x1b[1G\x1b[J")
        t.type("\x7f" + typed)
        assert t.end() == []
        assert bytes(t.out).endswith(b"\r\n" + told + b"\r\n") and t.out.count(b"\x07") == (len(typed) == 22), bytes(t.out)


program, names = sys.argv[1], sys.argv[2:]
ALL = (keys, resizes, limits, two_threads, many, queries, filters, ends, hangups, colours, streams, escapes, cuts, lone_escapes)
for test in [globals()[name] for name in names] or ALL:
    try:
        test(lambda name, **how: Terminal(program, name, **how))
    except TooSlow as slow:
        sys.exit(f"{test.__name__}: {slow}")
    print(f"{test.__name__}: as expected", flush=True)
