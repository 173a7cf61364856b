"""Plays scripts of keys on GNU readline, in the library libreadline.so.8, and gives the line after each key.

gnu_readline.py [plain] [SETTING..] < SCRIPTS: the settings are lines as of a file inputrc. Without `plain` readline is given some habits of the line
editor (see `Alike`), so that more scripts can be compared to their end.
"""
import ctypes
import locale
import os
import signal
import sys
import traceback
from typing import NamedTuple

NAMED = {
    "SP": b" ", "BS": b"\x7f", "Del": b"\x1b[3~", "Enter": b"\r", "Esc": b"\x1b", "Home": b"\x1b[H", "End": b"\x1b[F", "Left": b"\x1b[D",
    "Right": b"\x1b[C", "Up": b"\x1b[A", "Down": b"\x1b[B", "PgUp": b"\x1b[5~", "PgDn": b"\x1b[6~", "C-Left": b"\x1b[1;5D",
    "C-Right": b"\x1b[1;5C",
}
SETTINGS = (
    "set bind-tty-special-chars off", "set bell-style none", "set editing-mode emacs", "set enable-bracketed-paste on", "set convert-meta off",
    "set input-meta on", "set output-meta on", "set keyseq-timeout 0", "set horizontal-scroll-mode on", r'"\e[5~": history-search-backward',
    r'"\e[6~": history-search-forward', r'"\e[1;5D": backward-word', r'"\e[1;5C": forward-word', r'"\e[3~": delete-char',
)
# A script that takes longer has failed: an undo list of readline may come to be a ring.
SECONDS = 2
# The state in which readline is during an incremental search, and the mark of a search that has found something.
SEARCHING, FOUND = 0x80, 0x02
# The kinds of entries in the undo list.
DELETION, INSERTION, BEGINNING, END = range(4)
# The keys with which an incremental search goes on, those that show a line of the history, those that write a text, and those that move the cursor.
GOES_ON = "SP BS C-h C-r C-s C-g".split()
SHOWS = "Up Down C-p C-n PgUp PgDn".split()
WRITES = "C-y A-y A-.".split()
GOES = "Left Right Home End C-a C-e C-b C-f A-b A-f C-Left C-Right".split()


def bytes_of(name):
    """The bytes that a terminal sends for the key of a name."""
    if name in NAMED:
        return NAMED[name]
    if name.startswith("A-"):
        return b"\x1b" + bytes_of(name[2:])
    if name.startswith("C-"):
        return bytes([ord(name[2:]) & 31])
    return name.encode()


class UndoEntry(ctypes.Structure):
    """An entry of the undo list."""


UndoEntry._fields_ = [
    ("next", ctypes.POINTER(UndoEntry)), ("start", ctypes.c_int), ("end", ctypes.c_int), ("text", ctypes.c_void_p), ("what", ctypes.c_int),
]


class Before(NamedTuple):
    """What is there before a key."""

    top: int
    inserted: int
    point: int
    # How many lines of the history are older.
    place: int
    is_unfinished: bool
    is_searching: bool
    text: bytes


class Search(ctypes.Structure):
    """The beginning of what readline knows of an incremental search."""

    _fields_ = [("type", ctypes.c_int), ("flags", ctypes.c_int), ("pattern", ctypes.c_char_p)]


class Readline:
    """The library with what it has in a process: it can't be begun twice."""

    def __init__(self, settings=()):
        locale.setlocale(locale.LC_ALL, "C.UTF-8")
        os.environ.update(TERM="xterm", INPUTRC="/dev/null", COLUMNS="80", LINES="24")
        self.lib, self.libc = ctypes.CDLL("libreadline.so.8"), ctypes.CDLL(None)
        self.libc.fopen.restype = self.lib.readline.restype = ctypes.c_void_p
        self.lib.add_history.argtypes = [ctypes.c_void_p]
        for name, mode in (("rl_instream", b"r"), ("rl_outstream", b"w")):
            self.variable(name, ctypes.c_void_p).value = self.libc.fopen(b"/dev/null", mode)
        for name in ("rl_catch_signals", "rl_catch_sigwinch"):
            self.variable(name, ctypes.c_int).value = 0
        for name in ("rl_prep_term_function", "rl_deprep_term_function"):
            self.variable(name, ctypes.c_void_p).value = None
        self.variable("rl_readline_name", ctypes.c_char_p).value = b"compare"
        self.lib.rl_initialize()
        for line in (*SETTINGS, *settings):
            self.lib.rl_parse_and_bind(ctypes.create_string_buffer(line.encode()))
        self.line, self.point = self.variable("rl_line_buffer", ctypes.c_void_p), self.variable("rl_point", ctypes.c_int)
        self.end, self.state = self.variable("rl_end", ctypes.c_int), self.variable("rl_readline_state", ctypes.c_ulong)
        self.kept = [
            ctypes.CFUNCTYPE(ctypes.c_int, ctypes.c_void_p)(self.byte), ctypes.CFUNCTYPE(ctypes.c_int)(lambda: len(self.waiting)),
            ctypes.CFUNCTYPE(ctypes.c_int, ctypes.c_int, ctypes.c_int)(self.interrupt),
        ]
        for name, function in zip(("rl_getc_function", "rl_input_available_hook"), self.kept):
            self.variable(name, ctypes.c_void_p).value = ctypes.cast(function, ctypes.c_void_p).value
        self.lib.rl_bind_key(3, self.kept[2])
        self.waiting, self.names, self.rows, self.came, self.done = bytearray(), [], [], None, None

    def variable(self, name, kind):
        """A variable of the library."""
        return kind.in_dll(self.lib, name)

    def version(self):
        """The number of its version."""
        return self.variable("rl_library_version", ctypes.c_char_p).value.decode()

    def interrupt(self, _count, _key):
        """Lets the line go, as a program does that catches the signal of Ctrl-C."""
        self.came = "interrupted"
        self.variable("rl_done", ctypes.c_int).value = 1
        return 0

    def begin_key(self, name):
        """Gives it the bytes of a key."""
        if name != "Esc" or self.state.value & SEARCHING:
            self.waiting.extend(bytes_of(name))

    def is_done(self):
        """Whether a key whose bytes were taken is done."""
        return True

    def note(self):
        """Notes the line after a key."""
        text = ctypes.string_at(self.line.value, self.end.value)
        before, after = text[:self.point.value], text[self.point.value:]
        self.rows.append((before.decode(errors="replace"), after.decode(errors="replace"), self.came or ""))
        self.came = ""

    def byte(self, stream):
        """Gives the library its next byte. A fault ends the process, since the library can't hand it on."""
        try:
            return self.next_byte(stream)
        except Exception:
            traceback.print_exc()
            os._exit(3)

    def next_byte(self, _stream):
        """The next byte. When the library asks for more than a key has, the key is done."""
        while not self.waiting:
            if self.came is not None:
                if not self.is_done():
                    continue
                self.note()
            if not self.names:
                self.done()
            self.came = ""
            self.begin_key(self.names.pop(0))
        return self.waiting.pop(0)

    def play(self, history, names, done):
        """Plays a script with these lines in the history, the oldest first. At its end it calls `done`, which doesn't return."""
        self.names, self.done = names, done
        for line in history:
            self.lib.add_history(ctypes.create_string_buffer(line.encode()))
        while True:
            pointer = self.lib.readline(b"> ")
            if not pointer:
                self.rows.append(("", "", "closed"))
                done()
            text = ctypes.string_at(pointer)
            if not self.came:
                self.came = "=" + text.decode()
                if text:
                    self.lib.add_history(pointer)


class Alike(Readline):
    """Readline with habits of the line editor.

    - An undo takes back all characters that were typed side by side, and no others with them. It brings the cursor back to its place.
    - Alt-Y is one change, and Ctrl-T on a line of a single character is none.
    - The unfinished line comes back with its cursor. A line that was accepted brings all edited lines of the history back.
    - An incremental search goes from line to line, and each key that ends one finds the cursor at the end of the line that was found, or
      at its old place. Ctrl-C gives it up.
    """

    def __init__(self, settings=()):
        super().__init__(("set revert-all-at-newline on", *settings))
        self.undo = self.variable("rl_undo_list", ctypes.POINTER(UndoEntry))
        self.search = self.variable("_rl_iscxt", ctypes.POINTER(Search))
        self.length = self.variable("history_length", ctypes.c_int)
        # The cursor before each change, by the address of the newest entry of the undo list after it.
        self.points = {}
        # Whether a character was typed last, whether the search has found something, and the cursor in the line that it began with, and in the unfinished one.
        self.is_typing, self.has_found, self.began, self.left = False, False, 0, 0
        # The unfinished line, if a search began with it.
        self.began_with = None
        self.name, self.ending, self.before = "", None, None

    def top(self):
        """The address of the newest entry of the undo list, or 0."""
        return ctypes.cast(self.undo, ctypes.c_void_p).value or 0

    def set_top(self, address):
        """Makes another entry the newest one."""
        ctypes.cast(ctypes.byref(self.undo), ctypes.POINTER(ctypes.c_void_p))[0] = address or None

    def inserted(self):
        """The end of the newest entry, if it is an insertion."""
        return self.undo.contents.end if self.undo and self.undo.contents.what == INSERTION else 0

    def text(self):
        """The line as it is, in bytes."""
        return ctypes.string_at(self.line.value, self.end.value)

    def is_searching(self):
        """Whether an incremental search goes on."""
        return bool(self.state.value & SEARCHING)

    def pattern(self):
        """What an incremental search looks for."""
        return self.search.contents.pattern or b""

    def is_unfinished(self):
        """Whether the line is none of the history."""
        return self.lib.where_history() == self.length.value

    def keep(self):
        """Keeps what is there before a key."""
        self.before = Before(
            self.top(), self.inserted(), self.point.value, self.lib.where_history(), self.is_unfinished(), self.is_searching(), self.text(),
        )

    def begin_key(self, name):
        """Gives it a key. One that ends a search is held until the search has ended."""
        self.name, self.ending = name, None
        self.keep()
        if not self.is_searching():
            self.began, self.began_with = self.point.value, self.text() if self.is_unfinished() else None
            if name in ("C-r", "C-s") and self.is_unfinished():
                self.left = self.began
        else:
            if name == "C-c":
                self.waiting.extend(bytes_of("C-g"))
                return
            if len(name) > 1 and name not in GOES_ON:
                self.ending = name
                self.waiting.extend(bytes_of("Esc"))
                return
        super().begin_key(name)

    def is_done(self):
        """Whether a key is done. What differs is made alike then."""
        if self.ending:
            self.point.value = self.end.value if self.has_found else min(self.began, self.end.value)
            self.is_typing = self.is_typing and not self.has_found
            name, self.ending, self.has_found = self.ending, None, False
            self.keep()
            if name != "Esc":
                self.waiting.extend(bytes_of(name))
            return not self.waiting
        if self.is_searching():
            return self.is_line_searched()
        if self.came:
            self.is_typing = False
            self.points.clear()
        elif self.before.is_searching:
            self.is_typing = self.is_typing and not self.has_found
        else:
            self.make_alike()
        self.has_found = False
        return True

    def is_line_searched(self):
        """Whether a key of a search is done: it is given again if it found a further place in the same line."""
        if self.search.contents.flags & FOUND and self.pattern():
            if self.has_found and self.name in ("C-r", "C-s") and self.text() == self.before.text:
                self.waiting.extend(bytes_of(self.name))
                return False
            self.has_found = self.has_found or self.text() != self.began_with
        return True

    def make_alike(self):
        """Makes undo and cursor after a key as those of the line editor."""
        before, is_typed = self.before, len(self.name) == 1 or self.name == "SP"
        if self.name == "C-t" and len(before.text.decode()) < 2:
            self.set_top(before.top)
        elif is_typed or self.name in WRITES:
            self.join(is_typed and self.is_typing)
        if before.is_unfinished and not self.is_unfinished():
            self.left = before.point
        elif not before.is_unfinished and self.is_unfinished():
            self.point.value = self.left
        elif self.name == "C-_" and self.top() != before.top:
            self.point.value = self.points.get(before.top, self.point.value)
        elif self.top() not in (0, before.top) and self.lib.where_history() == before.place and self.name not in SHOWS:
            self.points[self.top()] = before.point
        if is_typed:
            self.is_typing = True
        elif self.name in GOES or self.top() != before.top:
            self.is_typing = False

    def join(self, is_same):
        """Makes one change of what a key did, or adds that to the change before, if it is of the same."""
        before, end = self.before, self.inserted()
        below = ctypes.cast(self.undo.contents.next, ctypes.c_void_p).value if self.undo else None
        if is_same and below and below == before.top:
            self.set_top(below)
            self.undo.contents.end = end
        elif not is_same and self.top() == before.top and end > before.inserted:
            self.undo.contents.end = before.inserted
            self.lib.rl_add_undo(INSERTION, before.inserted, end, None)
        else:
            self.join_all()

    def join_all(self):
        """Makes one change of the entries that a key added."""
        top, entry, count = self.before.top, self.undo, 0
        while entry and ctypes.cast(entry, ctypes.c_void_p).value != top:
            oldest, entry, count = entry, entry.contents.next, count + 1
        if count < 2 or self.undo.contents.what == END:
            return
        newest = self.top()
        self.set_top(top)
        self.lib.rl_add_undo(BEGINNING, 0, 0, None)
        oldest.contents.next = ctypes.cast(self.top(), ctypes.POINTER(UndoEntry))
        self.set_top(newest)
        self.lib.rl_add_undo(END, 0, 0, None)


def script_of(line):
    """The history and the keys of a script."""
    history, _, keys = line.partition("\t")
    return [text for text in history.split("/") if text], keys.split(" ")


def play_apart(readline, line, out):
    """Plays a script in a process of its own, so that it begins with nothing, and writes what comes of it."""
    child = os.fork()
    if child == 0:
        signal.alarm(SECONDS)

        def done():
            os.write(out, "".join("\t".join(row) + "\n" for row in readline.rows).encode())
            os._exit(0)

        try:
            readline.play(*script_of(line), done)
        finally:
            os._exit(1)
    if os.waitpid(child, 0)[1] != 0:
        os.write(out, b"\t\tfailed\n")
    os.write(out, b"\n")


def main():
    """Plays the scripts of standard input."""
    words = sys.argv[1:]
    readline = Readline(words[1:]) if words[:1] == ["plain"] else Alike(words)
    for line in sys.stdin.read().splitlines():
        play_apart(readline, line, sys.stdout.fileno())


if __name__ == "__main__":
    main()
