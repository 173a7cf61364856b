"""What a terminal shows of the example `repl`: screen.py PROGRAM. The terminal is tmux."""
import os
import subprocess
import sys
import tempfile
import time


class Tmux:
    """A program in a window of its own server."""

    def __init__(self, folder, columns, *words):
        self.folder = folder
        self.run("new-session", "-d", "-x", str(columns), "-y", "8", "-s", "it", *words)

    def run(self, *words):
        made = subprocess.run(["tmux", "-f", "/dev/null", "-S", f"{self.folder}/socket", *words], capture_output=True, text=True, check=True)
        return made.stdout

    def type(self, text, *keys):
        if text:
            self.run("send-keys", "-t", "it", "-l", text)
        for key in keys:
            self.run("send-keys", "-t", "it", key)

    def shown(self):
        """The rows that aren't empty, and the cursor's column."""
        rows = [row.rstrip() for row in self.run("capture-pane", "-t", "it", "-p").splitlines()]
        return [row for row in rows if row], int(self.run("display-message", "-t", "it", "-p", "#{cursor_x}"))

    def wait(self, rows, column):
        """Waits until the last rows are these, and the cursor is in a column."""
        end = time.time() + 10
        while True:
            now, at = self.shown()
            if now[-len(rows):] == rows and at == column:
                return
            if time.time() > end:
                sys.exit(f"the terminal must show {rows} with the cursor in column {column}, and shows {now} in {at}")
            time.sleep(0.02)


def play(program, folder):
    t = Tmux(folder, 40, program, f"{folder}/history")
    t.wait(["sum>"], 5)
    t.type("add 1 2", "Enter")
    t.wait(["sum> add 1 2", "2 numbers, 3 in all", "sum>"], 5)
    # The hint of the first name is behind the line, and the cursor in front of it.
    t.type("f")
    t.wait(["sum> forget"], 6)
    t.type("", "Tab", "Enter")
    t.wait(["sum> forget", "0 numbers, 0 in all", "sum>"], 5)
    # Characters of two columns, and a mark that has none.
    t.type("漢字e\u0301")
    t.wait(["sum> 漢字e\u0301"], 10)
    t.type("", "Left", "Left")
    t.wait(["sum> 漢字e\u0301"], 7)
    t.type("", "C-e", "C-u")
    t.wait(["sum>"], 5)
    # A second Tab lists all names below the line, and another key takes the list away.
    t.type("", "Tab", "Tab")
    t.wait(["sum>", "add     forget  help    sum"], 5)
    t.type("s")
    t.wait(["sum> sum"], 6)
    t.type("", "BSpace")
    # A long line takes two rows, and leaves the last column free.
    letters = "abcdefghij" * 6
    t.type(letters)
    t.wait(["0 numbers, 0 in all", f"sum> {letters[:34]}", letters[34:]], 26)
    t.type("", "Home")
    t.wait(["0 numbers, 0 in all", f"sum> {letters[:34]}", letters[34:]], 5)
    # In a wider window it is drawn anew from its first row on, and Ctrl-L leaves the line alone in it.
    t.run("resize-window", "-t", "it", "-x", "60", "-y", "8")
    t.wait(["0 numbers, 0 in all", f"sum> {letters[:54]}", letters[54:]], 5)
    t.type("", "C-l", "C-k")
    t.wait(["sum>"], 5)
    assert t.shown()[0] == ["sum>"], t.shown()
    t.type("", "C-d")
    end = time.time() + 10
    while subprocess.run(["tmux", "-S", f"{folder}/socket", "has-session", "-t", "it"], capture_output=True, check=False).returncode == 0:
        assert time.time() < end, "repl goes on after Ctrl-D"
        time.sleep(0.02)
    with open(f"{folder}/history", encoding="utf-8") as file:
        assert file.read() == "add 1 2\nforget\n"


with tempfile.TemporaryDirectory() as room:
    try:
        play(os.path.abspath(sys.argv[1]), room)
    finally:
        subprocess.run(["tmux", "-S", f"{room}/socket", "kill-server"], capture_output=True, check=False)
print("repl in tmux: shown as expected")
