"""What a key of a line costs, in instructions and in bytes that are written: cost.py NAME=PROGRAM..

Each program asks for lines until Ctrl-D. A line of some letters is there in one write; then keys are typed, each alone. The numbers are the difference
of a run with 40 keys and one with 20.
"""
import fcntl
import os
import pty
import re
import select
import struct
import subprocess
import sys
import tempfile
import termios
import time

KINDS = {
    "a letter at the end": (b"", [b"x"]),
    "a letter in front": (b"\x01", [b"x"]),
    "Left, Right": (b"\x1b[D", [b"\x1b[D", b"\x1b[C"]),
}


def size(fd):
    fcntl.ioctl(fd, termios.TIOCSWINSZ, struct.pack("HHHH", 24, 80, 0, 0))


def take(fd, first, rest=0.03):
    """How many bytes come, the first of them within a time."""
    count = 0
    while select.select([fd], [], [], rest if count else first)[0]:
        try:
            count += len(os.read(fd, 65536))
        except OSError:
            break
    return count


def play(argv, writes):
    """How many bytes a program writes in a terminal after each write is answered."""
    master, slave = pty.openpty()
    size(slave)
    program = subprocess.Popen(argv, stdin=slave, stdout=slave, stderr=subprocess.DEVNULL, start_new_session=True,
                               preexec_fn=lambda: fcntl.ioctl(0, termios.TIOCSCTTY, 0), env={**os.environ, "TERM": "xterm"})
    take(master, 20, 0.5)
    count = 0
    for data in writes:
        os.write(master, data)
        count += take(master, 5)
    os.write(master, b"\r")
    take(master, 5, 0.2)
    os.write(master, b"\x04")
    end = time.time() + 10
    while program.poll() is None and time.time() < end:
        take(master, 0.05)
    program.kill()
    assert program.wait() == 0, f"{argv[-1]} didn't end"
    os.close(master)
    os.close(slave)
    return count


def counted(program, writes):
    """Instructions and bytes."""
    with tempfile.NamedTemporaryFile() as file:
        count = play(["valgrind", "--tool=callgrind", f"--callgrind-out-file={file.name}", program], writes)
        with open(file.name, encoding="utf-8") as text:
            return int(re.search(r"^(?:summary|totals): (\d+)", text.read(), re.M)[1]), count


programs = [word.split("=", 1) for word in sys.argv[1:]]
for name, program in programs:
    print(f"{name}: {os.path.getsize(program)} bytes; {counted(program, [])[0]} instructions for one empty line and the end", flush=True)
for length in (10, 60, 1000):
    for kind, (before, keys) in KINDS.items():
        parts = []
        for name, program in programs:
            begin = [b"y" * 500] * (length // 500) + [b"y" * (length % 500)] * bool(length % 500) + [before] * bool(before)
            (few, little), (many, much) = (counted(program, begin + (keys * 40)[:times]) for times in (20, 40))
            parts.append(f"{name} {(many - few) / 20:.0f} instructions, {(much - little) / 20:.1f} bytes")
        print(f"{length:4} letters, {kind}: {'; '.join(parts)}", flush=True)
