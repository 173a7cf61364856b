"""Runs an example under a terminal of 24 x 80 with keys in turn, over crossterm and over the shim, and compares all bytes.

drive.py BUILD NAME KEY..: the key `@resize` is a resize to 20 x 70. An example that doesn't end is killed after 5 s, and reported as such.
"""
import fcntl
import hashlib
import os
import pty
import re
import select
import signal
import struct
import sys
import termios
import time


def drain(fd, seconds, out):
    end = time.time() + seconds
    while time.time() < end:
        if not select.select([fd], [], [], 0.05)[0]:
            continue
        try:
            data = os.read(fd, 65536)
        except OSError:
            return False
        if not data:
            return False
        out += data
    return True


def status_of(pid, fd, out):
    """How the program ended, or `killed`."""
    for _ in range(50):
        ended, status = os.waitpid(pid, os.WNOHANG)
        if ended:
            return status
        if not drain(fd, 0.1, out):
            time.sleep(0.1)
    os.kill(pid, signal.SIGKILL)
    os.waitpid(pid, 0)
    return "killed"


def resize(fd, rows, columns):
    fcntl.ioctl(fd, termios.TIOCSWINSZ, struct.pack("HHHH", rows, columns, 0, 0))


def run(program, keys):
    pid, fd = pty.fork()
    if pid == 0:
        time.sleep(0.1)
        os.environ["TERM"] = "xterm-256color"
        os.environ.pop("NO_COLOR", None)
        os.execv(program, [program])
    resize(fd, 24, 80)
    out = bytearray()
    drain(fd, 0.8, out)
    for key in keys:
        if key == b"@resize":
            resize(fd, 20, 70)
        else:
            os.write(fd, key)
        if not drain(fd, 0.25, out):
            break
    drain(fd, 0.3, out)
    return bytes(out), status_of(pid, fd, out)


def in_older_shape(out):
    """Sets of flags as 0.25 shows them by `{:?}`: `SHIFT | ALT` and `NONE` are `KeyModifiers(SHIFT | ALT)` and `KeyModifiers(0x0)` in 0.29."""
    out = re.sub(rb"Key(?:Modifiers|EventState)\(0x0\)", b"NONE", out)
    return re.sub(rb"Key(?:Modifiers|EventState)\(([A-Z_ |]+)\)", rb"\1", out)


build, name = sys.argv[1:3]
keys = [key.encode().decode("unicode_escape").encode("latin1") if "\\" in key else key.encode() for key in sys.argv[3:]]
ran = []
for kind in ("crossterm", "shim"):
    out, status = run(f"{build}/{kind}-target/debug/{name}", keys)
    out = in_older_shape(out)
    ran.append((out, status))
    print(name, kind, len(out), "bytes", hashlib.sha256(out).hexdigest()[:16], "status", status)
if ran[0] != ran[1] or len(ran[0][0]) < 20:
    for kind, (out, _) in zip(("crossterm", "shim"), ran):
        with open(f"{build}/{name}.{kind}", "wb") as file:
            file.write(out)
    sys.exit(f"they differ: {build}/{name}.crossterm and .shim")
