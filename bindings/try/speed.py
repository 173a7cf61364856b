"""Prints what events and commands cost a program: instructions by callgrind, and nanoseconds.

speed.py NAME=PROGRAM.. [--only WORD]: of each program, which is `speed` over a crate crossterm, and of the others as a part of the first.

An event's instructions are the difference of two runs, one with twice the blocks; its nanoseconds, the processor's, are the least of five.
"""
import argparse
import os
import pty
import re
import resource
import select
import shutil
import subprocess
import sys
import tempfile

# How a unit of each kind looks, by its number, and how many are in a block: fewer bytes than a program reads at once.
KINDS = {
    "letters": (lambda k: bytes([97 + k % 26]), 500),
    "utf8": (lambda k: chr(0xE0 + k % 90).encode(), 400),
    "keys": (lambda k: b"\x1b[1;%d%c" % (2 + k % 7, b"ABCDHF"[k % 6]), 150),
    "mouse": (lambda k: b"\x1b[<%d;%d;%dM" % (k % 3, 1 + k % 200, 1 + k % 60), 70),
    "a key alone": (lambda k: b"\x1b[A", 1),
}
WAYS = [(way, kind) for way in ("read", "poll", "stream") for kind in KINDS]
COMMANDS = {"plain": 5, "styled": 2, "execute": 2, "stdout": 5}


def play(words, kind, blocks):
    """Runs a program in a terminal of its own, and sends it so many blocks, each when it asks for one. Returns its processor time in seconds."""
    unit, size = KINDS[kind]
    block = b"".join(unit(k) for k in range(size))
    master, slave = pty.openpty()
    before = resource.getrusage(resource.RUSAGE_CHILDREN)
    process = subprocess.Popen([*words, str(blocks), str(size)], stdin=slave, stdout=slave, stderr=subprocess.DEVNULL, start_new_session=True)
    try:
        answer(master, block, blocks)
        if process.wait(60) != 0:
            sys.exit(f"{words} ended with {process.returncode}")
    finally:
        # crossterm goes on for ever if its terminal is gone.
        process.kill()
        os.close(slave)
        os.close(master)
    after = resource.getrusage(resource.RUSAGE_CHILDREN)
    return after.ru_utime + after.ru_stime - before.ru_utime - before.ru_stime


def answer(master, block, blocks):
    """Writes a block for each byte that asks for one."""
    asked = 0
    while asked < blocks:
        if not select.select([master], [], [], 60)[0]:
            sys.exit(f"the program stopped at block {asked} of {blocks}")
        for _ in range(os.read(master, 4096).count(b".")):
            asked += 1
            os.write(master, block)


def instructions(run):
    """The instructions of a run, to which the words are given that are put in front of the program's."""
    with tempfile.NamedTemporaryFile(suffix=".callgrind") as file:
        run(["valgrind", "--tool=callgrind", f"--callgrind-out-file={file.name}"])
        return int(re.search(r"^(?:summary|totals): (\d+)", open(file.name, encoding="utf-8").read(), re.M)[1])


def of_events(program, way, kind):
    """What an event costs: instructions, if they are counted here, and nanoseconds."""
    size = KINDS[kind][1]
    blocks = max(20, 4000 // size)
    counted = None
    if shutil.which("valgrind"):
        once, twice = (instructions(lambda front, n=n: play([*front, program, way], kind, n * blocks)) for n in (1, 2))
        counted = (twice - once) / (blocks * size)
    many = max(400, 100_000 // size)
    once, twice = (min(play([program, way], kind, n * many) for _ in range(5)) for n in (1, 2))
    return counted, (twice - once) * 1e9 / (many * size)


def of_commands(program, what):
    counted = None
    if shutil.which("valgrind"):
        once, twice = (instructions(lambda front, n=n: subprocess.run([*front, program, what, str(n)], check=True, capture_output=True)) for n in (20, 40))
        counted = (twice - once) / (20 * 200 * COMMANDS[what])
    return counted, min(float(subprocess.run([program, what, "3000"], check=True, capture_output=True).stderr) for _ in range(5))


def row(label, found):
    """A line: of the first program both numbers, of each other one what part of these it needs."""
    parts = []
    for place, (counted, time) in enumerate(found):
        first = found[0]
        shown = f"{counted:7.0f} {time:7.1f} ns" if counted is not None else f"{time:7.1f} ns"
        if place:
            shown += f" ({counted / first[0]:.2f}, {time / first[1]:.2f})" if counted is not None else f" ({time / first[1]:.2f})"
        parts.append(shown)
    print(f"{label:22}" + "   ".join(f"{it:32}" for it in parts), flush=True)


def main():
    said = argparse.ArgumentParser(description=__doc__)
    said.add_argument("programs", nargs="+")
    said.add_argument("--only", default="")
    asked = said.parse_args()
    programs = [it.split("=", 1) for it in asked.programs]
    print(f"{'':22}" + "   ".join(f"{name:32}" for name, _ in programs))
    for way, kind in WAYS:
        if asked.only in f"{way} {kind}":
            row(f"{way}: {kind}", [of_events(program, way, kind) for _, program in programs])
    for what in COMMANDS:
        if asked.only in what:
            row(f"commands: {what}", [of_commands(program, what) for _, program in programs])


if __name__ == "__main__":
    main()
