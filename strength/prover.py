"""Checks of a crate with wrong bodies in it, and what the prover finds of each function."""
import collections
import functools
import importlib.machinery
import importlib.util
import json
import os
import re
import shutil
import subprocess
import sys
import tempfile
from typing import NamedTuple

import places

OPEN = re.compile(r"^note: (?:\./)?(src/\S+?:\d+):\d+: (it is not proved that .*)")
IN_PROOF = re.compile(r"^(?:\./)?proofs/(\S+)/(?:Answers|Invariants|Proof)\.antt:\d+:\d+: error: (.*)")
OF_FUNCTION = re.compile(r"^fn (\S+?): (.*)")
# What a proof says that only cites a name which isn't there any more, or rests on what was refused; and a line that goes on so if the names
# are long.
SAYS_LITTLE = re.compile(r"that depends on|has no field|is not in scope|has no `|was not admitted")
GOES_ON = re.compile(r"^  has no ")


@functools.lru_cache(maxsize=None)
def kit():
    """The kit's own library of commands: it knows how a crate is checked."""
    page = subprocess.run(["rt", "doc"], capture_output=True, text=True, check=True).stdout.strip()
    path = f"{os.path.dirname(page)}/bin/rtlib.py"
    loader = importlib.machinery.SourceFileLoader("rtlib", path)
    made = importlib.util.module_from_spec(importlib.util.spec_from_loader("rtlib", loader))
    sys.modules["rtlib"] = made
    loader.exec_module(made)
    return made


def crates(root):
    """The crates of a repository by their names, lowest first."""
    return {it.name: it for it in kit().crates_below(root)}


def texts_of(folder):
    """The texts of a crate's files, by their paths."""
    found = {}
    for part in ("src", "specs", "proofs"):
        for at, _, names in os.walk(f"{folder}/{part}"):
            for name in names:
                with open(f"{at}/{name}", encoding="utf-8") as it:
                    found[os.path.relpath(f"{at}/{name}", folder)] = it.read()
    return found


def check(crate, texts, flags, kept=""):
    """What a check of a copy of the crate says, with these texts as its files, and the processor seconds that it took. What was read and
    found before is taken from the folder `kept`, if one is named, and left there."""
    with tempfile.TemporaryDirectory(prefix="strength-") as room, tempfile.TemporaryFile() as said:
        for path, text in texts.items():
            os.makedirs(os.path.dirname(f"{room}/{path}"), exist_ok=True)
            with open(f"{room}/{path}", "w", encoding="utf-8") as it:
                it.write(text)
        words = [kit().RATTLE, "check", *crate.words(["--jobs", "1"], keeps=False), *flags]
        words += ["--incremental", kept] if kept else []
        process = subprocess.Popen(words, cwd=room, stdin=subprocess.DEVNULL, stdout=said, stderr=subprocess.STDOUT)
        _, status, used = os.wait4(process.pid, 0)
        process.returncode = os.waitstatus_to_exitcode(status)
        said.seek(0)
        return said.read().decode(errors="replace"), used.ru_utime + used.ru_stime


def check_only(crate, texts, names, kept=""):
    """What a check of these functions says, and of no other's proof, and the processor seconds that it took."""
    flags = [it for name in names for it in ("--only", name)]
    return check(crate, texts, flags or ["--only", ""], kept)


class Fault(NamedTuple):
    """What the prover finds wrong in a function: an open goal, or an error in its proof."""

    text: str
    is_goal: bool


def faults(answer, crate):
    """Each function's own faults by its name below the crate: its open goals, and errors in its proof that say something of it."""
    found, pending = collections.defaultdict(list), []
    lines = answer.split("\n")
    for line, next_line in zip(lines, [*lines[1:], ""]):
        opened, proof, function = OPEN.match(line), IN_PROOF.match(line), OF_FUNCTION.match(line)
        if opened:
            pending.append(Fault(f"{opened[1]}: {opened[2]}", True))
        elif proof and not SAYS_LITTLE.search(proof[2]) and not GOES_ON.match(next_line):
            # The folder of a recursive function has a + before its name.
            found[proof[1].replace("/+", "/").replace("/", "::")].append(Fault(proof[2], False))
        elif function:
            # A function's open goals are right above its line.
            found[function[1].removeprefix(f"{crate}::")] += pending
            pending = []
    return found


def names_of(crate):
    """The names of a crate's functions below it, as the code of its built library has them. An archive leaves no library: its sources name
    them."""
    if crate.is_static:
        return places.names_in(texts_of(crate.folder))
    try:
        with open(f"{crate.rlib}/toolchain/mir.json", encoding="utf-8") as it:
            found = [name for name, *_ in json.load(it)]
    except FileNotFoundError:
        raise SystemExit(f"{crate.name} isn't built: `rt ci` builds it") from None
    # A trait's function without a body isn't proved.
    return [it.removeprefix(f"{crate.name}::") for it in found if not it.endswith("+decl")]
