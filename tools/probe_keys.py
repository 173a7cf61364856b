"""Random bindings and letters for `probe keys`, and what comes of them by a slow cutter.

The longest bound list wins, and a key of no list goes through. What some keys leave open, since a longer list begins with them, waits for the
next key or for the end of the input. `check` plays these sets with the rows of probe, by tools/probe_rows.py.
"""
import random
from typing import NamedTuple

SEED = 20261124
# So many sets, and inputs of each.
SETS, INPUTS = 64, 200
# The lists of the first sets. Those of the others are drawn.
CHOSEN = (["aab", "ab", "b"], ["gg", "g"], ["aaaaaaaa", "aaa", "b"], ["abcab", "bc", "cabc", "ab"])
# How many letters an input has at most.
LETTERS = 12
# A release shows what was given before it, if the matcher passes it on. A size ends an input.
RELEASE, RELEASED = b"\x1b[46;1:3u", "key Char:2e 0 Release 0"
END = "resize 80 24"


class Set(NamedTuple):
    """Bound lists by their letters, inputs of letters, and whether the matcher passes releases on."""

    lists: list
    inputs: list
    passes: bool


def lists_of(draw, number):
    """The lists of a set: of three letters at most, so that they overlap."""
    if number < len(CHOSEN):
        return CHOSEN[number]
    letters = "abc"[: draw.randint(1, 3)]
    return [*dict.fromkeys("".join(draw.choices(letters, k=draw.randint(1, 8))) for _ in range(draw.randint(1, 6)))]


def letters_of(draw, lists):
    """Letters of an input: lists, beginnings of lists, and a letter of no list."""
    parts = [draw.choice([*lists, "x"]) for _ in range(LETTERS)]
    text = "".join(it[: draw.randint(1, len(it))] if draw.randrange(2) else it for it in parts)
    return text[: draw.randint(0, LETTERS)]


def sets():
    """All sets, always the same. Every second matcher passes releases on."""
    draw, found = random.Random(SEED), []
    for number in range(SETS):
        lists = lists_of(draw, number)
        found += [Set(lists, [letters_of(draw, lists) for _ in range(INPUTS)], passes) for passes in (False, True)]
    return found


def cut(lists, letters, is_whole):
    """The outcomes of some letters, or those that no further letter can change."""
    found = []
    while letters and (is_whole or not any(len(letters) < len(it) and it.startswith(letters) for it in lists)):
        longest = max((it for it in lists if letters.startswith(it)), key=len, default="")
        found.append(f"action {longest}" if longest else f"key Char:{ord(letters[0]):x} 0 Press 0")
        letters = letters[len(longest) or 1 :]
    return found


def lines_of(drawn, letters):
    """The lines that come of an input. The release behind each letter is passed on after what is decided by then."""
    found, count = [], 0
    for place in range(1, len(letters) + 1) if drawn.passes else ():
        given = cut(drawn.lists, letters[:place], False)
        found += [*given[count:], RELEASED]
        count = len(given)
    return [*found, *cut(drawn.lists, letters, True)[count:], END]


def acts_of(drawn, letters):
    """The acts of an input: all letters and their releases in one piece, or each letter in its own."""
    pieces = [it.encode() + RELEASE * drawn.passes for it in letters]
    pieces = [b"".join(pieces)] if drawn.passes and pieces else pieces
    return [*(f"piece {it.hex()}" for it in pieces), END]


def given_of(drawn):
    """What `probe keys` reads of a set."""
    found = ["passing"] * drawn.passes
    found += [f"bind {it} {','.join(f'Char:{ord(letter):x}/0' for letter in it)}" for it in drawn.lists]
    for letters in drawn.inputs:
        found += acts_of(drawn, letters)
    return "".join(f"{it}\n" for it in found).encode()


def fault_in(drawn, out):
    """The first input of a set whose lines aren't those of its cut, or nothing."""
    parts = out.decode(errors="replace").split(f"{END}\n")
    for letters, part in zip(drawn.inputs, parts):
        want, came = lines_of(drawn, letters), [*part.splitlines(), END]
        if want != came:
            return f"{letters!r} must be cut into {want}\n    and was cut into {came}"
    is_over = len(parts) == len(drawn.inputs) + 1 and parts[-1] == "fault UnexpectedEof\n"
    return "" if is_over else f"it ends with {out[-100:]!r}"
