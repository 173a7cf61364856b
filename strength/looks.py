"""How cells look: styles by the names of colours and attributes, as docs/FORMATS.md has it ("How output looks"), and styles as tmux prints them.

A style is a dictionary of what differs from the plain one. What tmux can't show is left out of a comparison by `seen`:

- it has no Fraktur, no frame and no circle, and one kind of blinking;
- it reads 21 as a double underline, so `NoBold` is in no list here.
"""
import re

NAMED = ["black", "dark_red", "dark_green", "dark_yellow", "dark_blue", "dark_magenta", "dark_cyan", "grey",
         "dark_grey", "red", "green", "yellow", "blue", "magenta", "cyan", "white"]
ON = {"Bold": "bold", "Dim": "dim", "Italic": "italic", "Reverse": "reverse", "Hidden": "hidden", "CrossedOut": "crossed_out",
      "Fraktur": "fraktur", "Framed": "framed", "Encircled": "encircled", "OverLined": "overlined"}
UNDERLINES = {"Underlined": "straight", "DoubleUnderlined": "double", "Undercurled": "curled", "Underdotted": "dotted",
              "Underdashed": "dashed"}
BLINKS = {"SlowBlink": "slow", "RapidBlink": "rapid"}
OFF = {"NormalIntensity": ["bold", "dim"], "NoItalic": ["italic", "fraktur"], "NoUnderline": ["underline"], "NoBlink": ["blink"],
       "NoReverse": ["reverse"], "NoHidden": ["hidden"], "NotCrossedOut": ["crossed_out"], "NotFramedOrEncircled": ["framed", "encircled"],
       "NotOverLined": ["overlined"]}
# In declared order, but for NoBold.
ATTRIBUTES = ["Reset", "Bold", "Dim", "Italic", *UNDERLINES, *BLINKS, "Reverse", "Hidden", "CrossedOut", "Fraktur", "NormalIntensity",
              "NoItalic", "NoUnderline", "NoBlink", "NoReverse", "NoHidden", "NotCrossedOut", "Framed", "Encircled", "OverLined",
              "NotFramedOrEncircled", "NotOverLined"]
UNSEEN = ["fraktur", "framed", "encircled"]


# ---- what commands paint, by their names

def attribute(style, name):
    if name == "Reset":
        return {}
    if name in ON:
        return {**style, ON[name]: True}
    if name in UNDERLINES:
        return {**style, "underline": UNDERLINES[name]}
    if name in BLINKS:
        return {**style, "blink": BLINKS[name]}
    return {key: it for key, it in style.items() if key not in OFF[name]}


def colored(style, is_on, place, color):
    if not is_on:
        return {}
    if color == "reset":
        return {key: it for key, it in style.items() if key != place}
    kind, _, value = color.partition(":")
    named = NAMED[int(value)] if kind == "ansi" and int(value) < 16 else color
    return {**style, place: named}


def styled(style, is_on, fields):
    """A style that is set: background, foreground, underline colour, attributes."""
    for place in ["background", "foreground", "underline_color"]:
        if fields[place] != "-":
            style = colored(style, is_on, place, fields[place])
    for name in ATTRIBUTES:
        if name in fields["attributes"]:
            style = attribute(style, name)
    return style


# ---- what tmux shows

def told(style, parameters):
    """A style after the SGR that tmux writes of a cell."""
    fields = parameters.replace(":", ";:").split(";") if parameters else ["0"]
    at = 0
    while at < len(fields):
        n = int(fields[at] or 0)
        kind = fields[at + 1][1:] if at + 1 < len(fields) and fields[at + 1].startswith(":") else None
        place = {38: "foreground", 48: "background", 58: "underline_color"}.get(n)
        if place:
            numbers = [int(it.lstrip(":")) for it in fields[at + 1:] if it.lstrip(":")]
            taken = 2 if numbers[0] == 5 else 4
            style = {**style, place: name_of(numbers[1]) if numbers[0] == 5 else "rgb:" + ",".join(map(str, numbers[1:4]))}
            skipped = 0
            while taken:
                skipped += 1
                taken -= 1 if fields[at + skipped].lstrip(":") else 0
            at += skipped
        elif n == 4:
            style = {**style, "underline": {None: "straight", "2": "double", "3": "curled", "4": "dotted", "5": "dashed"}[kind]}
            at += kind is not None
        elif n == 5 and kind == "3":
            # tmux 3.3 writes 53 so
            style, at = {**style, "overlined": True}, at + 1
        elif n == 0:
            style = {}
        elif 30 <= n <= 37 or 40 <= n <= 47 or 90 <= n <= 97 or 100 <= n <= 107:
            place = "foreground" if n // 10 in (3, 9) else "background"
            style = {**style, place: NAMED[n % 10 + (8 if n >= 90 else 0)]}
        elif n in (39, 49, 59):
            gone = {39: "foreground", 49: "background", 59: "underline_color"}[n]
            style = {key: it for key, it in style.items() if key != gone}
        else:
            key, it = {1: ("bold", True), 2: ("dim", True), 3: ("italic", True), 5: ("blink", "some"), 7: ("reverse", True),
                       8: ("hidden", True), 9: ("crossed_out", True), 53: ("overlined", True)}[n]
            style = {**style, key: it}
        at += 1
    return style


def name_of(n):
    return NAMED[n] if n < 16 else f"ansi:{n}"


def cells_of(row, style):
    """The cells of a row, and the style after it: tmux prints only what changes, from one row to the next too."""
    cells = []
    for sequence, character in re.findall(r"\x1b\[([0-9;:]*)m|([^\x1b])", row):
        if character:
            cells.append((character, style))
        else:
            style = told(style, sequence)
    return cells, style


def seen(cell):
    """A painted cell as tmux can show it."""
    character, style = cell
    style = {key: it for key, it in style.items() if key not in UNSEEN}
    return character, {**style, "blink": "some"} if "blink" in style else style
