"""The lines that `events`, `stream` and their like show: each event by its Debug."""
import time

from pseudo import equal

NONE, SHIFT, CONTROL, ALT = '0x0', 'SHIFT', 'CONTROL', 'ALT'


def lines(text):
    return [line for line in text.decode('utf8', 'replace').replace('\r', '').split('\n') if line]


def key(code, modifiers=NONE):
    return (f'Key(KeyEvent {{ code: {code}, modifiers: KeyModifiers({modifiers}), kind: Press, '
            f'state: KeyEventState(0x0) }})')


def mouse(kind, column, row, modifiers=NONE):
    return f'Mouse(MouseEvent {{ kind: {kind}, column: {column}, row: {row}, modifiers: KeyModifiers({modifiers}) }})'


def shown_from(terminal, start):
    return [line for line in lines(terminal.out[start:]) if line != '.']


def expect_lines(terminal, data, want, pieces=None):
    """Types something, whole or in pieces, and compares the lines that come."""
    start = len(terminal.out)
    for piece in pieces or [data]:
        terminal.send(piece)
        if pieces:
            terminal.read(0.03)
    end = time.time() + 5
    while len(shown_from(terminal, start)) < len(want) and time.time() < end:
        terminal.read(0.05)
    terminal.read(0.05)
    equal(f'typed {data[:40]!r}', shown_from(terminal, start), want)


def rows_in(run, *words):
    """The rows of tmux's screen without those that are empty, or have a dot alone."""
    rows = run('capture-pane', '-t', 't', '-p', *words).decode().split('\n')
    return [row.rstrip() for row in rows if row.strip() not in ('', '.')]
