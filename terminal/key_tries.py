"""How `keys` does in a terminal."""
import contextlib
import tempfile
import time

from debug_lines import lines, rows_in
from pseudo import WITH, Terminal, Wrong, equal, program, tmux


BINDINGS = """g = go
g g = top
a b c = three
b = second
ctrl-x ctrl-s = save
ctrl-x ctrl-c = quit
alt-x f5 = again
"""


def unbound(*chords):
    return [f"{chord} isn't bound" for chord in chords]


# What is typed at `keys`, the lines that it shows for it, and the keys that it shows waiting.
CUTS = [
    (b'gg', ['top'], ''),
    (b'g', [], 'g'),
    (b'x', ['go', *unbound('x')], ''),
    (b'ab', [], 'a b'),
    (b'c', ['three'], ''),
    (b'abd', [*unbound('a'), 'second', *unbound('d')], ''),
    (b'\x18\x13', ['save'], ''),
    (b'\x18q', unbound('ctrl-x', 'q'), ''),
    (b'\x1bx', [], 'alt-x'),
    (b'\x1b[15~', ['again'], ''),
    (b'\x1b[1;2C', unbound('shift-right'), ''),
    ('G\u00e9 '.encode(), unbound('G', '\u00e9', 'space'), ''),
    (b'gggggb', ['top', 'top', 'go', 'second'], ''),
]


@contextlib.contextmanager
def keys(bindings=None, answers=True):
    """`keys` in a terminal, with the bindings of a file or with its own, once it has asked what the terminal can."""
    with tempfile.NamedTemporaryFile('w') as file:
        file.write(bindings or '')
        file.flush()
        terminal = Terminal(f'{WITH} {program("keys")} {file.name if bindings else ""}', answers)
        before = terminal.mode()
        try:
            terminal.until(b'\x1b[?u\x1b[c')
            yield terminal
            equal('status', terminal.end(), 0)
            equal('mode after the end', terminal.mode(), before)
            terminal.none_left()
        finally:
            terminal.close()


def keys_shown(terminal, start):
    """The lines that `keys` shows, and the keys that it shows waiting: what is behind the last time that a row was cleared."""
    rows = [row.rpartition('\x1b[K')[2] for row in terminal.out[start:].decode().split('\r\n')]
    return rows[:-1], rows[-1].strip()


def expect_keys(terminal, data, want, waiting):
    """Types something, and compares what is shown for it."""
    start = len(terminal.out)
    terminal.send(data)
    end = time.time() + 5
    while keys_shown(terminal, start) != (want, waiting) and time.time() < end:
        terminal.read(0.05)
    terminal.read(0.05)
    equal(f'typed {data!r}', keys_shown(terminal, start), (want, waiting))


def keys_are_cut():
    with keys(BINDINGS) as terminal:
        for data, want, waiting in CUTS:
            expect_keys(terminal, data, want, waiting)
        terminal.send(b'\x04')
    for data, last in ((b'\x1b', unbound('esc')), (b'\x03', unbound('ctrl-c')), (b'\x04', unbound('ctrl-d')), (b'\x18\x03', ['quit'])):
        with keys() as terminal:
            start = len(terminal.out)
            terminal.send(data)
            terminal.until(last[0].encode())
        equal(f'ended by {data!r}', keys_shown(terminal, start), (last, ''))


def keys_wait_a_second():
    """A pause within the limit, and longer ones: then the keys before it count by themselves."""
    with keys() as terminal:
        expect_keys(terminal, b'g', [], 'g')
        start = time.time()
        terminal.until(b'go\r\n', 3)
        if not 0.5 < time.time() - start < 2:
            raise Wrong(f'the limit was {time.time() - start:.1f} s')
        expect_keys(terminal, b'g', [], 'g')
        time.sleep(0.5)
        expect_keys(terminal, b'g', ['top'], '')
        expect_keys(terminal, b'g', [], 'g')
        time.sleep(1.5)
        expect_keys(terminal, b'g', ['go'], 'g')
        expect_keys(terminal, b'\x18', ['go'], 'ctrl-x')
        terminal.until(b"ctrl-x isn't bound", 3)
        terminal.send(b'\x04')


def keys_pass_releases():
    """A terminal that reports releases and modifier keys: they break no sequence, and a focus report ends one."""
    with keys(answers=False) as terminal:
        terminal.send(b'\x1b[?1u\x1b[?62c')
        terminal.until(b'\x1b[>3u')
        expect_keys(terminal, b'\x1b[57442;5u\x1b[120;5u\x1b[120;5:3u\x1b[57442;1:3u', [], 'ctrl-x')
        expect_keys(terminal, b'\x1b[57442;5u\x1b[115;5u\x1b[115;5:3u\x1b[57442;1:3u', ['save'], '')
        expect_keys(terminal, b'g\x1b[103;1:3ug\x1b[103;1:3u', ['top'], '')
        expect_keys(terminal, b'g\x1b[I', ['go'], '')
        terminal.send(b'\x1b[27u')
        terminal.until(b'\x1b[<1u')


def keys_tell_bad_lines():
    with keys('x\ncontrol-x = one\n\nctrl-foo = two\n= three\ng g = four\ng  g = five\n') as terminal:
        want = [
            'no action', 'a chord with an unknown modifier', 'a chord with an unknown key', 'no chord to bind', 'the same chords are bound',
        ]
        rows = [f'line {number}: {fault}' for number, fault in zip((1, 2, 4, 5, 7), want)]
        equal('bad lines', lines(terminal.out)[:5], rows)
        expect_keys(terminal, b'gg', ['four'], '')
        terminal.send(b'\x04')
    terminal = Terminal(f'{WITH} {program("keys")} /dev/null/none')
    try:
        equal('status without a file', terminal.end(), 1)
        terminal.none_left()
    finally:
        terminal.close()


def keys_in_tmux():
    with tmux('keys') as run:
        run('send-keys', '-t', 't', 'C-x', 'C-s', 'g', 'g', 'M-x', 'F5', 'g')
        time.sleep(1.5)
        run('send-keys', '-t', 't', 'g', 'C-x')
        time.sleep(0.3)
        want = ['save', 'top', *unbound('alt-x', 'f5'), 'go', 'go']
        equal('in tmux', rows_in(run), [*want, 'ctrl-x'])
        run('send-keys', '-t', 't', 'C-c')
        time.sleep(1)
        equal('in tmux', rows_in(run), [*want, 'quit', 'ended 0'])


TRIES = [keys_are_cut, keys_wait_a_second, keys_pass_releases, keys_tell_bad_lines]
IN_TMUX = [keys_in_tmux]
