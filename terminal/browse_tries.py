"""How `browse` does in a terminal, and `edit` and it in a window without a size."""
import os
import re
import signal
import tempfile
import time

from debug_lines import rows_in
from pseudo import WITH, Terminal, Wrong, equal, program, tmux


LISTED = ['CBT', 'CHA', 'CHT', 'CNL', 'CPL', 'CUB', 'CUD', 'CUF', 'CUP', 'CUU', 'CVT', 'VPA']


def browse_here():
    """The bytes of a key: two rows change, and nothing else is written. Then the end, and a signal."""
    for ends in (b'\x1b', None):
        terminal = Terminal(f'{WITH} {program("browse")}')
        before = terminal.mode()
        try:
            terminal.until(b'8.3.158')
            terminal.until(b'\x1b[?2026l')
            start = len(terminal.out)
            terminal.send(b'\x1b[B')
            terminal.until(b'\x1b[?2026l', times=terminal.out.count(b'\x1b[?2026l') + 1)
            equal('two rows', terminal.out[start:],
                  b'\x1b[?2026h\x1b[2;2H\x1b[0mCBT  cursor backward tabulation   8.3.7\x1b[3;2H\x1b[0m\x1b[7m'
                  b'CHA  cursor character absolute    8.3.9\x1b[0m\x1b[?25l\x1b[?2026l')
            if ends:
                terminal.send(ends)
                equal('status', terminal.end(), 0)
                equal('end', terminal.out.endswith(b'\x1b[?1000l\x1b[?25h\x1b[?1049l'), True)
            else:
                pid = max(p for p, line in terminal.descendants() if line.split(' ')[0].endswith('out/example'))
                os.kill(pid, signal.SIGTERM)
                equal('status', terminal.end(), 128 + signal.SIGTERM)
                equal('the screen is put back', b'\x1b[?1049l' in terminal.out, True)
            equal('mode after the end', terminal.mode(), before)
            terminal.none_left()
        finally:
            terminal.close()


def window_without_a_size():
    """A window of 0 by 0 counts as what `tput` says, 80 by 24."""
    for name, typed, shown in (('edit', b'abc\x03', b'abc'), ('browse', b'\x1b', '\x1b[13;1H│VPA'.encode())):
        terminal = Terminal(f'{WITH} {program(name)}', size=(0, 0))
        try:
            terminal.until({'edit': b'> ', 'browse': b'CBT'}[name])
            terminal.send(typed)
            equal(f'status of {name}', terminal.end(), 0)
            if shown not in terminal.out:
                raise Wrong(f'{name} shows {terminal.out[-600:]!r}')
            terminal.none_left()
        finally:
            terminal.close()


def window_of_no_known_size():
    """A window of 0 by 0 if `tput` fails: the error says that no size is known."""
    with tempfile.TemporaryDirectory() as folder:
        with open(f'{folder}/tput', 'w', encoding='utf-8') as file:
            file.write('#!/bin/sh\nexit 1\n')
        os.chmod(f'{folder}/tput', 0o755)
        terminal = Terminal(f'{WITH} {program("browse")}', size=(0, 0), path=folder)
        try:
            equal('status', terminal.end(), 1)
            said = b"the terminal's helper failed: no size is known"
            equal(f'{said!r} in {terminal.out!r}', said in terminal.out, True)
            terminal.none_left()
        finally:
            terminal.close()


def browsed(run):
    """The rows within the border of tmux's screen by their first words, and those that are reversed."""
    rows = run('capture-pane', '-t', 't', '-p', '-e').decode().rstrip('\n').split('\n')[1:-1]
    plain = [re.sub(r'\x1b\[[0-9;]*m', '', row).strip('│').split(' ')[0] for row in rows]
    return [it for it in plain if it], [at for at, row in enumerate(rows) if '\x1b[7m' in row]


def browse_in_tmux():
    """Keys, the wheel, a click, and windows of other sizes: too low for the list, too narrow, of one cell, and higher again."""
    with tmux('browse') as run:
        def expect(what, rows, *chosen):
            end = time.time() + 5
            while browsed(run) != (rows, [*chosen]) and time.time() < end:
                time.sleep(0.05)
            equal(what, browsed(run), (rows, [*chosen]))

        def resize(columns, rows):
            run('resize-window', '-t', 't', '-x', str(columns), '-y', str(rows))

        expect('the first frame', LISTED, 0)
        for keys_, chosen in ((['Down', 'Down'], 2), (['Up'], 1), (['End'], 11), (['Down'], 11), (['Home'], 0), (['Up'], 0)):
            run('send-keys', '-t', 't', *keys_)
            expect(keys_, LISTED, chosen)
        for bytes_, chosen in (('\x1b[<0;5;10M', 8), ('\x1b[<65;5;10M', 9), ('\x1b[<64;5;10M', 8), ('\x1b[<0;5;1M', 8)):
            run('send-keys', '-l', '-t', 't', bytes_)
            expect(bytes_, LISTED, chosen)
        resize(60, 7)
        expect('5 rows', LISTED[4:9], 4)
        run('send-keys', '-t', 't', 'End')
        expect('5 rows, the last', LISTED[7:], 4)
        run('send-keys', '-l', '-t', 't', '\x1b[<0;5;3M')
        expect('5 rows, a click', LISTED[7:], 1)
        run('send-keys', '-t', 't', 'Up', 'Up')
        expect('5 rows, one up', LISTED[6:11], 0)
        resize(5, 7)
        expect('3 columns', LISTED[6:11], 0)
        resize(1, 1)
        expect('a cell', [])
        resize(120, 40)
        expect('40 rows', LISTED, 6)
        run('send-keys', '-t', 't', 'Escape')
        time.sleep(1)
        equal('after Esc', rows_in(run), ['ended 0'])


TRIES = [window_without_a_size, window_of_no_known_size, browse_here]
IN_TMUX = [browse_in_tmux]
