"""How `events`, `stream` and `clock` do in a terminal."""
import os
import signal
import time

from debug_lines import ALT, CONTROL, SHIFT, expect_lines, key, mouse, rows_in
from pseudo import WITH, Terminal, Wrong, equal, program, tmux


# What is typed, and the lines that `events` shows for it.
TYPED = [
    (b'a', [key("Char('a')")]),
    (b'B', [key("Char('B')", SHIFT)]),
    (b'\x1b[A', [key('Up')]),
    (b'\x1b[1;5D', [key('Left', CONTROL)]),
    (b'\x1b[1;2C', [key('Right', SHIFT)]),
    (b'\x1bx', [key("Char('x')", ALT)]),
    (b'\x1bOP', [key('F(1)')]),
    (b'\x1b[15~', [key('F(5)')]),
    (b'\x1b[24;2~', [key('F(12)', SHIFT)]),
    (b'\x1b[3~', [key('Delete')]),
    (b'\r', [key('Enter')]),
    (b'\t', [key('Tab')]),
    (b'\x1b[Z', [key('BackTab', SHIFT)]),
    (b'\x7f', [key('Backspace')]),
    (b'\x0a', [key("Char('j')", CONTROL)]),
    (b'\x00', [key("Char(' ')", CONTROL)]),
    (b'\x1b[<0;20;10M\x1b[<0;20;10m', [mouse('Down(Left)', 19, 9), mouse('Up(Left)', 19, 9)]),
    (b'\x1b[<34;1;1M', [mouse('Drag(Right)', 0, 0)]),
    (b'\x1b[<64;3;4M\x1b[<20;3;4M', [mouse('ScrollUp', 2, 3), mouse('Down(Left)', 2, 3, 'SHIFT | CONTROL')]),
    (b'\x1b[I\x1b[O', ['FocusGained', 'FocusLost']),
    (b'\x1b[200~' + b'paste ' * 500 + b'\x1b[201~', ['Paste("' + 'paste ' * 500 + '")']),
    ('\u00e9\u6f22\U0001f600'.encode(), [key(f"Char('{c}')") for c in '\u00e9\u6f22\U0001f600']),
]


def begin_events():
    terminal = Terminal(f'{WITH} {program("events")}')
    before = terminal.mode()
    terminal.until(b'Esc ends.')
    return terminal, before


def events_types():
    terminal, before = begin_events()
    try:
        if terminal.mode() == before:
            raise Wrong('raw mode is not on')
        for data, want in TYPED:
            expect_lines(terminal, data, want)
        text, want = TYPED[-1]
        for cut in range(1, len(text)):
            expect_lines(terminal, text, want, [text[:cut], text[cut:]])
        # At its first byte a paste can't be cut: an escape with nothing behind it is the Esc key.
        data, want = TYPED[-2]
        for cut in (2, 5, 6, 1000, 1030, 2000, len(data) - 5, len(data) - 1):
            expect_lines(terminal, data, want, [data[:cut], data[cut:]])
        start = len(terminal.out)
        terminal.resize(100, 30)
        terminal.until(b'Resize(100, 30)')
        terminal.place = (7, 13)
        expect_lines(terminal, b'c', [key("Char('c')"), '\x1b[6nthe cursor is in column 12, row 6'])
        terminal.out = b''
        terminal.seen = 0
        terminal.until(b'.\r\n', 3)
        terminal.send(b'\x1b')
        equal('status', terminal.end(), 0)
        equal('mode after Esc', terminal.mode(), before)
        terminal.none_left()
    finally:
        terminal.close()


def events_end_by_signals():
    for who in ('example/out/example', 'with_terminal'):
        for number in (signal.SIGKILL, signal.SIGTERM, signal.SIGHUP, signal.SIGINT, signal.SIGQUIT):
            terminal, before = begin_events()
            try:
                if who == 'with_terminal':
                    # The script itself is the oldest of its processes, but for the shell that starts it.
                    pid = min(p for p, line in terminal.descendants() if who in line and ' -c ' not in line)
                else:
                    pid = max(p for p, line in terminal.descendants() if line.split(' ')[0].endswith(who))
                os.kill(pid, number)
                terminal.end()
                terminal.none_left()
                equal(f'mode after {number.name} of {who}', terminal.mode(), before)
                if b'\x1b[?1049l' not in terminal.out or b'\x1b[?1003l' not in terminal.out:
                    raise Wrong(f'{number.name} of {who}: the screen is not put back: {terminal.out[-200:]!r}')
            finally:
                terminal.close()


def events_stop_and_go_on():
    """After a stop raw mode is on again, and a size comes by which a program draws anew."""
    terminal, before = begin_events()
    try:
        raw = terminal.mode()
        if b'Resize' in terminal.out:
            raise Wrong('a size came without a change')
        found = [pid for pid, _ in terminal.descendants()]
        for pid in found:
            os.kill(pid, signal.SIGSTOP)
        terminal.set_mode(before)
        for pid in found:
            os.kill(pid, signal.SIGCONT)
        terminal.until(b'Resize(80, 24)')
        equal('mode after a stop', terminal.mode(), raw)
        terminal.send(b'\x1b')
        equal('status', terminal.end(), 0)
        equal('mode after Esc', terminal.mode(), before)
        terminal.none_left()
    finally:
        terminal.close()


def events_hang_up():
    terminal, _ = begin_events()
    try:
        os.close(terminal.fd)
        end = time.time() + 3
        while time.time() < end and [d for d in terminal.descendants() if d[0] != terminal.pid]:
            time.sleep(0.02)
        left = [d for d in terminal.descendants() if d[0] != terminal.pid]
        equal('left after a hang-up', left, [])
        equal('folders left', os.listdir(terminal.folder), [])
    finally:
        terminal.close()
        os.waitpid(terminal.pid, 0)


def stream_shows_events():
    terminal = Terminal(f'{WITH} {program("stream")}')
    try:
        before = terminal.mode()
        terminal.until(b'to end')
        terminal.send(b'a\x1b[1;5D')
        terminal.until(key('Left', CONTROL).encode())
        terminal.send(b'\x03')
        equal('status', terminal.end(), 0)
        equal('mode after Ctrl-C', terminal.mode(), before)
        terminal.none_left()
    finally:
        terminal.close()


def clock_counts():
    """One thread counts events, another draws each second."""
    terminal = Terminal(f'{WITH} {program("clock")}')
    try:
        before = terminal.mode()
        terminal.until(b' s, 0 events; Esc ends')
        terminal.send(b'abc')
        terminal.until(b' s, 3 events; Esc ends')
        terminal.until(b'events; Esc ends', 10, terminal.out.count(b'events; Esc ends') + 2)
        terminal.send(b'\x1b')
        equal('status', terminal.end(3), 0)
        equal('mode after Esc', terminal.mode(), before)
        terminal.none_left()
    finally:
        terminal.close()


def events_in_tmux():
    with tmux('events') as run:
        run('send-keys', '-t', 't', 'a', 'B', 'Up', 'C-Left', 'M-x', 'F5')
        run('send-keys', '-l', '-t', 't', '\x1b[<0;20;10M\x1b[200~two\nlines\x1b[201~\u00e9\u6f22')
        run('resize-window', '-t', 't', '-x', '190', '-y', '45')
        time.sleep(0.5)
        run('send-keys', '-t', 't', 'Escape')
        time.sleep(1)
        want = [key("Char('a')"), key("Char('B')", SHIFT), key('Up'), key('Left', CONTROL), key("Char('x')", ALT),
                key('F(5)'), mouse('Down(Left)', 19, 9), 'Paste("two\\nlines")', key("Char('\u00e9')"),
                key("Char('\u6f22')"), 'Resize(190, 45)', key('Esc'), 'ended 0']
        equal('in tmux', rows_in(run)[1:], want)


TRIES = [events_types, events_end_by_signals, events_stop_and_go_on, events_hang_up, stream_shows_events, clock_counts]
IN_TMUX = [events_in_tmux]
