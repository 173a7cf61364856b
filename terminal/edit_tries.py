"""How `edit` does in a terminal."""
import os
import re
import select
import time

from debug_lines import rows_in
from pseudo import WITH, Terminal, Wrong, equal, program, tmux

# How a line's first frame begins, and what erases the rows below before it, after a resize. Later ones are what changed alone.
FIRST = b'\x1b[0m\x1b[?25h\x1b[1G\x1b[K'
ERASED = b'\x1b[1G\x1b[J'


def rows_of(text, columns):
    """The rows of a text in a window of so many columns: the last column isn't used, and a row that is full has ended."""
    rows, at = [''], 0
    for c in text:
        width = 2 if c == '\u6f22' else 1
        if at + width > columns - 1:
            rows.append('')
            at = 0
        rows[-1] += c
        at += width
        if at == columns - 1:
            rows.append('')
            at = 0
    return rows


def drawn(text, columns):
    """The first frame of a text of ASCII, with the cursor behind it."""
    rows = [row.encode() for row in rows_of(text, columns)]
    more = len(rows) - 1
    return FIRST + b'\r\n\x1b[K' * more + (b'\x1b[%dA' % more if more else b'') + b'\x1b[1G\x1b[1B'.join(rows)


def edit_keeps_the_order():
    terminal = Terminal(f'{WITH} {program("edit")}', answers=False)
    before = terminal.mode()
    try:
        terminal.until(b'\x1b[6n')
        # Typed ahead, before the terminal replies. What was written left of the cursor stays.
        terminal.send(b'ab')
        time.sleep(0.1)
        terminal.send(b'\x1b[3;3Rcd')
        terminal.until(b'\x1b[6n\r\n' + FIRST + b'> ')
        terminal.send(b'\x1b[D\x1b[D\x1b[DX\x1b[HY\x1b[FZ\x7f\x1b[D\x1b[3~' + '\u00e9\u6f22'.encode())
        terminal.send(b'\r')
        terminal.until('7: YaXbc\u00e9\u6f22'.encode())
        terminal.send(b'next')
        terminal.until(b'next')
        # A new size: the terminal is asked again.
        terminal.resize(40, 24)
        terminal.until(b'\x1b[6n', times=2)
        terminal.send(b'\x1b[6;7R')
        terminal.until(b'\x1b[6n' + ERASED + FIRST + b'> next')
        terminal.send(b'!\r')
        terminal.until(b'5: next!')
        terminal.send(b'\x03')
        equal('status', terminal.end(), 0)
        equal('questions for the place', terminal.out.count(b'\x1b[6n'), 2)
        equal('mode after the end', terminal.mode(), before)
        terminal.none_left()
    finally:
        terminal.close()


def edit_loses_no_key_between_lines():
    """Lines without a pause between them, then a long line."""
    terminal = Terminal(f'{WITH} {program("edit")}')
    try:
        terminal.until(b'\x1b[K')
        for number in range(20):
            terminal.send(b'%03d\r' % number)
        terminal.until(b'3: 019')
        for number in range(20):
            if b'3: %03d\r\n' % number not in terminal.out:
                raise Wrong(f'line {number} is not there: {terminal.out!r}')
        start = time.time()
        text = b'x' * 20000
        for at in range(0, len(text), 500):
            terminal.send(text[at : at + 500])
            terminal.read(0.01)
        terminal.send(b'\r')
        terminal.until(b'20000: ', limit=20)
        print(f'  20,000 characters in {time.time() - start:.1f} s')
        # Ctrl-D right behind a line.
        terminal.send(b'last\r\x04')
        terminal.until(b'4: last')
        equal('status', terminal.end(), 0)
        terminal.none_left()
    finally:
        terminal.close()


def edit_pastes_many_lines():
    """2,000 lines in less than three seconds, as a terminal without bracketed paste sends them."""
    count = 2000
    terminal = Terminal(f'{WITH} {program("edit")}')
    try:
        terminal.until(b'\x1b[K')
        start = time.time()
        left = b''.join(b'line %04d\r' % number for number in range(count))
        while b'9: line %04d\r\n' % (count - 1) not in terminal.out[-400:]:
            if time.time() > start + 15:
                raise Wrong(f'{len(left)} bytes left, then {terminal.out[-400:]!r}')
            if left and select.select([], [terminal.fd], [], 0)[1]:
                left = left[os.write(terminal.fd, left[:500]):]
            terminal.read(0.005)
        seconds = time.time() - start
        print(f'  {count} lines in {seconds:.1f} s')
        equal('lines', re.findall(rb'9: line (\d+)\r\n', terminal.out), [b'%04d' % number for number in range(count)])
        equal('questions for the place', terminal.out.count(b'\x1b[6n'), 1)
        equal('less than 3 s', seconds < 3, True)
        terminal.send(b'\x04')
        equal('status', terminal.end(), 0)
        terminal.none_left()
    finally:
        terminal.close()


def edit_without_answers():
    """A terminal that doesn't answer is asked once."""
    terminal = Terminal(f'{WITH} {program("edit")}', answers=False)
    before = terminal.mode()
    try:
        terminal.until(b'\x1b[6n')
        terminal.send(b'one\r')
        terminal.until(b'3: one\r\n')
        for word in (b'two', b'three'):
            start = time.time()
            terminal.send(word + b'\r')
            terminal.until(b'%d: %s\r\n' % (len(word), word))
            equal(f'{word!r} within a second', time.time() - start < 1, True)
        terminal.send(b'more')
        terminal.until(b'more')
        terminal.resize(40, 24)
        terminal.until(ERASED + FIRST + b'> more', limit=1)
        terminal.send(b'\x03')
        equal('status', terminal.end(), 0)
        equal('questions for the place', terminal.out.count(b'\x1b[6n'), 1)
        equal('mode after the end', terminal.mode(), before)
        terminal.none_left()
    finally:
        terminal.close()


def edit_after_a_resize():
    """A window of other widths: by the cursor's place then, the terminal has wrapped the line anew, or cut it, or it isn't known."""
    terminal = Terminal(f'{WITH} {program("edit")}')
    text = b'x' * 90
    try:
        terminal.until(b'\x1b[K')
        terminal.send(text)
        # A letter is a byte, but for the last one of a row.
        terminal.until(b'\x1b[79Gx\x1b[1G\x1b[1B' + b'x' * 13)
        # The window's columns, the cursor's column in it, and how many rows above the cursor's the first one is. The cursor was behind 13 characters
        # of the second row, and then behind 33, 5, 43, 16, 7, 4 and 92 of the last one. By the second window the terminal
        # wraps rows. The fourth one's column is by no terminal, and the last one's is cut.
        for columns, column, up in ((60, 14, 1), (30, 4, 3), (50, 6, 3), (20, 8, 1), (18, 17, 8), (12, 8, 10), (100, 5, 8), (60, 60, 0)):
            terminal.place = (5, column)
            from_ = len(terminal.out)
            terminal.resize(columns, 24)
            terminal.until(b'\x1b[6n' + (b'\x1b[%dA' % up if up else b'') + ERASED + drawn('> ' + text.decode(), columns))
            equal(f'{columns} columns', terminal.out[from_:].count(b'\x1b[6n'), 1)
        terminal.send(b'\r')
        terminal.until(b'90: ' + text)
        terminal.send(b'\x04')
        equal('status', terminal.end(), 0)
        terminal.none_left()
    finally:
        terminal.close()


def edit_in_tmux():
    """Long lines in windows of other widths. The lines before stay, also if tmux scrolls them away, and no rest of a wrapped row does."""
    for text in ('x' * 150 + 'END', 'x' + '\u6f22' * 75 + 'END'):
        with tmux('edit') as run:
            before = []
            for word in ('one', 'two', 'three', 'four'):
                run('send-keys', '-t', 't', word, 'Enter')
                before += [f'> {word}', f'{len(word)}: {word}']
            run('send-keys', '-l', '-t', 't', text)
            for columns in (200, 100, 60, 150, 41, 190):
                run('resize-window', '-t', 't', '-x', str(columns))
                want = [*before, *(row for row in rows_of('> ' + text, columns) if row)]
                end = time.time() + 5
                while rows_in(run, '-S', '-') != want and time.time() < end:
                    time.sleep(0.05)
                equal(f'{columns} columns', rows_in(run, '-S', '-'), want)
            run('send-keys', '-t', 't', 'Enter', 'C-d')
            time.sleep(1)
            equal('after Ctrl-D', rows_in(run, '-S', '-'), [*want, f'{len(text)}: {text}', '>', 'ended 0'])


def edit_shows_marks_in_tmux():
    """An accent of its own is shown, a joiner is replaced, and the cursor is where tmux has what is before it."""
    with tmux('edit') as run:
        def shows(row, column):
            end = time.time() + 5
            want = ([row], b'%d\n' % column)
            while (is_ := (rows_in(run), run('display-message', '-p', '-t', 't', '#{cursor_x}'))) != want and time.time() < end:
                time.sleep(0.05)
            equal(f'row of {row!r}', is_, want)

        run('send-keys', '-l', '-t', 't', 'e\u0301b\U0001f468\u200d\U0001f469y')
        shows('> e\u0301b\U0001f468\ufffd\U0001f469y', 10)
        # Before the letter, and before both emoji at once.
        run('send-keys', '-t', 't', 'Left', 'Left')
        shows('> e\u0301b\U0001f468\ufffd\U0001f469y', 4)
        run('send-keys', '-l', '-t', 't', 'c')
        shows('> e\u0301bc\U0001f468\ufffd\U0001f469y', 5)


TRIES = [edit_keeps_the_order, edit_loses_no_key_between_lines, edit_pastes_many_lines, edit_without_answers, edit_after_a_resize]
IN_TMUX = [edit_in_tmux, edit_shows_marks_in_tmux]
