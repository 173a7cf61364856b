"""Tests of `edit` and `record` in a terminal that write what nobody should see, and of recordings that players show."""
import json
import os
import select
import shutil
import stat
import subprocess
import tempfile
import time

from pseudo import WITH, Terminal, Wrong, equal, program


def read_text(path):
    with open(path, encoding='utf-8') as file:
        return file.read()


def edit_shows_no_control():
    """Controls of C1 that are typed are left out, and a pasted line end or tab is a blank."""
    terminal = Terminal(f'{WITH} {program("edit")}')
    try:
        terminal.until(b'\x1b[K')
        terminal.send('a\u009d0;title\u009cb\u0080c\r'.encode())
        terminal.until(b'10: a0;titlebc\r\n')
        terminal.send(b'\x1b[200~one\r\ntwo\nthree\rfour\tfive\x07\x1b[201~\r')
        terminal.until(b'23: one two three four five\r\n')
        equal('controls that were written', [it for it in terminal.out.decode() if '\x7f' <= it <= '\x9f'], [])
        terminal.send(b'\x03')
        equal('status', terminal.end(), 0)
    finally:
        terminal.close()


def edit_pastes_before_a_long_line():
    """200,000 characters are pasted before 200,000 others, in less than three seconds."""
    terminal = Terminal(f'{WITH} {program("edit")}')
    try:
        terminal.until(b'\x1b[K')
        count = 200000
        start = time.time()
        terminal.paste(b'\x1b[200~' + b'y' * count + b'\x1b[201~\x1b[H\x1b[200~' + b'z' * count + b'\x1b[201~\r')
        terminal.until(b'%d: %s%s\r\n' % (2 * count, b'z' * count, b'y' * count), 15)
        seconds = time.time() - start
        print(f'  {count} characters before {count} in {seconds:.1f} s')
        equal('less than 3 s', seconds < 3, True)
        terminal.send(b'\x03')
        equal('status', terminal.end(), 0)
    finally:
        terminal.close()


def recorded(path, words='', typed=b''):
    """Records what is typed, after which Esc follows. Returns the status and what was shown."""
    terminal = Terminal(f'{WITH} {program("record")} {path} {words}')
    try:
        if typed:
            terminal.until(b'Esc ends')
            terminal.send(typed)
            terminal.read(0.3)
            terminal.resize(60, 20)
            terminal.until(b'Resize(60, 20)')
            terminal.send(b'\x1b')
        status = terminal.end()
        terminal.none_left()
        return status, terminal.out
    finally:
        terminal.close()


def record_keeps_what_is_there():
    """A recording is its owner's alone, and is written over only if that is said. Its first line has the first size."""
    with tempfile.TemporaryDirectory() as folder:
        path = f'{folder}/recording'
        equal('status', recorded(path, typed=b'secret')[0], 0)
        equal('mode', stat.S_IMODE(os.stat(path).st_mode), 0o600)
        first = read_text(path)
        equal('the first line', first.splitlines()[0], '# size 80 24')
        equal('what was typed', 'raw ' + b'secret'.hex() in first, True)
        status, out = recorded(path)
        equal('status if it is there', status, 1)
        equal('what is said', f'record {path} --over writes over it' in out.decode(), True)
        equal('what is there', read_text(path), first)
        equal('status with --over', recorded(path, '--over', b'other')[0], 0)
        equal('what was written over', 'raw ' + b'secret'.hex() in read_text(path), False)


def shown_by(words, name):
    """What a command shows in a terminal."""
    terminal = Terminal(' '.join(words), size=(200, 50))
    try:
        equal(f'status of {name}', terminal.end(15), 0)
        return terminal.out.decode()
    finally:
        terminal.close()


def replay_makes_a_cast():
    """What `replay` prints of each event is output of the cast, which asciinema shows if it is there. The front of a cut recording too."""
    with tempfile.TemporaryDirectory() as folder:
        path, cast = f'{folder}/recording', f'{folder}/recording.cast'
        recorded(path, typed=b'a\x1b[A\x1b[200~two\rlines\x1b[201~')
        with open(path, 'a', encoding='utf-8') as file:
            file.write('raw 1b5')
        replay = [*program('replay').split(' '), path]
        cut = subprocess.run(replay, capture_output=True, text=True, check=False)
        equal('status of a recording that was cut', cut.returncode, 1)
        equal('what is said', '--front replays the lines before' in cut.stderr, True)
        events = subprocess.run([*replay, '--front'], capture_output=True, text=True, check=True).stdout
        equal('events', len(events.splitlines()), 5)
        text = subprocess.run([*replay, '--front', '--cast'], capture_output=True, text=True, check=True).stdout
        rows = [json.loads(it) for it in text.splitlines()]
        equal('header', (rows[0]['width'], rows[0]['height']), (80, 24))
        equal('output', ''.join(it[2] for it in rows[1:] if it[1] == 'o'), events.replace('\n', '\r\n'))
        with open(cast, 'w', encoding='utf-8') as file:
            file.write(text)
        for words in (('play', '-s', '100'), ('cat',)) if shutil.which('asciinema') else ():
            shown = shown_by(['asciinema', *words, cast], words[0])
            equal(f'lines that {words[0]} shows', [it for it in events.splitlines() if it not in shown], [])


TRIES = [edit_shows_no_control, edit_pastes_before_a_long_line, record_keeps_what_is_there, replay_makes_a_cast]
