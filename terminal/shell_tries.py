"""How `shell` does in a terminal, and what is in the file of its history however it ends."""
import contextlib
import fcntl
import os
import resource
import signal
import stat
import tempfile
import time

from ends import script_of
from pseudo import WITH, Terminal, Wrong, equal, program, tmux


@contextlib.contextmanager
def shell(path, said=''):
    """A terminal with a shell that shows its prompt. Before that it has said this, after its name."""
    terminal = Terminal(f'{WITH} {program("shell")} {path}')
    try:
        terminal.until(b'$ ')
        if said:
            equal(f'{said} in {terminal.out!r}', f'shell: {said}\r'.encode() in terminal.out, True)
        yield terminal
    finally:
        terminal.close()


@contextlib.contextmanager
def room():
    """The path of a history in a folder of its own."""
    with tempfile.TemporaryDirectory() as folder:
        yield os.path.join(folder, 'history')


def says(terminal, *words):
    """Types lines that say words, and waits for each."""
    for word in words:
        terminal.send(b'echo %s\r' % word)
        terminal.until(b'\r\n%s\r\n' % word)


def ends(terminal):
    """Ends the shell by Ctrl-D in an emptied line."""
    terminal.send(b'\x15\x04')
    equal('status', terminal.end(), 0)
    terminal.none_left()


def written(path):
    """What is in a file, and nothing if there is none."""
    with contextlib.suppress(FileNotFoundError), open(path, 'rb') as file:
        return file.read()
    return b''


def write(path, data):
    with open(path, 'wb') as file:
        file.write(data)


def shell_completes_and_remembers():
    """Tab completes a command's name, its hint is no part of the line, and the history comes back after a restart."""
    with room() as path:
        with shell(path) as terminal:
            # A hint is dim, behind the cursor, and erased as the row is left.
            terminal.send(b'ec')
            terminal.until(b'e\x1b[0m\x1b[2mcho\x1b[4G\x1b[0mc')
            terminal.send(b'\r')
            terminal.until(b'\x1b[K\r\nec is no command: ')
            terminal.send(b'ec\t')
            terminal.until(b'\x1b[4G\x1b[0mcho')
            terminal.send(b' some words\r')
            terminal.until(b'\r\nsome words\r\n')
            # Nothing completes this, and undo takes a completion back.
            terminal.send(b'x\t\x7fhe\t\x1f')
            terminal.until(b'lp\x1b[5G\x1b[0m\x1b[2mlp\x1b[5G\x1b[0m')
            terminal.send(b'\x15\r\r')
            terminal.send(b'q\t\r')
            equal('status', terminal.end(), 0)
        equal('history', written(path), b'ec\necho some words\nquit\n')
        equal('mode', stat.S_IMODE(os.stat(path).st_mode), 0o600)
        with shell(path) as terminal:
            terminal.send(b'\x1b[A\x1b[A')
            terminal.until(b'\x1b[3Gecho')
            terminal.until(b'words')
            terminal.send(b'\r')
            terminal.until(b'\r\nsome words\r\n')
            terminal.send(b'history\r')
            terminal.until(b'\r\nec\r\necho some words\r\nquit\r\necho some words\r\nhistory\r\n')
            ends(terminal)
        equal('history', written(path), b'ec\necho some words\nquit\necho some words\nhistory\n')


def shell_process(terminal):
    """The process of the shell itself."""
    return max(pid for pid, line in terminal.descendants() if line.split(' ')[0].endswith('example/out/example'))


def shell_ends_by_signals():
    """Each line is in the file as soon as it was accepted, however the program or the script ends, and comes back by Up."""
    for find in (shell_process, script_of):
        for number in (signal.SIGKILL, signal.SIGTERM, signal.SIGHUP):
            with room() as path:
                with shell(path) as terminal:
                    says(terminal, b'one', b'two')
                    os.kill(find(terminal), number)
                    terminal.none_left()
                equal(f'history after {number.name}', written(path), b'echo one\necho two\n')
                with shell(path) as terminal:
                    terminal.send(b'\x1b[A\x1b[A')
                    terminal.until(b'one')
                    ends(terminal)
                equal('history after another start', written(path), b'echo one\necho two\n')


def shell_sets_a_file_aside():
    """A file that isn't UTF-8 gets a free name, and both names are said."""
    with room() as path:
        for number, name in enumerate((f'{path}.aside', f'{path}.aside1')):
            data = b'%d\xff\n' % number
            write(path, data)
            with shell(path, f"{path} isn't UTF-8, and its name is {name} now") as terminal:
                says(terminal, b'one')
                ends(terminal)
            equal('the file that was set aside', written(name), data)
            equal('history', written(path), b'echo one\n')
        equal('the first one', written(f'{path}.aside'), b'0\xff\n')


def shell_goes_on_without_a_file():
    """That a file can't be written is said once. Its lines are written as soon as that is possible."""
    with tempfile.TemporaryDirectory() as folder:
        path = f'{folder}/missing/history'
        with shell(path) as terminal:
            says(terminal, b'one', b'two')
            said = f"shell: {path} can't be written: ".encode()
            equal('how often it is said', terminal.out.count(said), 1)
            os.mkdir(os.path.dirname(path))
            says(terminal, b'three')
            equal('how often it is said', terminal.out.count(said), 1)
            terminal.send(b'history\r')
            terminal.until(b'\r\necho one\r\necho two\r\necho three\r\nhistory\r\n')
            ends(terminal)
        equal('history', written(path), b'echo one\necho two\necho three\nhistory\n')
        with shell(folder) as terminal:
            says(terminal, b'one', b'two')
            equal('how often a folder is named', terminal.out.count(b'shell: %s ' % folder.encode()), 1)
            ends(terminal)


def shell_writes_the_rest_later():
    """A file that may grow by a part of a line alone, as on a full disk: no part stays, and the lines follow as soon as that is possible."""
    with room() as path, shell(path) as terminal:
        says(terminal, b'one')
        pid = shell_process(terminal)
        most = resource.prlimit(pid, resource.RLIMIT_FSIZE)
        resource.prlimit(pid, resource.RLIMIT_FSIZE, (12, most[1]))
        says(terminal, b'two', b'three')
        equal('the whole lines of the history', written(path), b'echo one\n')
        equal('how often it is said', terminal.out.count(f"shell: {path} can't be written: ".encode()), 1)
        resource.prlimit(pid, resource.RLIMIT_FSIZE, most)
        says(terminal, b'four')
        equal('history', written(path), b'echo one\necho two\necho three\necho four\n')
        ends(terminal)


def shell_appends():
    """A file that is there is appended to: one whose last line has no end, and one of more lines than the editor keeps."""
    with room() as path:
        write(path, b'echo before')
        os.chmod(path, 0o640)
        with shell(path) as terminal:
            ends(terminal)
        equal('history without a line', written(path), b'echo before')
        with shell(path) as terminal:
            says(terminal, b'one', b'two')
            ends(terminal)
        equal('history', written(path), b'echo before\necho one\necho two\n')
        equal('mode', stat.S_IMODE(os.stat(path).st_mode), 0o640)
        lines = b''.join(b'echo %04d\n' % number for number in range(1500))
        write(path, lines)
        start = time.time()
        with shell(path) as terminal:
            terminal.send(b'\x1b[A')
            terminal.until(b'1499')
            terminal.send(b'\r')
            terminal.until(b'\r\n1499\r\n')
            ends(terminal)
        equal('less than 5 s', time.time() - start < 5, True)
        equal('history', written(path), lines + b'echo 1499\n')


def shells_append_at_once():
    """Two shells that append to one file at the same time: the lines of both are whole, and each shell's in order."""
    with room() as path:
        write(path, b'echo before')
        said = {name: [b'echo %s%d' % (name, number) for number in range(50)] for name in (b'a', b'b')}
        with shell(path) as first, shell(path) as second:
            for number in range(0, 50, 10):
                for terminal, lines in ((first, said[b'a']), (second, said[b'b'])):
                    terminal.send(b''.join(line + b'\r' for line in lines[number:number + 10]))
            first.until(b'\r\na49\r\n')
            second.until(b'\r\nb49\r\n')
            ends(first)
            ends(second)
        first, *others = written(path).split(b'\n')
        equal('the line that had no end', first, b'echo before')
        for name, lines in said.items():
            equal(f'the lines of {name}', [line for line in others if line.startswith(b'echo ' + name)], lines)
        equal('how many lines there are', len(others), 101)
        equal('the end', others[-1], b'')


def shell_is_cut_while_another_appends():
    """A shell can write parts of lines alone, while another one appends to the same file: no line is within another."""
    with room() as path, shell(path) as cut, shell(path) as whole:
        says(cut, b'one')
        pid = shell_process(cut)
        most = resource.prlimit(pid, resource.RLIMIT_FSIZE)
        resource.prlimit(pid, resource.RLIMIT_FSIZE, (12, most[1]))
        says(cut, b'two')
        says(whole, b'three', b'four')
        says(cut, b'five')
        equal('the lines of the other one', written(path), b'echo one\necho three\necho four\n')
        resource.prlimit(pid, resource.RLIMIT_FSIZE, most)
        says(cut, b'six')
        says(whole, b'seven')
        equal('history', written(path), b'echo one\necho three\necho four\necho two\necho five\necho six\necho seven\n')
        ends(cut)
        ends(whole)


def shell_goes_on_without_a_lock():
    """A file that another program has locked is waited for, but not for ever. A line of which only a part could be written is written anew."""
    with room() as path, shell(path) as terminal:
        write(path, b'echo before\n')
        with open(path, 'rb') as file:
            fcntl.flock(file, fcntl.LOCK_EX)
            start = time.time()
            says(terminal, b'one')
            equal('history of a locked file', written(path), b'echo before\necho one\n')
            equal('less than 2 s', time.time() - start < 2, True)
            pid = shell_process(terminal)
            most = resource.prlimit(pid, resource.RLIMIT_FSIZE)
            resource.prlimit(pid, resource.RLIMIT_FSIZE, (24, most[1]))
            says(terminal, b'two')
            resource.prlimit(pid, resource.RLIMIT_FSIZE, most)
        says(terminal, b'three')
        equal('history', written(path), b'echo before\necho one\nech\necho two\necho three\n')
        ends(terminal)


def shell_lists_words():
    """A second Tab lists what a word may go on with below the line, and the list goes with the next key, or as the line ends."""
    with room() as path, shell(path) as terminal:
        equal('a green prompt', b'\x1b[38;5;10m$ \x1b[' in terminal.out, True)
        terminal.send(b'h\t\t')
        terminal.until(b'help')
        terminal.until(b'history')
        terminal.send(b'i')
        terminal.until(b'\x1b[1B')
        terminal.send(b'\t\r')
        terminal.until(b'\r\nhistory\r\n')
        terminal.send(b'echo qu\t\r')
        terminal.until(b'\r\nquit\r\n')
        terminal.send(b'h\t\t\r')
        terminal.until(b'history')
        terminal.until(b'\r\n\x1b[Jh is no command')
        ends(terminal)


def shell_asks_for_a_password():
    """A password is shown as stars, isn't in the history, and neither Up nor Ctrl-Y brings it back."""
    with room() as path, shell(path) as terminal:
        terminal.send(b'password\r')
        terminal.until(b'Password: ')
        shown = len(terminal.out)
        terminal.send(b'se\x12x\x07cret\x15k\xc3\xa9y\r')
        terminal.until(b'It has 3 characters.\r\n')
        equal('only stars', any(letter in terminal.out[shown:terminal.out.index(b'It has')] for letter in (b's', b'e', b'c', b'k')), False)
        terminal.until(b'$ ')
        terminal.send(b'\x19\x1b[A\r')
        terminal.until(b'Password: ')
        terminal.send(b'\x03')
        terminal.until(b'$ ')
        ends(terminal)
        equal('history', written(path), b'password\npassword\n')


def shown_in(run):
    """The rows of tmux's screen that aren't empty, and the cursor's place."""
    rows = run('capture-pane', '-p', '-t', 't').decode().split('\n')
    place = run('display-message', '-p', '-t', 't', '#{cursor_x} #{cursor_y}').decode().split()
    return [row for row in rows if row], int(place[0]), int(place[1])


def shell_prints_above_the_line():
    """A text of another thread is printed above a line that is written meanwhile, and the line goes on below it."""
    with room() as path, shell(path) as terminal:
        terminal.send(b'later 1 It is built.\r')
        terminal.until(b'$ ')
        terminal.send(b'echo un')
        terminal.until(b'\x1b[1G\x1b[JIt is built.\r\n')
        terminal.until(b'$ \x1b[0mecho un')
        terminal.send(b'done\r')
        terminal.until(b'\r\nundone\r\n')
        # None of many texts is lost, and no key between them.
        for _ in range(20):
            terminal.send(b'later 0 again\r')
        terminal.until(b'\x1b[Jagain\r\n', times=20)
        terminal.send(b'echo end\r')
        terminal.until(b'\r\nend\r\n')
        ends(terminal)
        equal('texts', terminal.out.count(b'\x1b[Jagain\r\n'), 20)


def shell_prints_in_tmux():
    """What tmux shows of a text above a line of two rows: both are whole, and nothing of the line is left above."""
    with room() as path, tmux(f'shell {path}') as run:
        run('resize-window', '-t', 't', '-x', '60')
        run('send-keys', '-l', '-t', 't', 'later 1 It is built.')
        run('send-keys', '-t', 't', 'Enter')
        run('send-keys', '-l', '-t', 't', 'echo ' + 'x' * 100)
        run('send-keys', '-t', 't', 'Left')
        want = (['$ later 1 It is built.', 'It is built.', '$ echo ' + 'x' * 52, 'x' * 48], 47, 3)
        end = time.time() + 5
        while (is_ := shown_in(run)) != want and time.time() < end:
            time.sleep(0.05)
        equal(f'rows of {want!r}', is_, want)
        run('send-keys', '-t', 't', 'C-u')
        run('send-keys', '-t', 't', 'C-d')


def shell_in_tmux():
    """What tmux shows of candidates and of a password, and that nothing of either stays."""
    with room() as path, tmux(f'shell {path}') as run:
        def shows(*want):
            end = time.time() + 5
            while (is_ := shown_in(run)) != want and time.time() < end:
                time.sleep(0.05)
            equal(f'rows of {want!r}', is_, want)

        run('send-keys', '-t', 't', 'h', 'Tab', 'Tab')
        shows(['$ h', 'help     history'], 3, 0)
        # In a window of another width the list goes, since a resize is an event.
        run('resize-window', '-t', 't', '-x', '60')
        shows(['$ help'], 3, 0)
        run('send-keys', '-t', 't', 'Tab', 'Tab', 'e')
        shows(['$ help'], 4, 0)
        run('send-keys', '-t', 't', 'C-u')
        run('send-keys', '-l', '-t', 't', 'password')
        run('send-keys', '-t', 't', 'Enter')
        run('send-keys', '-l', '-t', 't', 'secret')
        shows(['$ password', 'Password: ******'], 16, 1)
        run('send-keys', '-t', 't', 'Left', 'Enter')
        shows(['$ password', 'Password: ******', 'It has 6 characters.', '$'], 2, 3)
        run('send-keys', '-t', 't', 'C-d')


TRIES = [
    shell_prints_above_the_line, shell_lists_words, shell_asks_for_a_password, shell_completes_and_remembers, shell_ends_by_signals, shell_sets_a_file_aside, shell_goes_on_without_a_file,
    shell_writes_the_rest_later, shell_appends, shells_append_at_once, shell_is_cut_while_another_appends, shell_goes_on_without_a_lock,
]
IN_TMUX = [shell_in_tmux, shell_prints_in_tmux]
