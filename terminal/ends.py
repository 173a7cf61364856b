"""Tries how `with_terminal` ends, by programs of a few lines of sh in a pseudo-terminal. `try` and `try_script` run these."""
import contextlib
import os
import shlex
import shutil
import signal
import subprocess
import tempfile
import time

from pseudo import WITH, Terminal, Wrong, equal

# What a program of sh begins with: it asks the helper a line.
ASK = 'exec 6<>"$1/ask" 7<>"$1/answer"; ask() { echo "$1" >&6; read -r mode <&7; }; ask mode; '
# Switches to raw mode without an end, so that a `stty` of the helper runs nearly always.
BUSY = ASK + 'while :; do ask raw; done'
# Switches to raw mode, and waits.
QUIET = ASK + 'ask raw; printf "begun\\r\\n"; exec sleep 60'
# Switches to raw mode and turns on pastes, reads the first bytes of one, and ends in its midst.
PASTED = ASK + 'ask raw; printf "\\033[?2004hbegun\\r\\n"; head -c 50000 >/dev/null; printf "\\033[?2004l"; exit 1'
# The same, but reads all.
PASTING = ASK + 'ask raw; printf "\\033[?2004hbegun\\r\\n"; exec cat >/dev/null'
# A pasted line of a KiB, which a shell would run as a comment.
LINE = b'#' + b'x' * 1022 + b'\r'
SIGNALS = (signal.SIGINT, signal.SIGTERM, signal.SIGHUP)


def by_script(script):
    """The words that run a program of sh by `with_terminal`. Its first argument is the folder with the pipes."""
    return [WITH, 'sh', '-c', script, 'program']


@contextlib.contextmanager
def opened(*words, **how):
    """A terminal that runs words as a job, and its mode from before."""
    terminal = Terminal(*words, **how)
    try:
        yield terminal, terminal.mode()
    finally:
        terminal.close()
        with contextlib.suppress(ChildProcessError):
            os.waitpid(terminal.pid, 0)


class Slow:
    """A folder for PATH with a command that waits some seconds before it does what begins with these words, and notes when."""

    def __init__(self, command, words, seconds):
        self.folder = tempfile.mkdtemp()
        with open(f'{self.folder}/{command}', 'w', encoding='utf-8') as file:
            file.write(f'#!/bin/sh\ncase "$*" in "{words}"*) : >{self.folder}/begun; sleep {seconds} ;; esac\nexec {shutil.which(command)} "$@"\n')
        os.chmod(f'{self.folder}/{command}', 0o755)

    def __enter__(self):
        return self

    def __exit__(self, *_):
        shutil.rmtree(self.folder)

    def wait(self, terminal, limit=5):
        """Waits until it was called since the last time."""
        end = time.time() + limit
        while not os.path.exists(f'{self.folder}/begun'):
            if time.time() > end:
                raise Wrong('a command is never called')
            terminal.read(0.01)
        os.remove(f'{self.folder}/begun')


def wait_for(terminal, is_so, limit=5):
    """Reads until something is so, or the time is over."""
    end = time.time() + limit
    while not is_so() and time.time() < end:
        terminal.read(0.02)


def job_of(terminal, limit=5):
    """The process of the script in a terminal that runs it as a job."""
    end = time.time() + limit
    while time.time() < end:
        with contextlib.suppress(OSError), open(f'/proc/{terminal.pid}/task/{terminal.pid}/children', encoding='utf-8') as file:
            for pid in file.read().split():
                with open(f'/proc/{pid}/cmdline', encoding='utf-8') as line:
                    if WITH in line.read():
                        return int(pid)
    raise Wrong('there is no job')


def statuses():
    """Without a terminal nothing runs; and a status above those of signals is the program's own."""
    folder = tempfile.mkdtemp()
    how = {'stdin': subprocess.DEVNULL, 'capture_output': True, 'start_new_session': True}
    alone = subprocess.run([WITH, 'true'], env={**os.environ, 'TMPDIR': folder}, timeout=10, **how)
    equal('without a terminal', (alone.returncode, alone.stderr), (2, b'with_terminal: there is no terminal here\n'))
    equal('left without a terminal', os.listdir(folder), [])
    os.rmdir(folder)
    for status, is_put_back in ((200, False), (128, False), (3, False), (193, False), (143, True)):
        terminal = Terminal(f'{WITH} sh -c "exit {status}"')
        try:
            equal('status', terminal.end(), status)
            equal(f'the screen is put back after {status}', b'\x1b[?1049l' in terminal.out, is_put_back)
            terminal.none_left()
        finally:
            terminal.close()


def end_by(number, to_group, waits, script=BUSY, path=None):
    """Ends a program by a signal to the script or to its group, after a wait: nobody is left, the folder is gone, and the mode is as before."""
    with opened(by_script(script), path=path) as (terminal, before):
        pid = job_of(terminal)
        waits(terminal)
        (os.killpg if to_group else os.kill)(pid, number)
        try:
            equal('status', terminal.end(), 128 + number)
            terminal.none_left()
            equal('mode', terminal.mode(), before)
        except Wrong as wrong:
            raise Wrong(f'{number.name} to {"the group" if to_group else "the script"}: {wrong}') from wrong


def wait_until(moment):
    """What waits until so many seconds after now."""
    end = time.time() + moment

    def waits(terminal):
        while time.time() < end:
            terminal.read(end - time.time())

    return waits


def signals_early(count=30, numbers=SIGNALS):
    """Signals at moments within the first 150 ms, half of them within the first 40, to the script and to its group."""
    for number in numbers:
        for at in range(count):
            end_by(number, at // 2 % 2 == 1, wait_until((0.04 if at % 2 else 0.15) * at / count))


def some_signals_early():
    """The same, at fewer moments."""
    signals_early(4)


def signals_while_it_begins():
    """Signals while the folder's pipes are being made."""
    with Slow('mkfifo', '', 0.1) as slow:
        for number in SIGNALS:
            for to_group in (False, True):
                end_by(number, to_group, slow.wait, QUIET, slow.folder)


def signals_while_stty_runs():
    """Signals while the helper's `stty raw` runs, which takes long: it has set its mode before the mode from before is set."""
    with Slow('stty', 'raw -echo', 0.2) as slow:
        for number in SIGNALS:
            for to_group in (False, True):
                end_by(number, to_group, slow.wait, QUIET, slow.folder)


def kill_leader(waits, script=QUIET, path=None):
    """Kills a script that leads its session, as one that a window runs: nobody is left, the folder is gone, and the mode is as before."""
    terminal = Terminal('exec ' + shlex.join(by_script(script)), path=path)
    before = terminal.mode()
    try:
        waits(terminal)
        os.kill(terminal.pid, signal.SIGKILL)
        equal('status', terminal.end(), -signal.SIGKILL)
        terminal.none_left()
        equal('mode', terminal.mode(), before)
    except Wrong as wrong:
        raise Wrong(f'KILL of a leader: {wrong}') from wrong
    finally:
        terminal.close()


def kill_while_stty_runs():
    """KILL while the helper's `stty raw` runs, which takes long: it has set its mode before the mode from before is set."""
    with Slow('stty', 'raw -echo', 0.2) as slow:
        for _ in range(4):
            kill_leader(slow.wait, path=slow.folder)
            end_by(signal.SIGKILL, False, slow.wait, QUIET, slow.folder)


def kill_while_it_begins():
    """KILL while the folder is being made, and its pipes: nobody but the guard could remove it, and that isn't there yet."""
    for command in ('mktemp', 'mkfifo'):
        with Slow(command, '', 0.1) as slow:
            for _ in range(3):
                kill_leader(slow.wait, path=slow.folder)
                end_by(signal.SIGKILL, False, slow.wait, QUIET, slow.folder)


def kill_early(count=60):
    """KILL at moments within the first 90 ms."""
    for at in range(count):
        kill_leader(wait_until(0.09 * at / count), BUSY)


def some_kill_early():
    """The same, at fewer moments."""
    kill_early(12)


def status_while_resizing(programs=40, at_once=8):
    """Programs that end with 3 while the window has 60 sizes a second."""
    for _ in range(0, programs, at_once):
        with contextlib.ExitStack() as stack:
            terminals = [stack.enter_context(opened(by_script('sleep 0.1; exit 3')))[0] for _ in range(at_once)]
            end = time.time() + 0.5
            while time.time() < end:
                for terminal in terminals:
                    terminal.resize(80 + int(end * 60 - time.time() * 60) % 2, 24)
                time.sleep(1 / 60)
            equal('statuses', [it.end() for it in terminals], [3] * at_once)
            for terminal in terminals:
                terminal.none_left()


def status_after_a_long_resize():
    """Programs that end while the script still measures a new size."""
    with Slow('stty', 'size', 0.3) as slow:
        for status in (0, 3, 127, 200):
            script = f'printf "begun\\r\\n"; until [ -e {slow.folder}/end{status} ]; do sleep 0.01; done; exit {status}'
            with opened(by_script(script), path=slow.folder) as (terminal, _):
                terminal.until(b'begun')
                terminal.resize(81, 24)
                slow.wait(terminal)
                open(f'{slow.folder}/end{status}', 'w', encoding='utf-8').close()
                equal('status after a resize', terminal.end(), status)
                terminal.none_left()


def helper_of(terminal):
    """The process that answers: it runs the script, and has `ask` open, but not `sizes`."""
    for pid, line in terminal.descendants():
        with contextlib.suppress(OSError):
            held = {os.path.basename(os.readlink(f'/proc/{pid}/fd/{it}')) for it in os.listdir(f'/proc/{pid}/fd')}
            if 'with_terminal' in line and 'ask' in held and 'sizes' not in held:
                return pid
    raise Wrong('there is no helper')


def helper_killed(words=None, begun=b'begun'):
    """A killed helper ends the program: the script says so when all is put back."""
    with opened(words or by_script(QUIET)) as (terminal, before):
        terminal.until(begun)
        os.kill(helper_of(terminal), signal.SIGKILL)
        equal('status without a helper', terminal.end(), 75)
        said = terminal.out.partition(b'\x1b[?1049l')[2]
        equal('message', said, b"with_terminal: the helper that switches the terminal's modes has ended, and so has the program\r\n")
        terminal.none_left()
        equal('mode without a helper', terminal.mode(), before)


def shell_says(terminal, command, limit=10):
    """What a command prints in an interactive shell."""
    start = len(terminal.out)
    terminal.send(b'echo "<`' + command + b'`>"\n')
    terminal.until(b'>\r\n', limit, terminal.out.count(b'>\r\n') + 1)
    return terminal.out[start:].rpartition(b'<')[2].partition(b'>')[0]


def paste_into(command, shell, size, begun, midst, then):
    """An interactive shell runs a command, into which a paste of so many bytes comes whose last line would make a file. The shell has its mode
    after that. Returns whether there is a file, and whether the paste was too slow to be discarded."""
    with tempfile.TemporaryDirectory() as room, opened(list(shell)) as (terminal, _):
        mark = f'{room}/owned'
        mode = shell_says(terminal, b'stty -g')
        terminal.send(b'%s; printf "all %%s\\r\\n" over\n' % command.encode())
        terminal.until(begun)
        last = b'\r: >%s\r\x1b[201~' % mark.encode()
        terminal.paste(b'\x1b[200~' + LINE * (size >> 10) + last, midst=midst and (lambda: midst(terminal)))
        if then:
            then(terminal)
        terminal.until(b'all over', 10)
        terminal.send(b'\n')
        try:
            equal('mode after a paste', shell_says(terminal, b'stty -g'), mode)
        except Wrong:
            if not os.path.exists(mark):
                raise
        if not os.path.exists(mark):
            terminal.send(b'exit\n')
            terminal.end()
            terminal.none_left()
        return os.path.exists(mark), terminal.was_slow


def paste_isnt_run(command, shell=('sh', '-i'), size=1 << 20, begun=b'begun', midst=None, then=None):
    """Nothing of a paste is run by the shell. `midst` does what comes when half is pasted, and `then` what comes after the paste."""
    for _ in range(10):
        was_run, was_slow = paste_into(command, shell, size, begun, midst, then)
        if not was_run:
            return
        if not was_slow:
            raise Wrong('the shell ran what was pasted')
    raise Wrong('this machine is too busy for a paste')


def end_by_key(terminal, key, limit=20):
    """Ends a program by a key, if it hasn't ended by itself."""
    end = time.time() + 4
    while b'all over' not in terminal.out:
        terminal.read(0.1)
        if time.time() > end:
            terminal.send(key)
            terminal.until(b'all over', limit)


def esc(terminal):
    end_by_key(terminal, b'\x1b')


def ctrl_c(terminal):
    end_by_key(terminal, b'\x03')


@contextlib.contextmanager
def as_file(script):
    """The command line of a program of sh by `with_terminal`, for an interactive shell."""
    with tempfile.NamedTemporaryFile('w', suffix='.sh') as file:
        file.write(script)
        file.flush()
        yield f'{WITH} sh {file.name}'


def paste_of_an_ended_program(shell=('sh', '-i'), size=1 << 20):
    """A program that ends with 1 in the midst of a paste."""
    with as_file(PASTED) as command:
        paste_isnt_run(command, shell, size)


def script_of(terminal):
    """The process of the script that an interactive shell runs: the oldest of those that run it."""
    return min(pid for pid, line in terminal.descendants() if WITH in line)


def program_of(terminal):
    """The process of the program: it reads by `cat`."""
    return next(pid for pid, line in terminal.descendants() if line.startswith('cat'))


def paste_of_a_killed_program():
    """A program or a script that a signal ends in the midst of a paste."""
    for find, number in ((program_of, signal.SIGKILL), (script_of, signal.SIGTERM)):
        with as_file(PASTING) as command:
            paste_isnt_run(command, midst=lambda terminal, find=find, number=number: os.kill(find(terminal), number))


def flood_is_left():
    """Somebody who types without an end: the script ends all the same, within two seconds of the program, and somewhat for a busy machine."""
    with opened(by_script(PASTED)) as (terminal, before):
        terminal.until(b'begun')
        start, status = time.time(), None
        while status is None and time.time() < start + 10:
            terminal.paste(b'yes\r' * 4096, 0.1)
            done, status = os.waitpid(terminal.pid, os.WNOHANG)
            status = status if done else None
        equal('status in a flood', status and os.waitstatus_to_exitcode(status), 1)
        equal('mode after a flood', terminal.mode(), before)
        equal('within 6 s', time.time() - start < 6, True)
        terminal.none_left()


def hang_up_in_a_paste():
    """A terminal that hangs up in the midst of a paste: nobody is left."""
    with opened(by_script(PASTED)) as (terminal, _):
        terminal.until(b'begun')
        terminal.paste(LINE * 60)
        os.close(terminal.fd)
        end = time.time() + 5
        while time.time() < end and ([it for it in terminal.descendants() if it[0] != terminal.pid] or os.listdir(terminal.folder)):
            time.sleep(0.02)
        equal('left after a hang-up', [it for it in terminal.descendants() if it[0] != terminal.pid], [])
        equal('folders left', os.listdir(terminal.folder), [])


def typed_ahead_stays():
    """What is typed while a program runs that ends with 0 is the shell's."""
    with opened(['sh', '-i']) as (terminal, _):
        terminal.send(b'%s sh -c "sleep 0.2"; printf "all %%s\\r\\n" over\n' % WITH.encode())
        terminal.until(b'over\r\n')
        terminal.send(b'printf "typed %s\\r\\n" ahead\n')
        terminal.until(b'typed ahead')
        terminal.send(b'exit\n')
        equal('status of the shell', terminal.end(), 0)
        terminal.none_left()


def in_the_background():
    """A program that a shell started in the background can't switch the mode: it waits until it is in front. Then a signal ends it as any."""
    with as_file(QUIET) as command, opened(['sh', '-i']) as (terminal, _):
        mode = shell_says(terminal, b'stty -g')
        terminal.send(command.encode() + b' &\n')
        wait_for(terminal, lambda: any(line.startswith('stty raw') for _, line in terminal.descendants()))
        equal('mode beside a program in the background', shell_says(terminal, b'stty -g'), mode)
        terminal.send(b'fg\n')
        terminal.until(b'begun')
        os.kill(script_of(terminal), signal.SIGTERM)
        wait_for(terminal, lambda: not os.listdir(terminal.folder))
        terminal.send(b'\n')
        equal('mode after a program in the background', shell_says(terminal, b'stty -g'), mode)
        terminal.send(b'exit\n')
        terminal.end()
        terminal.none_left()


def input_is_no_terminal():
    """Standard input from elsewhere, in a terminal."""
    with opened(['sh', '-c', f'{WITH} true </dev/null']) as (terminal, _):
        equal('status without input', terminal.end(), 2)
        equal('message', terminal.out, b'with_terminal: standard input is no terminal\r\n')
        terminal.none_left()
