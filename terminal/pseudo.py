"""A terminal for tests: a pseudo-terminal that runs a program, and answers the questions for attributes and the cursor's place; and tmux."""
import contextlib
import fcntl
import os
import pty
import re
import select
import shutil
import signal
import struct
import subprocess
import tempfile
import termios
import time

HERE = os.path.dirname(os.path.dirname(os.path.abspath(__file__)))
WITH = os.path.join(HERE, 'terminal', 'with_terminal')


class Wrong(Exception):
    """What differs from what is wanted."""


def equal(what, is_, want):
    if is_ != want:
        raise Wrong(f'{what}:\n  is   {is_!r}\n  want {want!r}')


def program(name):
    """The command line of an example, without its arguments."""
    return f'{os.path.join(HERE, "crates", "example", "out", "example")} {name}'


def run_as_job(words):
    """Runs a command as an interactive shell does: in a process group of its own, which has the terminal. Ends with its status."""
    pid = os.fork()
    if pid == 0:
        os.setpgid(0, 0)
        signal.signal(signal.SIGTTOU, signal.SIG_IGN)
        os.tcsetpgrp(0, os.getpgrp())
        signal.signal(signal.SIGTTOU, signal.SIG_DFL)
        os.execvp(words[0], words)
    status = os.waitstatus_to_exitcode(os.waitpid(pid, 0)[1])
    os._exit(status if status >= 0 else 128 - status)


class Terminal:
    """A terminal of 80 by 24 that runs a command line or, given as words, a job, and answers what a terminal answers."""

    def __init__(self, line, answers=True, size=(80, 24), path=None):
        self.folder = tempfile.mkdtemp()
        self.out = b''
        self.seen = 0
        self.answers = answers
        self.place = (1, 1)
        self.was_slow = False
        self.pid, self.fd = pty.fork()
        if self.pid == 0:
            columns, rows = size
            fcntl.ioctl(0, termios.TIOCSWINSZ, struct.pack('HHHH', rows, columns, 0, 0))
            os.environ.setdefault('TERM', 'xterm')
            # A shell has its commands in the background ignore INT and QUIT, nohup HUP, and Python PIPE.
            for name in ('INT', 'QUIT', 'HUP', 'TERM', 'PIPE', 'USR1'):
                signal.signal(getattr(signal, f'SIG{name}'), signal.SIG_DFL)
            os.environ['TMPDIR'] = self.folder
            os.environ['PATH'] = os.pathsep.join([*([path] if path else []), os.environ['PATH']])
            if isinstance(line, str):
                os.execv('/bin/sh', ['/bin/sh', '-c', line])
            run_as_job(line)

    def resize(self, columns, rows):
        fcntl.ioctl(self.fd, termios.TIOCSWINSZ, struct.pack('HHHH', rows, columns, 0, 0))

    def mode(self):
        return termios.tcgetattr(self.fd)

    def set_mode(self, mode):
        termios.tcsetattr(self.fd, termios.TCSANOW, mode)

    def send(self, data):
        os.write(self.fd, data)

    def paste(self, data, limit=20, midst=None):
        """Types much, and reads meanwhile, until all is taken, or nobody takes it for a second. Calls `midst` when half is taken. Returns how
        much was taken, and notes whether that was slower than `with_terminal` discards: on a busy machine this may come to a halt."""
        os.set_blocking(self.fd, False)
        left, start, longest = memoryview(data), time.time(), 0
        last = start
        while left and time.time() < min(start + limit, last + 1):
            self.read(0)
            if select.select([], [self.fd], [], 0.02)[1]:
                with contextlib.suppress(OSError):
                    left = left[os.write(self.fd, left[:4096]):]
                longest, last = max(longest, time.time() - last), time.time()
            if midst and len(left) <= len(data) // 2:
                midst()
                midst = None
        os.set_blocking(self.fd, True)
        self.was_slow = longest > 0.7 or last - start > 1.2
        return len(data) - len(left)

    def read(self, limit):
        """Reads what comes within the limit, and answers it."""
        end, parts = time.time() + limit, []
        while len(parts) < 64:
            left = end - time.time()
            if select.select([self.fd], [], [], 0 if parts else max(0, left))[0]:
                try:
                    parts.append(os.read(self.fd, 65536))
                    continue
                except OSError:
                    pass
            break
        self.out += b''.join(parts)
        if self.answers:
            self.answer()

    def answer(self):
        """Answers the questions that came since the last time."""
        for asked in re.compile(rb'\x1b\[(c|6n)').finditer(self.out, self.seen):
            self.seen = asked.end()
            row, column = self.place
            self.send({b'c': b'\x1b[?62c', b'6n': b'\x1b[%d;%dR' % (row, column)}[asked.group(1)])
        self.seen = max(self.seen, len(self.out) - 3)

    def until(self, text, limit=5, times=1):
        """Waits for a text, or for so many of it, and fails if it doesn't come."""
        end = time.time() + limit
        while self.out.count(text) < times:
            if time.time() > end:
                raise Wrong(f'no {text!r} in {self.out[-600:]!r}')
            self.read(0.05)

    def end(self, limit=5):
        """Waits for the end, and returns the status. What was turned on has to be off then."""
        end = time.time() + limit
        while time.time() < end:
            self.read(0.02)
            done, status = os.waitpid(self.pid, os.WNOHANG)
            if done:
                for _ in range(5):
                    self.read(0.02)
                equal('what is on at the end', left_on(self.out), [])
                return os.waitstatus_to_exitcode(status)
        raise Wrong(f'it goes on after {limit} s: {self.out[-300:]!r}')

    def descendants(self):
        """All processes that were started in this terminal: pid, command line."""
        found = []
        for pid in filter(str.isdigit, os.listdir('/proc')):
            try:
                env = open(f'/proc/{pid}/environ', 'rb').read()
                line = open(f'/proc/{pid}/cmdline', 'rb').read().replace(b'\0', b' ').decode()
                state = open(f'/proc/{pid}/stat').read().rsplit(')', 1)[1].split()[0]
            except OSError:
                continue
            if self.folder.encode() in env and state != 'Z':
                found.append((int(pid), line))
        return found

    def none_left(self, limit=3):
        end = time.time() + limit
        while time.time() < end:
            self.read(0.02)
            left = [d for d in self.descendants() if d[0] != self.pid]
            if not left and not os.listdir(self.folder):
                return
        raise Wrong(f'left behind: {left} {os.listdir(self.folder)}')

    def close(self):
        with contextlib.suppress(OSError):
            os.close(self.fd)
        for pid, _ in self.descendants():
            with contextlib.suppress(OSError):
                os.kill(pid, signal.SIGKILL)
        shutil.rmtree(self.folder, ignore_errors=True)


def left_on(out):
    """Which modes and keyboard flags are on after some output, and which of those that every terminal begins with are off."""
    usual = {b'7': b'h', b'25': b'h'}
    modes = {}
    flags = 0
    for mode, letter, push, pop in re.findall(rb'\x1b\[(?:\?([0-9]+)([hl])|(>)[0-9]*u|(<)[0-9]*u)', out):
        if mode:
            modes[mode] = letter
        flags += bool(push)
        flags = max(0, flags - bool(pop))
    on = [mode.decode() for mode, letter in modes.items() if letter != usual.get(mode, b'l')]
    return on + ['keyboard flags'] * flags


@contextlib.contextmanager
def tmux(name):
    """An example in tmux of 200 by 50. Gives what runs a command of tmux."""
    folder = tempfile.mkdtemp()
    command = ['tmux', '-S', os.path.join(folder, 'socket'), '-f', '/dev/null']

    def run(*words):
        return subprocess.run([*command, *words], check=True, capture_output=True).stdout

    try:
        run('new-session', '-d', '-s', 't', '-x', '200', '-y', '50', f'{WITH} {program(name)}; echo ended $?; sleep 20')
        run('set', '-g', 'window-size', 'manual')
        time.sleep(1)
        yield run
    finally:
        subprocess.run([*command, 'kill-server'], capture_output=True)
        shutil.rmtree(folder, ignore_errors=True)


def run_all(tries, wanted):
    """Runs tests, or those of them that are wanted by name, and returns how many failed."""
    failed = 0
    for one in tries:
        if wanted and one.__name__ not in wanted:
            continue
        start = time.time()
        try:
            one()
            print(f'{one.__name__}: passed in {time.time() - start:.1f} s', flush=True)
        except Wrong as wrong:
            failed += 1
            print(f'{one.__name__}: FAILED: {wrong}', flush=True)
    return failed
