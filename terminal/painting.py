"""Tries the example `paint`, in a pseudo-terminal and as a server. `try` runs these."""
import contextlib
import os
import re
import resource
import signal
import socket
import struct
import subprocess
import time

from pseudo import WITH, Terminal, Wrong, equal, program


def painted(out):
    """What some output of `paint` leaves on a screen: the character and the background of each cell that was written, by row and column."""
    cells, row, column, ground = {}, 0, 0, None
    for parameters, final, letter in re.findall(rb'\x1b\[([0-9;?]*)([A-Za-z])|([ -~])', out):
        if letter:
            cells[row, column] = (letter.decode(), ground)
            column += 1
        elif final == b'H':
            row, column = (int(it) - 1 for it in parameters.split(b';'))
        elif final == b'm':
            ground = int(parameters[5:]) if parameters.startswith(b'48;5;') else None
    return cells


def row_of(out, row, columns=80):
    """The text of a row, as far as it was written."""
    cells = painted(out)
    return ''.join(cells.get((row, column), (' ', None))[0] for column in range(columns)).rstrip()


def inks(out):
    """The cells of the picture that have a colour."""
    return {place: ground for place, (_, ground) in painted(out).items() if ground and place[1] >= 4}


def wait_for(what, reads, is_there, limit=5):
    """Reads until something is there."""
    end = time.time() + limit
    while not is_there():
        if time.time() > end:
            raise Wrong(f'{what} is never there')
        reads()


def paint_here():
    terminal = Terminal(f'{WITH} {program("paint")}')
    before = terminal.mode()
    try:
        terminal.until(b'leave')
        equal('the colours', {row: painted(terminal.out)[row, 0][1] for row in range(1, 16)}, {row: row for row in range(1, 16)})
        terminal.send(b'\x1b[<0;1;4M\x1b[<0;1;4m\x1b[<0;10;5M\x1b[<32;11;5M')
        wait_for('two cells', lambda: terminal.read(0.05), lambda: inks(terminal.out) == {(4, 9): 3, (4, 10): 3})
        terminal.send(b'\x1b')
        equal('status', terminal.end(), 0)
        equal('mode after Esc', terminal.mode(), before)
        equal('end', terminal.out.endswith(b'\x1b[?25h\x1b[?1049l'), True)
        terminal.none_left()
    finally:
        terminal.close()


def paint_in_small_windows():
    """What fits is drawn, nothing outside, and a window that is too small says so."""
    for columns, rows in ((70, 17), (80, 22), (79, 24), (20, 5), (3, 2), (1, 1)):
        terminal = Terminal(f'{WITH} {program("paint")}', size=(columns, rows))
        try:
            told = 'too small: the picture has 80 x 23'[:columns]
            wait_for(told, lambda: terminal.read(0.05), lambda: row_of(terminal.out, rows - 1, columns) == told.rstrip())
            terminal.send(b'\x1b[<0;10;5M')
            if columns > 9 and rows > 5:
                wait_for('a cell', lambda: terminal.read(0.05), lambda: inks(terminal.out) == {(4, 9): 1})
            terminal.send(b'\x1b')
            equal('status', terminal.end(), 0)
            cells = painted(terminal.out)
            equal(f'{columns} x {rows}: cells outside', [it for it in cells if it[0] >= rows or it[1] >= columns], [])
            equal(f'{columns} x {rows}: the last row', row_of(terminal.out, rows - 1, columns), told.rstrip())
        finally:
            terminal.close()
    terminal = Terminal(f'{WITH} {program("paint")}', size=(20, 5))
    try:
        terminal.until(b'small:')
        terminal.resize(100, 30)
        terminal.until(b'leave')
        terminal.send(b'\x1b')
        equal('status', terminal.end(), 0)
    finally:
        terminal.close()


def guest(port):
    sock = socket.create_connection(('127.0.0.1', port))
    sock.settimeout(5)
    return sock


def read_until(sock, text):
    out = b''
    while text not in out:
        data = sock.recv(65536)
        if not data:
            raise Wrong(f'cut off before {text!r}: {out[-200:]!r}')
        out += data
    return out


def start_server(descriptors=None, silence=None):
    """A server of the picture at some port, which may have so many descriptors, and lets a guest go after so many seconds of silence. It ends
    with its standard input, a pipe."""
    with socket.socket() as free:
        free.bind(('127.0.0.1', 0))
        port = free.getsockname()[1]
    limited = descriptors and (lambda: resource.setrlimit(resource.RLIMIT_NOFILE, (descriptors, descriptors)))
    words = [*program('paint').split(' '), 'serve', str(port), *([str(silence)] if silence else [])]
    server = subprocess.Popen(words, stdin=subprocess.PIPE, stderr=subprocess.PIPE, preexec_fn=limited)
    for _ in range(100):
        try:
            # One that comes first and leaves at once doesn't end the server.
            guest(port).close()
            return server, port
        except OSError:
            time.sleep(0.05)
    raise Wrong('no server')


def reset(port):
    """One who resets while it is let in."""
    rude = socket.socket()
    rude.connect(('127.0.0.1', port))
    rude.setsockopt(socket.SOL_SOCKET, socket.SO_LINGER, struct.pack('ii', 1, 0))
    rude.close()


def paint_forgets_nobody():
    """Guests behind a storm of resets, and guests for whom there is no room."""
    server, port = start_server()
    try:
        for count in (10, 63, 64, 65, 70, 100, 128, 160):
            os.kill(server.pid, signal.SIGSTOP)
            for _ in range(count):
                reset(port)
            honest = guest(port)
            os.kill(server.pid, signal.SIGCONT)
            read_until(honest, b'leave')
            honest.close()
        guests = []
        for _ in range(64):
            guests.append(guest(port))
            read_until(guests[-1], b'leave')
        late = guest(port)
        read_until(late, b'there is no room')
        late.close()
        for each in guests:
            each.sendall(b'\x1b')
            read_until(each, b'\x1b[?1049l')
        again = guest(port)
        read_until(again, b'leave')
        # A paste without end, of which 40 MB are meant to come: who sends it is let go after the first.
        endless = guest(port)
        endless.sendall(b'\x1b[200~')
        try:
            for _ in range(40):
                endless.sendall(b'x' * 1000000)
            raise Wrong('a paste without end goes on')
        except OSError:
            pass
        equal('the server goes on', server.poll(), None)
    finally:
        server.kill()


def paint_turns_away():
    """If the system has no descriptor for one more guest, who comes is turned away at once, and the others go on."""
    for descriptors in (16, 19, 20, 23):
        server, port = start_server(descriptors)
        try:
            let_in, turned_away = [], 0
            for _ in range(30):
                each = guest(port)
                each.settimeout(2)
                try:
                    read_until(each, b'leave')
                    let_in.append(each)
                except (Wrong, ConnectionResetError):
                    turned_away += 1
            equal(f'{descriptors} descriptors: let in or turned away', len(let_in) + turned_away, 30)
            equal(f'{descriptors} descriptors: somebody is let in', len(let_in) > 2, True)
            let_in[0].sendall(b'\x1b[<0;10;5M')
            for each in let_in:
                out = [b'']
                wait_for('a cell', lambda: out.__setitem__(0, out[0] + each.recv(65536)), lambda: inks(out[0]) == {(4, 9): 1})
            let_in.pop().close()
            time.sleep(0.2)
            read_until(guest(port), b'leave')
            equal('the server goes on', server.poll(), None)
        finally:
            server.kill()


def windows_of_guests(port, first):
    """A telnet client's window: the picture comes again, and fits."""
    first.sendall(b'\xff\xfb\x1f\xff\xfa\x1f\x00\x64\x00\x1e\xff\xf0')
    read_until(first, b'leave')
    small = guest(port)
    read_until(small, b'leave')
    small.sendall(b'\xff\xfb\x1f\xff\xfa\x1f\x00\x28\x00\x08\xff\xf0')
    out = read_until(small, b'23\x1b[0m')
    out = out[out.rindex(b'\x1b[2J'):]
    equal('cells outside', [it for it in painted(out) if it[0] >= 8 or it[1] >= 40], [])
    equal('the last row', row_of(out, 7), 'too small: the picture has 80 x 23')
    small.close()


def bad_guests(port):
    """One who resets while it is let in, many times; one who is cut off in a sequence; and, returned, one who never reads, and one who sends 300
    KB of escapes."""
    for _ in range(50):
        reset(port)
    cut = guest(port)
    cut.sendall(b'\x1b[<0;1')
    cut.close()
    deaf = socket.socket()
    deaf.setsockopt(socket.SOL_SOCKET, socket.SO_RCVBUF, 4096)
    deaf.connect(('127.0.0.1', port))
    hostile = guest(port)
    hostile.sendall(b'\x1b[' * 75000 + b'\x1b' * 150000)
    return deaf, hostile


def paint_much(first, second, seen, shown):
    """800 cells a turn, none beside another: 10 MB for each who looks on."""
    for turn in range(600):
        ink = turn % 2 + 2
        cells = b''.join(b'\x1b[<32;%d;%dM' % (column, row) for row in range(1, 22) for column in range(5, 81, 2))
        second.sendall(b'\x1b[<0;1;%dM' % (ink + 1) + cells)
        shown((20, 78), ink)
        seen[0] = seen[0][-256:]
        first.setblocking(False)
        with contextlib.suppress(BlockingIOError):
            while first.recv(1 << 20):
                pass
        first.setblocking(True)


def paint_lets_silent_guests_go():
    """Who says nothing for long enough has to leave, with the screen put back, so that 64 silent guests don't keep others out for long. Who
    says something stays."""
    server, port = start_server(silence=2)
    try:
        silent = [guest(port) for _ in range(64)]
        for each in silent:
            read_until(each, b'leave')
        read_until(guest(port), b'there is no room')
        for _ in range(6):
            time.sleep(0.5)
            silent[0].sendall(b'\x1b[<0;10;5M')
        for each in silent[1:]:
            each.settimeout(5)
            read_until(each, b'\x1b[?1049lpaint: nothing came from you for too long\r\n')
            equal('more for who is silent', each.recv(10), b'')
        read_until(guest(port), b'leave')
        silent[0].sendall(b'\x1b[<0;12;5M')
        read_until(silent[0], b'\x1b[5;12H')
    finally:
        server.kill()


def paint_serves():
    server, port = start_server()
    seen = [b'']

    def shown(place, ink):
        wait_for('a cell', lambda: seen.__setitem__(0, seen[0] + second.recv(65536)), lambda: painted(seen[0]).get(place, (0, 0))[1] == ink)

    try:
        first, second = guest(port), guest(port)
        for each in (first, second):
            read_until(each, b'leave')
        windows_of_guests(port, first)
        first.sendall(b'\x1b[<0;10;5M')
        shown((4, 9), 1)
        deaf, hostile = bad_guests(port)
        paint_much(first, second, seen, shown)
        # The one who never reads was let go.
        deaf.settimeout(5)
        with contextlib.suppress(ConnectionResetError):
            while deaf.recv(65536):
                pass
        hostile.close()
        for sock in (first, second):
            sock.settimeout(5)
            sock.sendall(b'\x1b')
            read_until(sock, b'\x1b[?1049l')
        equal('the server goes on', server.poll(), None)
        server.terminate()
        equal('status of the server', server.wait(5), -signal.SIGTERM)
    finally:
        server.kill()


def all_of(sock, limit):
    """All that comes until the other side ends it."""
    out, end = b'', time.time() + limit
    while time.time() < end:
        sock.settimeout(max(0.01, end - time.time()))
        with contextlib.suppress(TimeoutError):
            data = sock.recv(65536)
            if not data:
                return out
            out += data
    raise Wrong(f'nobody ends it within {limit} s: {out[-200:]!r}')


# What a guest gets when the server ends: reports and colours off, the cursor, the normal screen, and a sentence.
FAREWELL = b'\x1b[?1006l\x1b[?1015l\x1b[?1003l\x1b[?1002l\x1b[?1000l\x1b[0m\x1b[?25h\x1b[?1049lpaint: the server has ended\r\n'


def paint_takes_leave():
    """The end of standard input ends the server, and a line `quit`: within two seconds all guests have the whole farewell, those who paint, and
    some behind a deaf one, and the status is 0."""
    for said in (b'quit\n', b'quite\n\nno quit\nquit\nmore', None):
        server, port = start_server()
        try:
            deaf, hostile = bad_guests(port)
            guests = [guest(port) for _ in range(10)]
            for each in guests:
                read_until(each, b'leave')
            server.stdin.write(b'qui\n')
            server.stdin.flush()
            for turn in range(40):
                # What is still on its way at the end isn't read by the server before it takes leave.
                guests[turn % 5].sendall(b'\x1b[<0;%d;5M' % (turn + 10) * 50)
            equal('another line', server.poll(), None)
            begun = time.time()
            if said:
                server.stdin.write(said)
                server.stdin.flush()
            else:
                server.stdin.close()
            for each in guests:
                got = all_of(each, begun + 2 - time.time())
                equal('the farewell', got[-len(FAREWELL):], FAREWELL)
                each.close()
            equal('status', server.wait(max(0, begun + 3 - time.time())), 0)
            equal('what it says', server.stderr.read(), b'')
        finally:
            server.kill()
            server.wait()


def paint_ends_with_its_input():
    """A server whose input is at its end from the beginning ends at once, one in a terminal at Ctrl-D or `quit`, and one in the background at a
    line in a pipe."""
    serve = f'{program("paint")} serve'
    for words in ('</dev/null', '<&-', f'<{__file__}'):
        server = subprocess.Popen(['sh', '-c', f'exec {serve} 0 {words}'])
        try:
            wait_for(f'the end with {words}', lambda: time.sleep(0.01), lambda: server.poll() is not None)
            equal(f'status with {words}', server.returncode, 0)
        finally:
            server.kill()
    for typed in (b'\x04', b'quit\n'):
        terminal = Terminal(f'exec {serve} 0')
        try:
            terminal.send(typed)
            equal(f'status after {typed}', terminal.end(), 0)
        finally:
            terminal.close()
    terminal = Terminal(f'mkfifo "$TMPDIR/host"; {serve} 0 <>"$TMPDIR/host" & sleep 0.1; echo begun; echo quit >"$TMPDIR/host"; wait $!')
    try:
        equal('status in the background', terminal.end(), 0)
    finally:
        terminal.close()


TRIES = [
    paint_here, paint_in_small_windows, paint_forgets_nobody, paint_turns_away, paint_lets_silent_guests_go, paint_serves, paint_takes_leave,
    paint_ends_with_its_input,
]
