"""The common part of the checks of a built program: running it, starting it as a server, and reporting each check."""
import os
import pathlib
import select
import shutil
import signal
import socket
import subprocess
import threading
import time

TOP = pathlib.Path(__file__).resolve().parent.parent
# The status of a shell that can't set a limit.
NO_LIMIT = 99
# Generous limits, in seconds: no run of a program that works comes near them.
LONGEST_RUN, LONGEST_START, LONGEST_REPLY = 240, 60, 240
# So long that a list of it fills what a connection holds.
LONG_NAME = 'A pier with a long name' + ' and so on' * 16
# A tide of twelve hours exactly, for 400 years: the same at each day's same minute.
YEARS = 400
DAILY = ['# The same each day', '1', 'S2 30', '2000', str(YEARS), 'S2', *['0'] * YEARS, '*END*',
         str(YEARS), 'S2', *['1'] * YEARS, '*END*', 'Pier', '0:00 :UTC', '0 feet', 'S2 1 0',
         LONG_NAME, '0:00 :UTC', '0 feet', 'S2 1 0']
DAY = [(6 * 60, '     -1.00', 'Low Tide'), (11 * 60 + 59, '      1.00', 'High Tide'),
       (18 * 60, '     -1.00', 'Low Tide'), (23 * 60 + 59, '      1.00', 'High Tide')]


class Skipped(Exception):
    """A check that this machine can't make."""


class Report:
    """Prints a line for each check, and counts them."""

    def __init__(self):
        self.lock, self.checks, self.failed = threading.Lock(), 0, 0

    def line(self, text):
        with self.lock:
            print(text.encode('ascii', 'backslashreplace').decode(), flush=True)

    def check(self, name, body, again=None):
        """Makes a check, which returns its fault, or nothing. A check that fails is put on the list `again`, if there is one."""
        try:
            seen = body()
        except Skipped as why:
            self.line(f'skipped {name}: {why}')
            return
        except Exception as fault:  # a check that can't be made to its end has failed
            seen = f'{type(fault).__name__}: {fault}'
        if seen and again is not None:
            again.append((name, body))
            return
        with self.lock:
            self.checks += 1
            self.failed += bool(seen)
        self.line(f'FAILED {name}: {shortened(seen)}' if seen else f'ok {name}')


def shortened(text, most=300):
    text = text.replace('\n', ' / ')
    return text if len(text) <= most else f'{text[:most]} .. ({len(text)} letters)'


def texted(data):
    return repr(data[:150].decode('utf-8', 'replace')) + (f' .. ({len(data)} bytes)' if len(data) > 150 else '')


def difference(ended, status, out, err):
    """What differs from the wanted status, standard output and standard error, or nothing."""
    seen = []
    if ended.returncode != status:
        seen.append(f'status {ended.returncode} in place of {status}')
    for name, came, wanted in (('output', ended.stdout, out), ('error', ended.stderr, err)):
        if came != wanted:
            at = next((i for i, (a, b) in enumerate(zip(came, wanted)) if a != b), min(len(came), len(wanted)))
            seen.append(f'{name} at byte {at} {texted(came[at:])} in place of {texted(wanted[at:])}')
    return '; '.join(seen)


class Place:
    """A program and a folder of its own, with the files that it reads."""

    def __init__(self, program, folder):
        self.program, self.folder = str(pathlib.Path(program).resolve()), pathlib.Path(folder)
        shutil.copy(TOP / 'examples/harbours.txt', folder)
        shutil.copy(TOP / 'crates/tide/data/pier.txt', folder)
        for file in (TOP / 'examples/certificates').iterdir():
            shutil.copy(file, folder)
        (self.folder / 'daily.txt').write_text('\n'.join(DAILY) + '\n', encoding='ascii')
        (self.folder / 'folder').mkdir()

    def command(self, words, limit=''):
        """The command line, with a limit of the shell's, as `ulimit -n 5`."""
        start = ['/bin/sh', '-c', f'{limit} || exit {NO_LIMIT}; exec "$0" "$@"'] if limit else []
        return [*start, self.program, *words]

    def run(self, *words, limit='', **handles):
        streams = {'stdin': subprocess.DEVNULL, 'stdout': subprocess.PIPE, 'stderr': subprocess.PIPE, **handles}
        if 'input' in streams:
            del streams['stdin']
        return subprocess.run(self.command(words, limit), cwd=self.folder, timeout=LONGEST_RUN, check=False, **streams)


def free_port():
    with socket.create_server(('127.0.0.1', 0)) as found:
        return found.getsockname()[1]


class Server:
    """A server on a free port, for a `with`."""

    def __init__(self, place, *words, file='harbours.txt', limit=''):
        for _ in range(5):  # another program may take the port in between
            self.port = free_port()
            command = place.command(['serve', f'file={file}', f'port={self.port}', *words], limit)
            self.process = subprocess.Popen(command, cwd=place.folder, stdin=subprocess.DEVNULL,
                                            stdout=subprocess.PIPE, stderr=subprocess.PIPE)
            self.notice = self.first_line()
            if self.notice != b'read fault\n':
                break
            self.end()
        if self.notice != f'http://127.0.0.1:{self.port}/\n'.encode():
            status = self.ended(5)
            self.end()
            if status == NO_LIMIT:
                raise Skipped(f'the shell can not {limit}')
            raise OSError(f'the server printed {texted(self.notice)} on standard error; status {status}')

    def first_line(self):
        line, end = b'', time.monotonic() + LONGEST_START
        while not line.endswith(b'\n') and time.monotonic() < end:
            if select.select([self.process.stderr], [], [], 0.5)[0]:
                piece = os.read(self.process.stderr.fileno(), 1)
                if not piece:
                    break
                line += piece
        return line

    def ended(self, seconds):
        """The status with which the server ends within some seconds, or None."""
        try:
            return self.process.wait(seconds)
        except subprocess.TimeoutExpired:
            return None

    def end(self):
        """Ends the server, and returns its status, or None if it still served."""
        status = self.process.poll()
        if status is None:
            self.process.send_signal(signal.SIGCONT)
            self.process.kill()
            self.process.wait()
        self.process.stdout.close()
        self.process.stderr.close()
        return status

    def __enter__(self):
        return self

    def __exit__(self, *_):
        self.end()

    def connect(self, room=None):
        link = socket.socket()
        if room:
            link.setsockopt(socket.SOL_SOCKET, socket.SO_RCVBUF, room)
        link.settimeout(LONGEST_REPLY)
        link.connect(('127.0.0.1', self.port))
        return link

    def reply(self, request):
        with self.connect() as link:
            link.sendall(request)
            return received(link)

    def descriptors(self):
        return len(os.listdir(f'/proc/{self.process.pid}/fd'))

    def processor_seconds(self):
        fields = pathlib.Path(f'/proc/{self.process.pid}/stat').read_text(errors='replace').rsplit(')', 1)[1].split()
        return (int(fields[11]) + int(fields[12])) / os.sysconf('SC_CLK_TCK')


def received(link):
    pieces = []
    while piece := link.recv(65536):
        pieces.append(piece)
    return b''.join(pieces)


def request(target, method='GET', body=b'', fields=''):
    if method == 'POST' and not fields:
        fields = f'Content-Length: {len(body)}\r\n'
    return f'{method} {target} HTTP/1.1\r\nHost: tide\r\n{fields}\r\n'.encode() + body


def response(body, status='200 OK', kind='text/plain', allow=''):
    """The whole reply with this body."""
    return (f'HTTP/1.1 {status}\r\nContent-Type: {kind}; charset=utf-8\r\nContent-Length: {len(body)}\r\n'
            f'{allow}Connection: close\r\n\r\n').encode() + body
