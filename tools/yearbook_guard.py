"""A temporary folder, and processes, that don't outlive the program, even if it is killed."""

import os
import pathlib
import shutil
import signal
import subprocess
import tempfile
import time


def users_of(folder):
    """The running processes that were started with this folder as their TMPDIR."""
    found, wanted = [], f'TMPDIR={folder}'.encode()
    for name in filter(str.isdecimal, os.listdir('/proc')):
        try:
            if wanted in pathlib.Path('/proc', name, 'environ').read_bytes().split(b'\0'):
                found.append(int(name))
        except OSError:  # it has ended, or is another user's
            pass
    return found


def end_all(folder):
    """Kills each process with this TMPDIR, until there is none."""
    while found := users_of(folder):
        for process in found:
            try:
                os.kill(process, signal.SIGKILL)
            except ProcessLookupError:
                pass
        time.sleep(0.01)


class Guard:
    """A process that ends what the program has started and removes its folder, when the program has ended for any reason.

    It reads lines from a pipe that only the program writes, so the pipe's end is the program's end.
    """

    def __init__(self, prefix):
        self.folder = pathlib.Path(tempfile.mkdtemp(prefix=prefix))
        end, self.lines = os.pipe()
        self.process = os.fork()
        if self.process == 0:
            os.close(self.lines)
            try:
                self.wait_for(end)
            finally:
                os._exit(0)
        os.close(end)
        # All processes that the program starts have it.
        os.environ['TMPDIR'] = str(self.folder)

    def wait_for(self, end):
        os.setsid()
        for name in (signal.SIGINT, signal.SIGTERM, signal.SIGHUP):
            signal.signal(name, signal.SIG_IGN)
        nothing = os.open(os.devnull, os.O_RDWR)
        for stream in (0, 1, 2):
            os.dup2(nothing, stream)
        remote = {}
        with os.fdopen(end, encoding='utf-8') as lines:
            for folder, *hosts in map(str.split, lines):
                remote[folder] = hosts
        end_all(self.folder)
        shutil.rmtree(self.folder, ignore_errors=True)
        for folder, hosts in remote.items():
            for host in hosts:
                subprocess.run(['ssh', '-o', 'BatchMode=yes', host, 'rm', '-rf', folder], check=False)

    def note_remote(self, folder, hosts):
        """Notes on which other machines a folder of this name is to be removed at the end: on none if `hosts` is empty."""
        os.write(self.lines, f'{" ".join([folder, *hosts])}\n'.encode())

    def end(self):
        """Removes the folder, and ends what still runs."""
        os.close(self.lines)
        os.waitpid(self.process, 0)
