"""A Debian of its own for tools/try_package: systemd and nginx in namespaces of this machine, and requests to them."""

import http.client
import itertools
import json
import os
import pathlib
import shutil
import subprocess
import sys
import tarfile
import threading
import time

WANTED = {'mmdebstrap': 'mmdebstrap', 'util-linux': 'nsenter', 'iproute2': 'ip'}
PACKAGES = 'systemd,systemd-sysv,nginx-light,libjs-dygraphs'
NAMESPACES = ['mount', 'pid', 'net', 'uts', 'ipc', 'cgroup']
# Becomes the first process of the namespaces in the root given, as a container's manager would.
BOOT = '''
set -e
mount --make-rprivate /
mount --bind "$1" "$1"
cd "$1"
mount -t proc proc proc
mount -t sysfs -o ro sysfs sys
mount -t cgroup2 cgroup2 sys/fs/cgroup
mount -t tmpfs tmpfs run
mount -t tmpfs tmpfs tmp
mount -t tmpfs -o mode=755 tmpfs dev
for each in null zero full random urandom tty; do touch dev/$each; mount --bind /dev/$each dev/$each; done
mkdir dev/pts dev/shm
mount -t devpts -o newinstance,ptmxmode=0666 devpts dev/pts
ln -s pts/ptmx dev/ptmx
mount -t tmpfs tmpfs dev/shm
ip link set lo up
pivot_root . .
umount -l .
exec env -i -C / container=other PATH=/usr/sbin:/usr/bin /lib/systemd/systemd --log-target=null
'''
# What dpkg, apt, systemd and this trial write for themselves.
NOT_LISTED = ('var/lib/dpkg', 'var/log', 'var/lib/apt', 'var/cache', 'var/lib/systemd', 'run', 'tmp', 'proc', 'sys', 'dev', 'root')
ENVIRONMENT = {'PATH': '/usr/sbin:/usr/bin:/sbin:/bin', 'HOME': '/root', 'LC_ALL': 'C.UTF-8', 'DEBIAN_FRONTEND': 'noninteractive'}


def wanting():
    """The Debian packages that aren't there."""
    return [package for package, command in WANTED.items() if not shutil.which(command)]


def make_tarball(path):
    """A clean Debian of this machine's release, as a tar file."""
    release = dict(line.split('=', 1) for line in pathlib.Path('/etc/os-release').read_text().splitlines() if '=' in line)
    command = ['mmdebstrap', '--quiet', '--variant=minbase', f'--include={PACKAGES}', release['VERSION_CODENAME'].strip('"'), str(path)]
    if subprocess.run(command, check=False).returncode != 0:
        raise SystemExit('try_package: mmdebstrap could not make a Debian')


def unpacked(tarball, folder):
    folder.mkdir(parents=True)
    with tarfile.open(tarball) as tar:
        tar.extractall(folder, numeric_owner=True, **({'filter': 'fully_trusted'} if hasattr(tarfile, 'fully_trusted_filter') else {}))
    # Nothing here outlives a fault of the machine, so dpkg needn't wait for its disk.
    (folder / 'etc/dpkg/dpkg.cfg.d/unsafe-io').write_text('force-unsafe-io\n')
    return folder


class System:
    """A Debian in a folder, with systemd as its first process."""

    def __init__(self, root):
        self.root = root
        flags = [f'--{each}' for each in NAMESPACES]
        self.process = subprocess.Popen(['unshare', *flags, '--fork', '--kill-child', 'bash', '-c', BOOT, 'boot', str(root)])
        children = pathlib.Path(f'/proc/{self.process.pid}/task/{self.process.pid}/children')
        self.first = within(10, lambda: children.read_text().split())[0]
        self.enter = ['nsenter', '--target', self.first]
        if not within(60, lambda: self.run('systemctl', 'is-system-running').stdout.strip() in ('running', 'degraded')):
            raise SystemExit('try_package: systemd does not start')

    def run(self, *command):
        """A command within, with what it printed."""
        inside = [*self.enter, *(f'--{each}' for each in NAMESPACES), '--root', 'env', '-i', '-C', '/']
        return subprocess.run([*inside, *(f'{key}={value}' for key, value in ENVIRONMENT.items()), *command], stdin=subprocess.DEVNULL,
                              stdout=subprocess.PIPE, stderr=subprocess.STDOUT, text=True, timeout=300, check=False)

    def must(self, *command):
        run = self.run(*command)
        if run.returncode != 0:
            raise SystemExit(f'try_package: {" ".join(command)}: {run.stdout}')
        return run.stdout

    def listed(self):
        """Each file, folder and link with its kind."""
        return listed(self.root)

    def get(self, port, path):
        """The status and the body of a request within."""
        command = [*self.enter, '--net', sys.executable, __file__, 'get', str(port), path]
        return tuple(json.loads(subprocess.run(command, stdout=subprocess.PIPE, text=True, timeout=60, check=True).stdout))

    def fields(self, port, path, **fields):
        """The status and the fields of a reply to a request with some fields."""
        command = [*self.enter, '--net', sys.executable, __file__, 'fields', str(port), path, json.dumps(fields)]
        return tuple(json.loads(subprocess.run(command, stdout=subprocess.PIPE, text=True, timeout=60, check=True).stdout))

    def stop(self):
        self.process.kill()
        self.process.wait()
        time.sleep(0.5)


def within(seconds, found):
    """What a function finds in time, or None."""
    end = time.monotonic() + seconds
    while time.monotonic() < end:
        try:
            if result := found():
                return result
        except (OSError, subprocess.TimeoutExpired):
            pass
        time.sleep(0.1)
    return None


def listed(root):
    lines = set()
    for folder, folders, files in os.walk(root):
        place = pathlib.Path(folder).relative_to(root)
        folders[:] = [it for it in folders if str(place / it) not in NOT_LISTED]
        lines |= {f'{place / it}{" (link)" if (root / place / it).is_symlink() else ""}' for it in (*folders, *files)}
    return lines


class Watch:
    """Requests of one path by four clients until the end. For a `with`."""

    def __init__(self, system, port, path):
        self.command = [*system.enter, '--net', sys.executable, __file__, 'watch', str(port), path]

    def __enter__(self):
        self.process = subprocess.Popen(self.command, stdin=subprocess.PIPE, stdout=subprocess.PIPE, text=True)
        self.process.stdout.readline()
        return self

    def __exit__(self, *_):
        out, _ = self.process.communicate('', timeout=60)
        self.count, self.failed, self.faults = json.loads(out.splitlines()[-1])


def request(port, path, address='127.0.0.1', fields=None):
    """The status and the body of a reply, or its fields if the request has some."""
    link = http.client.HTTPConnection('127.0.0.1', port, timeout=20, source_address=(address, 0))
    try:
        link.request('GET', path, headers=fields or {})
        reply = link.getresponse()
        body = reply.read().decode(errors='replace')
        return reply.status, body if fields is None else dict(reply.getheaders())
    except (OSError, http.client.HTTPException) as fault:
        return 0, repr(fault)
    finally:
        link.close()


def watch(port, path):
    """Requests by four clients until standard input ends. Each address has its own limit in nginx, so they take turns."""
    usual, counts, faults, ended = request(port, path), [], [], threading.Event()

    def client(number):
        addresses = itertools.cycle(f'127.0.{number}.{last}' for last in range(1, 251))
        while not ended.is_set():
            reply = request(port, path, next(addresses))
            counts.append(1)
            if reply[0] != 200 or reply != usual:
                faults.append(f'{reply[0]} {reply[1][:80]}')
            time.sleep(0.005)

    clients = [threading.Thread(target=client, args=(number,)) for number in range(2, 6)]
    for each in clients:
        each.start()
    print('begun', flush=True)
    sys.stdin.read()
    ended.set()
    for each in clients:
        each.join()
    print(json.dumps([len(counts), len(faults), faults[:3]]))


if __name__ == '__main__':
    if sys.argv[1] == 'get':
        print(json.dumps(request(int(sys.argv[2]), sys.argv[3])))
    elif sys.argv[1] == 'fields':
        print(json.dumps(request(int(sys.argv[2]), sys.argv[3], fields=json.loads(sys.argv[4]))))
    else:
        watch(int(sys.argv[2]), sys.argv[3])
