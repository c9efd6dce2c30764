"""Roots without services for tools/try_package: an empty one, and a Debian without systemd, with and without nginx."""

import os
import pathlib
import shutil
import subprocess
import urllib.parse

import trial_system

TOP = pathlib.Path(__file__).resolve().parent.parent
BOSTON = 'Boston, Boston Harbor, Massachusetts'
WEEK = {'station': BOSTON, 'begin': '2025-06-01T00:00Z', 'end': '2025-06-08T00:00Z'}
QUICK = '/tide/predict?' + urllib.parse.urlencode(WEEK)
EXPECTED = '2025-06-01 07:50 UTC      10.48 feet  High Tide'
LINK = 'etc/nginx/conf.d/tide.conf'
# A system without systemd, as the second process of its namespaces: nginx runs, the predictors don't yet.
BY_HAND = '''ip link set lo up
mount -t proc proc "$1/proc"
exec chroot "$1" env -i PATH=/usr/sbin:/usr/bin DEBIAN_FRONTEND=noninteractive bash -c '
nginx
for step in enable status restart; do echo "== $step"; tide-site $step; echo "status $?"; done
ls /var/lib/tide-site
for port in 8081 8082 8083 8084; do tide serve file=/usr/share/tide/harbours.txt port=$port & done 2>/dev/null
sleep 2
for step in enable status disable; do echo "== $step"; tide-site $step; echo "status $?"; done
' 2>&1
'''


def in_empty_root(trial):
    """dpkg alone, in a root without a shell: the scripts run outside of it."""
    root = trial.folder / 'empty'
    for place in ('var/lib/dpkg/info', 'var/lib/dpkg/updates', 'var/log'):
        (root / place).mkdir(parents=True)
    (root / 'var/lib/dpkg/status').touch()
    before = trial_system.listed(root)
    dpkg = ['dpkg', f'--root={root}', '--force-depends', '--force-not-root', '--force-script-chrootless']
    dpkg = dpkg if os.geteuid() == 0 else ['fakeroot', '--', *dpkg]

    def must(*words):
        run = subprocess.run([*dpkg, *words], stdout=subprocess.PIPE, stderr=subprocess.STDOUT, text=True, check=False)
        if run.returncode != 0:
            raise SystemExit(f'try_package: dpkg {words}: {run.stdout}')

    must('--install', trial.package)
    command = [root / 'usr/bin/tide', 'predict', f'file={root / "usr/share/tide/harbours.txt"}', *(f'{key}={value}' for key, value in WEEK.items())]
    trial.say(EXPECTED in subprocess.run(command, stdout=subprocess.PIPE, text=True, check=False).stdout, f'empty root: it answers {EXPECTED}')
    checked = subprocess.run([TOP / 'tools/put_documents', 'check', root / 'usr/share/doc/tide'], stdout=subprocess.PIPE, text=True, check=False)
    trial.say(checked.returncode == 0, f'empty root: documents, {checked.stdout.strip().rpartition(": ")[2]}')
    enabled = root / 'etc/systemd/system/multi-user.target.wants/tide@8081.service'
    enabled.parent.mkdir(parents=True)
    enabled.symlink_to('/lib/systemd/system/tide@.service')
    (root / LINK).parent.mkdir(parents=True)
    (root / LINK).symlink_to('/usr/share/tide/server/nginx.conf')
    before |= {'etc', 'etc/systemd', 'etc/systemd/system', str(enabled.parent.relative_to(root)), 'etc/nginx', 'etc/nginx/conf.d'}
    must('--install', trial.newer('empty'))
    must('--remove', 'tide')
    must('--purge', 'tide')
    trial.unchanged(before, trial_system.listed(root), 'empty root: upgraded, removed and purged')


def without_services(trial, tarball):
    """A Debian in which neither systemd nor nginx is installed."""
    root = trial_system.unpacked(tarball, trial.folder / 'small')
    chroot = ['unshare', '--net', '--pid', '--fork', '--mount-proc', 'chroot', root, 'env', 'DEBIAN_FRONTEND=noninteractive', 'PATH=/usr/sbin:/usr/bin']

    def run(*words):
        return subprocess.run([*chroot, *map(str, words)], stdin=subprocess.DEVNULL, stdout=subprocess.PIPE, stderr=subprocess.STDOUT, text=True, check=False)

    run('apt-get', 'purge', '--assume-yes', '--allow-remove-essential', 'nginx*', 'libnginx*', 'systemd*', 'libjs-dygraphs')
    trial.say(run('which', 'nginx', 'systemctl').stdout == '', 'without systemd and nginx: neither is there')
    before = trial_system.listed(root)
    for package in (trial.package, trial.newer('small')):
        shutil.copy(package, root / 'root/tide.deb')
        ended = run('dpkg', '--install', '/root/tide.deb')
        trial.say(ended.returncode == 0 and 'tide-site' not in ended.stdout, f'without systemd and nginx: installed {ended.stdout[-300:] if ended.returncode else ""}')
    said = run('tide-site', 'enable')
    trial.say(said.returncode == 1, f'without systemd and nginx: {said.stdout.strip()}')
    ended = run('dpkg', '--purge', 'tide')
    trial.say(ended.returncode == 0, f'without systemd and nginx: purged {ended.stdout if ended.returncode else ""}')
    trial.unchanged(before, trial_system.listed(root), 'without systemd and nginx')


def without_systemd(trial, tarball):
    """A Debian with nginx, in which no systemd runs."""
    root = trial_system.unpacked(tarball, trial.folder / 'by-hand')
    shutil.copy(trial.package, root / 'root/tide.deb')
    subprocess.run(['chroot', root, 'dpkg', '--install', '/root/tide.deb'], check=True, stdout=subprocess.DEVNULL)
    run = subprocess.run(['unshare', '--net', '--pid', '--mount', '--fork', '--kill-child', 'bash', '-c', BY_HAND, 'by-hand', root],
                         stdin=subprocess.DEVNULL, stdout=subprocess.PIPE, text=True, check=False)
    said = [part.strip() for part in run.stdout.split('== ')[1:]]
    wanted = [('enable', 'status 1', 'start the predictors by hand'), ('status', 'status 1', "tide@8081.service: doesn't listen"),
              ('restart', 'status 1\nconstants.sha256\nconstants.txt\nstations.txt', 'end the predictors and start them again by hand'),
              ('enable', 'status 0', 'the page is at http://127.0.0.1:8000/'), ('status', 'status 0', 'tide@8084.service: started by hand, listens'),
              ('disable', 'status 0', 'taken out of nginx')]
    for part, (step, status, text) in zip(said + [''] * len(wanted), wanted):
        trial.say(part.startswith(step) and part.endswith(status) and text in part, f'without systemd: {" / ".join(part.splitlines())}')
