"""Checks of single runs of a built program: its output, its statuses, its files and its streams."""
import datetime
import errno
import fcntl
import math
import os
import re
import shlex
import subprocess
import termios
import threading
import time

from program_checks import DAY, NO_LIMIT, TOP, Skipped, difference

RUNS = TOP / 'tools' / 'expected' / 'runs.txt'
WORDS = ('predict', 'file=pier.txt', 'station=Pier', 'begin=2000-01-10T00:00Z', 'end=2000-01-11T00:00Z')
PIER = ('Pier\n2000-01-10 06:00 UTC      -1.00 feet  Low Tide\n2000-01-10 11:59 UTC       1.00 feet  High Tide\n'
        '2000-01-10 18:00 UTC      -1.00 feet  Low Tide\n2000-01-10 23:59 UTC       1.00 feet  High Tide\n').encode()
MOST_FILE, MOST_ZONE = 67_108_864, 1_048_576
# The memory that a program may use here; the file below takes more.
FEW_MEGABYTES = (32, 48, 64)


def read_runs(path):
    """The files of a record of runs, and its runs: arguments, status, standard output, standard error."""
    files, runs, name = {}, [], ''
    for line in path.read_text(encoding='utf-8').splitlines():
        sign, rest = line[:1], line[2:]
        if sign == '@':
            name, files[rest] = rest, ''
        elif sign == '+':
            files[name] += rest + '\n'
        elif sign == '$':
            runs.append([shlex.split(rest), 0, '', ''])
        elif sign in '|>' and sign:
            runs[-1][2] += rest + ('\r\n' if sign == '>' else '\n')
        elif sign == '!':
            runs[-1][3] += rest + '\n'
        elif sign == '?':
            runs[-1][1] = int(rest)
    return files, runs


def recorded():
    """The recorded runs: arguments, status, standard output, standard error."""
    return read_runs(RUNS)[1]


def now():
    return datetime.datetime.now(datetime.timezone.utc).replace(second=0, microsecond=0, tzinfo=None)


def is_present(text, form, begun):
    """Whether a moment is that of a run, which began at some minute and has ended."""
    return begun <= datetime.datetime.strptime(text, form) <= now()


def without_stamps(out, begun):
    """A calendar with `now` for its minute, if that is right."""
    stamps = set(re.findall(rb'DTSTAMP:(\w+)', out))
    if stamps and not (len(stamps) == 1 and is_present(stamps.pop().decode(), '%Y%m%dT%H%M00Z', begun)):
        return out
    return re.sub(rb'DTSTAMP:\w+', b'DTSTAMP:now', out)


def run_as_recorded(place, run):
    words, status, out, err = run
    begun = now()
    ended = place.run(*words)
    ended.stdout = without_stamps(ended.stdout, begun)
    return difference(ended, status, out.encode(), err.encode())


def constant(name):
    """A text of crates/tide/src/help.rt."""
    source = (TOP / 'crates/tide/src/help.rt').read_text(encoding='utf-8')
    text = re.search(rf'const {name}: &str = "(.*?)";', source, re.DOTALL)[1]
    return re.sub(r'\\(n|\n|.)', lambda it: {'n': '\n', '\n': ''}.get(it[1], it[1]), text).encode()


def pages(place):
    forty = ['x=1'] * 39
    wanted = [(['--help'], 'HELP'), (['-h'], 'HELP'), (['--version'], 'VERSION'), (['-V'], 'VERSION'), ([*forty, '--help'], 'HELP'),
              (['predict', '-h'], 'HELP'), (['predict', 'file=missing.txt', '-h'], 'HELP'), (['serve', '--help'], 'HELP'),
              (['--version', *forty], 'VERSION')]
    return '; '.join(filter(None, (difference(place.run(*words), 0, constant(name), b'') for words, name in wanted)))


def not_utf_8(place):
    return difference(place.run(b'predict', b'file=\xff'), 2, b'', b'words: refused\n')


def clock_lines(text, begun):
    """The fault in the lines of `clock`, at a tide that is the same each day."""
    lines = text.splitlines()
    first = re.fullmatch(r'Now (\S+ \S+) UTC +(-?\d+\.\d\d) feet  (Rising|Falling)', lines[1] if len(lines) > 1 else '')
    if lines[:1] != ['Pier'] or not first or not is_present(first[1], '%Y-%m-%d %H:%M', begun):
        return f'{text!r} at {begun} to {now()}'
    moment = datetime.datetime.strptime(first[1], '%Y-%m-%d %H:%M')
    minute = moment.hour * 60 + moment.minute
    midnight = moment - datetime.timedelta(minutes=minute)
    listed = [(midnight + datetime.timedelta(days=day, minutes=at), level, word) for day in (0, 1) for at, level, word in DAY]
    wanted = [f'{at:%Y-%m-%d %H:%M} UTC {level} feet  {word}' for at, level, word in listed
              if moment <= at < moment + datetime.timedelta(days=1)]
    slope = math.sin(math.radians(minute / 2))
    if abs(float(first[2]) - math.cos(math.radians(minute / 2))) > 0.006:
        return f'level {first[2]} at {moment}'
    if abs(slope) > 0.001 and first[3] != ('Falling' if slope > 0 else 'Rising'):
        return f'{first[3]} at {moment}'
    return '' if lines[2:] == wanted else f'{lines[2:]} in place of {wanted}'


def clock(place):
    begun = now()
    ended = place.run('clock', 'file=daily.txt', 'station=Pier')
    return difference(ended, 0, ended.stdout, b'') or clock_lines(ended.stdout.decode(errors='replace'), begun)


def full_device(place):
    try:
        with open('/dev/full', 'wb', buffering=0) as full:
            try:
                full.write(b'x')
            except OSError as fault:
                if fault.errno != errno.ENOSPC:
                    raise
            ended = place.run(*WORDS, stdout=full)
            paged = place.run('--help', stdout=full)
            untold = place.run('unknown', stderr=full)
    except OSError as fault:
        raise Skipped(f'/dev/full: {fault}') from fault
    seen = [ended.returncode, ended.stderr, paged.returncode, paged.stderr, untold.returncode, untold.stdout]
    return '' if seen == [7, b'write fault\n', 7, b'write fault\n', 2, b''] else str(seen)


def closed_pipe(place):
    seen = []
    for words in (WORDS, ('--help',)):
        reader, writer = os.pipe()
        os.close(reader)
        try:
            ended = place.run(*words, stdout=writer)
        finally:
            os.close(writer)
        seen += [ended.returncode, ended.stderr]
    return '' if seen == [7, b'write fault\n'] * 2 else str(seen)


def left_in_between(place):
    """A reader that leaves after the first bytes of a long list: a prefix is written, then the fault."""
    words = ('heights', 'file=daily.txt', 'station=Pier', 'begin=2010-01-01T00:00Z', 'end=2010-03-01T00:00Z', 'step=1')
    with subprocess.Popen(place.command(words), cwd=place.folder, stdin=subprocess.DEVNULL, stdout=subprocess.PIPE,
                          stderr=subprocess.PIPE) as process:
        begin = process.stdout.read(5)
        process.stdout.close()
        line = process.stderr.read()
        status = process.wait(240)
    seen = [begin, status, line]
    return '' if seen == [b'Pier\n', 7, b'write fault\n'] else str(seen)


def no_room(place):
    """Standard output is a file that may not grow past some blocks: a prefix is written, then the fault."""
    words = ('heights', 'file=daily.txt', 'station=Pier', 'begin=2010-01-01T00:00Z', 'end=2010-01-08T00:00Z', 'step=1')
    path = place.folder / 'short'
    with open(path, 'wb') as file:
        ended = place.run(*words, limit='trap "" XFSZ && ulimit -f 9', stdout=file)
    if ended.returncode == NO_LIMIT:
        raise Skipped('the shell can not limit the length of files')
    came, whole = path.read_bytes(), place.run(*words).stdout
    seen = ended.returncode, ended.stderr, 0 < len(came) < len(whole) and whole.startswith(came)
    return '' if seen == (7, b'write fault\n', True) else f'{seen}, {len(came)} bytes'


def slow_reader(place):
    """A long list through a pipe that is often full, by a reader that stops the program now and then."""
    words = ('heights', 'file=daily.txt', 'station=Pier', 'begin=2010-01-01T00:00Z', 'end=2010-02-01T00:00Z', 'step=1')
    pieces = []
    with subprocess.Popen(place.command(words), cwd=place.folder, stdin=subprocess.DEVNULL, stdout=subprocess.PIPE,
                          stderr=subprocess.PIPE) as process:
        while piece := os.read(process.stdout.fileno(), 60_001):
            pieces.append(piece)
            if len(pieces) < 8:
                process.send_signal(19)
                time.sleep(0.02)
                process.send_signal(18)
                time.sleep(0.02)
        line, status = process.stderr.read(), process.wait(240)
    ended = subprocess.CompletedProcess(words, status, b''.join(pieces), line)
    return difference(ended, 0, place.run(*words).stdout, b'') or ('' if len(ended.stdout) == 1_651_722 else f'{len(ended.stdout)} bytes')


def standard_input(place):
    data = (place.folder / 'pier.txt').read_bytes()
    return difference(place.run(WORDS[0], 'file=/dev/stdin', *WORDS[2:], input=data), 0, PIER, b'')


def fed(place, data, count, *words):
    """A run over a file of constants that comes in pieces of so many bytes, each of them only when the one before was read."""
    path = place.folder / f'fifo-{threading.get_ident()}'
    os.mkfifo(path)
    ended = threading.Event()

    def fill():
        with open(path, 'wb', buffering=0) as end:
            for at in range(0, len(data), count):
                try:
                    end.write(data[at:at + count])
                except OSError:  # nobody reads on
                    return
                while any(fcntl.ioctl(end, termios.FIONREAD, bytes(4))) and not ended.wait(0.0002):
                    pass

    writer = threading.Thread(target=fill, daemon=True)
    writer.start()
    run = place.run(words[0], f'file={path.name}', *words[1:])
    ended.set()
    if writer.is_alive():  # nobody has opened the other end
        os.close(os.open(path, os.O_RDONLY | os.O_NONBLOCK))
    writer.join(10)
    path.unlink()
    return run


def fifo(place):
    data = (place.folder / 'pier.txt').read_bytes()
    return difference(fed(place, data, 7, WORDS[0], *WORDS[2:]), 0, PIER, b'')


def too_long(place):
    seen = []
    for name, size in (('long-file', MOST_FILE + 1), ('long-zone', MOST_ZONE + 1)):
        with open(place.folder / name, 'wb') as file:
            file.truncate(size)
    for slot, words in (('file', (WORDS[0], 'file=long-file', *WORDS[2:])), ('offsets', (*WORDS, 'offsets=long-file')),
                        ('zone', (*WORDS, 'zone=@long-zone'))):
        seen.append(difference(place.run(*words), 3, b'', f'{slot}: too long\n'.encode()))
    return '; '.join(filter(None, seen))


def little_memory(place):
    """The limit of the shell's within which the program just starts."""
    for megabytes in FEW_MEGABYTES:
        limit = f'ulimit -v {megabytes * 1024}'
        if place.run('--version', limit=limit).returncode == 0:
            return limit
    raise Skipped(f'the program does not start within {FEW_MEGABYTES[-1]} MB')


def no_memory(place):
    """A table for which there is no memory, since a table is read whole; the file of constants is short."""
    with open(place.folder / 'large', 'wb') as file:
        file.truncate(MOST_FILE)
    limit = little_memory(place)
    seen = difference(place.run(*WORDS, 'offsets=large', limit=limit), 8, b'', b'no memory\n')
    return seen or difference(place.run(*WORDS, limit=limit), 0, PIER, b'')


def checks(place):
    """The checks of this file, each with its name."""
    named = {}
    for run in recorded():
        name = ' '.join(it for it in run[0] if not it.startswith(('begin=', 'end=', 'file=', 'station=')))[:60] or 'no argument'
        named.setdefault(f'status {run[1]}: {name}', []).append(run)
    for name, runs in named.items():
        yield name, lambda runs=runs: '; '.join(filter(None, (run_as_recorded(place, run) for run in runs)))
    for body in (pages, not_utf_8, clock, full_device, closed_pipe, left_in_between, no_room, slow_reader, standard_input, fifo, too_long, no_memory):
        yield body.__name__.replace('_', ' '), lambda body=body: body(place)
