"""The cases of tools/try_check: certificates of examples/certificates, random ones, and ones with something altered."""

import collections
import pathlib
import random
import re
import subprocess

from trial_constants import Maker

TOP = pathlib.Path(__file__).resolve().parent.parent
FOLDER = TOP / 'examples' / 'certificates'
MADE = 20
FIELDS = ('file', 'offsets', 'certificate')

Case = collections.namedtuple('Case', 'about file offsets certificate')


def moment(minute):
    """A minute since 1970 in the form of the program's `begin`."""
    days, rest = divmod(minute, 1440)
    days += 719468
    era, day = divmod(days, 146097)
    of_era = (day - day // 1460 + day // 36524 - day // 146096) // 365
    day -= 365 * of_era + of_era // 4 - of_era // 100
    month = (5 * day + 2) // 153
    year = of_era + 400 * era + (month >= 10)
    return f'{year:04}-{month + 3 if month < 10 else month - 9:02}-{day - (153 * month + 2) // 5 + 1:02}T{rest // 60:02}:{rest % 60:02}Z'


def start_of(year):
    """The first minute of a year."""
    before = year - 1
    return 1440 * (365 * before + before // 4 - before // 100 + before // 400 - 719162)


def known():
    """The certificates of the repository, with the line for each."""
    lines = (FOLDER / 'expected.txt').read_text(encoding='utf-8').splitlines()
    return [(Case(name, FOLDER / 'tides.txt', FOLDER / 'offsets.csv', FOLDER / name), line)
            for name, line in (it.split(': ', 1) for it in lines)]


def altered_digit(text):
    """A certificate whose fifth event has another level: its last digit is another one."""
    levels = list(re.finditer(rb'^t \w+ -?\d*(\d)$', text, re.MULTILINE))
    at = levels[4].start(1)
    return text[:at] + b'%d' % ((text[at] - 48 + 1) % 10) + text[at + 1:]


class Cases:
    """Makes random cases in a folder from given and made-up pairs of a file of constants and a table, which may be None."""

    def __init__(self, folder, program, sources, seed):
        self.folder, self.program = folder, program
        self.random, self.count = random.Random(seed), 0
        maker = Maker(self.random)
        made = [(self.keep(maker.constants(), '.txt'), self.keep(maker.table(), '.csv')) for _ in range(MADE)]
        # As many cases of the given files as of made-up ones.
        self.sources = made + sources * max(1, MADE // len(sources))
        self.stations = {source: self.names(*source) for source in {*made, *sources}}

    def run(self, command, file, offsets, **values):
        words = {'file': file, **({'offsets': offsets} if offsets else {}), **values}
        return subprocess.run([self.program, command, *(f'{key}={value}' for key, value in words.items())], capture_output=True, timeout=120)

    def names(self, file, offsets):
        lines = self.run('stations', file, offsets).stdout.decode().splitlines()
        own = [line.split(' ', 2)[2] for line in lines if line.startswith('Ref ')]
        return own + [name for name in (self.row_name(line, own) for line in lines if line.startswith('Sub ')) if name]

    @staticmethod
    def row_name(line, own):
        text = line.split(' ', 2)[2]
        return next((text[:-len(name) - 3] for name in own if text.endswith(f' ({name})')), None)

    def keep(self, text, suffix):
        self.count += 1
        path = self.folder / f'{self.count}{suffix}'
        path.write_bytes(text)
        return path

    def years(self, file):
        lines = [it for it in file.read_bytes().splitlines() if it.strip() and not it.startswith(b'#')]
        count = int(lines[0])
        first, years = int(lines[count + 1]), int(lines[count + 2])
        return first, first + years

    def span(self, file):
        """A first minute and a length: in a third of the cases at a new year, seldom outside the file's years."""
        (first, last), pick = self.years(file), self.random
        last = min(last, first + 40)
        length = pick.choice([pick.randrange(0, 200), pick.randrange(2000), pick.randrange(10000), pick.randrange(50000)])
        around = start_of(pick.randint(first, last)) - pick.randrange(length + 120)
        within = start_of(first) + pick.randrange(max(1, start_of(last) - start_of(first) - length))
        return (around if pick.random() < 0.35 else within), length

    def question(self):
        source = self.random.choice(self.sources)
        begin, length = self.span(source[0])
        asked = {'station': self.random.choice(self.stations[source]), 'begin': moment(begin), 'end': moment(begin + length)}
        if self.random.random() < 0.02:
            asked['begin'], asked['end'] = asked['end'], asked['begin']
        if self.random.random() < 0.02:
            asked['station'] += 'x'
        return source, asked

    def skeleton(self, asked, is_peak):
        """A certificate without cells, for a question that has no answer."""
        mark = round(float(asked['mark']) * 1000000) if 'mark' in asked else 'none'
        lines = ['peak certificate 1' if is_peak else 'tide certificate 2', f'station {asked["station"]}', f'begin {asked["begin"]}', f'end {asked["end"]}']
        lines += [f'at {asked["begin"]}', 'value 0'] if is_peak else [f'mark {mark}', 'track turn']
        return '\n'.join([*lines, *(['track mark'] if mark != 'none' and not is_peak else []), 'done', '']).encode()

    def certificate(self):
        """A random certificate as the program writes it, in a quarter of the cases of a highest water."""
        source, asked = self.question()
        is_peak = self.random.random() < 0.25
        if not is_peak and self.random.random() < 0.4:
            asked['mark'] = f'{self.random.uniform(-3, 8):.{self.random.randrange(7)}f}'
        run = self.run('peak' if is_peak else 'certify', *source, **asked)
        if run.stderr.endswith(b' not here\n') and self.random.random() < 0.9:
            asked.pop('mark', None)
            run, is_peak = self.run('certify', *source, **asked), False
        return source, run.stdout if run.returncode == 0 else self.skeleton(asked, is_peak)

    def random_case(self):
        source, text = self.certificate()
        about = 'as written'
        if self.random.random() < 0.4:
            text, about = self.cut_again(text), 'cut again'
        if text.startswith(b'tide') and self.random.random() < 0.4:
            text, about = text.replace(b'certificate 2', b'certificate 1', 1), f'{about}, version 1'
        return Case(about, *source, self.keep(text, '.cert'))

    def cut_again(self, text):
        """Some quiet cells divided or joined: not each of the new cells is quiet."""
        lines, made = text.split(b'\n'), []
        share = self.random.choice([0.005, 0.05, 0.5])
        for line in lines:
            cell, before = re.fullmatch(rb'([qu]) (\d+)', line), re.fullmatch(rb'([qu]) (\d+)', made[-1]) if made else None
            if not cell or self.random.random() > share:
                made.append(line)
            elif before and int(before[2]) + int(cell[2]) <= 1024 and self.random.random() < 0.5:
                made[-1] = b'%s %d' % (cell[1], int(before[2]) + int(cell[2]))
            else:
                first = self.random.randrange(1, int(cell[2]))
                made += [b'%s %d' % (cell[1], part) if part > 1 else (b's' if cell[1] == b'q' else b'm') for part in (first, int(cell[2]) - first)]
        return b'\n'.join(made)

    def altered_case(self):
        """A random case with one thing altered: in the certificate, the constants or the table."""
        source, text = self.certificate()
        paths = [*source, self.keep(text, '.cert')]
        which = self.random.choices([0, 1, 2], [4, 2 if source[1] else 0, 6])[0]
        text, about = self.alter(paths[which].read_bytes())
        paths[which] = self.keep(text, paths[which].suffix)
        return Case(f'{FIELDS[which]}: {about}', *paths)

    def alter(self, text):
        pick = self.random
        lines = text.splitlines(keepends=True)
        places = [place for place, line in enumerate(lines) if not line.startswith(b'#')]
        place = pick.choice([pick.choice(places), pick.choice(places), places[min(pick.randrange(12), len(places) - 1)], places[-1]])
        line = lines[place]
        kind = pick.choice(['digit', 'digit', 'digit', 'byte', 'byte out', 'byte more', 'line out', 'line twice', 'line elsewhere', 'cut', 'blank', 'sign'])
        at = pick.randrange(len(line))
        digits = [index for index, byte in enumerate(line) if 48 <= byte <= 57]
        if kind == 'digit' and digits:
            at = pick.choice(digits)
            line = line[:at] + b'%d' % ((line[at] - 48 + pick.randrange(1, 10)) % 10) + line[at + 1:]
        elif kind in ('byte', 'byte out', 'byte more'):
            new = bytes([pick.choice([*b'\n\r\t "+-.,:;#xzAZ019', 0, 127, 128, 195, 239, 255])])
            line = line[:at] + {'byte': new, 'byte out': b'', 'byte more': new + line[at:at + 1]}[kind] + line[at + 1:]
        elif kind == 'line twice':
            line *= 2
        elif kind == 'blank':
            line += pick.choice([b'\n', b'\r\n', b' \n', b'\t\n'])
        elif kind == 'sign':
            line = re.sub(rb'(\d)', rb'-\1', line, count=1)
        lines[place] = b'' if kind in ('line out', 'line elsewhere') else line
        if kind == 'line elsewhere':
            lines.insert(pick.randrange(len(lines)), line)
        text = b''.join(lines)
        return (text[:pick.randrange(len(text))] if kind == 'cut' else text), f'{kind} in line {place + 1}'

    def wanted(self, case):
        """The program's answer: its status, its standard output and its standard error."""
        command = 'peakcheck' if case.certificate.read_bytes().startswith(b'peak certificate 1\n') else 'check'
        run = self.run(command, case.file, case.offsets, certificate=case.certificate)
        return run.returncode, run.stdout.decode(), run.stderr.decode()
