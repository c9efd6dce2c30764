"""What a year's sheets say, and what `tide predict` lists, in the same form, for tools/try_yearbook."""

import datetime
import re
import subprocess

import yearbook_sheets as sheets
from yearbook_clock import Clock

SIGNS = {sign: word for word, sign in sheets.SIGNS.items()}
TOKEN = re.compile(r'clock (?P<offset>[+-]\d\d:\d\d)|(?P<above>(?:\.\.|\d\d:\d\d)–(?:\.\.|\d\d:\d\d)(?: \+\d+)?)'
                   r'|(?P<begins>\d\d:\d\d) (?P<slack>S[FE])|(?P<before>\d\d:\d\d) (?=(?P<next>[FEfe]) ?\d)'
                   r'|(?P<sign>[HLFEfe]) ?(?P<time>\d\d:\d\d) ?(?P<level>-?\d+\.\d\d)|(?P<other>\S+)')
MONTH = re.compile(r'([A-Z][a-z]+) \d+ UTC([+-]\d\d:\d\d)')
MONTHS = [datetime.date(2000, month, 1).strftime('%B') for month in range(1, 13)]
# The heads of columns, and the names of months and of tables, which may be cut since they aren't seen on the paper.
HEADS = re.compile(rf'(Day ?)?(Event ?)?(Slack ?)?((Time|Max) .*)?|({"|".join(MONTHS)}) .*')


def run(*command, **options):
    return subprocess.run([str(word) for word in command], capture_output=True, text=True, check=False, **options)


def filled(path):
    """How much of its height the fullest page of a PDF fills with text."""
    pages = run('pdftotext', '-bbox', path, '-').stdout.split('<page ')[1:]
    return max(max(map(float, re.findall('yMax="([0-9.]+)"', page)), default=0) / float(re.search('height="([0-9.]+)"', page)[1]) for page in pages)


class Sheet:
    """The events and the times above the sill that the text of a PDF has, as (date, time, offset, word, level) and (date, text)."""

    def __init__(self, path, year):
        self.events, self.above, self.others, self.year = [], [], [], year
        pages = run('pdftotext', '-raw', path, '-').stdout.split('\f')[:-1]
        self.pages, months = len(pages), 0
        for page in pages:
            lines = page.splitlines()
            heads = [found for found in MONTH.findall(page) if found[0] in MONTHS]
            lines = [line for line in lines[lines.index('1'):] if not HEADS.fullmatch(line)]
            starts = [place for place, line in enumerate(lines) if line == '1' and re.fullmatch('[A-Z][a-z]{2}', lines[place + 1])]
            for (name, offset), start, end in zip(heads, starts, starts[1:] + [len(lines)]):
                months += 1
                self.read_month(months, name, offset, lines[start:end])

    def read_month(self, month, name, offset, lines):
        """A month's days: a number, a weekday, and lines."""
        if name != MONTHS[month - 1]:
            self.others.append(name)
        day, place = 0, 0
        while place < len(lines):
            if lines[place] == str(day + 1) and place + 1 < len(lines):
                day, date = day + 1, datetime.date(self.year, month, day + 1)
                self.others += [] if lines[place + 1] == f'{date:%a}' else [lines[place + 1]]
                place += 2
            elif place + 1 == len(lines) and lines[place].isdecimal():  # the number of the page
                place += 1
            else:
                offset = self.read_line(f'{date}', offset, lines[place])
                place += 1

    def read_line(self, date, offset, line):
        """Adds what a line has, and returns the offset after it."""
        for found in TOKEN.finditer(line):
            if found['offset']:
                offset = found['offset']
            elif found['begins']:
                self.events.append((date, found['begins'], offset, SIGNS[found['slack']], ''))
            elif found['before']:
                self.events.append((date, found['before'], offset, SIGNS['S' + found['next'].upper()], ''))
            elif found['sign']:
                self.events.append((date, found['time'], offset, SIGNS[found['sign']], found['level']))
            elif found['above']:
                self.above.append((date, found['above']))
            else:
                self.others.append(found['other'])
        return offset


class Line:
    """A line of `tide predict`."""

    def __init__(self, text):
        self.text = text
        self.date, self.clock, offset, self.level, _, self.word = text.split(maxsplit=5)
        self.offset = '+00:00' if offset == 'UTC' else offset
        self.moment = datetime.datetime.fromisoformat(f'{self.date} {self.clock}{self.offset}')

    def event(self):
        return self.date, self.clock, self.offset, self.word, '' if self.word.startswith('Slack') else self.level


class Predicted:
    """What `tide predict` lists in a zone's file, for a mark and, for the limit of a current, for the mark below 0."""

    def __init__(self, listing, low_listing=()):
        lines, low = ([Line(text) for text in texts] for texts in (listing, low_listing))
        low_marks = [line for line in low if line.word.startswith('Mark')]
        self.events = [line.event() for line in lines if not line.word.startswith('Mark')]
        self.lines = [line.text for line in sorted(lines + low_marks, key=lambda line: line.moment)]
        inward = {(mark.moment, True) for mark in lines if mark.word == ('Mark Falling' if low_listing else 'Mark Rising')}
        outward = {(mark.moment, False) for mark in lines if mark.word == ('Mark Rising' if low_listing else 'Mark Falling')}
        inward |= {(mark.moment, True) for mark in low_marks if mark.word == 'Mark Rising'}
        outward |= {(mark.moment, False) for mark in low_marks if mark.word == 'Mark Falling'}
        self.above, start = [], 'before'
        for moment, inside in sorted(inward | outward):
            if not inside:
                self.above.append((start, moment))
            start = moment + datetime.timedelta(minutes=1) if inside else None
        self.above += [(start, 'after')] if isinstance(start, datetime.datetime) else []

    def above_texts(self, zone, year):
        """The times above the sill as the sheets have them."""
        clock = Clock(zone).zone
        for start, stop in self.above:
            first = datetime.datetime(year, 1, 1) if start == 'before' else start.astimezone(clock)
            last = datetime.datetime(year, 12, 31) if stop == 'after' else stop.astimezone(clock)
            days = (last.date() - first.date()).days
            end = '..' if stop == 'after' else f'{last:%H:%M} +{days}' if days > 1 else f'{last:%H:%M}'
            yield f'{first.date()}', f'{".." if start == "before" else f"{first:%H:%M}"}–{end}'
