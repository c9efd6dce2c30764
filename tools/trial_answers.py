"""The trials of the page's answers for tools/try_site: limits of currents, units, the present, and the files to take along."""

import csv
import datetime
import decimal
import io
import json
import re
import time
import zoneinfo

try:
    import icalendar
except ImportError:
    icalendar = None

MINUTE = datetime.timedelta(minutes=1)
WEEK = {'begin': '2026-12-01T00:00Z', 'end': '2026-12-08T00:00Z'}
QUESTION = {'zone': 'UTC', 'date': '2026-12-01', 'view': 'week', 'sill': None, 'units': None, 'hours': '24'}


def moment(text):
    return datetime.datetime.fromisoformat(text.replace('Z', '+00:00'))


def windows(levels, isWithin):
    """The first and the last minute of each run of minutes that are within."""
    runs = []
    for at, level in levels:
        if not isWithin(level):
            continue
        if runs and runs[-1][1] + MINUTE == at:
            runs[-1][1] = at
        else:
            runs.append([at, at])
    return runs


# The table that the page makes of an answer.
TABLE = """Promise.all(['answer.js', 'export.js'].map(file => import(`${location.origin}/${file}`)))
  .then(async ([answer, files]) => files.csvOf(await answer.answerTo(%s, null)))"""


class AnswerTrial:
    """The trials of answers, for a class with a site, `say`, `program` and `random`."""

    def points(self, command, **values):
        return list(csv.DictReader(io.StringIO(self.program(command, layout='csv', **values))))

    def limited(self):
        """The times within limits of currents, against the program's levels of each minute."""
        names = [line.split(' ', 2)[2] for line in self.program('stations').splitlines() if line.startswith('Ref knots ')]
        names = self.random.sample(names, min(len(names), 8))
        wrong, count = [], 0
        with self.tab(1280, 900) as tab:
            tab.open('tests.html', 'true')
            for name in names:
                levels = [(moment(row['moment']), decimal.Decimal(row['level'])) for row in self.points('heights', station=name, step=1, **WEEK)][:-1]
                greatest = max(abs(level) for _, level in levels)
                limit = str((greatest * decimal.Decimal(self.random.choice(['0.3', '0.5', '0.9']))).quantize(decimal.Decimal('0.01')))
                wanted = windows(levels, lambda level: abs(level) <= decimal.Decimal(limit))
                for sill in (limit, f'-{limit}'):
                    answer = tab.called('answer.js', 'answerTo', {**QUESTION, 'station': name, 'sill': sill}, None)
                    found = [[datetime.datetime.fromtimestamp(each[key] / 1000, datetime.timezone.utc) for key in ('from', 'to')] for each in answer['times']]
                    count += len(found)
                    table = csv.DictReader(io.StringIO(tab.value(TABLE % json.dumps({**QUESTION, 'station': name, 'sill': sill}))))
                    listed = [[moment(row['moment']), moment(row['end_moment'])] for row in table if row['event'] == f'Within {limit} knots']
                    if not found == wanted == listed:
                        wrong.append(f'{name} within {sill}')
        self.say(not wrong, f'limits of {len(names)} currents: {count} times within them, {len(wrong)} differ from the levels of each minute {wrong[:2]}')

    def converted(self):
        """Levels in metres and times by 12 hours, against the program's."""
        with self.tab(1280, 900) as tab:
            tab.open('tests.html', 'true')
            answer = tab.called('answer.js', 'answerTo', {**QUESTION, 'station': self.BOSTON, 'units': 'metres', 'hours': '12', 'sill': '1.2192'}, None)
        rows = self.points('predict', station=self.BOSTON, **WEEK)
        half = decimal.Decimal('0.01')
        wanted = [(str((decimal.Decimal(row['level']) * decimal.Decimal('0.3048')).quantize(decimal.Decimal('1e-6')).quantize(half, decimal.ROUND_HALF_UP)).replace('-0.00', '0.00'),
                   f'{moment(row["moment"]):%I:%M %p}'.lstrip('0').lower()) for row in rows]
        found = [(event['shown'], event['clock']['time']) for event in answer['events']]
        marks = [row for row in self.points('predict', station=self.BOSTON, mark='4', **WEEK) if row['event'].startswith('Mark')]
        same_marks = [each['moment'] for each in answer['marks']] == [int(moment(row['moment']).timestamp() * 1000) for row in marks]
        self.say(found == wanted and same_marks and answer['units'] == 'metres' and answer['marksAsked'] == ['4'],
                 f'{len(found)} levels in metres by a clock of 12 hours, and the sill of 1.2192 metres is 4 feet')

    def reckoned(self):
        """The fields that compute a sill, by keys."""
        with self.tab(1280, 900) as tab:
            tab.open(self.address(date='2025-06-01'), self.SHOWN)
            tab.value('document.getElementById("sills").open = true; document.getElementById("depth").focus()')
            for text in ('6', '9,5', '0.5'):
                tab.call('Input.insertText', text=text)
                tab.press('Tab', 9)
            said = tab.value('document.getElementById("computed").textContent')
            tab.value('document.getElementById("draught").focus()')
            tab.press('Enter', 13)
            used = tab.until('location.search.includes("sill=4") && document.getElementById("about").textContent.includes("sill at 4 feet")', 10)
        self.say(used and said.endswith('= 4 feet'), f'the fields of a sill: {said}')

    def present(self):
        """The line of the present against the program's clock; the minute may change in between."""
        for _ in range(3):
            begun = time.time() // 60
            with self.tab(1280, 900) as tab:
                tab.open(self.address(zone='UTC'), f'{self.SHOWN} && document.getElementById("now").textContent !== ""')
                text = tab.value('document.getElementById("now").textContent')
            lines = self.site.get('clock', station=self.BOSTON).body.decode().splitlines()
            if time.time() // 60 == begun:
                break
        now = re.fullmatch(r'Now \S+ \S+ UTC +(\S+) (\S+)  (\S+)', lines[1])
        events = [re.fullmatch(r'(\S+) (\S+) UTC +(\S+) (\S+)  (\S+) Tide', line).groups() for line in lines[2:4]]
        wanted = [f'Now {now[1]} {now[2]}, {now[3].lower()}', *(f'{word.lower()} {level} {units} at ' for _, _, level, units, word in events),
                  *(at for _, at, *_ in events)]
        missing = [part for part in wanted if part not in text]
        self.say(not missing, f'the present: {text}{"".join(f"; lacks {part}" for part in missing)}')

    def taken(self):
        """The files of the page, by other readers of CSV and of calendars, against the program's list."""
        folder = self.site.folder / 'taken'
        folder.mkdir(exist_ok=True)
        zone = zoneinfo.ZoneInfo('America/New_York')
        spans = {'week': (2026, 12, 1, 2026, 12, 8), 'month': (2026, 12, 1, 2027, 1, 1), 'year': (2026, 1, 1, 2027, 1, 1)}
        with self.tab(1280, 900) as tab:
            tab.call('Browser.setDownloadBehavior', behavior='allow', downloadPath=str(folder))
            tab.open(self.address(date='2026-12-01', sill='4', zone='America/New_York'), self.SHOWN)
            for row, (view, days) in enumerate(spans.items(), 1):
                begin, end = (datetime.datetime(*part, tzinfo=zone).astimezone(datetime.timezone.utc) for part in (days[:3], days[3:]))
                span = {'begin': f'{begin:%Y-%m-%dT%H:%MZ}', 'end': f'{end:%Y-%m-%dT%H:%MZ}'}
                files = [self.file_of(tab, folder, row, word) for word in ('CSV', 'Calendar', 'Certificate')]
                self.compare_files(view, span, *files)

    def file_of(self, tab, folder, row, word):
        """The file that a button of the page makes. The browser writes an empty one of its name first, and another beside it."""
        before = set(folder.iterdir())
        tab.value(f'[...document.querySelectorAll("#take li:nth-child({row}) button")].find(it => it.textContent === "{word}").click()')
        end = time.monotonic() + 180
        while time.monotonic() < end:
            new = set(folder.iterdir()) - before
            made = [path for path in new if path.suffix in ('.csv', '.ics', '.txt') and path.stat().st_size > 0]
            if made and len(new) == 1:
                return made[0].read_bytes()
            tab.value('1')
            time.sleep(0.1)
        return b''

    def compare_files(self, view, span, table, calendar, certificate):
        rows = self.points('predict', station=self.BOSTON, mark='4', **span)
        events = [row for row in rows if not row['event'].startswith('Mark')]
        rising = [moment(row['moment']) + MINUTE for row in rows if row['event'] == 'Mark Rising']
        falling = [moment(row['moment']) for row in rows if row['event'] == 'Mark Falling']
        begin, end = moment(span['begin']), moment(span['end'])
        if falling and (not rising or falling[0] < rising[0]):
            rising.insert(0, begin)
        times = list(zip(rising, falling + [end - MINUTE] * (len(rising) - len(falling))))
        read = list(csv.DictReader(io.StringIO(table.decode(), newline='')))
        listed = [(row['moment'], row['event'], row['level'], row['units']) for row in read if row['level']]
        above = [(moment(row['moment']), moment(row['end_moment'])) for row in read if not row['level']]
        wanted = [(row['moment'], row['event'], row['level'], row['units']) for row in events]
        self.say(listed == wanted and above == times and all(row['station'] == self.BOSTON for row in read),
                 f'{view} as CSV: {len(listed)} events and {len(above)} times above the sill, as the program lists them')
        program = self.program('certify', station=self.BOSTON, mark='4', **span).encode()
        self.say(certificate == program, f'{view}\'s certificate: {len(certificate)} bytes, as the program writes it')
        if icalendar is None:
            print('     the calendar is not read: Debian\'s python3-icalendar is missing')
            return
        entries = icalendar.Calendar.from_ical(calendar).walk('VEVENT') if calendar else []
        starts = sorted(entry.decoded('dtstart') for entry in entries)
        spans = sorted((entry.decoded('dtstart'), entry.decoded('dtend') - MINUTE) for entry in entries if 'dtend' in entry)
        summaries = {str(entry['summary']) for entry in entries}
        heights = {f'{row["event"].split()[0]} {decimal.Decimal(row["level"]).quantize(decimal.Decimal("0.1"), decimal.ROUND_HALF_UP)} ft'.replace('-0.0', '0.0') for row in events}
        right = (starts == sorted([moment(row['moment']) for row in events] + [first for first, _ in times]) and spans == times
                 and summaries == heights | {'Above 4 ft'} and len({entry['uid'] for entry in entries}) == len(entries)
                 and all(entry['transp'] == 'TRANSPARENT' and entry['location'] == self.BOSTON for entry in entries))
        self.say(right, f'{view} as a calendar: {len(entries)} entries, {len(spans)} of them times above the sill, such as {sorted(summaries)[:2]}')
