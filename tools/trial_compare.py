"""The trials of tools/compare for tools/try_tools: tables made from the program's own listing with known errors put in."""

import csv
import datetime
import pathlib
import re
import statistics
import zoneinfo

TOP = pathlib.Path(__file__).resolve().parent.parent
HARBOURS = TOP / 'examples/harbours.txt'
BOSTON = 'Boston, Boston Harbor, Massachusetts'
UTC, NEW_YORK, STANDARD = datetime.timezone.utc, zoneinfo.ZoneInfo('America/New_York'), datetime.timezone(datetime.timedelta(hours=-5))
# Minutes and levels by which the rows of a table are off, one after the other.
SHIFTS = (0, 1, 1, 0, 2, 1, 0, -3, 1, 0, 1, 7, 0)
LEVELS = (0, 0.05, -0.05, 0.02, 0, 0.3, -0.01)
MINUTE, HOURS = datetime.timedelta(minutes=1), datetime.timedelta(hours=3)
SIGNS = {'High Tide': 'H', 'Low Tide': 'L', 'Max Flood': 'flood', 'Max Ebb': 'ebb', 'Slack Flood Begins': 'slack', 'Slack Ebb Begins': 'slack'}
LINE = re.compile(r'(High Tide|Low Tide|Max Flood|Max Ebb|Slack|all) +(\d+)' + 6 * r' +([+-]?\d+\.\d+|-)')
TEXT_HEAD = '''NOAA/NOS/CO-OPS
Disclaimer: These data are based upon the latest information available as of the date of your request, and may differ.
Annual Tide Predictions
StationName: Boston
Units: Feet and Centimeters
Time Zone: {zone}
Datum: MLLW
Interval Type: High/Low

'''
COLUMNS = ('Date', 'Day', 'Time', 'Pred(Ft)', 'Pred(cm)', 'High/Low')
# Bad tables: the text, further words, and what the line says.
BAD_TABLES = [
    ('Date Time, Prediction, Type\n2025-06-01 01:34,0.9,L\n2025-06-01 07:50,deep,H', [], "bad.csv, line 3: 'deep' is no level"),
    ('Date Time, Prediction, Type\n2025-06-31 01:34,0.9,L', [], "bad.csv, line 2: '2025-06-31 01:34' is no date and time"),
    ('Date Time, Prediction, Type\n06/01/2025 01:34,0.9,L', [], "bad.csv, line 2: '06/01/2025 01:34' is no date and time"),
    ('Date Time, Prediction, Type\n2025-06-01 01:34,0.9,X', [], "bad.csv, line 2: 'X' is no type of event"),
    ('Date Time, Prediction, Type\n2025-06-01 01:34,0.9', [], 'bad.csv, line 2: there are too few columns'),
    ('Date Time, Prediction, Type\n2025-03-09 02:30,0.9,L', ['zone=America/New_York'], "'2025-03-09 02:30' is no time in America/New_York"),
    ('Date Time, Prediction, Type\n', [], 'bad.csv has no row'),
    ('Error: No Predictions data was found.', [], 'bad.csv has no line of column names with a time and a level'),
    ('Date Time, Prediction, Type\n2025-06-01 01:34,0.9,L', ['level=Height'], 'bad.csv has no line of column names with height and a time and a level'),
    ('Date Time, Prediction\n2025-06-01 00:00,1\n2025-06-01 00:06,2', [], 'bad.csv has a level every 0:06:00, not high and low waters'),
    ('Date Time, Prediction, Type\n2199-06-01 01:34,0.9,L', [], 'refused: out of years'),
    ('Date Time, Prediction, Type\n2025-06-01 01:34,0.9,L', ['station=Atlantis'], 'refused: no station'),
    ('Date Time, Prediction, Type\n2025-06-01 01:34,0.9,L', ['file=missing.txt'], 'read fault'),
    ('Date Time, Prediction, Type\n2025-06-01 01:34,0.9,L', ['table=missing.csv'], 'missing.csv'),
    ('Date Time, Prediction, Type\n2025-06-01 01:34,0.9,L', ['zone=America/Boston'], 'there is no zone America/Boston'),
    ('Date Time, Prediction, Type\n2025-06-01 01:34,0.9,L', ['units=fathoms'], 'there is no unit fathoms'),
    ('Date Time, Prediction, Type\n2025-06-01 01:34,0.9,L', ['units=knots'], "levels in knots can't be compared with feet"),
    ('Date Time, Prediction, Type\n2025-06-01 01:34,0.9,L', ['within=soon'], 'within=soon is no number of minutes'),
    ('Date Time, Prediction, Type\n2025-06-01 01:34,0.9,L', ['mark=3'], 'there is no key mark'),
    ('Date Time, Prediction, Type\n2025-06-01 01:34,0.9,L', ['zone'], 'zone is not key=value'),
    (TEXT_HEAD.format(zone='LST_LDT') + '\t'.join(COLUMNS) + '\n2025/06/01\tSun\t01:34 AM\t0.9\t27\tL', [], 'bad.csv has times in LST_LDT: say which'),
    ('Date_Time (LST/LDT), Event, Speed (knots)\n2025-06-01 01:34 AM,slack,-', [], 'bad.csv has times in LST/LDT: say which'),
]


def comma_table(rows, zone):
    """The CSV of NOAA's CO-OPS API."""
    return 'Date Time, Prediction, Type\n' + ''.join(f'{at.astimezone(zone):%Y-%m-%d %H:%M},{level:.3f},{SIGNS[event]}\n' for at, event, level in rows)


def yearly_table(rows, zone, delimiter, head='', feet=1.0):
    """The yearly text of tidesandcurrents.noaa.gov, or its CSV; `feet` are in the unit of the levels."""
    lines = [(f'{at.astimezone(zone):%Y/%m/%d}', f'{at.astimezone(zone):%a}', f'{at.astimezone(zone):%I:%M %p}', f'{level * feet:.2f}',
              f'{level * feet * 30.48:.0f}', SIGNS[event]) for at, event, level in rows]
    names = ['Date \t', *COLUMNS[1:]] if delimiter == '\t' else COLUMNS
    return head + ''.join(delimiter.join(line) + '\n' for line in [names, *lines])


def with_errors(events):
    """The rows of a table with known errors, the differences, and how many rows and events have no match."""
    rows, differences, further, missing = [], [], 0, 0
    for number, (at, event, level) in enumerate(events):
        if number % 17 == 5:
            missing += 1
            continue
        shift, more = SHIFTS[number % len(SHIFTS)], LEVELS[number % len(LEVELS)]
        rows.append((at + shift * MINUTE, event, level + more))
        differences.append((event, shift, more))
        if number % 23 == 4:
            rows.append((at + HOURS, event, level + 1))
            further += 1
    return rows, differences, (further, missing)


def figures(values, form):
    """Median, the size that 95 of 100 don't exceed, and the greatest, as compare prints them."""
    sizes = [abs(value) for value in values]
    most = min(size for size in sizes if sum(other <= size for other in sizes) >= 0.95 * len(sizes))
    return f'{statistics.median(values):+{form}}', f'{most:{form}}', f'{max(values, key=abs):+{form}}'


class CompareTrial:
    """The trials of compare, for a class with `put`, `tide`, `tool`, `say`, `made`, `folder` and `program`."""

    def events(self, begin, end, station=BOSTON, *words, file=HARBOURS):
        """What `tide predict` lists: moments, events and levels."""
        text = self.tide('predict', f'file={file}', f'station={station}', f'begin={begin}T00:00Z', f'end={end}T00:00Z', 'layout=csv', *words)
        return [(datetime.datetime.strptime(row['moment'], '%Y-%m-%dT%H:%MZ').replace(tzinfo=UTC), row['event'], float(row['level']))
                for row in csv.DictReader(text.splitlines())]

    def compare(self, text, *words, file=HARBOURS, station=BOSTON):
        return self.tool('compare', f'program={self.program}', f'table={self.put("table.csv", text)}', f'file={file}', f'station={station}', *words)

    def judged(self, title, run, differences, unmatched, most=0.0011):
        """Whether a comparison has the known differences; levels may be off by `most`, since the table rounds them."""
        status, out, err = run
        found = {line[1]: line.groups()[1:] for line in map(LINE.fullmatch, out.splitlines()) if line}
        wrong = [] if status == 0 else [f'status {status}: {err.strip()}']
        names = {'Slack' if event.startswith('Slack') else event for event, _, _ in differences}
        for name in {*names, 'all'} if len(names) > 1 else names:
            own = [it for it in differences if name == 'all' or it[0].startswith(name)]
            due = figures([shift for _, shift, _ in own], '.1f')
            levels = [more for event, _, more in own if not event.startswith('Slack')]
            line = found.get(name, ())
            if line[:4] != (f'{len(own)}', *due):
                wrong.append(f'{name}: {line[:4]}, not {(len(own), *due)}')
            elif levels and any(abs(float(one) - float(other)) > most for one, other in zip(line[4:], figures(levels, '.6f'))):
                wrong.append(f'{name}: {line[4:]}, not {figures(levels, ".6f")}')
        counts = tuple(int(line.split()[0]) for line in out.splitlines() if re.match(r'\d+ (rows? of the table without|events? of tide)', line))
        if counts != unmatched or not found:
            wrong.append(f'{counts} have no match, not {unmatched}')
        text = f'{len(differences)} matches, {unmatched[0]} rows and {unmatched[1]} events without one'
        self.say(not wrong, f'compare, {title}: {text}{"".join(f"; {it}" for it in wrong)}')
        return out

    def compared(self):
        self.known_errors()
        self.other_forms()
        self.folded()
        self.currents()
        self.hinted()

    def known_errors(self):
        """NOAA's forms, in clocks with changes and without."""
        spans = {'summer': ('2025-06-01', '2025-09-01'), 'autumn': ('2025-10-15', '2025-11-20'), 'spring': ('2025-02-20', '2025-03-25')}
        for name, span in spans.items():
            rows, differences, unmatched = with_errors(self.events(*span))
            for zone, word in ((UTC, 'zone=UTC'), (NEW_YORK, 'zone=America/New_York'), (NEW_YORK, 'zone=@/usr/share/zoneinfo/America/New_York'),
                               (STANDARD, 'zone=-05:00')):
                self.judged(f'{name}, CO-OPS, {word}', self.compare(comma_table(rows, zone), word), differences, unmatched)
            self.judged(f'{name}, yearly text of local times', self.compare(
                yearly_table(rows, NEW_YORK, '\t', TEXT_HEAD.format(zone='LST_LDT')), 'zone=America/New_York'), differences, unmatched, 0.006)
        self.judged('yearly text in GMT', self.compare(yearly_table(rows, UTC, '\t', TEXT_HEAD.format(zone='GMT'))), differences, unmatched, 0.006)
        self.judged('yearly CSV', self.compare(yearly_table(rows, UTC, ',')), differences, unmatched, 0.006)
        self.variants(rows, differences, unmatched)
        last = re.search(r'to (\d+)-01-01T', self.tide('predict', f'file={HARBOURS}', f'station={BOSTON}', 'begin=9000-01-01T00:00Z', 'end=9000-01-02T00:00Z'))
        late = self.events(f'{int(last[1]) - 1}-12-20', f'{last[1]}-01-01')
        self.judged('the last days of a file', self.compare(comma_table(late, UTC)), [(event, 0, 0) for _, event, _ in late], (0, 0))
        decade = self.events('2020-01-01', '2029-12-31')
        self.judged('ten years', self.compare(comma_table(decade, NEW_YORK), 'zone=America/New_York'), [(event, 0, 0) for _, event, _ in decade], (0, 0))

    def variants(self, rows, differences, unmatched):
        """NOAA's columns with other spaces, heads and units."""
        text = comma_table(rows, UTC)
        untyped = ''.join(line.rsplit(',', 1)[0] + '\n' for line in comma_table(self.events('2025-06-01', '2025-07-01'), UTC).splitlines())
        self.judged('CO-OPS without types', self.compare(untyped), [(event, 0, 0) for _, event, _ in self.events('2025-06-01', '2025-07-01')], (0, 0))
        for title, head in (('without spaces', 'Date Time,Prediction,Type'), ('in capitals', 'DATE TIME, PREDICTION, TYPE'), ('of its JSON', 't,v,type')):
            self.judged(f'CO-OPS, names {title}', self.compare(text.replace('Date Time, Prediction, Type', head, 1)), differences, unmatched)
        tabs = yearly_table(rows, UTC, '\t', TEXT_HEAD.format(zone='GMT'))
        names = '\t'.join(['Date \t', *COLUMNS[1:]])
        self.judged('yearly text, names with spaces and tabs', self.compare(tabs.replace(names, 'Date \t\tDay \tTime \t\tPred(Ft) \tPred(cm) \tHigh/Low ', 1)
                                                                         .replace('\n', '\r\n')), differences, unmatched, 0.006)
        metres = [(at, event, level * 0.3048) for at, event, level in rows]
        lines = [f'{at:%Y/%m/%d}\t{at:%a}\t{at:%I:%M %p}\t{level:.4f}\t{SIGNS[event]}\n' for at, event, level in metres]
        text = TEXT_HEAD.format(zone='GMT').replace('Feet and Centimeters', 'Meters') + 'Date\tDay\tTime\tPred\tHigh/Low\n' + ''.join(lines)
        self.judged('yearly text in the meters of its head', self.compare(text), differences, unmatched)
        listed = 'Date,Time (GMT),Predicted (ft),High/Low\n' + ''.join(f'{at:%Y/%m/%d},{at:%H:%M},{level:.3f},{SIGNS[event]}\n' for at, event, level in rows)
        self.judged('a list of the page', self.compare(listed), differences, unmatched)

    def other_forms(self):
        """Other columns, units and stations."""
        events = self.events('2025-06-01', '2025-07-01')
        rows, differences, unmatched = with_errors(events)
        named = 'Jour;Heure;Hauteur [m];Marée\n' + ''.join(
            f'{at:%d.%m.%Y;%H:%M};{f"{level * 0.3048:.4f}".replace(".", ",")};{"HW" if event == "High Tide" else "lw"}\n' for at, event, level in rows)
        words = ['date=Jour', 'time=Heure', 'level=Hauteur [m]', 'type=Marée', 'form=%d.%m.%Y %H:%M']
        self.judged('named columns, decimal commas, metres', self.compare(named, *words), differences, unmatched)
        plain = 'Time,Height\n' + ''.join(f'{at:%Y-%m-%dT%H:%MZ},{level:.3f}\n' for at, _, level in events)
        self.judged('no types', self.compare(plain, 'zone=America/New_York'), [(event, 0, 0) for _, event, _ in events], (0, 0))
        whole = [(event, 1, 0.1) for _, event, _ in events]
        moved = [(at + MINUTE, event, level + 0.1) for at, event, level in events]
        out = self.judged('all one minute late and a tenth high', self.compare(comma_table(moved, UTC)), whole, (0, 0))
        self.say('Expected: minutes of 0 or +1' in out and 'All levels differ by about +0.10 feet' in out, 'compare says what to expect, and that all levels differ')
        highs = [it for it in events if it[1] == 'High Tide']
        self.judged('high waters only', self.compare(comma_table(highs, UTC)), [(event, 0, 0) for _, event, _ in highs], (0, 0))
        table = self.put('offsets.csv', 'name,reference,high_add,low_add,high_times,low_times,high_plus,low_plus\n'
                         f'Creek,"{BOSTON}",0:25,0:31,0.95,1.10,0.1,-0.2\n')
        creek = self.events('2025-06-01', '2025-07-01', 'Creek', f'offsets={table}')
        rows, differences, unmatched = with_errors(creek)
        self.judged('a subordinate station', self.compare(comma_table(rows, UTC), f'offsets={table}', station='Creek'), differences, unmatched)
        brest, _ = self.made(self.put('brest.csv', 'constituent,amplitude,phase\nM2,2.05,109\nS2,.75,148\nK1,.06,75\n'),
                             'name=Brest', 'unit=m', 'meridian=Greenwich', 'datum=4.13', into='brest.txt')
        rows, differences, unmatched = with_errors(self.events('2025-06-01', '2025-07-01', 'Brest', file=brest))
        text = yearly_table(rows, UTC, ',', feet=1 / 0.3048)
        self.judged('a station in metres, a table in feet and centimetres', self.compare(text, file=brest, station='Brest'), differences, unmatched, 0.006)
        feet = comma_table([(at, event, level / 0.3048) for at, event, level in rows], UTC)
        self.judged('units=feet', self.compare(feet, 'units=feet', file=brest, station='Brest'), differences, unmatched)

    def folded(self):
        """Events in the hour that occurs twice, the first time and the second."""
        listed = self.tide('stations', f'file={self.constants}').splitlines()
        stations = [line.removeprefix('Ref feet ') for line in listed if line.startswith('Ref feet ')]
        wanted = {5, 6}
        for station in stations:
            events = self.events('2025-10-25', '2025-11-10', station, file=self.constants)
            hours = {at.hour for at, _, _ in events if at.date() == datetime.date(2025, 11, 2)} & wanted
            if hours:
                wanted -= hours
                self.judged(f'an event at {hours} h UTC as the clock is set back', self.compare(
                    comma_table(events, NEW_YORK), 'zone=America/New_York', file=self.constants, station=station),
                    [(event, 0, 0) for _, event, _ in events], (0, 0))
            if not wanted:
                break
        self.say(not wanted, 'an event was tried in both hours of which the clock shows the same')

    def currents(self):
        """Tables of a current, with slacks."""
        listed = self.tide('stations', f'file={self.constants}').splitlines()
        station = next(line.removeprefix('Ref knots ') for line in listed if line.startswith('Ref knots '))
        events = [it for it in self.events('2025-06-01', '2025-06-15', station, file=self.constants) if it[1] in SIGNS]
        differences = [(event, 1, 0.05) for _, event, _ in events]
        maxima = len([it for it in events if not it[1].startswith('Slack')])
        api = 'Time, Depth, Type, Velocity_Major, meanFloodDir, meanEbbDir, Bin\n' + ''.join(
            f'{at + MINUTE:%Y-%m-%d %H:%M}, 15, {SIGNS[event]}, {level + 0.05:.3f}, 108, 288, 1\n' for at, event, level in events)
        page = 'Date_Time (LST/LDT), Event, Speed (knots)\n' + ''.join(
            f'{(at + MINUTE).astimezone(NEW_YORK):%Y-%m-%d %I:%M %p},{SIGNS[event]},' + ('-\n' if 'Slack' in event else f'{level + 0.05:.3f}\n')
            for at, event, level in events)
        metric = 'Time, Type, Velocity_Major\n' + ''.join(
            f'{at + MINUTE:%Y-%m-%d %H:%M}, {SIGNS[event]}, {(level + 0.05) * 1852 / 36:.3f}\n' for at, event, level in events)
        unsigned = re.sub(r'ebb, -', 'ebb, ', api)
        forms = [('CO-OPS', api, []), ('local times', page, ['zone=America/New_York']), ('cm/s', metric, ['units=cm/s']), ('ebbs without a sign', unsigned, [])]
        for title, text, words in forms:
            run = self.compare(text, *words, file=self.constants, station=station)
            self.judged(f'a current, {title}, {maxima} with a level', run, differences, (0, 0))

    def hinted(self):
        """A wrong clock is named."""
        rows = self.events('2025-06-01', '2025-07-01')
        for text, word, due in ((comma_table(rows, NEW_YORK), 'zone=-05:00', 'rows differ by whole hours: is zone=-05:00 the clock of the table?'),
                                (comma_table(rows, NEW_YORK), 'zone=UTC', 'rows would match if all times were moved by +4:00: is zone=UTC the clock'),
                                (comma_table(rows, UTC), 'zone=Asia/Kolkata', 'rows would match if all times were moved by +5:30: is zone=Asia/Kolkata')):
            status, out, err = self.compare(text, word)
            said = [line for line in out.splitlines() if 'the clock of the table' in line]
            self.say(status == 0 and len(said) == 1 and due in said[0], f'compare with {word}: {"".join(said)}{err.strip()}')

    def bad_tables(self):
        """Bad tables and words are refused by name, with status 2 and no output."""
        wrong = []
        for text, words, due in BAD_TABLES:
            keys = [word.split('=')[0] for word in words if '=' in word]
            usual = [f'table={self.put("bad.csv", text)}', f'file={HARBOURS}', f'station={BOSTON}', f'program={self.program}']
            status, out, err = self.tool('compare', *[it for it in usual if it.split('=')[0] not in keys], *words)
            if status != 2 or out or due not in err or len(err.splitlines()) != 1:
                wrong.append(f'{due!r}, not {err.strip()!r}')
        self.say(not wrong, f'compare: {len(BAD_TABLES)} bad tables and words are refused by name{"".join(f"; {it}" for it in wrong)}')
