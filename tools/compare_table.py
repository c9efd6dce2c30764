"""The rows of a table of official predictions: columns, clocks, units and kinds of events, for tools/compare."""

import collections
import csv
import datetime
import pathlib
import re
import statistics
import zoneinfo

MOMENTS = ('date time', 'datetime', 'date_time', 'date/time', 'moment', 'timestamp', 't')
TYPES = ('type', 'high/low', 'event')
LEVEL = re.compile(r'(?:pred(?:iction|icted)?|height|level|v|velocity_major|velocity|speed)[\s_]*[(\[]?([a-z/]*)[)\]]?')
UNIT = re.compile(r'[(\[]([a-z/]+)[)\]]$')
TIME = re.compile(r'(\d{4})[-/]?(\d\d)[-/]?(\d\d)[T ]+(\d{1,2}):?(\d\d)(?::(\d\d))? *([ap]m)? *(z|utc|gmt|[+-]\d\d:?\d\d)?', re.I | re.A)
NUMBER = re.compile(r'[+-]?(\d+\.?\d*|\.\d+)', re.A)
UNITS = {'feet': 'feet', 'ft': 'feet', 'meters': 'meters', 'metres': 'meters', 'm': 'meters', 'centimeters': 'centimeters',
         'centimetres': 'centimeters', 'cm': 'centimeters', 'knots': 'knots', 'kn': 'knots', 'kt': 'knots', 'm/s': 'm/s', 'cm/s': 'cm/s'}
# How many meters, or knots, a unit is.
SIZES = {'feet': 0.3048, 'meters': 1, 'centimeters': 0.01}
SPEEDS = {'knots': 1, 'm/s': 3600 / 1852, 'cm/s': 36 / 1852}
KINDS = ('High Tide', 'Low Tide', 'Max Flood', 'Min Flood', 'Max Ebb', 'Min Ebb', 'Slack')
WORDS = {'high': 'High Tide', 'low': 'Low Tide', 'flood': 'Max Flood', 'ebb': 'Max Ebb', 'slack': 'Slack'}
SHORT = {'h': 'high', 'hh': 'high', 'hw': 'high', 'l': 'low', 'll': 'low', 'lw': 'low', 'f': 'flood', 'e': 'ebb', 's': 'slack'}
KEYS = ('date', 'time', 'level', 'type')

Row = collections.namedtuple('Row', 'line moments kind level')
Columns = collections.namedtuple('Columns', 'date time level type unit zone')


class Wrong(Exception):
    """The reason why there is no comparison."""


def zone_of(text):
    """The clock of a zone's name, file or offset."""
    offset = re.fullmatch(r'([+-])(\d\d):?([0-5]\d)', text, re.A)
    if offset and int(offset[2]) < 24:
        return datetime.timezone((-1 if offset[1] == '-' else 1) * datetime.timedelta(hours=int(offset[2]), minutes=int(offset[3])))
    if text.upper() in ('UTC', 'GMT', 'Z'):
        return datetime.timezone.utc
    try:
        if text.startswith('@'):
            with open(text[1:], 'rb') as file:
                return zoneinfo.ZoneInfo.from_file(file, text[1:])
        return zoneinfo.ZoneInfo(text)
    except (ValueError, OSError, zoneinfo.ZoneInfoNotFoundError):
        raise Wrong(f'there is no zone {text}') from None


def unit_of(text):
    if text.lower() not in UNITS:
        raise Wrong(f'there is no unit {text}')
    return UNITS[text.lower()]


def factor(unit, wanted):
    """How many of the wanted unit a unit is."""
    table = SPEEDS if wanted == 'knots' else SIZES
    if unit not in table or wanted not in table:
        raise Wrong(f'levels in {unit} can\'t be compared with {wanted}')
    return table[unit] / table[wanted]


def kind_of(text):
    """The kind of event that a type means, or None."""
    plain = ' '.join(text.lower().split())
    label = 'Slack' if plain.startswith('slack') else plain.title()
    return label if label in KINDS else WORDS.get(SHORT.get(plain, plain.removesuffix(' tide').removesuffix(' water')))


def cells_of(line, delimiter):
    """The cells of a line; several tabs separate two columns as one does."""
    found = re.split('\t+', line.strip()) if delimiter == '\t' else next(csv.reader([line], delimiter=delimiter, skipinitialspace=True), [])
    return [cell.strip() for cell in found]


def level_in(names, given, wanted):
    """The place of the column of levels and its unit; of several columns the one in the wanted unit."""
    found = []
    for index, name in enumerate(names):
        form = LEVEL.fullmatch(name)
        text = form[1] if form else (UNIT.search(name) or ['', ''])[1]
        if name == given or (given is None and form and (not text or text in UNITS)):
            found.append((UNITS.get(text) != wanted, text not in UNITS, index, UNITS.get(text)))
    return min(found)[2:] if found else (None, None)


def columns_in(names, given, unit):
    """The columns by their names in lower case, or None if this isn't the line with the names."""
    if not set(given.values()) <= set(names):
        return None
    place = {}
    for index, name in enumerate(names):
        place.setdefault(name, index)
        place.setdefault(re.sub(r'\s*\(.*\)$', '', name), index)

    def first(known):
        return next((place[name] for name in known if name in place), None)

    both = None if {'date', 'time'} & set(given) else first(MOMENTS)
    time = both if both is not None else first([given.get('time', 'time')])
    date = None if both is not None else first([given['date']] if 'date' in given else [] if 'time' in given else ['date'])
    level, own = level_in(names, given.get('level'), unit)
    if level is None or (time is None and date is None):
        return None
    zone = re.search(r'\((lst.*|local.*|gmt|utc)\)$', names[date if time is None else time])
    return Columns(date, time, level, first([given['type']] if 'type' in given else TYPES), own, zone and zone[1])


def with_signs(rows):
    """The rows with negative ebbs; a table whose ebbs are all positive has speeds without signs."""
    if any(row.level < 0 for row in rows if row.kind == 'Max Ebb'):
        return rows
    return [row._replace(level=-row.level) if row.kind == 'Max Ebb' else row for row in rows]


class Table:
    """The rows of a table, with levels in the station's unit."""

    def __init__(self, words, unit):
        self.words, self.unit = words, unit
        path = pathlib.Path(words['table'])
        self.name, data = path.name, path.read_bytes()
        try:
            self.lines = data.decode('utf-8-sig').splitlines()
        except UnicodeDecodeError:
            self.lines = data.decode('latin-1').splitlines()
        self.start, self.delimiter, self.columns = self.header()
        self.zone_name = words.get('zone') or self.zone_said()
        self.zone = zone_of(self.zone_name)
        self.factor = factor(unit_of(words['units']) if 'units' in words else self.columns.unit or self.unit_said() or unit, unit)
        rows = [self.row(number, line) for number, line in enumerate(self.lines, 1) if number > self.start and line.strip()]
        if not rows:
            raise Wrong(f'{self.name} has no row')
        self.rows = with_signs(rows) if self.columns.type is not None else self.with_kinds(rows)

    def header(self):
        """The number of the line with the column names, its delimiter, and the places of the columns."""
        given = {key: self.words[key].lower() for key in KEYS if key in self.words}
        for number, line in enumerate(self.lines, 1):
            for delimiter in ',;\t':
                columns = columns_in([cell.lower() for cell in cells_of(line, delimiter)], given, self.unit)
                if columns:
                    return number, delimiter, columns
        named = f'{", ".join(given.values())} and ' if given else ''
        raise Wrong(f'{self.name} has no line of column names with {named}a time and a level')

    def zone_said(self):
        """The zone that the lines down to the column names say, or UTC."""
        said = [line.split(':', 1)[1].strip() for line in self.lines[:self.start] if line.lower().startswith('time zone:')]
        said = (said or [self.columns.zone or 'utc'])[0].upper()
        if said not in ('GMT', 'UTC'):
            raise Wrong(f'{self.name} has times in {said}: say which, as zone=America/New_York, or zone=-05:00 for standard time all year')
        return 'UTC'

    def unit_said(self):
        """The unit that the lines down to the column names say, if it is one."""
        said = [line.split(':', 1)[1].strip().lower() for line in self.lines[:self.start] if line.lower().startswith('units:')]
        return UNITS.get(said[0]) if said else None

    def fault(self, line, text):
        return Wrong(f'{self.name}, line {line}: {text}')

    def row(self, line, text):
        cells = cells_of(text, self.delimiter)
        if len(cells) <= max(it for it in self.columns[:4] if it is not None):
            raise self.fault(line, 'there are too few columns')
        kind = None
        if self.columns.type is not None:
            word = cells[self.columns.type]
            kind = kind_of(word)
            if not kind:
                raise self.fault(line, f'{word!r} is no type of event')
        time = ' '.join(cells[it] for it in (self.columns.date, self.columns.time) if it is not None)
        return Row(line, self.moments(line, time), kind, self.level(line, cells[self.columns.level], kind))

    def level(self, line, text, kind):
        if kind == 'Slack':
            return 0.0
        number = text if self.delimiter == ',' else text.replace(',', '.')
        if not NUMBER.fullmatch(number):
            raise self.fault(line, f'{text!r} is no level')
        return float(number) * self.factor

    def moments(self, line, text):
        """The moments that a time of the table can be: two where the clock is set back."""
        try:
            local, zone = self.local(text)
            both = {local.replace(tzinfo=zone, fold=fold).astimezone(datetime.timezone.utc) for fold in (0, 1)}
            found = sorted(it for it in both if it.astimezone(zone).replace(tzinfo=None) == local)
        except (ValueError, OverflowError):
            raise self.fault(line, f'{text!r} is no date and time') from None
        if not found:
            raise self.fault(line, f'{text!r} is no time in {self.zone_name}, where the clock is set forward')
        return found

    def local(self, text):
        """The time that a text shows, and the clock by which it is."""
        if 'form' in self.words:
            return datetime.datetime.strptime(text, self.words['form']), self.zone
        found = TIME.fullmatch(text)
        if not found:
            raise ValueError
        year, month, day, hour, minute, second = (int(it or 0) for it in found.groups()[:6])
        if found[7]:
            if not 1 <= hour <= 12:
                raise ValueError
            hour = hour % 12 + 12 * (found[7].lower() == 'pm')
        return datetime.datetime(year, month, day, hour, minute, second), zone_of(found[8]) if found[8] else self.zone

    def with_kinds(self, rows):
        """The rows of a table of tides without types, with their kinds by the levels."""
        if self.unit == 'knots' or len(rows) < 2:
            raise Wrong(f'{self.name} has no column of types')
        steps = [abs(row.moments[0] - other.moments[0]) for row, other in zip(rows, rows[1:])]
        if statistics.median(steps) < datetime.timedelta(minutes=90):
            raise Wrong(f'{self.name} has a level every {statistics.median(steps)}, not high and low waters')
        before = [rows[1].level, *(row.level for row in rows)]
        return [row._replace(kind='High Tide' if row.level > level else 'Low Tide') for row, level in zip(rows, before)]
