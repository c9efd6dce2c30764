"""The numbers of docs/CERTIFICATES.md: constants, curve, tracks, rates, quiet cells, questions. Whole numbers only."""

import csv
import datetime
import re
from bisect import bisect_right
from itertools import islice

D = 600000000
C = 360 * D
T = 4147200000
R = 34377467708
BILLION = 1000000000
MILLION = 1000000
EPOCH = datetime.datetime(1970, 1, 1)

TABLE = """
0 17452406 34899497 52335956 69756474 87155743 104528463 121869343 139173101 156434465 173648178 190808995
207911691 224951054 241921896 258819045 275637356 292371705 309016994 325568154 342020143 358367950 374606593
390731128 406736643 422618262 438371147 453990500 469471563 484809620 500000000 515038075 529919264 544639035
559192903 573576436 587785252 601815023 615661475 629320391 642787610 656059029 669130606 681998360 694658370
707106781 719339800 731353702 743144825 754709580 766044443 777145961 788010754 798635510 809016994 819152044
829037573 838670568 848048096 857167301 866025404 874619707 882947593 891006524 898794046 906307787 913545458
920504853 927183855 933580426 939692621 945518576 951056516 956304756 961261696 965925826 970295726 974370065
978147601 981627183 984807753 987688341 990268069 992546152 994521895 996194698 997564050 998629535 999390827
999847695 1000000000
"""
S = [int(word) for word in TABLE.split()]
S += [S[89], S[88], -S[1]]  # the last one is S[-1]


class Refused(Exception):
    """A question without an answer: the line that says why, and the status of `tide`."""

    def __init__(self, line, status=4):
        super().__init__(line)
        self.status = status


# ---- numbers, moments and files

def tokens(line):
    """The parts between spaces and tabs."""
    return re.findall('[^ \t]+', line)


def decimal(text, places):
    """The value of a decimal, times 10 to the power of `places`."""
    whole, _, fraction = text.lstrip('+-').partition('.')
    size = int(whole or '0') * 10 ** places + int(fraction[:places].ljust(places, '0') or '0')
    return -size if text.startswith('-') else size


def rounded(number, divisor):
    """The quotient, a half away from 0."""
    size = (2 * abs(number) + divisor) // (2 * divisor)
    return -size if number < 0 else size


def clock(text):
    """The minutes of `-5:30`."""
    hours, minutes = text.lstrip('+-').split(':')
    size = 60 * int(hours) + int(minutes)
    return -size if text.startswith('-') else size


def moment(text):
    """The minutes since 1970 of a moment's text, or None."""
    form = re.fullmatch('([0-9]{4})-([0-9]{2})-([0-9]{2})T([0-9]{2}):([0-9]{2})Z', text)
    try:
        day = datetime.datetime(*map(int, form.groups()))
    except (AttributeError, ValueError):
        return None
    return (day - EPOCH) // datetime.timedelta(minutes=1)


def moment_text(minute):
    return (EPOCH + datetime.timedelta(minutes=minute)).isoformat()[:16] + 'Z'


class Constants:
    """A file of harmonic constants that is in order."""

    def __init__(self, path):
        with open(path, 'rb') as file:
            lines = [line.decode('latin-1').strip(' \t\r') for line in file.read().split(b'\n') if line[:1] != b'#']
        rest = iter([line for line in lines if line])
        count = int(next(rest))
        self.speeds = [decimal(tokens(next(rest))[1], 7) for _ in range(count)]
        self.first_year = int(next(rest))
        years = int(next(rest))
        self.arguments = self.yearly(rest, years, 7)
        next(rest), next(rest)  # *END*, and how many years again
        self.factors = self.yearly(rest, years, 6)
        next(rest)
        starts = range(self.first_year, self.first_year + years + 1)
        self.starts = [moment(f'{year:04}-01-01T00:00Z') for year in starts]
        self.stations = {}
        while name := next(rest, None):
            self.stations.setdefault(name, list(islice(rest, 2 + count)))

    def yearly(self, rest, years, places):
        table = []
        for _ in self.speeds:
            next(rest)
            values = []
            while len(values) < years:
                values += [decimal(word, places) for word in tokens(next(rest))]
            table.append(values)
        return table


class Offsets:
    """A row of a table of subordinate stations; without one, a station of the file."""

    def __init__(self, row=None):
        row = row or {}
        for which in ('high', 'low'):
            add = clock(row.get(which + '_add') or '0:00')
            times = decimal(row.get(which + '_times') or '1', 6)
            plus = decimal(row.get(which + '_plus') or '0', 6)
            setattr(self, which, (add, times, plus))
        self.slack = [clock(row[column]) for column in ('flood_add', 'ebb_add') if row.get(column)]

    def adds(self):
        return [self.high[0], self.low[0], *self.slack]


def find(constants, table, name):
    """The reference's record and the offsets of a name; `table` is a file's name or None."""
    if name in constants.stations:
        return constants.stations[name], Offsets()
    if table:
        with open(table, encoding='utf-8-sig', newline='') as file:
            row = next((row for row in csv.DictReader(file) if row['name'] == name), None)
        if row and row['reference'] not in constants.stations:
            raise Refused('refused: no reference ' + row['reference'])
        if row:
            return constants.stations[row['reference']], Offsets(row)
    raise Refused('refused: no station')


# ---- the curve

def isin(p):
    if p >= C // 2:
        return -isin(p - C // 2)
    k, r = divmod(C // 2 - p if p >= C // 4 else p, D)
    bend = S[k + 2] - S[k + 1] - S[k] + S[k - 1]
    return (4 * D * D * S[k] + 4 * D * r * (S[k + 1] - S[k]) - r * (D - r) * bend) // (4 * D * D)


def step(w):
    return 17454000 * w // D + 1


class Curve:
    """A station's level and slope, and the sums of each of its years."""

    def __init__(self, constants, record):
        meridian, (datum, self.unit) = clock(tokens(record[0])[0]), tokens(record[1])
        self.datum, self.starts, self.first_year = decimal(datum, 6), constants.starts, constants.first_year
        words = [tokens(line) for line in record[2:]]
        present = [(k, decimal(a, 6), decimal(e, 7)) for k, (name, a, e) in enumerate(words) if name != 'x']
        self.years, self.sums, self.kept = [], [], {}
        for year in range(len(self.starts) - 1):
            waves = []
            for k, amplitude, epoch in present:
                size, w = rounded(amplitude * constants.factors[k][year], MILLION), constants.speeds[k]
                waves.append((size, w, w * meridian + 60 * (constants.arguments[k][year] - epoch)))
            self.years.append(waves)
            sizes = [(abs(a), w, step(w)) for a, w, _ in waves]
            amount, steep = sum(a for a, w, s in sizes), sum(a * w for a, w, s in sizes)
            near, far = sum(a * s for a, w, s in sizes), sum(a * w * s for a, w, s in sizes)
            self.sums.append((amount, steep, near, far))

    def place(self, m):
        """The year, counted from 0, and None in its plain part, or x in the blend at its start."""
        year = min(bisect_right(self.starts, m), len(self.years)) - 1
        if year > 0 and m - self.starts[year] < 60:
            return year, m - self.starts[year]
        if year + 1 < len(self.years) and self.starts[year + 1] - m < 60:
            return year + 1, m - self.starts[year + 1]
        return year, None

    def in_year(self, year, m):
        level, fall = BILLION * self.datum, 0
        for a, w, phase in self.years[year]:
            p = (w * (m - self.starts[year]) + phase) % C
            level += a * isin((p + C // 4) % C)
            fall += a * w * isin(p)
        return level, -fall

    def at(self, m):
        """Level and slope."""
        if m not in self.kept:
            year, x = self.place(m)
            level, slope = self.in_year(year, m)
            if x is None:
                self.kept[m] = T * level, T * slope
            else:
                weight = 2073600000 + 64800000 * x - 12000 * x ** 3 + x ** 5
                rise = 5 * (3600 - x ** 2) ** 2
                before, slope_before = self.in_year(year - 1, m)
                drift = rise * R * (level - before)
                self.kept[m] = ((T - weight) * before + weight * level,
                                (T - weight) * slope_before + weight * slope + drift)
        return self.kept[m]

    def reading(self, m):
        return rounded(self.at(m)[0], T * BILLION)


# ---- tracks

class Track:
    """The slope if `times` is None, else the level times `times` plus `plus`."""

    def __init__(self, curve, version, kinds, times=None, plus=0):
        self.curve, self.version, self.kinds, self.times = curve, version, kinds, times
        self.plus = MILLION * T * BILLION * plus

    def value(self, m):
        level, slope = self.curve.at(m)
        return slope if self.times is None else self.times * level + self.plus

    def event(self, m):
        """The kind of the event after a minute, or None."""
        side, next_side = self.value(m) > 0, self.value(m + 1) > 0
        return None if side == next_side else self.kinds[side]

    def rate(self, a, n):
        (first, x), (last, y) = self.curve.place(a), self.curve.place(a + n)
        if x is None and y is None and first == last:
            _, _, near, far = self.curve.sums[first]
            return T * far if self.times is None else self.times * T * near
        if self.version == 1:
            return None
        later = last if x is None else first
        pairs = list(zip(self.curve.sums[later - 1], self.curve.sums[later]))
        amount, steep, near, _ = map(sum, pairs)
        if self.times is not None:
            return self.times * (T * max(pairs[2]) + 64800000 * BILLION * amount)
        turns = T * max(pairs[3]) + 64800000 * (BILLION * steep + R * near) + 1663000 * R * BILLION * amount
        return turns if turns <= 4 * 10 ** 34 else None

    def is_quiet(self, a, n):
        rate, v, u = self.rate(a, n), self.value(a), self.value(a + n)
        if rate is None or (v > 0) != (u > 0):
            return False
        return v + u > rate * n if v > 0 else -(v + u) >= rate * n


# ---- questions

def settled(constants, table, name, begin, end, adds_of, may_be_empty=True):
    """The curve, the offsets, and the first and the last of the reference's minutes, by the adds that are used."""
    record, offsets = find(constants, table, name)
    curve = Curve(constants, record)
    if curve.unit == 'knots^2':
        raise Refused('refused: hydraulic')
    if begin > end:
        raise Refused('refused: backward span')
    if begin == end and not may_be_empty:
        raise Refused('refused: empty span')
    adds = adds_of(offsets)
    first, last = begin - max(adds), end - min(adds)
    if first < curve.starts[0] or last > curve.starts[-1]:
        years = f'{moment_text(curve.starts[0])} to {moment_text(curve.starts[-1])}'
        raise Refused('refused: out of years: file has ' + years)
    for year, (amount, steep, _, _) in enumerate(curve.sums, curve.first_year):
        if amount > 10 ** 9 or steep > 10 ** 17:
            raise Refused(f'limit: too {"large" if amount > 10 ** 9 else "steep"} in {year}', 5)
    if end - begin > 5270400:
        raise Refused(f'limit: span of {end - begin} minutes', 5)
    return curve, offsets, first, last


def asked(constants, table, name, begin, end, mark, version):
    """The first and the last minute of the widened span, and the tracks by their names."""
    curve, offsets, first, last = settled(constants, table, name, begin, end, Offsets.adds)
    if mark is not None and offsets.high != offsets.low:
        raise Refused('refused: mark not here')
    tracks = {'turn': Track(curve, version, ('low', 'high'))}
    _, times, plus = offsets.high
    if curve.unit == 'knots' and (offsets.slack or offsets.high == offsets.low):
        scale = (MILLION, 0) if offsets.slack else (times, plus)
        tracks['slack'] = Track(curve, version, ('flood', 'ebb'), *scale)
    if mark is not None:
        tracks['mark'] = Track(curve, version, ('rise', 'fall'), times, plus - mark)
    return first, last, tracks


def asked_highest(constants, table, name, begin, end):
    """The first and the last of the reference's minutes, and its level as a track."""
    def adds_of(offsets):
        return [offsets.high[0]] if offsets.high == offsets.low else offsets.adds()
    curve, offsets, first, last = settled(constants, table, name, begin, end, adds_of, may_be_empty=False)
    if offsets.high != offsets.low:
        raise Refused('refused: level not here')
    return first, last, Track(curve, 2, None, MILLION)
