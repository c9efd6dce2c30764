#!/usr/bin/env python3
"""Makes a table of subordinate stations from XTide's offsets.xml, for `tide .. offsets=TABLE`.

offsets_from_xtide.py xml=OFFSETS.XML [file=CONSTANTS] [version=1] > TABLE

With `file`, stations whose reference isn't in that file of harmonic constants, or has another unit, are left out.
Version 2, the default, keeps the slack times of currents that have their own; version 1 doesn't. Standard error has the
number of stations that are left out, by the reason, with the first of them.

If a file is missing or isn't what its key says, or if no station is left, there is no output, standard error has one line
that says so, and the status is 2.
"""

import collections
import csv
import re
import sys

COLUMNS = ['name', 'reference', 'high_add', 'low_add', 'high_times', 'low_times', 'high_plus', 'low_plus']
SLACK_COLUMNS = ['flood_add', 'ebb_add']
ATTRIBUTE = r'''([\w-]+)\s*=\s*("[^"]*"|'[^']*')'''
TAG = re.compile(rf'<(/?)([a-z]+)((?:\s+{ATTRIBUTE})*)\s*/?>')
ENTITY = re.compile(r'&(?:(amp|lt|gt|quot|apos)|#([0-9]{1,7}));')
ENTITIES = {'amp': '&', 'lt': '<', 'gt': '>', 'quot': '"', 'apos': "'"}


class LeftOut(Exception):
    """Why a station has no row."""


class Wrong(Exception):
    """Why there is no table."""


def plain(text):
    """A value without its entities; an ampersand that begins no entity is kept."""
    return ENTITY.sub(lambda found: ENTITIES.get(found[1]) or chr(int(found[2])), text)


def attributes(text):
    return {key: plain(value[1:-1]) for key, value in re.findall(ATTRIBUTE, text)}


def stations(text):
    """Each subordinate station: its attributes, and those of its offsets by their paths, as `max timeadd`."""
    text = re.sub('<!--.*?-->', '', text, flags=re.DOTALL)
    for element in text.split('<subordinatestation')[1:]:
        tags = list(TAG.finditer('<subordinatestation' + element))
        if not tags or tags[0].start() or '</subordinatestation>' not in element:
            yield {}, {}
            continue
        found, inside = {}, ''
        for tag in tags[1:]:
            closing, word = tag[1], tag[2]
            if word in ('max', 'min', 'simpleoffsets'):
                inside = '' if closing else word + ' '
            elif not closing:
                found.setdefault(inside + word, attributes(tag[3]))
        yield attributes(tags[0][3]), found


def name(text, what):
    if not text:
        raise LeftOut(f'no {what} that can be read')
    if len(text.encode()) > 400 or re.search('[\0-\37\177]', text):
        raise LeftOut(f'a {what} that is too long or has control characters')
    return text


def minutes(text):
    """Hours and minutes, at most a day."""
    form = re.fullmatch('[+-]?([0-9]{1,2}):([0-9]{2})', text)
    if text and not (form and int(form[2]) < 60 and 60 * int(form[1]) + int(form[2]) <= 1440):
        raise LeftOut('a time that is no whole minutes of at most 24 hours')
    return text


def decimal(text, least, most, why):
    """A decimal of at most 6 places, from least to most millionths."""
    form = re.fullmatch('([+-]?)([0-9]{0,9})(?:[.]([0-9]{0,6})0*)?', text)
    if text and not (form and re.search('[0-9]', text)):
        raise LeftOut(why)
    if text:
        size = int((form[2] or '0') + (form[3] or '').ljust(6, '0'))
        if not least <= (-size if form[1] == '-' else size) <= most:
            raise LeftOut(why)
    return text


def row(station, found, units):
    """The values by their columns; slack times are empty if the station has none."""
    made = {'name': name(station.get('name'), 'name'), 'reference': name(station.get('reference'), 'reference')}
    unit = units.get(made['reference']) if units else None
    if units and not unit:
        raise LeftOut('the reference is not in the file')
    for column, part in (('high', 'max '), ('low', 'min ')):
        value = lambda tag: found.get(part + tag, found.get('simpleoffsets ' + tag, {}))
        made[column + '_add'] = minutes(value('timeadd').get('value', ''))
        made[column + '_times'] = decimal(
            value('levelmultiply').get('value', ''), 1, 100000000, 'a factor that is not from 0.000001 to 100 in 6 places')
        plus = value('leveladd')
        made[column + '_plus'] = decimal(
            plus.get('value', ''), -10 ** 10, 10 ** 10, 'a level to add that is not from -10000 to 10000 in 6 places')
        if unit and plus.get('units', unit) != unit:
            raise LeftOut('a level to add in another unit than the reference has')
    for column, tag in (('flood_add', 'floodbegins'), ('ebb_add', 'ebbbegins')):
        made[column] = minutes(found.get(tag, {}).get('value', ''))
    return made


def read(path):
    """A file's text, in which each byte is a letter."""
    with open(path, encoding='latin-1', newline='') as file:
        return file.read()


def units_of(path):
    """The unit of each reference station of a file of harmonic constants."""
    lines = [line.strip(' \t\r\n') for line in read(path).split('\n') if not line.startswith('#') and line.strip(' \t\r\n')]
    try:
        constituents = int(lines[0])
        at = [i for i, line in enumerate(lines) if line == '*END*'][1] + 1
        return {lines[i]: lines[i + 2].split()[1] for i in reversed(range(at, len(lines), 3 + constituents))}
    except (IndexError, ValueError):
        raise Wrong(f'{path} isn\'t a file of harmonic constants') from None


def table(text, units, version):
    """The rows, and the stations that are left out or lose something, by the reason."""
    rows, left_out, lost, names = [], collections.defaultdict(list), collections.Counter(), set()
    for station, found in stations(text):
        try:
            made = row(station, found, units)
            if made['name'] in names:
                raise LeftOut('a name that an earlier row has')
        except LeftOut as why:
            left_out[str(why)].append(station.get('name', ''))
            continue
        names.add(made['name'])
        slack = [made[column] for column in SLACK_COLUMNS if made[column]]
        if len(slack) == 1:
            lost['times of slack water, of which only one is given'] += 1
            made.update(flood_add='', ebb_add='')
        elif slack and version == '1':
            lost['times of slack water, which version 1 has no columns for'] += 1
        lost['a name that a station of the file has, and which therefore is not found'] += made['name'] in (units or {})
        rows.append(made)
    return rows, left_out, lost


def reason(why, names):
    """A line about the stations that are left out for a reason, with the first name that can be printed."""
    first = next((it for it in names if it and it.isprintable()), None)
    return f'{len(names)} left out: {why}{f" ({first[:100]})" if first else ""}'


def report(rows, left_out, lost):
    """The lines for standard error."""
    by_count = sorted(left_out.items(), key=lambda it: -len(it[1]))
    return [f'{len(rows)} stations', *(reason(*it) for it in by_count),
            *(f'{count} {"without" if "slack" in what else "with"} {what}' for what, count in lost.most_common() if count)]


def main(xml, file=None, version='2'):
    if version not in ('1', '2'):
        raise Wrong('version is neither 1 nor 2')
    text, units = read(xml), units_of(file) if file else None
    if '<subordinatestation' not in text:
        raise Wrong(f'{xml} isn\'t XTide\'s list of subordinate stations: it has no element subordinatestation')
    rows, left_out, lost = table(text, units, version)
    if not rows:
        raise Wrong(f'{xml}: {"; ".join(report(rows, left_out, lost))}')
    columns = COLUMNS + (SLACK_COLUMNS if version == '2' else [])
    sys.stdout.reconfigure(encoding='utf-8', newline='')
    writer = csv.DictWriter(sys.stdout, columns, lineterminator='\n', extrasaction='ignore')
    writer.writeheader()
    writer.writerows(rows)
    print(*report(rows, left_out, lost), sep='\n', file=sys.stderr)


def words_of(arguments, needed, optional):
    """The options, by their keys."""
    if any('=' not in word for word in arguments):
        raise Wrong(f'{next(word for word in arguments if "=" not in word)} is not key=value')
    words = dict(word.split('=', 1) for word in arguments)
    for key, value in words.items():
        if key not in (*needed, *optional):
            raise Wrong(f'there is no key {key}')
        if not value:
            raise Wrong(f'{key} is empty')
    for key in needed:
        if key not in words:
            raise Wrong(f'{key} is missing')
    return words


def start(tool, about, run, needed, optional):
    """Runs a tool with the options of the command line; bad input ends it with one line and status 2."""
    arguments = sys.argv[1:]
    if not arguments or {'-h', '--help'} & set(arguments):
        print(about.strip())
        sys.exit(0 if arguments else 2)
    try:
        run(**words_of(arguments, needed, optional))
    except (Wrong, OSError) as wrong:
        print(f'{tool}: {wrong}', file=sys.stderr)
        sys.exit(2)


if __name__ == '__main__':
    start('offsets_from_xtide', __doc__, main, ['xml'], ['file', 'version'])
