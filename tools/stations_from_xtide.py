#!/usr/bin/env python3
"""Extracts the notes on each station from XTide's files, in the form of the page's file stations.json.

stations_from_xtide.py file=CONSTANTS [xml=OFFSETS.XML] [only=CONSTANTS] > stations.json

CONSTANTS is a text file of harmonic constants, whose comments before a station have its notes; OFFSETS.XML has the
subordinate stations. `only` keeps the stations of another file of constants.

The result is an object with a member for each station's name: an object of `zone`, `latitude` and `longitude` (degrees,
north and east positive), `datum`, `country`, `source`, `identifier`, and for a current `flood_direction` and
`ebb_direction` (whole degrees from true north towards which it sets, 0 to 359). A note that is missing, out of range or
`Unknown` has no member. Of two stations of one name the first has the notes. Standard error has the number of stations
with each note. If a file is missing or isn't one of harmonic constants, there is no output, standard error has one line
that says so, and the status is 2.
"""

import collections
import json
import re
import sys

# Nothing is written beside the scripts, so that a package that root calls leaves no file behind.
sys.dont_write_bytecode = True

from offsets_from_xtide import start, stations, Wrong

NOTES = ('zone', 'latitude', 'longitude', 'datum', 'country', 'source', 'identifier', 'flood_direction', 'ebb_direction')
COMMENT = re.compile(r'#\s*!?(\w+):\s*(.*)')
DEGREES = {'latitude': 90, 'longitude': 180}
DIRECTIONS = {'flood_direction': 'max', 'ebb_direction': 'min'}


def degrees(text, most):
    """A number of degrees, or None if the text isn't one up to `most` in size."""
    form = re.fullmatch(r'[+-]?\d{1,3}(\.\d*)?', text or '')
    return float(text) if form and abs(float(text)) <= most else None


def direction(text):
    """A direction in whole degrees, or None if the text isn't one."""
    return int(text) % 360 if re.fullmatch(r'\d{1,3}', text or '', re.ASCII) and int(text) <= 360 else None


def notes_of(values):
    """The notes of a station, from XTide's names of them."""
    found = {key: values.get(key, '').strip() for key in ('datum', 'country', 'source')}
    found['zone'] = values.get('timezone', '').strip().removeprefix(':')
    found['identifier'] = f'{values.get("station_id_context", "")} {values.get("station_id", "")}'.strip()
    found.update({key: degrees(values.get(key), most) for key, most in DEGREES.items()})
    if found['latitude'] is None or found['longitude'] is None:
        found['latitude'] = found['longitude'] = None
    found.update({key: direction(values.get(f'{part}_direction')) for key, part in DIRECTIONS.items()})
    return {key: found[key] for key in NOTES if found[key] not in ('', None, 'Unknown')}


def reference_stations(path):
    """The name of each station of a file of constants, and its notes by XTide's names."""
    data, comments = [], {}
    with open(path, encoding='latin-1', newline='\n') as file:
        for line in file:
            text = line.strip(' \t\r\n')
            if line.startswith('#'):
                comment = COMMENT.fullmatch(text)
                if comment:
                    comments[comment[1]] = comment[2]
            elif text:
                data.append((text, comments))
                comments = {}
    try:
        constituents = int(data[0][0])
        first = [index for index, (text, _) in enumerate(data) if text == '*END*'][1] + 1
    except (IndexError, ValueError):
        raise Wrong(f'{path} isn\'t a file of harmonic constants') from None
    for index in range(first, len(data) - 1, 3 + constituents):
        name, comments = data[index]
        zone = re.search(r'\s:?(\S+)$', data[index + 1][0])
        yield name, {'timezone': zone[1] if zone else '', **comments}


def subordinate_stations(path):
    with open(path, encoding='latin-1', newline='') as file:
        for station, offsets in stations(file.read()):
            if station.get('name'):
                yield station['name'], {**station, **true_directions(offsets)}


def true_directions(offsets):
    """The directions of a subordinate station that are from true north (as those of reference stations are, without a unit)."""
    given = {part: offsets.get(f'{part} direction', {}) for part in DIRECTIONS.values()}
    return {f'{part}_direction': it.get('value') for part, it in given.items() if it.get('units') == 'degrees true'}


def main(file, xml=None, only=None):
    kept = None if only is None else {name for name, _ in reference_stations(only)}
    found = {}
    for name, values in [*reference_stations(file), *(subordinate_stations(xml) if xml else [])]:
        if kept is None or name in kept:
            found.setdefault(name, notes_of(values))
    sys.stdout.reconfigure(encoding='utf-8', newline='')
    members = (f'{json.dumps(name, ensure_ascii=False)}: {json.dumps(notes, ensure_ascii=False)}' for name, notes in found.items())
    print('{', ',\n'.join(members), '}', sep='\n')
    counts = collections.Counter(key for notes in found.values() for key in notes)
    print(f'{len(found)} stations', *(f'{counts[key]} with {key}' for key in NOTES), sep=', ', file=sys.stderr)


if __name__ == '__main__':
    start('stations_from_xtide', __doc__, main, ['file'], ['xml', 'only'])
