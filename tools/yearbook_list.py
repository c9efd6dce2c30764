"""The stations of a yearbook: their names, zones and sills or limits, with units, references and notes."""

import csv
import hashlib
import json
import pathlib
import re
import subprocess
import unicodedata

from yearbook_clock import ZONES, Clock, moment_text

SILL = re.compile(r'[+-]?(\d+\.?\d*|\.\d+)')
ZONE = re.compile(r'[\w+-]+(/[\w+-]+)*')
NOTES = ('zone', 'latitude', 'longitude', 'country', 'identifier', 'source', 'flood_direction', 'ebb_direction')


class Wrong(Exception):
    """The reason why there is no yearbook."""


def read_list(path):
    """The lines of a list as (name, zone, sill)."""
    found = []
    for number, line in enumerate(pathlib.Path(path).read_text(encoding='utf-8').splitlines(), 1):
        if not line.strip() or line.startswith('#'):
            continue
        name, zone, sill, *rest = [part.strip() for part in line.split('\t')] + ['', '']
        if len(rest) > 2 or (sill and not SILL.fullmatch(sill)):
            raise Wrong(f'{path}, line {number}: not a name, a zone and a sill with tabs between')
        if any(name == other for other, _, _ in found):
            raise Wrong(f'{path}, line {number}: {name} is there twice')
        found.append((name, zone, sill))
    if not found:
        raise Wrong(f'{path} has no station')
    return found


def known_stations(words):
    """The unit and the reference of each station that the program lists, by name."""
    files = [f'{key}={words[key]}' for key in ('file', 'offsets') if key in words]
    run = subprocess.run([words['program'], 'stations', *files], capture_output=True, text=True, check=False)
    if run.returncode != 0:
        raise Wrong(run.stderr.strip())
    lines = [line.split(' ', 2) for line in run.stdout.splitlines()]
    known = {}
    for _, units, name in (line for line in lines if line[0] == 'Ref'):
        known.setdefault(name, {'units': units, 'reference': None})
    if 'offsets' in words:
        with open(words['offsets'], encoding='utf-8-sig', newline='') as table:
            for row, line in zip(csv.DictReader(table), (line for line in lines if line[0] == 'Sub')):
                known.setdefault(row['name'], {'units': line[1], 'reference': row['reference']})
    return known


def key_of(name):
    """A name for files."""
    plain = unicodedata.normalize('NFD', name).encode('ascii', 'ignore').decode().lower()
    return re.sub('[^a-z0-9]+', '-', plain).strip('-')[:80] or 'station'


def can_have_mark(words, station):
    """False if the program refuses a mark at a station, since its highs and lows have different offsets."""
    begin = moment_text(Clock(station['zone']).start(int(words['year'])))
    files = [f'{key}={words[key]}' for key in ('file', 'offsets') if key in words]
    run = subprocess.run([words['program'], 'predict', *files, f'station={station["name"]}', f'begin={begin}', f'end={begin}',
                          f'mark={station["sill"]}'], capture_output=True, text=True, check=False)
    return run.stderr.strip() != 'refused: mark not here'


def check_sill(words, station):
    """Takes a current's limit by its size, and leaves out a sill that the station can't have."""
    if not station['sill']:
        return
    if station['units'].startswith('knots'):
        station['sill'] = station['sill'].lstrip('+-')
        if not float(station['sill']):
            raise Wrong(f'{station["name"]}: a current is within a limit of 0 at no time')
    if station['reference'] and not can_have_mark(words, station):
        station |= {'sill': None, 'left_out': station['sill']}


def read_stations(words, usual_notes):
    """The stations of a list."""
    notes_file = pathlib.Path(words['notes']) if 'notes' in words else usual_notes
    notes = json.loads(notes_file.read_text(encoding='utf-8')) if 'notes' in words or notes_file.exists() else {}
    known, stations = known_stations(words), []
    for name, zone, sill in read_list(words['stations']):
        note = notes.get(name, {})
        zone = zone or note.get('zone') or words.get('zone')
        if not zone:
            raise Wrong(f'{name} has no zone: put one behind a tab in the list, or zone=UTC for all that have none')
        if not ZONE.fullmatch(zone) or not (ZONES / zone).is_file():
            raise Wrong(f'{name}: there is no zone {zone} in {ZONES}')
        more = known.get(name, {'units': '', 'reference': None})
        datum = note.get('datum') or notes.get(more['reference'], {}).get('datum')
        kept = {key: note[key] for key in NOTES if key in note}
        stations.append({'name': name, 'zone': zone, 'sill': sill or None, 'left_out': None, 'datum': datum, 'notes': kept, 'key': key_of(name), **more})
        check_sill(words, stations[-1])
    keys = [station['key'] for station in stations]
    for station in stations:
        if keys.count(station['key']) > 1:
            station['key'] += f'-{hashlib.sha256(station["name"].encode()).hexdigest()[:8]}'
    return stations
