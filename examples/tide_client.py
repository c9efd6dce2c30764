#!/usr/bin/env python3
"""Queries a running `tide serve`, and returns rows with local times.

tide_client.py station=NAME begin=2025-06-01T00:00 end=2025-06-08T00:00 zone=America/New_York [mark=4] [server=URL]

It prints the events of a station as tab-separated rows. `begin` and `end` are local times of the zone.
"""

import csv
import datetime
import decimal
import http.client
import io
import sys
import typing
import urllib.error
import urllib.parse
import urllib.request
import zoneinfo


class Row(typing.NamedTuple):
    """An event of a station, or a height, whose `event` is ''."""
    time: datetime.datetime
    event: str
    level: decimal.Decimal
    units: str


class Station(typing.NamedTuple):
    """A station's name and unit; `reference` is None for one of the file itself."""
    name: str
    units: str
    reference: str | None


class Refusal(Exception):
    """A reply that isn't 200: its HTTP status and its line."""

    def __init__(self, status, line):
        super().__init__(f'{status}: {line}')
        self.status, self.line = status, line


class Client:
    def __init__(self, server='http://127.0.0.1:8080', timeout=150):
        self.server, self.timeout = server, timeout

    def text(self, path, **keys):
        query = urllib.parse.urlencode({key: value for key, value in keys.items() if value is not None})
        try:
            with urllib.request.urlopen(f'{self.server}/{path}?{query}', timeout=self.timeout) as reply:
                return reply.read().decode()
        except urllib.error.HTTPError as fault:
            raise Refusal(fault.code, fault.read().decode(errors='replace').strip()) from None

    def stations(self):
        """All stations whose reference is in the file. A name may have parentheses, so a reference is found by the file's names."""
        lines = [it.split(' ', 2) for it in self.text('stations').split('\n')[:-1]]
        own = {text for kind, _, text in lines if kind == 'Ref'}
        for kind, units, text in lines:
            if kind == 'Ref':
                yield Station(text, units, None)
            else:
                gaps = (at for at in range(len(text)) if text.startswith(' (', at) and text[at + 2:-1] in own)
                yield from (Station(text[:at], units, text[at + 2:-1]) for at in gaps)

    def rows(self, path, station, begin, end, zone, **keys):
        begin, end = (it.astimezone(datetime.UTC).isoformat(timespec='minutes')[:16] + 'Z' for it in (begin, end))
        text = self.text(path, station=station, begin=begin, end=end, layout='csv', **keys)
        for it in csv.DictReader(io.StringIO(text, newline='')):
            time = datetime.datetime.fromisoformat(it['moment']).astimezone(zone)
            yield Row(time, it.get('event', ''), decimal.Decimal(it['level']), it['units'])

    def events(self, station, begin, end, zone, mark=None):
        """The rows of the events from begin up to but not including end, two aware times; zone is a tzinfo."""
        return list(self.rows('predict', station, begin, end, zone, mark=mark))

    def heights(self, station, begin, end, zone, step=60):
        """The rows of the levels every `step` minutes from begin up to and including end."""
        return list(self.rows('heights', station, begin, end, zone, step=step))


def main(station, begin, end, zone, server='http://127.0.0.1:8080', mark=None):
    clock = zoneinfo.ZoneInfo(zone)
    begin, end = (datetime.datetime.fromisoformat(it).replace(tzinfo=clock) for it in (begin, end))
    for row in Client(server).events(station, begin, end, clock, mark):
        print(row.time.isoformat(timespec='minutes'), row.level, row.units, row.event, sep='\t')


if __name__ == '__main__':
    try:
        main(**dict(word.split('=', 1) for word in sys.argv[1:]))
    except (Refusal, OSError, http.client.HTTPException) as fault:
        sys.exit(f'tide_client: {fault}')
    except (TypeError, ValueError):
        sys.exit(__doc__)
