#!/usr/bin/env python3
"""A job of tools/yearbook: makes one station's files and writes them to standard output, as one line of JSON.

yearbook_station.py PLAN KIND NUMBER

KIND is `data` (the listing as CSV, the calendar and the certificate) or `pdf` (the sheets). For a current with a limit
the listing and the calendar have the marks of the limit and of minus the limit, and each mark has its certificate. The line
has `number` and either `files`, by their suffixes (and with `data` the `sheets` by their months), or `line`, which says why
there are none. PLAN is written by
tools/yearbook.
"""

import base64
import json
import re
import subprocess
import sys

import yearbook_sheets as sheets
from yearbook_clock import ZONES, Clock, moment_text

# The parts of a calendar. The second number of an entry's UID is the kind of the event: 4 and 5 are marks.
OPENING, CLOSING, MARK = 'BEGIN:VEVENT\r\n', 'END:VCALENDAR\r\n', re.compile(r'UID:\d+-[45]-')


class Refused(Exception):
    """The line with which a program ended."""


def output(command, **options):
    """The standard output of a program."""
    run = subprocess.run(command, capture_output=True, check=False, **options)
    if run.returncode != 0:
        lines = run.stderr.decode(errors='replace').strip().splitlines()
        raise Refused(lines[-1] if lines else f'{command[0]} ended with status {run.returncode}')
    return run.stdout


def merged_listing(listing, *others):
    """A listing in CSV with the rows of marks of others between its own."""
    head, *rows = listing.splitlines(keepends=True)
    rows += [row for other in others for row in other.splitlines(keepends=True)[1:] if row.rsplit(',', 3)[1].startswith('Mark ')]
    return head + ''.join(sorted(rows, key=lambda row: row.rsplit(',', 5)[1]))


def entries_of(text):
    return [entry.removesuffix(CLOSING) for entry in text.split(OPENING)[1:]]


def merged_calendar(text, *others):
    """A calendar with the entries for marks of others between its own."""
    entries = entries_of(text) + [entry for other in others for entry in entries_of(other) if MARK.match(entry)]
    entries.sort(key=lambda entry: entry.partition('DTSTART:')[2][:16])
    return text.partition(OPENING)[0].removesuffix(CLOSING) + ''.join(OPENING + entry for entry in entries) + CLOSING


class Job:
    """A station of a plan."""

    def __init__(self, plan, number):
        self.plan, self.station = plan, plan['stations'][number]
        self.clock = Clock(self.station['zone'])

    def tide(self, command, *words):
        span = [moment_text(self.clock.start(self.plan['year'] + more)) for more in (0, 1)]
        asked = [*self.plan['files'], f'station={self.station["name"]}', f'begin={span[0]}', *words]
        end = [] if any(word.startswith('end=') for word in words) else [f'end={span[1]}']
        return output([self.plan['program'], command, *asked, *end]).decode()

    def for_each_mark(self, command, *words):
        """The answer for each mark: two for a current with a limit, and one without a mark if the station has none."""
        sill, is_current = self.station.get('sill'), self.station['units'].startswith('knots')
        marks = [[f'mark={sill}'], [f'mark=-{sill}']][:1 + is_current] if sill else [[]]
        return [self.tide(command, *mark, *words) for mark in marks]

    def listings(self):
        zone = self.station['zone']
        return self.for_each_mark('predict', 'layout=csv', 'zone=UTC' if zone == 'UTC' else f'zone=@{ZONES / zone}')

    def year(self, listings):
        return sheets.Year(self.station, self.plan['year'], self.clock, listings, self.first_level(), self.plan['constants'])

    def data(self):
        """The files, and the months of each sheet, from which follow the numbers of the pages."""
        certificates, listings = self.for_each_mark('certify'), self.listings()
        return {'sheets': sheets.sheet_names(self.year(listings)), 'files': {'csv': merged_listing(*listings), 'ics': merged_calendar(*self.for_each_mark('report', 'sheets=ical')),
                **dict(zip(('cert', 'ebb.cert'), certificates))}}

    def first_level(self):
        """The level as the year begins, or None if there is no sill."""
        if not self.station.get('sill'):
            return None
        begin = moment_text(self.clock.start(self.plan['year']))
        row = self.tide('heights', f'end={begin}', 'layout=csv').splitlines()[1]
        return sheets.decimal.Decimal(row.split(',')[-2])

    def pdf(self):
        year = self.year(self.listings())
        with open(self.plan['style'], encoding='utf-8') as style:
            text = sheets.document(f'{self.station["name"]}, {self.plan["year"]}', sheets.sheets(year), style.read(),
                                   self.plan['paper'], self.station['page'], sheets.line_height(year, self.plan['paper']))
        return {'files': {'pdf': base64.b64encode(output(['weasyprint', '-', '-'], input=text.encode())).decode()}}


def main():
    path, kind, number = sys.argv[1:]
    with open(path, encoding='utf-8') as file:
        job = Job(json.load(file), int(number))
    try:
        made = job.pdf() if kind == 'pdf' else job.data()
    except (Refused, OSError) as refused:
        made = {'line': str(refused)}
    print(json.dumps({'number': int(number), **made}), flush=True)


main()
