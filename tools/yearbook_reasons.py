"""Why a yearbook lacks a station, or its sill: the program's line in the sentences of the page."""

import datetime
import re

from yearbook_clock import DAY, Clock, moment_of

TEXTS = [
    (r'refused: no station', 'There is no station of this name in the constants.'),
    (r'refused: no reference (.*)', 'It is computed by differences from “{0}”, which the file of constants lacks.'),
    (r'refused: hydraulic', 'It is a hydraulic current, whose speed comes from a difference of water levels. Such currents are not predicted.'),
    (r'limit: (.*)', 'The question exceeds a limit: {0}.'),
]
YEARS = r'refused: out of years: file has (.*) to (.*)'


def date_text(date):
    return f'{date.day} {date:%B} {date.year}'


def days_within(first, last, zone, is_moved):
    """The first and the last whole day of a zone's clock between two moments; a station by differences needs a day more at each end."""
    clock = Clock(zone)
    begin, end = (moment + clock.ahead(moment) for moment in map(moment_of, (first, last)))
    start = begin.date() if begin.time() == datetime.time() else begin.date() + DAY
    return start + is_moved * DAY, end.date() - (1 + is_moved) * DAY


def sentence(line, station):
    """The sentence for a line of the program, or the line itself."""
    if years := re.fullmatch(YEARS, line):
        start, last = days_within(*years.groups(), station['zone'], bool(station['reference']))
        first_year, last_year = start.year + (start > start.replace(month=1, day=1)), (last + DAY).year - 1
        return (f'The constants reach from {date_text(start)} to {date_text(last)} by the clock of {station["zone"]}. '
                f'Choose a year from {first_year} to {last_year}.')
    for form, text in TEXTS:
        if found := re.fullmatch(form, line):
            return text.format(*found.groups())
    return line
