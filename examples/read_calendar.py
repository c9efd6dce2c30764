#!/usr/bin/env python3
"""Prints a line for each event of a calendar, as the package icalendar reads it (Debian: python3-icalendar).

read_calendar.py CALENDAR
"""

import sys

from icalendar import Calendar


def events(text):
    """The start and the summary of each event; none if the text is empty."""
    calendar = Calendar.from_ical(text) if text else Calendar()
    return [(event['dtstart'].dt, event['summary']) for event in calendar.walk('VEVENT')]


def main():
    if len(sys.argv) != 2:
        sys.exit(__doc__)
    with open(sys.argv[1], 'rb') as file:
        text = file.read()
    for start, summary in events(text):
        print(f'{start:%Y-%m-%d %H:%M} UTC  {summary}')


if __name__ == '__main__':
    main()
