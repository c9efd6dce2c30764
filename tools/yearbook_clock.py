"""Clocks of zones, by the files that `tide` reads, for tools/yearbook."""

import datetime
import pathlib
import re
import zoneinfo

ZONES = pathlib.Path('/usr/share/zoneinfo')
MINUTE = datetime.timedelta(minutes=1)
DAY = datetime.timedelta(days=1)
# As the page's language (en-GB) has them.
MONTHS = ('Jan', 'Feb', 'Mar', 'Apr', 'May', 'Jun', 'Jul', 'Aug', 'Sept', 'Oct', 'Nov', 'Dec')


class Clock:
    """The clock of a zone, by the file that `tide` reads."""

    def __init__(self, name):
        with (ZONES / name).open('rb') as file:
            self.zone = zoneinfo.ZoneInfo.from_file(file)

    def ahead(self, moment):
        """The offset of a moment, in whole minutes towards the past, as the program prints it."""
        return moment.astimezone(self.zone).utcoffset() // MINUTE * MINUTE

    def at(self, moment):
        """The date and time as (`2027-01-01`, `00:00`), and the offset as `-05:00`."""
        return *f'{(moment + self.ahead(moment)):%Y-%m-%d %H:%M}'.split(), offset_text(self.ahead(moment))

    def start(self, year):
        """The first moment of a year."""
        local = datetime.datetime(year, 1, 1, tzinfo=self.zone)
        return local.astimezone(datetime.timezone.utc).replace(second=0)

    def changes(self, begin, end):
        """The changes of the clock, at most one a day: the first minute of each new offset."""
        found, start = [], begin
        while start < end:
            stop = min(start + DAY, end)
            if self.ahead(start) != self.ahead(stop):
                moment = self.first_other(start, stop)
                found += [Point(moment, self.at(moment))] if moment < end else []
            start = stop
        return found

    def first_other(self, low, high):
        usual = self.ahead(low)
        while high - low > MINUTE:
            middle = low + (high - low) / 2 // MINUTE * MINUTE
            low, high = (middle, high) if self.ahead(middle) == usual else (low, middle)
        return high


class Point:
    """An event, or a change of the clock if it has no word."""

    def __init__(self, moment, clock, word=None, shown=''):
        self.moment, (self.date, self.time, self.offset), self.word, self.shown = moment, clock, word, shown

    def is_slack(self):
        return self.word.startswith('Slack ')

    def is_mark(self):
        return self.word.startswith('Mark ')


def offset_text(ahead):
    minutes = ahead // MINUTE
    return f'{"-" if minutes < 0 else "+"}{abs(minutes) // 60:02}:{abs(minutes) % 60:02}'


def moment_of(text):
    return datetime.datetime.strptime(text, '%Y-%m-%dT%H:%MZ').replace(tzinfo=datetime.timezone.utc)


def moment_text(moment):
    return f'{moment:%Y-%m-%dT%H:%MZ}'.rjust(17, '0')


def utc_text(ahead):
    """How far a clock is ahead of UTC, as `UTC-5` or `UTC+5:45`."""
    hours, rest = divmod(abs(ahead) // MINUTE, 60)
    return 'UTC' if not ahead else f'UTC{"-" if ahead < datetime.timedelta(0) else "+"}{hours}{f":{rest:02}" if rest else ""}'


def clock_name(clock, moment):
    """A zone's clock at a moment, as `EST (UTC-5)`. Zones without a short name have a number in its place."""
    name, utc = moment.astimezone(clock.zone).tzname(), utc_text(clock.ahead(moment))
    return utc if name == utc or not re.match('[A-Z]', name) else f'{name} ({utc})'


def day_text(date):
    """A date as `Sun 14 Mar`."""
    return f'{date:%a} {date.day} {MONTHS[date.month - 1]}'
