#!/usr/bin/env python3
"""Checks a certificate by docs/CERTIFICATES.md and prints the first line of the answer of `tide check` or, if the text
begins with `peak certificate 1`, of `tide peakcheck` (docs/HIGHEST.md). The constants and the table must have no fault.

check_certificate.py file=CONSTANTS certificate=C [offsets=TABLE]
"""

import re
import sys

from tide_numbers import Constants, Refused, asked, asked_highest, moment

PEAK_TITLE = 'peak certificate 1'
KINDS = {'turn': ('high', 'low'), 'slack': ('flood', 'ebb'), 'mark': ('rise', 'fall')}


class NotACertificate(Exception):
    """The number of the first line with which no certificate goes on."""


class Rejected(Exception):
    """The fault of the cells."""


# ---- the text

def number(text, most):
    """The number that a text writes, up to a greatest size, or None."""
    if not re.fullmatch('0|-?[1-9][0-9]*', text) or len(text) > 40 or abs(int(text)) > most:
        return None
    return int(text)


def cell(track, line):
    """A cell as (minutes, kind, level), or None."""
    words = line.split(' ')
    if line == 's':
        return 1, None, None
    if words[0] == 'q' and len(words) == 2:
        minutes = number(words[1], 1024)
        return (minutes, None, None) if minutes is not None and minutes >= 2 else None
    if words[0] == 't' and len(words) == 3 and words[1] in KINDS[track]:
        level = number(words[2], 99999999999999)
        return (1, words[1], level) if level is not None else None
    return None


def peak_cell(line):
    """The minutes of a cell of a highest water, or None."""
    if line == 'm':
        return 1
    minutes = number(line[2:], 1024) if line.startswith('u ') else None
    return minutes if minutes is not None and minutes >= 2 else None


class Text:
    """A text that is read line by line."""

    def __init__(self, data):
        self.lines = data.split(b'\n')
        self.at = 0

    def fault(self):
        raise NotACertificate(self.at)

    def line(self):
        self.at += 1
        if self.at >= len(self.lines):  # the last piece has no LF
            self.fault()
        try:
            return self.lines[self.at - 1].decode('utf-8')
        except UnicodeDecodeError:
            self.fault()

    def value(self, word):
        line = self.line()
        return line[len(word):] if line.startswith(word) else self.fault()

    def moment(self, word):
        minute = moment(self.value(word))
        return self.fault() if minute is None else minute

    def number(self, word, most):
        size = number(self.value(word), most)
        return self.fault() if size is None else size

    def question(self):
        station = self.value('station ')
        if not 1 <= len(station.encode()) <= 400 or re.search('[\0-\37\177]', station):
            self.fault()
        return station, self.moment('begin '), self.moment('end ')

    def end_of_text(self):
        self.at += 1
        if self.lines[self.at - 1:] != [b'']:
            self.fault()


class Certificate(Text):
    """The contents of a certificate of events."""

    def __init__(self, data):
        super().__init__(data)
        self.version = {'tide certificate 1': 1, 'tide certificate 2': 2}.get(self.line()) or self.fault()
        self.station, self.begin, self.end = self.question()
        mark = self.value('mark ')
        self.mark = None if mark == 'none' else number(mark, 10000000000)
        if mark != 'none' and self.mark is None:
            self.fault()
        self.tracks = {}
        self.read_tracks()
        self.end_of_text()

    def read_tracks(self):
        if self.line() != 'track turn':
            self.fault()
        track = 'turn'
        self.tracks[track] = []
        while (line := self.line()) != 'done':
            next_tracks = {'turn': ['slack', 'mark'], 'slack': ['mark'], 'mark': []}[track]
            if line in ['track ' + name for name in next_tracks] and (line != 'track mark' or self.mark is not None):
                track = line.split(' ')[1]
                self.tracks[track] = []
            else:
                self.tracks[track].append(cell(track, line) or self.fault())
        if self.mark is not None and track != 'mark':
            self.fault()


class PeakCertificate(Text):
    """The contents of a certificate of a highest water."""

    def __init__(self, data):
        super().__init__(data)
        if self.line() != PEAK_TITLE:
            self.fault()
        self.station, self.begin, self.end = self.question()
        self.highest = self.moment('at '), self.number('value ', 10 ** 37 - 1)
        self.cells = []
        while (line := self.line()) != 'done':
            self.cells.append(peak_cell(line) or self.fault())
        self.end_of_text()


# ---- the tracks

def check_track(name, track, cells, first, last):
    covered = sum(minutes for minutes, _, _ in cells)
    if covered != last - first:
        raise Rejected(f'track {name}: cells cover {covered} of {last - first} minutes')
    a = first
    for i, (minutes, kind, level) in enumerate(cells, 1):
        if minutes > 1:
            if not track.is_quiet(a, minutes):
                raise Rejected(f'track {name}: cell {i} is not quiet')
        elif track.event(a) != kind:
            raise Rejected(f'track {name}: cell {i} has the wrong step')
        elif kind and level != track.curve.reading(a):
            raise Rejected(f'track {name}: cell {i} has level {level}, computed {track.curve.reading(a)}')
        a += minutes


def check(constants, table, certificate):
    c = certificate
    first, last, tracks = asked(constants, table, c.station, c.begin, c.end, c.mark, c.version)
    if ('slack' in tracks) != ('slack' in c.tracks):
        raise Rejected('slack track ' + ('wanted' if 'slack' in tracks else 'not wanted'))
    for name, track in tracks.items():
        check_track(name, track, c.tracks[name], first, last)


# ---- the highest water

def is_under(track, a, minutes, at, value):
    """Whether the end values and the rate exclude a value as great in a stretch before `at`, or a greater one after it."""
    rate = track.rate(a, minutes)
    if a <= at < a + minutes or rate is None:
        return False
    most = track.value(a) + track.value(a + minutes) + rate * minutes
    return most < 2 * value if a < at else most <= 2 * value


def check_peak(constants, table, certificate):
    c = certificate
    first, last, track = asked_highest(constants, table, c.station, c.begin, c.end)
    if sum(c.cells) != last - first:
        raise Rejected(f'cells cover {sum(c.cells)} of {last - first} minutes')
    at, value = c.highest
    if not first <= at < last:
        raise Rejected('at outside the span')
    a = first
    for i, minutes in enumerate(c.cells, 1):
        if minutes > 1:
            if not is_under(track, a, minutes, at, value):
                raise Rejected(f'cell {i} is not under')
        elif a == at:
            if track.value(a) != value:
                raise Rejected(f'value {value}, computed {track.value(a)}')
        elif track.value(a) > value or a < at and track.value(a) == value:
            raise Rejected(f'cell {i} is above')
        a += minutes


def answer(file, certificate, offsets=None):
    """The line and the status."""
    try:
        constants = Constants(file)
        with open(certificate, 'rb') as text:
            data = text.read()
        if data.startswith(PEAK_TITLE.encode() + b'\n'):
            check_peak(constants, offsets, PeakCertificate(data))
        else:
            check(constants, offsets, Certificate(data))
    except OSError:
        return 'read fault', 6
    except NotACertificate as fault:
        return f'certificate: line {fault}', 3
    except Refused as refused:
        return str(refused), refused.status
    except Rejected as rejected:
        return f'Rejected: {rejected}', 1
    return 'Accepted', 0


if __name__ == '__main__':
    try:
        words = dict(word.split('=', 1) for word in sys.argv[1:])
        line, status = answer(**words)
    except (ValueError, TypeError):
        sys.exit(__doc__)
    print(line)
    sys.exit(status)
