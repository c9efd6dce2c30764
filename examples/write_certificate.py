#!/usr/bin/env python3
"""Writes a certificate by docs/CERTIFICATES.md, with the longest quiet cell that it finds at each minute.

write_certificate.py file=CONSTANTS station=S begin=A end=B [mark=M] [offsets=TABLE] [version=1]
"""

import sys

from tide_numbers import Constants, Refused, asked, decimal, moment


def longest_quiet(track, a, most):
    """The minutes of a quiet cell at a minute, or 1. The length grows by steps that double, and then by steps that halve."""
    minutes, more = 1, 1
    while minutes + more <= most and track.is_quiet(a, minutes + more):
        minutes, more = minutes + more, 2 * more
    while more := more // 2:
        if minutes + more <= most and track.is_quiet(a, minutes + more):
            minutes += more
    return minutes


def cells(track, first, last):
    a = first
    while a < last:
        minutes = longest_quiet(track, a, min(1024, last - a))
        if minutes > 1:
            yield f'q {minutes}'
        elif kind := track.event(a):
            yield f't {kind} {track.curve.reading(a)}'
        else:
            yield 's'
        a += minutes


def certificate(file, station, begin, end, mark=None, offsets=None, version='2'):
    level = None if mark is None else decimal(mark, 6)
    question = station, moment(begin), moment(end), level, int(version)
    first, last, tracks = asked(Constants(file), offsets, *question)
    yield f'tide certificate {version}'
    yield f'station {station}'
    yield f'begin {begin}'
    yield f'end {end}'
    yield f'mark {"none" if level is None else level}'
    for name, track in tracks.items():
        yield f'track {name}'
        yield from cells(track, first, last)
    yield 'done'


if __name__ == '__main__':
    try:
        words = dict(word.split('=', 1) for word in sys.argv[1:])
        lines = list(certificate(**words))
    except Refused as refused:
        print(refused, file=sys.stderr)
        sys.exit(refused.status)
    except (ValueError, TypeError):
        sys.exit(__doc__)
    sys.stdout.buffer.write(''.join(line + '\n' for line in lines).encode())
