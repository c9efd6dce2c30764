"""Checks of a built program at the sizes that users have: large files, long lists and long reports."""
import hashlib

from program_checks import TOP, Server, difference, request, response, texted
from program_runs import MOST_FILE, little_memory, now, without_stamps

SUMS = TOP / 'tools' / 'expected' / 'sums.txt'
# A current that turns twice an hour, the fastest that a file may have.
SWIFT = ['# Turns twice an hour', '1', 'S60 360', '2000', '12', 'S60', *['0'] * 12, '*END*',
         '12', 'S60', *['1'] * 12, '*END*', 'Swift', '0:00 :UTC', '0 knots', 'S60 27 0']
TEN_YEARS = ('file=swift.txt', 'station=Swift', 'begin=2000-01-01T00:00Z', 'end=2010-01-01T00:00Z', 'mark=-20')
# The cells of an hour at that current, a line for each minute with a length of 60: the minutes of two events with their lines.
TRACKS = {'turn': {30: 't low -27000000', 59: 't high 26852091'}, 'slack': {14: 't ebb 2822269', 45: 't flood 0'},
          'mark': {22: 't fall -18066526', 37: 't rise -20064910'}}
STATIONS, CONSTITUENTS = 20_000, 40


def minute_by_minute(end, days):
    """A certificate of some days at that current with a cell for each minute, 10.4 kB a day."""
    lines = ['tide certificate 2', 'station Swift', 'begin 2000-01-01T00:00Z', f'end {end}T00:00Z', 'mark -20000000']
    for name, events in TRACKS.items():
        lines += [f'track {name}', *[events.get(minute, 's') for minute in range(60)] * (days * 24)]
    return '\n'.join([*lines, 'done', ''])


def too_many_cells():
    """A certificate of a day with 2,200,000 events, 41.8 MB."""
    lines = ['tide certificate 2', 'station Pier', 'begin 2000-01-01T00:00Z', 'end 2000-01-02T00:00Z', 'mark none', 'track turn']
    return '\n'.join([*lines, *['t low -10000000000'] * 2_200_000, 'done', ''])


def large_file():
    """A file of constants of exactly as many bytes as it may have: 20,000 stations, and comments."""
    names = [f'C{number}' for number in range(1, CONSTITUENTS + 1)]
    head = [str(CONSTITUENTS), *[f'{it} {10 + at}.25' for at, it in enumerate(names)], '2000', '2']
    for factor in ('10 20', '1 1.01'):
        head += [line for it in names for line in (it, factor)] + ['*END*', *(['2'] if factor == '10 20' else [])]
    waves = [[f'{it} 0.{at % 9 + 1}{turn:02} {at * 7 + turn}.5' for at, it in enumerate(names)] for turn in range(50)]
    parts = ['\n'.join([station_name(number), '0:00 :UTC', '1.5 feet', *waves[number % 50]]) for number in range(STATIONS)]
    text = '\n'.join([*head, *parts, ''])
    left = MOST_FILE - len(text)
    short = ('# A comment of a hundred bytes. ' + '.' * 67 + '\n') * (left // 200)
    return short + '#' * (left - len(short) - 1) + '\n' + text


def station_name(number):
    return f'Station {number} in the Sea of Made-up Places'


def digest(data):
    return f'{hashlib.sha256(data).hexdigest()} {len(data)}'


def as_summed(place, name, *words, status=0, limit=''):
    """Whether standard output has the recorded length and SHA-256, and standard error is empty."""
    begun = now()
    ended = place.run(*words, limit=limit)
    seen = difference(ended, status, ended.stdout, b'')
    wanted = {it.partition(' ')[0]: it.partition(' ')[2] for it in SUMS.read_text(encoding='ascii').splitlines()}[name]
    came = digest(without_stamps(ended.stdout, begun))
    return seen or ('' if came == wanted else f'{came} in place of {wanted}: {texted(ended.stdout)}')


def large_book(place):
    (place.folder / 'large.txt').write_text(large_file(), encoding='ascii')
    listed = ''.join(f'Ref feet {station_name(number)}\n' for number in range(STATIONS)).encode()
    seen = difference(place.run('stations', 'file=large.txt'), 0, listed, b'')
    return seen or as_summed(place, 'large-predict', 'predict', 'file=large.txt', f'station={station_name(STATIONS - 1)}',
                             'begin=2000-03-01T00:00Z', 'end=2000-06-01T00:00Z')


def large_certificate(place):
    (place.folder / 'large.cert').write_text(too_many_cells(), encoding='ascii')
    wanted = b'Rejected: track turn: cells cover 2200000 of 1440 minutes\n'
    return difference(place.run('check', 'file=daily.txt', 'certificate=large.cert'), 1, wanted, b'')


def long_certificate(place):
    (place.folder / 'minutes.cert').write_text(minute_by_minute('2002-01-01', 731), encoding='ascii')
    return as_summed(place, 'long-check', 'check', 'file=swift.txt', 'certificate=minutes.cert')


def long_list(place):
    return as_summed(place, 'long-predict', 'predict', *TEN_YEARS)


def long_certify(place):
    return as_summed(place, 'long-certify', 'certify', *TEN_YEARS)


def streamed(place):
    """A list and a certificate are written as they are found, so they take no more memory than a short run."""
    limit = little_memory(place)
    return (as_summed(place, 'long-predict', 'predict', *TEN_YEARS, limit=limit)
            or as_summed(place, 'long-certify', 'certify', *TEN_YEARS, limit=limit))


def long_report(place):
    return as_summed(place, 'long-report', 'report', *TEN_YEARS, 'sheets=tally,range,first,ical')


def sample(place):
    return as_summed(place, 'sample', 'sample', 'seed=1')


def long_reply(place):
    """The server's certificate of ten years is that of the command."""
    query = '&'.join(TEN_YEARS[1:])
    with Server(place, file='swift.txt') as server:
        reply = server.reply(request(f'/certify?{query}'))
    wanted = response(place.run('certify', *TEN_YEARS).stdout)
    return '' if reply == wanted else f'{len(reply)} bytes in place of {len(wanted)}: {texted(reply)}'


def long_request(place):
    """The server's answer to a certificate of a year, of almost as many bytes as a request may have, is that of the command."""
    (place.folder / 'year.cert').write_text(minute_by_minute('2001-01-01', 366), encoding='ascii')
    with Server(place, file='swift.txt') as server:
        reply = server.reply(request('/check', 'POST', (place.folder / 'year.cert').read_bytes()))
    wanted = response(place.run('check', 'file=swift.txt', 'certificate=year.cert').stdout)
    return '' if reply == wanted else f'{len(reply)} bytes in place of {len(wanted)}: {texted(reply)}'


CHECKS = {
    'sizes: a made-up file': sample,
    'sizes: a file of constants of 67,108,864 bytes': large_book,
    'sizes: a certificate of 41,800,000 bytes': large_certificate,
    'sizes: a certificate of 3,157,920 cells': long_certificate,
    'sizes: a list of 526,000 events': long_list,
    'sizes: a certificate of ten years': long_certify,
    'sizes: a list and a certificate in little memory': streamed,
    'sizes: a report of four sheets, each to its limit': long_report,
    'sizes: a long reply': long_reply,
    'sizes: a long request': long_request,
}


def make_ready(place):
    (place.folder / 'swift.txt').write_text('\n'.join(SWIFT) + '\n', encoding='ascii')
