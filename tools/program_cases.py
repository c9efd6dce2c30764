"""Checks of a built program over many small files: answers, and what is said of a file with one other line."""
import shlex

from program_checks import DAILY, TOP, Server, difference, request, response, texted
from program_runs import fed, read_runs, run_as_recorded

EXPECTED = TOP / 'tools' / 'expected'
DAYS = ('begin=2000-01-10T00:00Z', 'end=2000-01-11T00:00Z')
HEADER = 'name,reference,high_add,low_add,high_times,low_times,high_plus,low_plus'
# A file as people write it: ends of lines of two bytes, tabs, comments between, ISO 8859-1.
REAL = (b'# Constituents\r\n2\r\nM2 28.9841042\r\n  S2\t30.0000000  \r\n\r\n2000\r\n1\r\nM2\r\n120.50\r\n# between\r\n'
        b'S2\r\n0.00\r\n*END*\r\n1\r\nM2\r\n0.9850\r\nS2\r\n1.0000\r\n*END*\r\n# A station\r\nPort\xe9, Bay\r\n'
        b'-5:00 :America/New_York\r\n2.5 feet\r\nM2 1.234 45.0\r\nS2 0.4 300.0\r\n')
ELEVEN_YEARS = (b'1\nM2 28.9841042\n1999\n11\nM2\n0 20 40 60 80 100 120 140 160 180 200\n*END*\n11\nM2\n'
                b'0.9800 0.9840 0.9880 0.9920 0.9960 1.0000 1.0040 1.0080 1.0120 1.0160 1.0200\n*END*\nPier\n0:00\n1 feet\nM2 3 40\n')
TURNS = ('tide certificate 1\nstation Pier\nbegin 2000-01-10T00:00Z\nend 2000-01-10T00:08Z\nmark none\ntrack turn\ns\ns\nq 2\nq 4\ndone\n')
TRACKS = ('tide certificate 2\nstation Pi\xe9r\nbegin 2000-01-10T05:59Z\nend 2000-01-10T06:01Z\nmark -500000\ntrack turn\n'
          's\nt low -1000000\ntrack slack\nt flood 0\nt ebb 99999999999999\nq 1024\ntrack mark\nt rise -99999999999999\nt fall 7\ns\ndone\n')
PEAK = ('peak certificate 1\nstation Pier\nbegin 2000-01-10T00:00Z\nend 2000-01-10T01:04Z\nat 2000-01-10T00:00Z\n'
        'value 4147200000000000000000000000000\n' + 'm\n' * 16 + 'u 2\nu 2\nu 4\nu 4\nu 4\nu 8\nu 8\nu 16\ndone\n')
# Ten constituents in the year 2000, and a name of 200 letters, which have 400 bytes in UTF-8.
WAVES = [('M2', '28.9841042', '3.1 120.5'), ('S2', '30.0000000', '0.9 140'), ('N2', '28.4397295', '0.7 100.2'),
         ('K1', '15.0410686', '1.2 200'), ('O1', '13.9430356', '0.8 180.4'), ('Q1', '13.3986609', '0.15 170'),
         ('P1', '14.9589314', '0.35 198'), ('K2', '30.0821373', '0.25 139'), ('M4', '57.9682084', '0.12 10'), ('MS4', '58.9841042', '0.05 20')]
LONG_NAME = '\xe9' * 200
YEAR = ('file=harbour.txt', f'station={LONG_NAME}', 'begin=2000-01-01T00:00Z', 'end=2001-01-01T00:00Z')


def joined(seen):
    return '; '.join(filter(None, seen))


def write(place, name, data):
    (place.folder / name).write_bytes(data)
    return name


def with_line(text, line, other):
    """A text with another text in place of one of its lines, counted from 1."""
    lines = text.split('\n')
    lines[line - 1] = other
    return '\n'.join(lines)


def unescaped(text):
    """A field of changes.tsv: `<32>` is 32 letters, and `\\xe9` a byte."""
    parts = text.replace('<', '>').split('>')
    letters = [it if at % 2 == 0 else 'a' * int(it) for at, it in enumerate(parts)]
    return ''.join(letters).encode('ascii').decode('unicode_escape')


def changes(kind):
    """The rows of a kind in changes.tsv: a line, the text in its place, and what the run prints."""
    rows = [it.split('\t') for it in (EXPECTED / 'changes.tsv').read_text(encoding='ascii').splitlines() if not it.startswith('#')]
    for _, line, text, *printed in (it for it in rows if it[0] == kind):
        yield int(line), unescaped(text), printed[0] if len(printed) == 1 else (int(printed[1]), *map(unescaped, printed[2:]))


def said(place, slot, printed, *words):
    """What differs in a run over a file that is refused with a line, or that is read: then the status is given, and what is printed."""
    return differs_from_said(place.run(*words), slot, printed)


def differs_from_said(ended, slot, printed):
    if isinstance(printed, str):
        return difference(ended, 3, b'', f'{slot}: {printed}\n'.encode())
    status, *texts = printed
    text = texts[0].encode() if texts else ended.stdout
    return difference(ended, status, *((text, b'') if status < 2 else (b'', text)))


def differs_in_values(place, printed, command, *words):
    """What differs in a run for the last station of a list: what it prints shows the values that were read."""
    if isinstance(printed, str) or len(printed) < 3:
        return ''
    name = printed[1].splitlines()[-1].split(' ', 2)[2].removesuffix(' (Pier)')
    ended = place.run(command, *words, f'station={name}', 'begin=2000-01-10T00:00Z', 'end=2000-01-10T12:00Z', 'layout=csv')
    came = (ended.stdout + ended.stderr).decode()
    return '' if came == printed[2] else f'{command}: {came!r} in place of {printed[2]!r}'


def books(place):
    """Files of constants, each whole, byte by byte, and in pieces of seven bytes."""
    text, seen = (place.folder / 'pier.txt').read_text(encoding='ascii'), []
    rows = [('as people write it', REAL, (0, 'Ref feet Port\xe9, Bay\n')), ('eleven years', ELEVEN_YEARS, (0, 'Ref feet Pier\n'))]
    rows += [(other, with_line(text, line, other).encode('latin-1'), printed) for line, other, printed in changes('book')]
    for case, data, printed in rows:
        words = ('stations', f'file={write(place, "book.txt", data)}')
        seen.append(said(place, 'file', printed, *words) or differs_in_values(place, printed, 'heights', words[1], 'step=300'))
        for count in (1, 7) if len(data) < 1000 else (4096,):
            seen.append(differs_from_said(fed(place, data, count, words[0]), 'file', printed))
        if seen[-1]:
            seen.append(f'({case[:20]!r})')
    return joined(seen)


def real_book(place):
    """The values of the file as people write it: its name, its unit, and levels, which a second program has computed."""
    write(place, 'real.txt', REAL)
    day = ('file=real.txt', 'station=Port\xe9, Bay', 'begin=2000-07-01T00:00Z', 'end=2000-07-01T12:00Z', 'step=360', 'layout=csv')
    rows = [('00:00', '1.293195'), ('06:00', '3.684581'), ('12:00', '1.351037')]
    listed = ''.join(f'"Port\xe9, Bay",2000-07-01T{at}Z,2000-07-01 {at},{level},feet\n' for at, level in rows)
    seen = [difference(place.run('stations', 'file=real.txt'), 0, 'Ref feet Port\xe9, Bay\n'.encode(), b'')]
    return joined([*seen, difference(place.run('heights', *day), 0, f'station,moment,local,level,units\n{listed}'.encode(), b'')])


def begins_of_a_book(place):
    """Of the 97 texts with which pier.txt begins four are files: up to its stations and all of it, each with and without its last end of a line."""
    text, seen = (place.folder / 'pier.txt').read_bytes(), []
    whole = {it for end in (text.index(b'Pier\n0:00'), len(text)) for it in (end - 1, end)}
    for end in range(len(text) + 1):
        ended = place.run('stations', f'file={write(place, "begin.txt", text[:end])}')
        if (ended.returncode == 0) != (end in whole) or ended.returncode not in (0, 3):
            seen.append(f'{end} bytes: status {ended.returncode}')
    return joined([*seen, said(place, 'file', 'line 1: cut short (11)', 'stations', 'file=/dev/null')])


def many_stations(place):
    text = (place.folder / 'pier.txt').read_bytes() + b'Pier\n0:00 :UTC\n0 feet\nS2 1 0\n' * 19_999
    listed = difference(place.run('stations', f'file={write(place, "many.txt", text)}'), 0, b'Ref feet Pier\n' * 20_000, b'')
    write(place, 'more.txt', text + b'Pier\n')
    return listed or said(place, 'file', 'line 80013: too many stations (12)', 'stations', 'file=more.txt')


def tables(place):
    seen = []
    for line, text, printed in changes('table'):
        write(place, 'table.csv', ((HEADER if line else '') + text).encode('latin-1'))
        words = ('file=pier.txt', 'offsets=table.csv')
        seen.append(said(place, 'offsets', printed, 'stations', *words) or differs_in_values(place, printed, 'predict', *words))
    return joined(seen)


def names_over_a_table(place):
    """A name of the file is found before the table, and of two rows with one name the first is."""
    rows = ('Dock,Pier,0:30,-0:10,1.1,0.9,0.1,0\r\n', '"Outer, east",Pier,,,,,,\n', 'Dock,Lost,0:00,0:00,1,1,0,0\n',
            'Pier,Lost,0:00,0:00,1,1,0,0\n', 'Buoy,Lost,,,,,,')
    write(place, 'names.csv', f'{HEADER}\r\n{"".join(rows)}'.encode())
    high = '{}\n2000-01-10 {} UTC       {} feet  High Tide\n'
    found = [('Pier', '11:59', '1.00'), ('Dock', '12:29', '1.20'), ('Outer, east', '11:59', '1.00')]
    wanted = [(name, 0, high.format(name, at, level).encode(), b'') for name, at, level in found]
    wanted += [('Buoy', 4, b'', b'refused: no reference Lost\n'), ('pier', 4, b'', b'refused: no station\n')]
    span = ('begin=2000-01-10T11:00Z', 'end=2000-01-10T13:00Z')
    return joined(difference(place.run('predict', 'file=pier.txt', 'offsets=names.csv', f'station={name}', *span), *ended) for name, *ended in wanted)


def arguments(place):
    """Arguments that are no question, and others, whose files aren't there."""
    seen = []
    for _, text, printed in changes('words'):
        ended = place.run(*text.replace('file=pier.txt', 'file=no-pier.txt').split('|'))
        if isinstance(printed, str):
            seen.append(difference(ended, 2, b'', f'words: {printed}\n'.encode()))
        else:
            seen.append(differs_from_said(ended, 'words', printed))
    return joined(seen)


def certificate(place, command, text, printed):
    return said(place, 'certificate', printed, command, 'file=pier.txt', f'certificate={write(place, command, text.encode())}')


def certificates(place):
    seen = []
    for kind, text in (('turns', TURNS), ('tracks', TRACKS)):
        for line, other, printed in changes(kind):
            other = other.encode('latin-1').decode()
            seen.append(certificate(place, 'check', with_line(text, line, other), printed))
        seen.append(certificate(place, 'check', text + 'done\n', f'line {text.count(chr(10)) + 1}'))
    for end, line in ((0, 1), (18, 1), (19, 2), (110, 10), (111, 11), (114, 11), (115, 11)):
        seen.append(certificate(place, 'check', TURNS[:end], f'line {line}'))
    for data, line in ((b'\n', 1), (b'tide certificate 1\nstation \xe9\n', 2)):
        seen.append(said(place, 'certificate', f'line {line}', 'check', 'file=pier.txt', f'certificate={write(place, "bytes", data)}'))
    return joined(seen)


def peak_certificates(place):
    seen = []
    for line, other, printed in changes('peak'):
        seen.append(certificate(place, 'peakcheck', with_line(PEAK, line, other.encode('latin-1').decode()), printed))
    for left_out, printed in ((0, (0, 'Accepted\nPier\nHighest 2000-01-10 00:00 UTC       1.00 feet\n')), (1, 'line 31'), (4, 'line 31'), (5, 'line 31'), (6, 'line 30'), (len(PEAK), 'line 1')):
        seen.append(certificate(place, 'peakcheck', PEAK[:len(PEAK) - left_out], printed))
    for more in ('done\n', 'm\n', '\n', 'm'):
        seen.append(certificate(place, 'peakcheck', PEAK + more, 'line 32'))
    return joined(seen)


def long_path(name):
    """A file's name of 400 bytes."""
    return './' * ((400 - len(name)) // 2) + name


def long_words(place):
    """Every key with its longest value: the answer is the one to short words, and that a name of 400 letters isn't there."""
    write(place, 'docks.csv', f'{HEADER}\nDock,Pier,0:30,-0:10,1.1,0.9,0.1,0\n'.encode())
    write(place, 'turns.cert', TURNS.encode())
    file, table = f'file={long_path("pier.txt")}', f'offsets={long_path("docks.csv")}'
    span = ('begin=0001-01-01T00:00Z', 'end=9999-12-31T23:59Z')
    zone = f'zone=@{long_path("no-zone")}'
    rows = [
        ('predict', file, table, f'station={"a" * 400}', *span, 'mark=-10000.000000', 'layout=csv', 4, b'refused: no station\n'),
        ('predict', file, table, 'station=Pier', *span, 'mark=-10000.000000', zone, 'layout=csv', 6, b'read fault\n'),
        ('certify', file, table, f'station={"a" * 400}', *span, 'mark=-10000.000000', 4, b'refused: no station\n'),
        ('check', file, table, f'certificate={long_path("turns.cert")}', zone, 6, b'read fault\n'),
        ('heights', file, table, f'station={"a" * 400}', *span, 'step=044640', 'layout=csv', 4, b'refused: no station\n'),
        ('calendar', file, table, f'station={"a" * 400}', *span, 'mark=-10000.000000', 4, b'refused: no station\n'),
        ('clock', file, table, f'station={"a" * 400}', 4, b'refused: no station\n'),
        ('serve', f'file={long_path("no-file")}', table, 'port=65535', 6, b'read fault\n'),
    ]
    seen = [difference(place.run(*words), status, b'', line) for *words, status, line in rows]
    seen.append(difference(place.run('check', file, table, f'certificate={long_path("turns.cert")}'), 0, b'Accepted\nPier\n', b''))
    seen.append(difference(place.run('stations', file, table), 0, b'Ref feet Pier\nSub feet Dock (Pier)\n', b''))
    ended = place.run('trial', 'seed=18446744073709551615')
    return joined([*seen, difference(ended, 0, ended.stdout, b''), '' if ended.stdout.startswith(b'seed 18446744073709551615\n') else str(ended.stdout)])


def long_tables(place):
    """A table of 1,200 rows with two names of 400 letters each, and the made-up file of a seed, whole and in pieces."""
    name = 'a' * 400
    row = f'\n"{name}",{name},-23:59,+24:00,100.000000,0.000001,-10000.000000,10000.000000,0:05,-0:05'
    write(place, 'long.csv', (f'{HEADER},flood_add,ebb_add' + row * 1_200).encode())
    listed = 'Ref feet Pier\n' + f'Sub - {name} ({name})\n' * 1_200
    seen = [difference(place.run('stations', 'file=pier.txt', 'offsets=long.csv'), 0, listed.encode(), b'')]
    sample = place.run('sample', 'seed=0').stdout
    write(place, 'sample.txt', sample)
    stations = place.run('stations', 'file=sample.txt')
    seen.append('' if sample.count(b'\n') == 8_192 and stations.stdout.count(b'\n') == 200 else f'{sample.count(10)} lines')
    return joined([*seen, difference(fed(place, sample, 4_096, 'stations'), 0, stations.stdout, b'')])


def long_certificates(place):
    """A certificate of 30,000 cells with a name of 400 letters, and one of a highest water with a million cells."""
    text = (f'tide certificate 2\nstation {"a" * 400}\nbegin 2000-01-01T00:00Z\nend 2001-01-01T00:00Z\nmark none\ntrack turn\n'
            + 'q 16\ns\nt high 99999999999999\nq 88\n' * 5_000 + 'track slack\n' + 'q 106\nt ebb -99999999999999\n' * 5_000 + 'done\n')
    write(place, 'long.cert', text.encode())
    seen = [difference(place.run('check', 'file=pier.txt', 'certificate=long.cert'), 4, b'', b'refused: no station\n')]
    text = ('peak certificate 1\nstation Pier\nbegin 2000-01-10T00:00Z\nend 2001-12-04T10:40Z\nat 2000-01-10T00:00Z\nvalue -1\n'
            + 'm\n' * 1_000_000 + 'done\n')
    write(place, 'long.peak', text.encode())
    line = b'Rejected: value -1, computed 4147200000000000000000000000000\n'
    return joined([*seen, difference(place.run('peakcheck', 'file=pier.txt', 'certificate=long.peak'), 1, line, b'')])


def harbour():
    """A file of ten constituents with the year 2000 alone."""
    years = [[line for name, _, _ in WAVES for line in (name, value)] + ['*END*'] for value in ('0', '1')]
    lines = ['10', *[f'{name} {speed}' for name, speed, _ in WAVES], '2000', '1', *years[0], '1', *years[1]]
    return '\n'.join([*lines, LONG_NAME, '0:00 :UTC', '5 feet', *[f'{name} {wave}' for name, _, wave in WAVES], '']).encode('latin-1')


def year_of_ten_constituents(place):
    """Lists, a certificate and its check at the sizes that users have."""
    write(place, 'harbour.txt', harbour())
    seen = []
    for command, more, lines in (('heights', (), 8786), ('heights', ('layout=csv',), 8786), ('predict', ('layout=csv',), 1415), ('calendar', (), 367)):
        ended = place.run(command, *YEAR, *more)
        seen.append(difference(ended, 0, ended.stdout, b'') or ('' if ended.stdout.count(b'\n') == lines else f'{command}: {ended.stdout.count(10)} lines'))
    listing = place.run('predict', *YEAR, 'mark=6').stdout
    write(place, 'harbour.cert', place.run('certify', *YEAR, 'mark=6').stdout)
    seen.append('' if len(listing) > 100_000 else f'{len(listing)} bytes')
    return joined([*seen, difference(place.run('check', 'file=harbour.txt', 'certificate=harbour.cert'), 0, b'Accepted\n' + listing, b'')])


def eleven_years(place):
    """Long lists over eleven years: their bytes and lines, their begins and their ends."""
    write(place, 'eleven.txt', ELEVEN_YEARS)
    rows = [
        ('predict', '2000-01-01', '2001-01-01', (), 67_265, 1_417, 'Pier\n2000-01-01 00:52 UTC       3.93 feet  High Tide\n',
         '2000-12-31 23:43 UTC       3.21 feet  Low Tide\n'),
        ('predict', '1999-06-01', '2009-05-31', (), 671_133, 14_130, 'Pier\n1999-06-01 04:11 UTC       3.94 feet  High Tide\n',
         '2009-05-30 20:27 UTC       4.06 feet  High Tide\n'),
        ('report', '1999-01-02', '2009-01-02', ('sheets=tally,range,first',), 591, 17,
         'Pier\n7067 High Tide\n7066 Low Tide\nPier\nHighest 4.06 feet 2009-01-01T06:54Z\n', '1999-01-04 10:06 UTC      -1.94 feet  Low Tide\n'),
        ('heights', '2000-01-01', '2000-03-10', ('step=1',), 3_676_362, 99_362, 'Pier\n2000-01-01 00:00 UTC  ', ' feet\n'),
    ]
    seen = []
    for command, begin, end, more, size, lines, first, last in rows:
        ended = place.run(command, 'file=eleven.txt', 'station=Pier', f'begin={begin}T00:00Z', f'end={end}T00:00Z', *more)
        text = ended.stdout.decode()
        if (ended.returncode, len(text), text.count('\n'), text.startswith(first), text.endswith(last)) != (0, size, lines, True, True):
            seen.append(f'{command} {begin}: status {ended.returncode}, {len(text)} bytes, {text.count(chr(10))} lines')
    return joined(seen)


def longest_reference(place):
    write(place, 'lost.csv', f'{HEADER}\nDock,{"z" * 400},0:00,0:00,1,1,0,0\n'.encode())
    ended = place.run('predict', 'file=pier.txt', 'offsets=lost.csv', 'station=Dock', *DAYS)
    return difference(ended, 4, b'', f'refused: no reference {"z" * 400}\n'.encode())


def samples(place):
    """The file of a seed: its length, a sum that depends on each byte and its place, and some of its lines."""
    most = 2 ** 64 - 1
    sums = {0: (127_330, 11_554_296_115_593_571_837), 1: (127_482, 9_883_544_300_362_296_385), most: (127_331, 9_062_913_710_493_932_938)}
    lines = {0: {8: 'C6 27.3128346', 39: 'C37 13.2129632', 116: '*END*', 192: '*END*', 193: 'Station 1', 194: '3:00 :UTC', 195: '6.11 feet',
                 196: 'M2 2.67 29.51', 202: 'x 0 0', 355: '0.00 knots', 8_153: 'Station 200', 8_192: 'C37 0.12 243.44'},
             1: {1: '# sample tides, seed 1', 8: 'C6 28.6928366', 8_154: '-2:00 :UTC'},
             most: {1: f'# sample tides, seed {most}', 8_192: 'C37 0.25 301.16'}}
    seen = []
    for seed, (length, wanted) in sums.items():
        text, sum_of_bytes = place.run('sample', f'seed={seed}').stdout, 0
        for byte in text:
            sum_of_bytes = (sum_of_bytes * 31 + byte) % 2 ** 64
        came = text.decode('ascii').splitlines()
        if (len(text), sum_of_bytes, len(came)) != (length, wanted, 8_192):
            seen.append(f'seed {seed}: {len(text)} bytes, sum {sum_of_bytes}')
        seen += [f'seed {seed}: line {at} is {came[at - 1]}' for at, line in lines[seed].items() if came[at - 1] != line]
    return joined(seen)


def trial_of_a_seed(place):
    wanted = b'seed 0\nstations 40\nminutes 4285440\nevents 10902\ncells 325629\nquiet 237516\naccepted 40\n'
    return difference(place.run('trial', 'seed=0'), 0, wanted, b'')


def answers(place):
    """The runs of answers.txt, over its files."""
    files, runs = read_runs(EXPECTED / 'answers.txt')
    for name, text in files.items():
        write(place, name, text.encode())
    named = {}
    for run in runs:
        named.setdefault(run[0][0], []).append(run)
    for command, several in named.items():
        yield f'answers: {command}', lambda several=several: joined(run_as_recorded(place, run) for run in several)


def replies(place):
    """The replies of replies.txt to GET and to HEAD, and to POST with and without bytes after the body; and some with a fixed reply."""
    files, runs = read_runs(EXPECTED / 'replies.txt')
    for name, text in files.items():
        write(place, name, text.encode())
    write(place, 'replies-pier.txt', '\n'.join([*DAILY[:-4], '']).encode())
    lines = {0: '200 OK', 400: '400 Bad Request', 422: '422 Unprocessable Content'}
    asked = []
    for (target, *posted), status, body, _ in runs:
        wanted = response(body.encode(), lines[status], 'text/csv' if 'layout=csv' in target else 'text/plain')
        if posted:
            sent = request(target, 'POST', (place.folder / posted[0]).read_bytes())
            asked += [(sent, wanted), (sent + b'and more', wanted)]
        else:
            asked += [(request(target), wanted), (request(target, 'HEAD'), wanted.partition(b'\r\n\r\n')[0] + b'\r\n\r\n')]
    bad, none = response(b'bad request\n', '400 Bad Request'), response(b'not found\n', '404 Not Found')
    allowed = response(b'method not allowed\n', '405 Method Not Allowed', allow='Allow: POST\r\n').partition(b'method')[0]
    asked += [(b'GET /predict?station=Pier HTTP/1.1\r\n\r\n', bad), (request('/tides'), none), (request('/check', 'HEAD'), allowed),
              (b'POST /check HTTP/1.1\r\nHost: a\r\n\r\n', response(b'length required\n', '411 Length Required'))]
    with Server(place, 'offsets=replies.csv', file='replies-pier.txt') as server:
        came = [(sent, server.reply(sent), wanted) for sent, wanted in asked]
    return joined(f'{texted(sent)}: {texted(reply)} in place of {texted(wanted)}' for sent, reply, wanted in came if reply != wanted)


def checks(place):
    yield from answers(place)
    for body in (books, real_book, begins_of_a_book, many_stations, tables, names_over_a_table, arguments, certificates, peak_certificates, long_words, long_tables,
                 long_certificates, year_of_ten_constituents, eleven_years, replies, longest_reference, samples, trial_of_a_seed):
        yield f'files: {body.__name__.replace("_", " ")}', lambda body=body: body(place)
