"""Checks of `tide serve`: its address, its replies, and when it closes a connection."""
import os
import pathlib
import select
import signal
import socket
import subprocess
import time

from program_checks import LONG_NAME, LONGEST_REPLY, LONGEST_START, Server, Skipped, received, request, response, texted
from program_runs import PIER, clock_lines, now, recorded

PIER_DAY = '/predict?station=Pier&begin=2000-01-10T00:00Z&end=2000-01-11T00:00Z'
# A reply of 8 megabytes, more than sockets hold.
LONG = (f'/heights?station={LONG_NAME.replace(" ", "+")}&begin=2010-01-01T00:00Z&end=2010-01-26T00:00Z&step=1&layout=csv')
LONG_BYTES = 8_000_000
# When a server closes a connection, in seconds: its limit, and what a busy machine adds.
EARLIEST, LATEST, WATCHED = 57, 66, 80
# How long a client pauses in its request, in seconds.
PAUSE = 10
OPEN = '01'  # the state ESTABLISHED of /proc/net/tcp


def sockets(process=None):
    """The machine's TCP sockets, or those of a process: local address, other address, state."""
    owned = None
    if process:
        links = [os.readlink(f'/proc/{process.pid}/fd/{it}') for it in os.listdir(f'/proc/{process.pid}/fd')]
        owned = {it[8:-1] for it in links if it.startswith('socket:[')}
    found = []
    for table in ('tcp', 'tcp6'):
        try:
            lines = pathlib.Path(f'/proc/net/{table}').read_text(errors='replace').splitlines()[1:]
        except OSError as fault:
            if table == 'tcp':
                raise Skipped(f'/proc/net/tcp: {fault}') from fault
            continue
        fields = [it.split() for it in lines]
        found += [(it[1], it[2], it[3]) for it in fields if owned is None or it[9] in owned]
    return found


def state_at_server(server, link):
    """The state of the server's end of a connection, or nothing once it is gone."""
    ends = f'0100007F:{server.port:04X}', f'0100007F:{link.getsockname()[1]:04X}'
    return next((state for here, there, state in sockets() if (here, there) == ends), None)


def address(place):
    with Server(place, file='pier.txt') as server:
        seen = sockets(server.process)
        wanted = [(f'0100007F:{server.port:04X}', '00000000:0000', '0A')]
        return '' if seen == wanted else f'{seen} in place of {wanted}'


def no_port(place):
    """A command that isn't `serve` has no socket, seen while its list waits for a reader."""
    words = ('heights', 'file=daily.txt', 'station=Pier', 'begin=2010-01-01T00:00Z', 'end=2010-03-01T00:00Z', 'step=1')
    with subprocess.Popen(place.command(words), cwd=place.folder, stdin=subprocess.DEVNULL, stdout=subprocess.PIPE) as process:
        begin, seen = process.stdout.read(5), sockets(process)
        process.kill()
    return '' if (begin, seen) == (b'Pier\n', []) else f'{begin}, {seen}'


def byte_by_byte(place):
    with Server(place, file='pier.txt') as server, server.connect() as link:
        link.setsockopt(socket.IPPROTO_TCP, socket.TCP_NODELAY, 1)
        for byte in request(PIER_DAY):
            link.sendall(bytes([byte]))
            time.sleep(0.001)
        return unequal(received(link), response(PIER))


def unequal(reply, wanted):
    return '' if reply == wanted else f'{texted(reply)} in place of {texted(wanted)}'


def clock(place):
    """The clock is read for each request: the second comes when the next minute has begun."""
    with Server(place, file='daily.txt') as server:
        answered = None
        for _ in range(2):
            while now() == answered:
                time.sleep(0.2)
            begun = now()
            head, _, body = server.reply(request('/clock?station=Pier')).partition(b'\r\n\r\n')
            seen = '' if head.startswith(b'HTTP/1.1 200 OK\r\n') else texted(head)
            seen = seen or clock_lines(body.decode(errors='replace'), begun)
            if seen:
                return seen
            answered = now()
        return ''


def commands(place):
    """The recorded answers of the commands that the server has, with a table; more than five replies of one server."""
    paths = {'predict', 'certify', 'heights', 'calendar', 'stations'}
    runs = [it for it in recorded() if it[0] and it[0][0] in paths and it[1] == 0 and 'file=tides.txt' in it[0]]
    seen, count = [], 0
    with Server(place, 'offsets=offsets.csv', file='tides.txt') as server:
        for words, _, out, _ in runs * 4:
            query = '&'.join(it.replace(' ', '+') for it in words[1:] if not it.startswith(('file=', 'offsets=')))
            reply = server.reply(request(f'/{words[0]}?{query}'))
            seen.append(unequal(reply, response(out.encode())))
            head = server.reply(request(f'/{words[0]}?{query}', 'HEAD'))
            seen.append(unequal(head, response(out.encode()).partition(b'\r\n\r\n')[0] + b'\r\n\r\n'))
            count += 2
        for words, status, out, _ in recorded():
            if words[:1] == ['check'] and status < 2 and not any(it.startswith('zone=') for it in words):
                body = (place.folder / words[-1].partition('=')[2]).read_bytes()
                seen.append(unequal(server.reply(request('/check', 'POST', body)), response(out.encode())))
                count += 1
    seen = [it for it in seen if it]
    return '; '.join(seen) or ('' if count >= 18 else f'{count} replies only')


def refusals(place):
    """Queries of 9 to 40 pairs, and a reply of each other status."""
    pairs = '&'.join(PIER_DAY.partition('?')[2].split('&'))
    many = ''.join(f'&key{it}=1' for it in range(37))
    wanted = [
        (request(f'/predict?{pairs}&mark=1&zone=UTC&layout=plain&mark=2&mark=3&mark=4'), '400 Bad Request', b'words: pair 7 repeats a key\n'),
        (request(f'/predict?{pairs}{many}'), '400 Bad Request', b'words: pair 4 has an unknown key\n'),
        (request('/predict?station=Nowhere&begin=2000-01-10T00:00Z&end=2000-01-11T00:00Z'), '422 Unprocessable Content', b'refused: no station\n'),
        (request('/nowhere'), '404 Not Found', b'not found\n'),
        (request('/check', 'POST', b'', 'X: y\r\n'), '411 Length Required', b'length required\n'),
        (request('/check', 'POST', b'', 'Content-Length: 4194305\r\n'), '413 Content Too Large', b'content too large\n'),
        (b'GET / HTTP/1.1\r\n\r\n', '400 Bad Request', b'bad request\n'),
        (b'x' * 8192, '431 Request Header Fields Too Large', b'header fields too large\n'),
    ]
    with Server(place, file='pier.txt') as server:
        seen = [unequal(server.reply(asked), response(body, status)) for asked, status, body in wanted]
        asked = request('/predict', 'POST', b'')
        seen.append(unequal(server.reply(asked), response(b'method not allowed\n', '405 Method Not Allowed', allow='Allow: GET, HEAD\r\n')))
    return '; '.join(filter(None, seen))


def sends_on(place):
    """Clients that send a body to an unknown path for some time, and read the reply only then."""
    with Server(place, file='pier.txt') as server:
        for number in range(3):
            for _ in range(20):
                begun = time.monotonic()
                seen = sent_on(server, 0.03 * number)
                # A client that a busy machine has held up for longer may be cut: it has two seconds.
                if not seen or time.monotonic() < begun + 1.5:
                    break
            if seen:
                return f'client {number}: {seen}'
    return ''


def sent_on(server, pause):
    with server.connect() as link:
        try:
            link.sendall(request('/nowhere', 'POST', b'', 'Content-Length: 1000000\r\n'))
            for _ in range(10):
                time.sleep(pause)
                link.sendall(b'x' * 20_000)
            link.shutdown(socket.SHUT_WR)
            reply = received(link)
        except OSError as fault:
            return str(fault)
    return unequal(reply, response(b'not found\n', '404 Not Found'))


def farewell(place):
    """A client that goes on sending after its reply is cut two seconds later."""
    with Server(place, file='pier.txt') as server, server.connect() as link:
        link.sendall(request('/nowhere'))
        if received(link) != response(b'not found\n', '404 Not Found'):
            return 'no whole reply'
        begun, sent = time.monotonic(), 0
        while time.monotonic() < begun + 20:
            try:
                link.sendall(b'x')
            except OSError:
                break
            sent += 1
            time.sleep(0.1)
        seen = time.monotonic() - begun
    # If the server doesn't wait before it closes, the second or third byte can't be sent any more.
    return '' if sent > 4 and seen <= 12 else f'after {sent} bytes and {seen:.1f} s'


def no_descriptor(place):
    """A server with a descriptor for one connection serves on; one without ends, and doesn't try again for ever."""
    with Server(place, file='pier.txt', limit='ulimit -n 5') as server:
        for _ in range(20):
            seen = unequal(server.reply(request(PIER_DAY)), response(PIER))
            if seen:
                return f'with one descriptor: {seen}'
    with Server(place, file='pier.txt', limit='ulimit -n 4') as server:
        end = time.monotonic() + LONGEST_START
        while server.process.poll() is None and time.monotonic() < end:
            used = server.processor_seconds()
            if used > 3:
                return f'{used:.1f} s of the processor, and it goes on'
            time.sleep(0.1)
        line = server.process.stderr.read() if server.process.poll() is not None else b''
        status = server.end()
    return '' if (status, line) == (6, b'read fault\n') else f'status {status}, {texted(line)}'


def nothing_left_open(place):
    """After 200 connections, some of them broken off, no descriptor is open but those of the beginning."""
    with Server(place, file='pier.txt') as server:
        before = server.descriptors()
        for number in range(200):
            with server.connect() as link:
                if number % 10 == 0:
                    link.setsockopt(socket.SOL_SOCKET, socket.SO_LINGER, b'\1\0\0\0\0\0\0\0')
                    link.sendall(request(PIER_DAY)[:number])
                    continue
                link.sendall(request(PIER_DAY))
                seen = unequal(received(link), response(PIER))
                if seen:
                    return f'connection {number}: {seen}'
        end = time.monotonic() + 20
        while server.descriptors() != before and time.monotonic() < end:
            time.sleep(0.2)
        after = server.descriptors()
    return '' if (before, after) == (4, 4) else f'{before} at the beginning, {after} at the end'


def stopped(place):
    """SIGSTOP and SIGCONT in mid-request and in mid-reply."""
    with Server(place, file='daily.txt') as server:
        wanted = server.reply(request(LONG))
        with server.connect(4096) as link:
            asked, pieces = request(LONG), []
            for cut in (asked[:9], asked[9:30]):
                link.sendall(cut)
                time.sleep(0.05)
                stop_and_go_on(server.process)
            link.sendall(asked[30:])
            for _ in range(10):
                pieces.append(link.recv(4096))
                stop_and_go_on(server.process)
            pieces.append(received(link))
    reply = b''.join(pieces)
    return '' if reply == wanted and len(reply) > LONG_BYTES else f'{len(reply)} bytes in place of {len(wanted)}'


def stop_and_go_on(process):
    for it in (signal.SIGSTOP, signal.SIGCONT):
        process.send_signal(it)
        time.sleep(0.05)


def taken_port(place):
    with socket.create_server(('127.0.0.1', 0)) as other:
        ended = place.run('serve', 'file=pier.txt', f'port={other.getsockname()[1]}')
    seen = ended.returncode, ended.stdout, ended.stderr
    return '' if seen == (6, b'', b'read fault\n') else str(seen)


def silent(place):
    with Server(place, file='pier.txt') as server:
        output = server.process.stdout
        if server.reply(request(PIER_DAY)) != response(PIER):
            return 'no reply'
        os.kill(server.process.pid, signal.SIGTERM)
        server.process.wait(LONGEST_START)
        out, line = output.read(), server.process.stderr.read()
    return '' if (out, line) == (b'', b'') else f'output {texted(out)}, error {texted(line)}'


def most_sent():
    """How many bytes the system may hold of a reply that nobody reads."""
    return int(pathlib.Path('/proc/sys/net/ipv4/tcp_wmem').read_text(errors='replace').split()[2])


def parted(step, asked=b'', waits=False):
    """A check of the time until a server closes the connection of a client that takes a step each second. If the client waits
    for its reply, which it requests in two pieces with a pause between, the time begins with the reply; else with the connection."""
    def seconds(place):
        if waits and most_sent() > 6_000_000:
            raise Skipped(f'a connection may hold {most_sent()} bytes')
        with Server(place, file='daily.txt') as server, server.connect(4096) as link:
            if state_at_server(server, link) != OPEN:
                raise Skipped('/proc/net/tcp does not show connections')
            link.sendall(asked[:9])
            if waits:
                time.sleep(PAUSE)
                link.sendall(asked[9:])
            if waits and not select.select([link], [], [], LONGEST_REPLY)[0]:
                return 'no byte of the reply'
            begun, turn = time.monotonic(), 0
            while state_at_server(server, link) == OPEN and time.monotonic() < begun + WATCHED:
                if time.monotonic() >= begun + turn:
                    turn += 1
                    try:
                        step(link)
                    except OSError:
                        pass
                time.sleep(0.1)
            taken = time.monotonic() - begun
            replied = b'' if waits else anything(link)
        if replied:
            return f'a reply: {texted(replied)}'
        return '' if EARLIEST <= taken <= LATEST else f'parted after {taken:.1f} s'
    return seconds


def anything(link):
    """The bytes from a server that has closed the connection, or may have."""
    link.settimeout(2)
    try:
        return link.recv(1000)
    except OSError:
        return b''


def sit(_):
    pass


def drip(link):
    link.send(b'x')


def sip(link):
    link.recv(1024)


# Checks that measure time, or wait for a minute.
TIMED = {
    'a client that sends on after its reply is cut after two seconds': farewell,
    'a silent client is cut after a minute': parted(sit),
    'a slow sender is cut after a minute': parted(drip, b'GET /'),
    'a client that never reads is cut after a minute': parted(sit, request(LONG), waits=True),
    'a slow reader is cut after a minute': parted(sip, request(LONG), waits=True),
    'serve: the present minute': clock,
}

QUICK = {
    'serve: bound to 127.0.0.1 alone': address,
    'serve: another command opens no port': no_port,
    'serve: a request byte by byte': byte_by_byte,
    'serve: the commands, many replies': commands,
    'serve: refusals, many pairs': refusals,
    'serve: the whole reply comes before the close': sends_on,
    'serve: no descriptor for a connection': no_descriptor,
    'serve: nothing is left open': nothing_left_open,
    'serve: stopped and continued': stopped,
    'serve: a port that is taken': taken_port,
    'serve: prints nothing but the notice': silent,
}
