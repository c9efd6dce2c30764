"""Random requests at, just below and just beyond the limits of a head, its fields and a body, for tools/try_limits."""
import urllib.parse

from trial_limits import counted, damaged, moments, marks, near, steps, word_faults, zone_offsets

QUERY = "/predict?station=Pier&begin=2000-01-10T00:00Z&end=2000-01-11T00:00Z"
MOST_BODY = 4_194_304


def head(line, fields=("Host: a",), body=b""):
    return "\r\n".join([line, *fields, "", ""]).encode("latin-1", "replace") + body


def head_sizes(chance):
    """Heads of about 8,192 bytes, filled up in a field, in the query or by fields."""
    size, kind = near(chance, 8_192), chance.randrange(4)
    line, fields = f"{chance.choice(['GET', 'HEAD'])} {chance.choice(['/stations', QUERY])} HTTP/1.1", ["Host: a"]
    if kind == 1:
        fields += [f"X{at}: {'y' * chance.randint(0, 120)}" for at in range(chance.randint(1, 60))]
    room = size - len(head(line, fields))
    if kind == 2:
        line = line.replace(" HTTP", ("&" if "?" in line else "?") + "&" * max(0, room - 1) + " HTTP")
    elif room > 5:
        fields.append(f"Z: {'z' * (room - 5)}")
    data = head(line, fields) if kind < 3 else head(line, fields)[:-2] + chance.choice([b"", b"\r", b"x: y\r\n\r\n"])
    return data.replace(b"\r\n", b"\n") if chance.random() < 0.1 else data


def field_counts(chance):
    """About 64 fields, and names and values of other forms."""
    fields = [f"X{at}: y" for at in range(max(0, near(chance, 63, 64)) - 1)]
    fields.insert(chance.randint(0, len(fields)), "Host: a")
    if chance.random() < 0.3:
        at = chance.randrange(len(fields))
        fields[at] = chance.choice([damaged(chance, fields[at]), "Host: b", fields[at] + "\r\n folded", ":", ": y", "X\x80: y", "X: \x80\xff"])
    return head(f"GET /stations HTTP/1.{chance.choice('01')}", fields)


def line_counts(chance):
    """About 66 lines, of which the first may be empty."""
    empty = chance.choice([0, 0, 1, 1, 2])
    fields = [f"X{at}: y" for at in range(near(chance, 62, 63, 64) - empty)]
    return b"\r\n" * empty + head("GET /stations HTTP/1.1", ["Host: a", *fields])


def lengths(chance):
    """Lengths of a body about 4,194,304 and of about 18 digits, with a body of a few bytes."""
    text = counted(chance, 18, 0, 3, MOST_BODY, MOST_BODY, 10 ** 18)
    more = chance.choice([[], [], [], [], [f"Content-Length: {text}"], ["Transfer-Encoding: chunked"], ["content-length: 3"]])
    name = chance.choice(["Content-Length", "content-length", "CONTENT-LENGTH"])
    return head(f"{chance.choice(['POST'] * 5 + ['GET'])} /check HTTP/1.1", ["Host: a", f"{name}:{chance.choice(['', ' ', '  '])}{text}", *more], b"x" * chance.choice([0, 2, 3, 4]))


def greatest_lengths(chance):
    """Lengths just at and beyond 4,194,304, of which only a few bytes come."""
    text = str(MOST_BODY + chance.choice([-1, 0, 0, 1, 1, 1, 2, chance.randint(1, 10 ** chance.randint(1, 17))]))
    return head("POST /check HTTP/1.1", ["Host: a", f"Content-Length: {text.rjust(chance.choice([1, 1, 17, 18]), '0')}"], b"x" * chance.choice([0, 1, 9_000]))


def missing_lengths(chance):
    """A body without a length, and one whose length has nearly the right name."""
    field = chance.choice(["Content-Length: 3", "Content-Lengths: 3", "Content_Length: 3", "Transfer-Encoding: chunked", "Content-Type: text/plain", "X: Content-Length: 3"])
    fields = ["Host: a", *chance.choice([[], [field]])]
    chance.shuffle(fields)
    return head(f"POST /check{chance.choice(['', '?', '?zone=UTC'])} HTTP/1.{chance.choice('01')}", fields, b"abc"[:chance.randint(0, 3)])


def unknown_paths(chance):
    path = chance.choice(["/stations", "/predict", "/check", "/heights", "/calendar", "/clock", "/certify"])
    path = damaged(chance, path).replace(" ", "%20").replace("\t", "%09") if chance.random() < 0.8 else chance.choice(["/report", "/highest", "/peak", "/peakcheck", "/about", "/sample", "/trial", "/serve", path])
    return head(f"{chance.choice(['GET', 'HEAD', 'POST', 'PUT'])} {path}{chance.choice(['', '?a', '?station=Pier'])} HTTP/1.1")


def wrong_methods(chance):
    path = chance.choice(["/stations", "/predict", "/check", "/check", "/heights", "/calendar", "/clock", "/certify"])
    method = chance.choice(["POST", "PUT", "DELETE", "OPTIONS", "PATCH", "TRACE", "get", "Get", "GETS", "A" * 300, "HEAD", "GET", "!#$%&'*+-.^_`|~"])
    return head(f"{method} {path}{chance.choice(['', '?station=Pier'])} HTTP/1.1", chance.choice([["Host: a"], ["Host: a", "Content-Length: 0"]]))


def bodies(chance):
    """Bodies of about as many bytes as their head says, at times of the greatest length."""
    size = near(chance, MOST_BODY) if chance.random() < 0.3 else abs(near(chance, 0, 300, 65_536, 8_192))
    there = max(0, size + chance.choice([0, 0, 0, -1, 1, 100]))
    begin = b"tide certificate 2\nstation Pier\nbegin 2000-01-10T00:00Z\nend 2000-01-11T00:00Z\nmark none\ntrack turn\n"
    return head("POST /check HTTP/1.1", ("Host: a", f"Content-Length: {size}"), (begin + b"s\n" * (there // 2))[:there].ljust(there, b"s"))


def queries(chance):
    """The words of a question as a query, with some signs as hexadecimal numbers."""
    command, *words = chance.choice([marks, steps, zone_offsets, moments, word_faults])(chance).words
    pairs = [it for it in words if not it.startswith("file=")] if chance.random() < 0.95 else words
    safe = chance.choice(["", ":=+ ", "=:", "=:-."])
    query = "&".join(urllib.parse.quote(it, safe="=" + safe).replace(" ", "+") for it in pairs)
    if chance.random() < 0.1:
        query = damaged(chance, query).replace(" ", "%").replace("\t", "&")
    return head(f"{chance.choice(['GET'] * 9 + ['HEAD'])} /{command}{'?' if query else ''}{query} HTTP/1.1")


def methods(chance):
    """Methods, paths and versions, of which one may be wrong."""
    method = chance.choice(["GET"] * 6 + ["HEAD", "POST", "PUT", "get", "", "OPTIONS"])
    path = chance.choice(["/stations"] * 6 + ["/check", "/predict", "/peak", "/stations/", "/", "*", "stations", "/%73tations", "//stations", "http://a/stations"])
    version = chance.choice(["HTTP/1.1"] * 6 + ["HTTP/1.0", "HTTP/1.2", "HTTP/2", "http/1.1", "", "HTTP/1.1 "])
    fields = chance.choice([["Host: a"]] * 6 + [[], ["Host: a", "host: b"], ["Host:"], ["X: y"], ["Host : a"], [" Host: a"]])
    return head(f"{method} {path} {version}", fields)


LIMITS = [head_sizes, field_counts, line_counts, lengths, greatest_lengths, missing_lengths, bodies, queries, methods, unknown_paths, wrong_methods]
