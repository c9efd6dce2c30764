"""Random questions at, just below and just beyond the limits of years, spans, tables and file sizes, for tools/try_limits."""
import datetime
import typing

from trial_limits import Book, damaged, decimal, near, plain, Question, sized, SMALL

TABLE = "table.csv"
HEADS = ["name,reference,high_add,low_add,high_times,low_times,high_plus,low_plus"]
HEADS.append(HEADS[0] + ",flood_add,ebb_add")
MINUTE = datetime.timedelta(minutes=1)


class Sparse(typing.NamedTuple):
    """The bytes at a file's begin, and its length: the rest is NULs that take no room on the disk."""
    begin: bytes
    size: int


def moment(at):
    return f"{at.year:04}-{at.month:02}-{at.day:02}T{at.hour:02}:{at.minute:02}Z"


def span(begin, end):
    return [f"begin={moment(begin)}", f"end={moment(end)}"]


def new_year(year):
    return datetime.datetime(year, 1, 1)


# Tables.


def row(name="Dock", reference="Pier", adds=("0:00", "0:00"), times=("1", "1"), plus=("0", "0"), slack=()):
    return [name, reference, *adds, *times, *plus, *slack]


def usual_row(chance, is_second):
    row_of = row(adds=[f"{chance.choice(['', '-'])}{chance.randint(0, 5)}:{chance.randint(0, 59):02}" for _ in range(2)], times=[plain(chance.randint(1, 3_000_000), 6) for _ in range(2)],
                 plus=[plain(chance.randint(-3_000_000, 3_000_000), 6) for _ in range(2)])
    if chance.random() < 0.4:
        row_of[3], row_of[5], row_of[7] = row_of[2], row_of[4], row_of[6]
    return row_of + (["0:05", "-0:05"] if is_second else [])


def over_table(chance, text, name="Dock"):
    command = chance.choice(["predict", "stations", "certify", "heights", "highest"])
    book = Book(chance)
    words = [] if command == "stations" else [f"station={name}", "begin=2000-01-10T00:00Z", "end=2000-01-12T00:00Z"]
    files = {TABLE: text.encode("utf-8", "surrogateescape"), SMALL: book.text().encode("latin-1")}
    return Question([command, f"file={SMALL}", f"offsets={TABLE}", *words], files)


def table_of(chance, change, name="Dock"):
    """A table of some rows, of which one is changed."""
    is_second = chance.random() < 0.5
    rows = [usual_row(chance, is_second) for _ in range(chance.randint(1, 4))]
    for at, it in enumerate(rows[1:]):
        it[0] = f"Other {at}"
    changed = chance.choice([rows[0], rows[0], rows[-1]])
    change(changed)
    end = chance.choice(["\n", "\n", "\r\n", "\r"])
    return over_table(chance, end.join([HEADS[is_second], *(",".join(it) for it in rows)]) + end, name)


def clock_text(chance):
    text = f"{chance.choice(['', '-', '+'])}{max(0, near(chance, 0, 23, 24)):0{chance.choice([1, 2, 2, 3])}}:{max(0, near(chance, 0, 59)):02}"
    if chance.random() < 0.3:
        text = chance.choice(["24:00", "-24:00", "24:01", "-24:01", "23:59"])
    return damaged(chance, text) if chance.random() < 0.1 else text


def table_adds(chance):
    return table_of(chance, lambda it: it.__setitem__(chance.choice([2, 3]), chance.choice([clock_text(chance)] * 9 + [""])))


def slack_adds(chance):
    """Times of slacks: at and beyond 24 hours, and only one of two."""
    adds = [chance.choice([clock_text(chance), clock_text(chance), "0:30", ""]) for _ in range(2)]
    rows = [usual_row(chance, True) for _ in range(2)]
    rows[0][8:], rows[1][0] = adds, "Other"
    chance.shuffle(rows)
    return over_table(chance, "\n".join([HEADS[1], *(",".join(it) for it in rows)]) + "\n")


def table_times(chance):
    text = decimal(chance, 0, 100, 6) if chance.random() < 0.8 else chance.choice(["0.000001", "0.0000001", "0.0000010", "", "100.000000", "0.000000"])
    return table_of(chance, lambda it: it.__setitem__(chance.choice([4, 5]), text))


def table_levels(chance):
    return table_of(chance, lambda it: it.__setitem__(chance.choice([6, 7]), decimal(chance, -10_000, 10_000, 6)))


def table_names(chance):
    letters = list("aZ ~#") + ["\u00e9", "\u20ac", "\U0001f30a"] * chance.randint(0, 1) + [chance.choice(["\x7f", "\x1f", "\t", "\udcff"])] * (chance.random() < 0.15)
    text = sized(chance, 400, letters) if chance.random() < 0.7 else ("\u00e9" * 200)[:near(chance, 200)] + chance.choice(["", "a"])
    if chance.random() < 0.2:
        quoted = '"' + sized(chance, 400, "a,").replace('"', '""') + '""' * chance.randint(0, 2) + '"'
        return table_of(chance, lambda it: it.__setitem__(chance.choice([0, 1]), quoted))
    at = chance.choice([0, 0, 1])
    is_asked = at == 0 and text and "\udcff" not in text and "\0" not in text
    return table_of(chance, lambda it: it.__setitem__(at, text), text if is_asked else "Dock")


def table_fields(chance):
    """Rows with a field more or less, or none, after some good ones."""
    def change(it):
        count = max(0, len(it) + chance.choice([-1, 1, 0, 2, -8]))
        it[:] = (it + ["", ""])[:count]
    return table_of(chance, change)


def table_heads(chance):
    fields = HEADS[chance.randint(0, 1)].split(",")
    kind = chance.randrange(6)
    if kind == 0:
        fields.pop(chance.randrange(len(fields)))
    elif kind == 1:
        at = chance.randrange(len(fields))
        fields[at] = damaged(chance, fields[at])
    elif kind == 2:
        fields.append(chance.choice(["", "x", "flood_add"]))
    elif kind == 3:
        fields[0], fields[1] = fields[1], fields[0]
    mark = chance.choice(["", "", "", "\ufeff", "\n\n", " "])
    return over_table(chance, mark + ",".join(fields) + chance.choice(["\n", "\r", "\r\n", ""]) + ",".join(usual_row(chance, kind % 2 == 0)) + "\n")


def largest_levels(chance):
    """The greatest levels: a datum and a sum of amplitudes at their limits, and a row with the greatest numbers."""
    book = Book(chance, count=1, years=2)
    speed, amplitude = chance.choice([("10", "1000"), ("30", "333.333333"), ("0.5", "-1000"), ("100", "-100"), ("30", "333.333334"), ("10", "1000.000001")])
    book.speeds, book.factors = [speed], [["1", "1"]]
    book.stations = [{**book.stations[0], "datum": chance.choice(["10000", "-10000", "9999.999999"]), "constants": [["C0", amplitude, "0"]]}]
    one, other = (chance.choice([("100", "10000"), ("100", "-10000"), ("99.999999", "9999.999999"), ("0.000001", "-10000")]) for _ in range(2))
    other = one if chance.random() < 0.6 else other
    table = f"{HEADS[0]}\n{','.join(row(adds=[chance.choice(['24:00', '-24:00'])] * 2, times=(one[0], other[0]), plus=(one[1], other[1])))}\n"
    files = {SMALL: book.text().encode("latin-1"), TABLE: table.encode()}
    begin = new_year(2000) + chance.randint(3_000, 600_000) * MINUTE
    return asked_over(chance, files, begin, begin + chance.randint(1, 3_000) * MINUTE)


# Years and spans.


def bounded_book(chance, first, years):
    """A small file with ever the same station, and a table with adds up to 24 hours."""
    book = Book(chance, count=chance.randint(1, 3), first=first, years=years)
    book.stations = book.stations[:1]
    adds = [chance.choice(["24:00", "-24:00", "23:59", "0:00", "0:01", "-0:01", f"{chance.randint(0, 23)}:{chance.randint(0, 59):02}"]) for _ in range(4)]
    is_second, times = chance.random() < 0.5, [plain(chance.randint(1, 3_000_000), 6)] * 2
    if chance.random() < 0.5:
        adds[1] = adds[0]
    rows = [row(adds=adds[:2], times=times, slack=adds[2:] if is_second else ())]
    table = "\n".join([HEADS[is_second], *(",".join(it) for it in rows)]) + "\n"
    return {SMALL: book.text().encode("latin-1"), TABLE: table.encode()}


def asked_over(chance, files, begin, end):
    """A question of any command with a span."""
    command = chance.choice(["predict", "predict", "heights", "certify", "calendar", "highest", "peak", "report"])
    words = [command, f"file={SMALL}", f"station={chance.choice(['Pier', 'Dock'])}", f"offsets={TABLE}", *span(begin, end)]
    if command in ("predict", "calendar", "heights", "highest") and chance.random() < 0.6:
        words.append(f"zone={chance.choice(['+15:59', '-15:59', '+00:01', '-00:01'])}")
    if command in ("predict", "certify", "calendar", "report") and chance.random() < 0.3:
        words.append("mark=0.5")
    if command == "report":
        words.append("sheets=tally,range,first")
    if command == "heights":
        words.append(f"step={chance.choice([1, 7, 60, 44_640])}")
    return Question(words, files)


def minutes_about(chance):
    return chance.choice([0, 0, -1, 1, 60, -60, 1_440, -1_440, chance.randint(-3_000, 3_000), near(chance, -1_440, 1_440, -60, 60)]) * MINUTE


def year_ends(chance):
    """Spans that begin or end about the first or the last minute of a file's years, and of the years that any file can have."""
    first = chance.choice([2, 2, 3, 1899, 1969, 1970, 1999, 2000, 2099, 8_799, 8_800, 8_800])
    years = 500 if first == 8_800 and chance.random() < 0.3 else chance.randint(1, 4)
    edges = [new_year(first), new_year(first + years), new_year(first + chance.randint(0, years))]
    begin = max(chance.choice(edges) + minutes_about(chance), new_year(1))
    end = begin + abs(minutes_about(chance)) if chance.random() < 0.7 else chance.choice(edges) + minutes_about(chance)
    if abs(end - begin) > 40 * 1_440 * MINUTE:
        begin = end - 2_000 * MINUTE
    return asked_over(chance, bounded_book(chance, first, years), begin, end)


def new_years(chance):
    """Spans that begin or end about an hour before or after a new year within the file."""
    first = chance.choice([2, 1999, 2000, 8_798])
    edge = new_year(first + chance.randint(1, 2))
    begin, end = (edge + chance.choice([near(chance, -60), near(chance, 60), near(chance, 0), chance.randint(-300, 300)]) * MINUTE for _ in range(2))
    return asked_over(chance, bounded_book(chance, first, 3), min(begin, end), max(begin, end))


def word_years(chance):
    """Moments at the ends of the years that words can name, over files without and with these years."""
    last = datetime.datetime(9_999, 12, 31, 23, 59)
    begin = chance.choice([new_year(1), new_year(2), new_year(9_300), last - 2_000 * MINUTE])
    begin += chance.choice([0, 1, 1_439, 1_440, chance.randint(0, 500)]) * MINUTE
    end = begin + min(chance.randint(0, 2_000) * MINUTE, last - begin)
    first, years = chance.choice([(2, 1), (2, 500), (8_800, 500), (2000, 1)])
    return asked_over(chance, bounded_book(chance, first, years), begin, end)


def clocks(chance):
    """The day from now on, over files whose years begin or end about this year."""
    year = datetime.datetime.now(datetime.timezone.utc).year
    first = year + chance.choice([0, 0, 0, -1, -1, 1])
    zone = chance.choice([[], ["zone=+15:59"], ["zone=-15:59"]])
    return Question(["clock", f"file={SMALL}", f"offsets={TABLE}", f"station={chance.choice(['Pier', 'Dock'])}", *zone], bounded_book(chance, first, chance.randint(1, 2)))


def cell_blocks(chance):
    """Spans of about a number of blocks of 1,024 minutes."""
    begin = new_year(2000) + chance.randint(0, 300_000) * MINUTE
    end = begin + abs(near(chance, 0, 1, 2, 1_024, 2_048, 10_240, 102_400)) * MINUTE
    return asked_over(chance, bounded_book(chance, 2000, 2), begin, end)


def quiet_book(chance, first, years):
    """A file of many years, mostly with a slow or no tide, so that long spans are short to answer."""
    book = Book(chance, count=1, first=first, years=years)
    book.stations = book.stations[:1]
    book.speeds = [chance.choice(["0.0410686", "0", "0.5", "30"])]
    book.stations[0]["constants"][0][1] = chance.choice(["0", "1", "0.000001"])
    table = "\n".join([HEADS[0], ",".join(row(adds=[chance.choice(["24:00", "-24:00", "0:30"])] * 2))]) + "\n"
    return {SMALL: book.text().encode("latin-1"), TABLE: table.encode()}


def span_lengths(chance):
    """Spans of about 5,270,400 minutes."""
    first = chance.choice([2, 1999, 2000, 8_800])
    begin = new_year(first) + 1_440 * MINUTE + chance.randint(0, 1_000_000) * MINUTE
    words = span(begin, begin + near(chance, 5_270_400) * MINUTE)
    command = chance.choice(["predict", "report", "highest", "heights", "certify", "calendar", "peak"])
    more = {"report": ["sheets=tally,range"], "heights": ["step=44640"]}.get(command, [])
    return Question([command, f"file={SMALL}", f"offsets={TABLE}", f"station={chance.choice(['Pier', 'Dock'])}", *words, *more], quiet_book(chance, first, 13))


def row_counts(chance):
    """About 100,000 rows, by each kind of step."""
    step = chance.choice([1, 2, 3, 37, 52])
    rows = near(chance, 100_000)
    begin = new_year(2000) + chance.randint(1_440, 40_000) * MINUTE
    end = begin + (rows - 1) * step * MINUTE + chance.choice([0, 0, chance.randrange(step)]) * MINUTE
    zone = chance.choice([[], ["zone=+05:30"], ["layout=csv"]])
    return Question(["heights", f"file={SMALL}", f"offsets={TABLE}", f"station={chance.choice(['Pier', 'Dock'])}", *span(begin, end), f"step={step}", *zone], quiet_book(chance, 2000, 12))


# Sheets: the first so many events.


def steady_book(chance, units="knots"):
    """A tide of a period of one hour."""
    book = Book(chance, count=1, first=2000, years=11)
    book.speeds, book.arguments, book.factors = ["360"], [["0"] * 11], [["1"] * 11]
    book.stations = [{**book.stations[0], "datum": "0", "units": units, "constants": [["C0", "1", "0"]]}]
    return {SMALL: book.text().encode("latin-1")}


def first_sheets(chance):
    """Lists of about 10 events, of which the sheet `first` shows ten."""
    units, mark = chance.choice(["knots", "feet"]), chance.choice([[], ["mark=0.5"]])
    begin = new_year(2000) + chance.randint(0, 500_000) * MINUTE
    end = begin + max(0, near(chance, 0, 100, 150, 300)) * MINUTE
    return Question(["report", f"file={SMALL}", "station=Pier", *span(begin, end), *mark, "sheets=first,tally"], steady_book(chance, units))


def folds(chance):
    """Names by which a line of the sheet `ical` has about 75, 149 or 223 octets, of characters of one to four, some of them escaped."""
    files = steady_book(chance, chance.choice(["knots", "feet"]))
    size = chance.choice([23, 24, 46, 47, 60, 61, 97, 98, 121, 195]) + chance.randint(-3, 3)
    letters, name = chance.choice(["a", "a,;\\", "\u00e9", "\u20aca", "\U0001f30a\u00e9,"]), ""
    while len(name.encode()) < size - 4:
        name += chance.choice(letters)
    name += "a" * (size - len(name.encode()))
    files[TABLE] = f'{HEADS[0]}\n"{name}",Pier{"," * 6}\n'.encode()
    begin = new_year(2000) + chance.randint(0, 500_000) * MINUTE
    return Question(["report", f"file={SMALL}", f"offsets={TABLE}", f"station={name}", *span(begin, begin + chance.randint(0, 200) * MINUTE), "sheets=ical,first"], files)


def calendar_sheets(chance):
    """Lists of about 100,000 events, of which the sheet `ical` shows as many: six an hour."""
    begin = new_year(2000) + chance.randint(0, 500_000) * MINUTE
    end = begin + (1_000_000 + near(chance, 0, 0, 10, -10)) * MINUTE
    return Question(["report", f"file={SMALL}", "station=Pier", *span(begin, end), "mark=0.5", "sheets=ical"], steady_book(chance))


def tally_sheets(chance):
    """Lists of about 1,000,000 events, of which the other sheets count as many: two tides that nearly cancel have an event in every few minutes."""
    book = Book(chance, count=2, first=2000, years=12)
    book.speeds, book.arguments, book.factors = ["0.0002"] * 2, [["0"] * 12, ["180.0000001"] * 12], [["1"] * 12] * 2
    book.stations = [{**book.stations[0], "datum": "0", "units": "feet", "constants": [["C0", "0.000001", "280"], ["C1", "0.000001", "280"]]}]
    begin = new_year(2000) + chance.randint(0, 5_000) * MINUTE
    end = begin + (2_600_000 + chance.randint(-40_000, 40_000)) * MINUTE
    return Question(["report", f"file={SMALL}", "station=Pier", *span(begin, end), "sheets=tally,range,first"], {SMALL: book.text().encode("latin-1")})


# Sizes of files.


def file_sizes(chance):
    text = Book(chance).text().rstrip("\r\n") + "\n" + chance.choice(["#", "#", ""])
    return Question(["predict", f"file={SMALL}", "station=Pier", "begin=2000-01-10T00:00Z", "end=2000-01-11T00:00Z"], {SMALL: Sparse(text.encode("latin-1"), near(chance, 67_108_864))})


def table_sizes(chance):
    """Tables of about the greatest length, of which some end with empty lines, which are no rows."""
    size = near(chance, 67_108_864)
    text = HEADS[0] + "\n" + ",".join(row()) + "\n" + chance.choice(["", '"', "Other,"])
    held = text.encode() if chance.random() < 0.6 else (HEADS[0] + "\n" + ",".join(row())).encode().ljust(size, b"\n")
    return Question(["predict", "file=f.txt", f"offsets={TABLE}", "station=Dock", "begin=2000-01-10T00:00Z", "end=2000-01-11T00:00Z"], {TABLE: Sparse(held, size)})


def certificate_sizes(chance):
    text = "tide certificate 2\nstation Pier\nbegin 2000-01-10T00:00Z\nend 2000-01-11T00:00Z\nmark none\ntrack turn\n" + "s\n" * chance.randint(0, 3_000) + chance.choice(["", "done\n"])
    command = chance.choice(["check", "peakcheck"])
    return Question([command, "file=f.txt", "certificate=certificate.txt"], {"certificate.txt": Sparse(text.encode(), near(chance, 400_000_000))})


TABLES = [table_adds, slack_adds, table_times, table_levels, table_names, table_fields, table_heads, largest_levels]
SPANS = [year_ends, new_years, word_years, clocks, cell_blocks, span_lengths, row_counts, first_sheets, folds]
# Each of these takes long, or a large file.
LARGE = [calendar_sheets, tally_sheets, file_sizes, table_sizes, certificate_sizes]
