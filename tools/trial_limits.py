"""Random questions at, just below and just beyond the limits of words and of files of constants, for tools/try_limits."""
import typing

SMALL = "file.txt"
DAY = ["begin=2000-01-10T00:00Z", "end=2000-01-11T00:00Z"]
OVER = ["file=f.txt", "station=Pier", *DAY]
# Signs that make a number a wrong one, or another one.
ODD = [" ", "\t", ",", ".", "-", "+", "e", "x", "0", "9", "\x7f", "\xb2"]


class Question(typing.NamedTuple):
    """The words of a question, and the bytes of its files by name."""
    words: list
    files: dict


def near(chance, *limits):
    """Returns a whole number at one of the limits, beside it or not far from it."""
    return chance.choice(limits) + chance.choice([0, 0, -1, -1, 1, 1, 2, chance.randint(-40, 40)])


def plain(value, places):
    """Returns `value`, counted in 10^-places, as a decimal."""
    digits = str(abs(value)).rjust(places + 1, "0")
    return "-" * (value < 0) + f"{digits[:-places]}.{digits[-places:]}"


def damaged(chance, text):
    """Returns the text with one more sign or one less."""
    at = chance.randrange(len(text) + 1)
    return text[:at] + chance.choice(ODD) + text[at:] if chance.random() < 0.7 else text[:at] + text[at + 1:]


def spelled(chance, value, places):
    """Returns a spelling of a decimal, mostly of the same value: with a sign, more zeros or fewer."""
    text = plain(value, places)
    sign, text = ("-", text[1:]) if value < 0 else (chance.choice(["", "", "+"]), text)
    whole, part = text.split(".")
    kind = chance.randrange(14)
    if kind == 0:
        whole = whole.rjust(chance.choice([17, 18, 18, 19, 19, 20]), "0")
    elif kind == 1:
        part += chance.choice(["0", "0" * 30, "1", "0" * 9 + "1"])
    elif kind in (2, 3):
        part = part.rstrip("0")
    elif kind == 4:
        whole = whole.lstrip("0")
    elif kind == 5:
        return damaged(chance, sign + text)
    return sign + whole + ("." if part or kind == 2 else "") + part


def decimal(chance, least, most, places):
    """Returns a decimal near the ends of its range."""
    return spelled(chance, near(chance, least * 10 ** places, most * 10 ** places), places)


def counted(chance, digits, *limits):
    """Returns a whole number near one of the limits, at times with as many digits as are allowed or one more."""
    text = str(near(chance, *limits))
    kind = chance.randrange(8)
    if kind == 0:
        text = text.rjust(chance.choice([digits - 1, digits, digits + 1]), "0")
    return damaged(chance, text) if kind == 1 else text


def sized(chance, most, letters):
    """Returns a text of about 1 or about `most` of these letters."""
    size = max(0, near(chance, *[1, most, most, most]))
    return "".join(chance.choice(letters) for _ in range(size))


class Book:
    """A random small file of constants, whose parts can be changed before it is written."""

    def __init__(self, chance, count=None, first=2000, years=None):
        count, years = count or chance.randint(1, 4), years or chance.randint(1, 3)
        self.chance, self.count, self.year, self.years, self.ends = chance, str(count), str(first), [str(years)] * 2, ["*END*"] * 2
        self.names = [f"C{at}" for at in range(count)]
        self.speeds = [plain(chance.randrange(320_000_000), 7) for _ in self.names]
        self.arguments = [[plain(chance.randrange(3_600_000_000), 7) for _ in range(years)] for _ in self.names]
        self.factors = [[plain(chance.randrange(700_000, 1_300_000), 6) for _ in range(years)] for _ in self.names]
        self.stations = [self.station(name) for name in ["Pier", "Race"][:chance.randint(1, 2)]]

    def station(self, name):
        chance = self.chance
        constants = [[it, plain(chance.randrange(-3_000_000, 3_000_000), 6), plain(chance.randrange(3_600_000_000), 7)] for it in self.names]
        return {"name": name, "meridian": "0:00 :UTC", "datum": plain(chance.randrange(5_000_000), 6), "units": chance.choice(["feet", "meters", "knots"]), "constants": constants}

    def table(self, rows):
        """The lines of a table, a constituent's values now and then over several lines, as many are."""
        for name, values in zip(self.names, rows):
            yield name
            most = 200 if self.chance.random() < 0.8 else self.chance.randint(1, 200)
            yield from (" ".join(values[at:at + most]) for at in range(0, len(values), most))

    def lines(self):
        yield self.count
        yield from (f"{name} {speed}" for name, speed in zip(self.names, self.speeds))
        yield self.year
        for years, rows, end in zip(self.years, (self.arguments, self.factors), self.ends):
            yield years
            yield from self.table(rows)
            yield end
        for it in self.stations:
            yield from (it["name"], it["meridian"], f"{it['datum']} {it['units']}")
            yield from (" ".join(part) for part in it["constants"])

    def text(self):
        chance, end = self.chance, "\n" if self.chance.random() < 0.8 else "\r\n"
        lines = list(self.lines())
        for _ in range(chance.choice([0, 0, 1, 3])):
            lines.insert(chance.randrange(len(lines) + 1), chance.choice(["# note", "", " \t", "#"]))
        return end.join(lines) + end * (chance.random() < 0.9)

    def question(self):
        return over_text(self.chance, self.text())


def over_text(chance, text):
    command = chance.choice(["predict", "predict", "stations", "about", "heights"])
    over = {"stations": [], "about": ["station=Pier"]}.get(command, ["station=Pier", *DAY])
    return Question([command, f"file={SMALL}", *over], {SMALL: text.encode("latin-1", "replace")})


# Words.


def marks(chance):
    command = chance.choice(["predict", "certify", "calendar"])
    return Question([command, *OVER, f"mark={decimal(chance, -10_000, 10_000, 6)}"], {})


def steps(chance):
    return Question(["heights", *OVER, f"step={counted(chance, 6, 1, 44_640)}"], {})


def zone_offsets(chance):
    text = f"{chance.choice('+-')}{max(0, near(chance, 0, 15)):02}:{max(0, near(chance, 0, 59)):02}"
    text = damaged(chance, text) if chance.random() < 0.1 else text
    return Question([chance.choice(["predict", "calendar", "highest", "heights"]), *OVER, f"zone={text}"], {})


def seeds(chance):
    text = str(max(0, near(chance, 0, 2 ** 64 - 1, 2 ** 64 - 1)))
    text = text.rjust(chance.choice([1, 1, 20, 21]), "0")
    return Question(["sample", f"seed={damaged(chance, text) if chance.random() < 0.1 else text}"], {})


def ports(chance):
    """A port that is good, over a file that isn't there, ends with a read fault."""
    return Question(["serve", "file=none", f"port={counted(chance, 5, 1, 65_535)}"], {})


def sheet_words(chance):
    words = [chance.choice(["tally", "range", "first", sized(chance, 16, "abcz")]) for _ in range(chance.randint(1, 4))]
    text = ",".join(words)
    return Question(["report", *OVER, f"sheets={damaged(chance, text) if chance.random() < 0.2 else text}"], {})


def moments(chance):
    year, month = max(0, near(chance, 1, 4, 1900, 2000, 2000, 9_999)), max(0, near(chance, 1, 2, 2, 12))
    parts = [year, month, max(0, near(chance, 1, 28, 29, 30, 31)), max(0, near(chance, 0, 23)), max(0, near(chance, 0, 59))]
    for at, usual in enumerate((2000, 2, 28, 12, 30)):  # most parts are in order
        parts[at] = parts[at] if chance.random() < 0.5 else usual
    text = "{:04}-{:02}-{:02}T{:02}:{:02}Z".format(*parts)
    text = damaged(chance, text) if chance.random() < 0.1 else text
    key, other = chance.choice([("begin", "end=2000-02-28T12:30Z"), ("end", "begin=2000-02-28T12:30Z")])
    return Question([chance.choice(["predict", "highest", "heights"]), "file=f.txt", "station=Pier", f"{key}={text}", other], {})


def word_faults(chance):
    good = [*OVER, "mark=0.5", "zone=+01:00", "layout=csv", "offsets=none", "step=60"]
    bad = ["mark=", "mark=x", "begin=2000", "zone=", "layout=x", "step=0", "x", "", "=", "x=1", "File=f.txt", "seed=1", "port=1", "station=", "certificate=c"]
    words = good[:chance.randint(3, 6)] + [chance.choice(good + bad + bad) for _ in range(chance.choice([0, 1, 2, 5, 40]))]
    chance.shuffle(words)
    return Question([chance.choice(["predict", "heights", "calendar", "report", "Predict", "check"]), *words], {})


# Files of constants.


def line_lengths(chance):
    lines = Book(chance).text().split("\n")
    at, size = chance.randrange(len(lines)), near(chance, 4_096, 4_096, 4_097)
    end = chance.choice(["", "", "\r"])
    room = max(0, size - len(end) - len(lines[at]))
    left = chance.choice([0, room, chance.randint(0, room)])
    lines[at] = chance.choice(["", "", "", "#"]) + " " * left + lines[at] + chance.choice(" \t") * (room - left) + end
    return over_text(chance, "\n".join(lines))


def pieces(chance):
    """A file that is read in several pieces: a line of it begins or ends about a multiple of 65,536 bytes."""
    text = Book(chance).text()
    size = near(chance, 65_536, 131_072) - chance.randrange(len(text))
    return over_text(chance, "#" * chance.randint(1, 90) + "\n" + "# note\n" * (size // 7) + "#" + "c" * (size % 7) + "\n" + text)


def constituent_counts(chance):
    count = max(1, near(chance, 1, 500, 500, 500))
    book = Book(chance, count=count, years=1)
    book.count = chance.choice([str(count)] * 4 + [str(count).rjust(chance.choice([9, 10]), "0"), str(count + chance.choice([-1, 1]))])
    return book.question()


def constituent_names(chance):
    book = Book(chance)
    letters = [chr(it) for it in (33, 35, 42, 65, 126, 128, 160, 255)]
    name = chance.choice([sized(chance, 32, letters)] * 6 + ["x", "*END*", "C0", sized(chance, 32, letters + ["\x7f", "\x1f"]), "#a"])
    at = chance.randrange(len(book.names))
    book.names[at] = name
    for it in book.stations:
        it["constants"][at][0] = name
    return book.question()


def speeds(chance):
    book = Book(chance)
    book.speeds[chance.randrange(len(book.names))] = decimal(chance, 0, 360, 7)
    return book.question()


def first_years(chance):
    book = Book(chance)
    book.year = counted(chance, 9, 2, 8_800, 2_000)
    return book.question()


def year_counts(chance):
    years = max(1, near(chance, 1, 500, 500, 500))
    book = Book(chance, count=chance.randint(1, 2), years=years)
    at = chance.randrange(2)
    book.years[at] = chance.choice([book.years[at]] * 5 + [book.years[at].rjust(chance.choice([9, 10]), "0"), str(years + chance.choice([-1, 1])), counted(chance, 9, 0, 500)])
    return book.question()


def arguments(chance):
    book = Book(chance)
    chance.choice(book.arguments)[0] = decimal(chance, -720, 720, 7)
    return book.question()


def factors(chance):
    book = Book(chance)
    chance.choice(book.factors)[0] = decimal(chance, 0, 10, 6)
    return book.question()


def datums(chance):
    book = Book(chance)
    it = chance.choice(book.stations)
    it["datum"] = decimal(chance, -10_000, 10_000, 6)
    it["units"] = chance.choice(["feet", "meters", "knots", "knots^2", "feet", "Feet", "", "feet x"])
    return book.question()


def amplitudes(chance):
    """With small factors the greatest amplitude is within the limit of a year's sum."""
    book = Book(chance)
    at = chance.randrange(len(book.names))
    if chance.random() < 0.7:
        book.factors[at] = ["0.01"] * len(book.factors[at])
    chance.choice(book.stations)["constants"][at][1] = decimal(chance, -10_000, 10_000, 6)
    return book.question()


def epochs(chance):
    book = Book(chance)
    constant = chance.choice(chance.choice(book.stations)["constants"])
    constant[2] = decimal(chance, -720, 720, 7)
    constant[0] = "x" if chance.random() < 0.2 else constant[0]
    return book.question()


def station_names(chance):
    book = Book(chance)
    letters = [chr(it) for it in (32, 35, 65, 126, 128, 160, 255)] + ["\x7f", "\t"] * (chance.random() < 0.1)
    book.stations[-1]["name"] = sized(chance, 200, letters)
    return book.question()


def meridians(chance):
    book = Book(chance)
    text = f"{chance.choice(['', '+', '-'])}{max(0, near(chance, 0, 15)):0{chance.choice([1, 2, 2, 3])}}:{max(0, near(chance, 0, 59)):02}"
    zone = sized(chance, 100, [chr(it) for it in (33, 58, 65, 126, 128, 255)]) if chance.random() < 0.5 else chance.choice(["", ":UTC", ":x y", "\x7f"])
    chance.choice(book.stations)["meridian"] = f"{damaged(chance, text) if chance.random() < 0.1 else text} {zone}"
    return book.question()


def station_counts(chance):
    book = Book(chance, count=1, years=1)
    it = {**book.stations[0], "meridian": "0:00"}
    book.stations = [it] * max(1, near(chance, 20_000, 20_000, 20_001))
    book.stations[-1] = {**it, "name": "Last", "datum": chance.choice(["0", "x"])}
    text = book.text()
    words = chance.choice([["stations"], ["about", "station=Last"], ["predict", "station=Last", *DAY]])
    return Question([words[0], f"file={SMALL}", *words[1:]], {SMALL: text.encode("latin-1")})


def cut_files(chance):
    text = Book(chance).text()
    return over_text(chance, text[:chance.randrange(len(text))])


def wrong_words(chance):
    """A name, a unit or an end that is another one."""
    lines = list(Book(chance).lines())
    at = chance.randrange(len(lines))
    lines[at] = chance.choice([damaged(chance, lines[at]), lines[at].replace("C", "D"), lines[at].lower(), "*END*", lines[at] + " 1", lines[at - 1]])
    return over_text(chance, "\n".join(lines) + "\n")


def with_sums(chance, parts):
    """A file whose year has these amplitudes, in millionths, and speeds, in ten-millionths; the other years have less."""
    book = Book(chance, count=len(parts))
    years = len(book.factors[0])
    at = chance.randrange(years)
    for row, (amplitude, speed) in enumerate(parts):
        # Each has this amplitude: rounded, and from a half away from 0.
        choices = [(1_000_000, amplitude), (500_000, 2 * amplitude), (500_000, 2 * amplitude - 1), (250_000, 4 * amplitude + 1), (250_000, 4 * amplitude - 2)]
        factor, given = chance.choice(choices)
        book.speeds[row] = plain(speed, 7)
        book.factors[row] = [plain(factor if year == at else factor * 9 // 10, 6) for year in range(years)]
        for it in book.stations:
            it["constants"][row][1] = plain(max(0, given) * chance.choice([1, -1]), 6)
    return book.question()


def amplitude_sums(chance):
    """Sums of a year's amplitudes about 1,000 units, with speeds that keep the other limit."""
    rest, parts = near(chance, 10 ** 9), []
    for _ in range(chance.randint(0, 5)):
        parts.append((chance.randint(0, rest), chance.randrange(99_000_000)))
        rest -= parts[-1][0]
    return with_sums(chance, [*parts, (rest, chance.randrange(99_000_000))])


def steepness_sums(chance):
    """Sums of a year's amplitudes times speeds about 10^17, in three constituents of ever smaller speeds."""
    rest, parts = near(chance, 10 ** 17), []
    for speed in (chance.randint(200_000_000, 3_600_000_000), chance.randint(1_000, 9_000), 1):
        parts.append((rest // speed, speed))
        rest %= speed
    chance.shuffle(parts)
    return with_sums(chance, parts)


WORDS = [marks, steps, zone_offsets, seeds, ports, sheet_words, moments, word_faults]
FILES = [line_lengths, pieces, constituent_counts, constituent_names, speeds, first_years, year_counts, arguments, factors, datums, amplitudes, epochs, station_names, meridians,
         station_counts, cut_files, wrong_words, amplitude_sums, steepness_sums]
