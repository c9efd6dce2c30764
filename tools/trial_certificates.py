"""Certificates and highest-water certificates at, just below and just beyond the limits of their lines, for tools/try_limits."""
import datetime

from trial_limits import Book, damaged, near, Question, sized, SMALL
from trial_spans import bounded_book, HEADS, minutes_about, MINUTE, moment, new_year, quiet_book, row, span, TABLE

NAME = "certificate.txt"
CHECKED_BY = {"certify": "check", "peak": "peakcheck"}


def edited(chance, number, *limits):
    """Returns a number near one of the limits or near the number itself, in the one spelling or in a wrong one."""
    value = near(chance, number, *limits) if chance.random() < 0.9 else int("9" * chance.randint(1, 40)) * chance.choice([1, -1])
    text = str(value)
    kind = chance.randrange(10)
    if kind == 0:
        text = chance.choice(["-0", "+" + text, "0" + text, "-0" + text.lstrip("-"), "--" + text, "", text + ".0", text.rjust(40, "0")])
    return damaged(chance, text) if kind == 1 else text


class Certificates:
    """Certificates that the other program wrote, each with the files of its question."""

    def __init__(self, chance, output):
        self.output, self.kept = output, {"certify": [], "peak": []}
        while min(map(len, self.kept.values())) < 24:
            self.add(chance, chance.choice(["certify", "peak"]))

    def add(self, chance, command):
        """Keeps the certificate of a random span, in a file of two years with a new year between."""
        files = bounded_book(chance, 1999, 2) if chance.random() < 0.6 else quiet_book(chance, 1999, 2)
        begin = new_year(2000) + minutes_about(chance)
        mark = [f"mark={chance.choice(['0.5', '0', '-1'])}"] if command == "certify" and chance.random() < 0.6 else []
        over = [f"station={chance.choice(['Pier', 'Dock'])}", *span(begin, begin + chance.choice([8, 64, 600, 2_000, 1_024, 5_000]) * MINUTE), *mark]
        text = self.output(Question([command, f"file={SMALL}", f"offsets={TABLE}", *over], files))
        if text:
            self.kept[command].append((files, text.decode().split("\n")))

    def pick(self, chance, command):
        files, lines = chance.choice(self.kept[command])
        return files, list(lines)

    def question(self, command, files, lines):
        data = "\n".join(lines).encode("utf-8", "surrogateescape")
        return Question([CHECKED_BY[command], f"file={SMALL}", f"offsets={TABLE}", f"certificate={NAME}"], {**files, NAME: data})

    def with_number(self, chance, command, begins, *limits):
        """Changes the number at the end of a line that begins so."""
        files, lines = self.pick(chance, command)
        places = [at for at, line in enumerate(lines) if line.startswith(begins)]
        if not places:
            lines.insert(7, f"{chance.choice([begins] if isinstance(begins, str) else begins)}2")
            places = [7]
        at = chance.choice(places)
        head, _, number = lines[at].rpartition(" ")
        lines[at] = f"{head} {edited(chance, int(number) if number.lstrip('-').isdigit() else 0, *limits)}"
        return self.question(command, files, lines)

    def quiet_cells(self, chance):
        return self.with_number(chance, "certify", "q ", 2, 1_024, 1_024)

    def event_levels(self, chance):
        return self.with_number(chance, "certify", ("t high ", "t low ", "t flood ", "t ebb ", "t rise ", "t fall "), 0, 99_999_999_999_999, -99_999_999_999_999)

    def certificate_marks(self, chance):
        return self.with_number(chance, "certify", "mark ", 10_000_000_000, -10_000_000_000, 0)

    def cells_under(self, chance):
        return self.with_number(chance, "peak", "u ", 2, 1_024, 1_024)

    def peak_values(self, chance):
        return self.with_number(chance, "peak", "value ", 10 ** 37, 10 ** 37 - 1, -10 ** 37, 1 - 10 ** 37, 0)

    def names(self, chance):
        """Names of about 400 bytes: a station's of the file, one of the table, and others."""
        command, is_row = chance.choice(list(CHECKED_BY)), chance.random() < 0.5
        name = ("\u00e9" * 200 + "a" * 200)[:near(chance, 200)] if not is_row else sized(chance, 400, "a\u00e9 ") if chance.random() < 0.5 else "\u20ac" * 133 + "a" * max(0, near(chance, 1))
        files, lines = self.pick(chance, command)
        book = Book(chance, count=1, first=1999, years=2)
        book.stations = [{**book.stations[0], "name": "Pier" if is_row else name}]
        table = f"{HEADS[0]}\n{','.join(row(name=name if is_row else 'Dock'))}\n"
        files = {SMALL: book.text().encode("latin-1"), TABLE: table.encode()}
        made = self.output(Question([command, f"file={SMALL}", f"offsets={TABLE}", f"station={name}", "begin=2000-01-10T00:00Z", "end=2000-01-10T01:00Z"], files)).decode()
        lines = made.split("\n") if made else lines
        if chance.random() < 0.5 or not made:
            lines[1] = "station " + chance.choice([name, name + "a", name[:-1], "", name[:9] + chance.choice(["\x1f", "\x7f", "\udcff", "\t"]) + name[9:], name + "\r"])
        return self.question(command, files, lines)

    def certificate_moments(self, chance):
        command = chance.choice(list(CHECKED_BY))
        files, lines = self.pick(chance, command)
        at = chance.choice([2, 3, 4] if command == "peak" else [2, 3])
        key, _, text = lines[at].partition(" ")
        kind = chance.randrange(5)
        if kind == 0:
            text = damaged(chance, text)
        elif kind == 1:
            text = chance.choice(["0001-01-01T00:00Z", "9999-12-31T23:59Z", "0000-12-31T23:59Z", "10000-01-01T00:00Z", "1900-02-29T00:00Z", "2000-02-29T00:00Z", "2000-01-01T24:00Z", "2000-01-01T00:60Z"])
        else:
            text = moment(new_year(2000) + minutes_about(chance))
        lines[at] = f"{key} {text}"
        return self.question(command, files, lines)

    def certificate_lines(self, chance):
        """A line that is missing, twice, elsewhere, longer or of another kind; a text that ends early or goes on."""
        command = chance.choice(list(CHECKED_BY))
        files, lines = self.pick(chance, command)
        at = chance.choice([chance.randrange(len(lines)), chance.randrange(8), len(lines) - 1, len(lines) - 2])
        kind = chance.randrange(7)
        if kind == 0:
            del lines[at]
        elif kind == 1:
            lines.insert(at, chance.choice(["track turn", "track slack", "track mark", "done", "", "s", "m", "q 2", "u 2", "t high 0", "t flood 0", "t rise 0", lines[at]]))
        elif kind == 2:
            lines[at] += chance.choice([" ", "\r", "\0", "\t", " " * 5_000, "0"])
        elif kind == 3:
            lines[at] = damaged(chance, lines[at])
        elif kind == 4:
            del lines[at:]
        elif kind == 5:
            other = chance.randrange(len(lines))
            lines[at], lines[other] = lines[other], lines[at]
        else:
            lines.append(chance.choice(["", "x", "done", " "]))
        return self.question(command, files, lines)

    def versions(self, chance):
        """The first line: another version, or another kind of certificate."""
        command = chance.choice(list(CHECKED_BY))
        files, lines = self.pick(chance, command)
        head = lines[0].rpartition(" ")[0] if chance.random() < 0.8 else chance.choice(["tide certificate", "peak certificate", "Tide certificate"])
        lines[0] = f"{head} {chance.choice(['1', '1', '2', '3', '0', '02', '1 ', '', '4294967297'])}"
        return self.question(command, files, lines)

    def covers(self, chance):
        """Cells that are joined or cut, so that some are no longer quiet, and lists that are too short or too long."""
        command = chance.choice(list(CHECKED_BY))
        word, one = ("q", "s") if command == "certify" else ("u", "m")
        files, lines = self.pick(chance, command)
        places = [at for at, line in enumerate(lines) if line == one or line.startswith(word + " ")]
        for _ in range(chance.randint(1, 3)):
            at = chance.choice(places)
            if at + 1 >= len(lines) or not (lines[at] == one or lines[at].startswith(word + " ")):
                continue
            minutes = [int(it[2:] or "1") if it == one or it.startswith(word + " ") else 0 for it in lines[at:at + 2]]
            if all(minutes) and chance.random() < 0.5:
                lines[at:at + 2] = [f"{word} {sum(minutes)}"]
            elif minutes[0] > 1:
                first = chance.randint(1, minutes[0] - 1) + (chance.random() < 0.2)
                lines[at:at + 1] = [one if it == 1 else f"{word} {it}" for it in (first, minutes[0] - first) if it]
        return self.question(command, files, lines)

    def wrong_steps(self, chance):
        """Cells of one minute that are another one: an event in place of none, none in place of one, or the other event."""
        files, lines = self.pick(chance, "certify")
        words = {"track turn": ("high", "low"), "track slack": ("flood", "ebb"), "track mark": ("rise", "fall")}
        while not any(line.startswith("t ") for line in lines):
            files, lines = self.pick(chance, "certify")
        begins = chance.choice(["s", "t ", "t ", "t "])
        at = chance.choice([at for at, line in enumerate(lines) if line[:2] == begins] or [0])
        kinds = words.get(next((line for line in reversed(lines[:at]) if line in words), ""), ("high", "low"))
        if lines[at] == "s":
            lines[at] = f"t {chance.choice(kinds)} {chance.randint(-2_000_000, 2_000_000)}"
        elif at:
            kind, level = lines[at][2:].split(" ")
            lines[at] = chance.choice(["s", f"t {kinds[kind == kinds[0]]} {level}", f"t {kind} {int(level) + chance.choice([1, -1])}"])
        return self.question("certify", files, lines)

    def tracks_wanted(self, chance):
        """A current's slack track that is missing, and one of a tide or of a row whose offsets differ."""
        files, lines = self.pick(chance, "certify")
        places = [at for at, line in enumerate(lines) if line.startswith("track ") or line == "done"]
        slack = [at for at in places if lines[at] == "track slack"]
        if slack and chance.random() < 0.9:
            del lines[slack[0]:next(at for at in places if at > slack[0])]
        elif not slack:
            lines[places[1]:places[1]] = ["track slack", *chance.choice([[], ["s"], lines[places[0] + 1:places[1]]])]
        return self.question("certify", files, lines)

    def single_minutes(self, chance):
        """Highest water with a cell for each minute, at another minute or with another value."""
        files, lines = self.pick(chance, "peak")
        cells = sum(int(line[2:]) if line.startswith("u ") else line == "m" for line in lines[6:])
        lines[6:] = ["m"] * cells + ["done", ""]
        if chance.random() < 0.8:
            at = datetime.datetime.strptime(lines[4][3:].rjust(17, "0"), "%Y-%m-%dT%H:%MZ")
            lines[4] = f"at {moment(at + near(chance, 0, 1, -1) * MINUTE)}"
        if chance.random() < 0.3:
            lines[5] = f"value {int(lines[5][6:]) + chance.choice([1, -1, 10 ** 20, -10 ** 28, -10 ** 30])}"
        return self.question("peak", files, lines)

    def counts(self, chance):
        """Many cells more than the span has minutes, and tracks without any."""
        command = chance.choice(list(CHECKED_BY))
        files, lines = self.pick(chance, command)
        if chance.random() < 0.3:
            lines = [line for line in lines if line[:2] not in ("q ", "t ", "u ") and line not in ("s", "m")]
        else:
            at = chance.randrange(7, len(lines))
            lines[at:at] = [chance.choice(["q 1024", "s"] if command == "certify" else ["u 1024", "m"])] * chance.choice([1, 2, 1_000, 60_000])
        return self.question(command, files, lines)

    def bytes_changed(self, chance):
        command = chance.choice(list(CHECKED_BY))
        files, lines = self.pick(chance, command)
        data = "\n".join(lines).encode()
        at = chance.randrange(len(data))
        changed = data[:at] + (bytes([chance.choice([0, 9, 10, 13, 32, 45, 48, 57, 127, 128, 255])]) if chance.random() < 0.7 else b"") + data[at + 1:]
        return self.question(command, files, [changed.decode("utf-8", "surrogateescape")])

    def limits(self):
        return [self.quiet_cells, self.event_levels, self.certificate_marks, self.cells_under, self.peak_values, self.names, self.certificate_moments, self.certificate_lines,
                self.versions, self.covers, self.wrong_steps, self.tracks_wanted, self.single_minutes, self.counts, self.bytes_changed]
