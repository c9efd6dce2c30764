"""Random zone files at, just below and just beyond the limits of their form, for tools/try_limits."""
import struct

from trial_limits import damaged, near, Question, sized

NAME = "zone.tz"
OVER = [f"zone=@{NAME}", "station=Pier"]
# 2000-01-01T00:00Z, and the ends of the moments that zone files tell apart.
YEAR_2000, FIRST, LAST, DAY = 946_684_800, -377_705_023_201, 253_402_207_200, 86_400


class Zone:
    """A good zone file of a few transitions, whose parts can be changed before it is written."""

    def __init__(self, chance):
        self.chance, self.version = chance, chance.choice([0, 0x32, 0x32, 0x33, 0x34])
        self.types = [(-17_762, 0, 0), (-18_000, 0, 4), (-14_400, 1, 8)]
        self.letters = b"LMT\0EST\0EDT\0"
        self.leaps, self.standard, self.universal, self.counts = 0, b"", b"", {}
        second, self.times = YEAR_2000 - 300 * DAY, []
        for _ in range(chance.randint(0, 6)):
            second += chance.randint(2 * DAY, 150 * DAY)
            self.times.append((second, chance.randrange(3)))
        self.footer, self.tail = self.fitting_footer(), b"\n"

    def fitting_footer(self):
        """A rule that agrees with the last transition, or none."""
        if not self.times or self.chance.random() < 0.3:
            return self.chance.choice([b"", b"EST5EDT,M3.2.0,M11.1.0"]) if not self.times else b""
        return {0: b"LMT4:56:02", 1: b"EST5", 2: b""}[self.times[-1][1]]

    def block(self, size, version, is_empty=False):
        times, types, letters, standard, universal, leaps = ([], [(0, 0, 0)], b"U\0", b"", b"", 0) if is_empty else (self.times, self.types, self.letters, self.standard, self.universal, self.leaps)
        counts = {"universal": len(universal), "standard": len(standard), "leaps": leaps, "times": len(times), "types": len(types), "letters": len(letters)}
        counts.update({} if is_empty else self.counts)
        kept = (lambda it: max(-2 ** 31, min(2 ** 31 - 1, it))) if size == 4 else (lambda it: max(-2 ** 63, min(2 ** 63 - 1, it)))
        parts = [b"TZif", bytes([version]), bytes(15), struct.pack(">6I", *counts.values()), struct.pack(f">{len(times)}{'i' if size == 4 else 'q'}", *(kept(it) for it, _ in times)),
                 bytes(it & 255 for _, it in times), *(struct.pack(">iBB", *it) for it in types), letters, bytes(leaps * (size + 4)), standard, universal]
        return b"".join(parts)

    def data(self):
        if self.version == 0:
            return self.block(4, 0)
        return self.block(4, self.version, is_empty=self.chance.random() < 0.7) + self.block(8, self.version) + b"\n" + self.footer + self.tail

    def question(self):
        return asked(self.chance, self.data())


def asked(chance, data, file="file=long.txt", year=2000):
    """A question about some days or about two years, in the local time of the zone file."""
    day = f"{year:04}-{chance.randint(1, 12):02}-{chance.randint(1, 28):02}T{chance.randint(0, 23):02}:{chance.randint(0, 59):02}Z"
    if chance.random() < 0.5:
        return Question(["heights", file, *OVER, f"begin={day}", f"end={year + 1:04}-12-31T00:00Z", f"step={chance.choice([59, 60, 120, 720])}"], {NAME: data})
    return Question([chance.choice(["predict", "calendar"]), file, *OVER, f"begin={day}", f"end={year + 1:04}-12-31T00:00Z"], {NAME: data})


def transition_counts(chance):
    """From none to as many as the greatest file has room for."""
    zone = Zone(chance)
    room = 209_000 if zone.version == 0 else 116_000
    count = chance.choice([0, 1, 2, chance.randint(3, 3_000), chance.randint(3, 3_000), room])
    gap = chance.choice([7_201, 3 * 7_201, DAY])
    zone.types, zone.footer = [(-18_000, 0, 4), (-14_400, 1, 8)], b""
    zone.times = [(YEAR_2000 + (at - count * 3 // 4) * gap, at % 2) for at in range(count)]
    if zone.version == 0:
        zone.times = [it for it in zone.times if -2 ** 31 <= it[0] < 2 ** 31]
    zone.counts = {"times": max(0, len(zone.times) + chance.choice([-1, 1]))} if chance.random() < 0.15 else {}
    return zone.question()


def transition_gaps(chance):
    """Two transitions whose local times just meet or overlap, and ones at the same second."""
    zone = Zone(chance)
    offsets = [chance.randint(-50_000, 50_000) for _ in range(3)]
    zone.types, zone.footer = [(it, 0, 0) for it in offsets], b""
    a, b, c = (chance.randrange(3) for _ in range(3))
    first = YEAR_2000 + chance.randint(0, 300 * DAY)
    least = max(offsets[a], offsets[b]) - min(offsets[b], offsets[c])
    zone.times = [(first - 9 * DAY, a), (first, b), (first + max(least, 0) + chance.choice([-1, 0, 1, 2, -least]), c)]
    return zone.question()


def transition_seconds(chance):
    """Transitions at the ends of the seconds that count, in order and not."""
    zone = Zone(chance)
    zone.footer = b""
    ends = [FIRST, LAST, -2 ** 31, 2 ** 31 - 1, -2 ** 63, 2 ** 63 - 1, -62_135_596_800, 231_000_000_000]
    picked = [chance.choice(ends) + chance.choice([0, 0, -1, 1, chance.randint(-200_000, 200_000)]) for _ in range(chance.randint(1, 3))]
    zone.times = [(it, chance.randrange(3)) for it in (sorted(picked) if chance.random() < 0.8 else picked)]
    if chance.random() < 0.7:
        return zone.question()
    year = chance.choice([2, 9_298])
    return asked(chance, zone.data(), f"file=year{year}.txt", year)


def type_counts(chance):
    """About 1 and about 256 types, and an index at and beyond the last."""
    zone = Zone(chance)
    count = max(0, near(chance, 1, 2, 255, 256))
    zone.types, zone.footer = [(-18_000 + at, 0, 4) for at in range(count)], b""
    zone.times = [(it, max(0, chance.choice([count - 1, count - 1, count, 0, chance.randrange(count + 1)]))) for it, _ in zone.times]
    return zone.question()


def offsets(chance):
    """Offsets about 26 hours, and ones that aren't whole minutes."""
    zone = Zone(chance)
    zone.types = [(near(chance, -93_599, 93_599, 0, 60, -60), 0, 4) for _ in range(3)]
    zone.times = [(YEAR_2000 + at * 60 * DAY, it) for at, it in enumerate((0, 1, 2))]
    zone.footer = b""
    if chance.random() < 0.7:
        return zone.question()
    year = chance.choice([2, 9_298])
    return asked(chance, zone.data(), f"file=year{year}.txt", year)


def abbreviations(chance):
    """Abbreviations of about 15 letters, without an end, beginning at the last byte and beyond it."""
    zone = Zone(chance)
    text = sized(chance, 15, "ABZabz+-09").encode() + chance.choice([b"\0"] * 5 + [b"", b"\xff\0", b"\xc3\xa9\0"])
    zone.letters, zone.footer = b"LMT\0EST\0EDT\0" + text, b""
    at = chance.choice([12, 12, 12, len(zone.letters) - 1, len(zone.letters), len(zone.letters) + 1, 3])
    zone.types[chance.randrange(3)] = (-18_000, chance.choice([0, 1, 2, 255]), at & 255)
    if chance.random() < 0.1:
        zone.letters, zone.types = b"", [(0, 0, 0)]
    return zone.question()


def flags(chance):
    """Flags of standard and universal time: none or one for each type, 0 or 1."""
    zone = Zone(chance)
    count = max(0, chance.choice([0, 3, 3, 3, 3, 2, 4]))
    zone.standard = bytes(chance.choice([0, 0, 1, 1, chance.choice([0, 1, 2, 255])]) for _ in range(count))
    zone.universal = bytes(chance.choice([0, 0, it]) for it in zone.standard) if chance.random() < 0.8 else bytes(chance.choice([0, 0, 0, 1]) for _ in range(chance.choice([0, 3, 4])))
    return zone.question()


def counts(chance):
    """Counts in the header that differ from the data, up to the greatest."""
    zone = Zone(chance)
    zone.leaps = chance.choice([0, 0, 1, 27])
    key = chance.choice(["universal", "standard", "leaps", "times", "types", "letters"])
    zone.counts = {key: chance.choice([0, 1, 2, 3, 4, 255, 256, 257, 2 ** 31 - 1, 2 ** 31, 2 ** 32 - 1, chance.randrange(2 ** 32)])} if chance.random() < 0.8 else {}
    return zone.question()


def versions(chance):
    zone = Zone(chance)
    zone.version = chance.choice([0, 1, 0x30, 0x31, 0x32, 0x33, 0x34, 0x35, 0x39, 255])
    data = bytearray(zone.data())
    if chance.random() < 0.5:  # the second header has another version, or another first byte
        at = max(0, data.rfind(b"TZif"))
        data[at + chance.choice([0, 3, 4, 4])] = chance.choice([0, 0x31, 0x32, 0x33, 0x54, 255])
    return asked(chance, bytes(data))


def number(chance, *limits):
    text = str(max(0, near(chance, *limits)))
    return text.rjust(chance.choice([1, 2, 2, 3]), "0")


def clock(chance, hours):
    """Hours, or hours and minutes, or seconds too, each at or beyond its limit."""
    parts = [number(chance, 0, *hours), *(f"{max(0, near(chance, 0, 30, 59)) % 100:02}" for _ in range(chance.choice([0, 0, 1, 2])))]
    return chance.choice(["", "", "+", "-"]) + ":".join(parts)


def day_rule(chance):
    form = chance.randrange(3)
    if form == 0:
        text = "J" + number(chance, 1, 59, 60, 365)
    elif form == 1:
        text = number(chance, 0, 59, 60, 365)
    else:
        text = f"M{max(0, chance.choice([1, 3, 11, 12, near(chance, 1, 12)]))}.{chance.choice([1, 2, 5, 5, 0, 6])}.{chance.choice([0, 3, 6, 0, 7])}"
    return text + (f"/{clock(chance, [2, 24, 167])}" if chance.random() < 0.5 else "")


def name_in_rule(chance):
    size = chance.choice([3, 3, 4, 2, 14, 15, 16])
    if chance.random() < 0.3:
        return "<" + "".join(chance.choice("AZaz09+-") for _ in range(size)) + ">"
    return "".join(chance.choice("AZaz") for _ in range(size))


def rules(chance):
    """Rules without a transition before them: names, offsets, days and times at and beyond their limits."""
    zone = Zone(chance)
    zone.version, zone.times = 0x33, []
    text = name_in_rule(chance) + clock(chance, [5, 23, 24])
    if chance.random() < 0.8:
        text += name_in_rule(chance) + (clock(chance, [5, 23, 24]) if chance.random() < 0.4 else "")
        text += "," + day_rule(chance) + "," + day_rule(chance)
    zone.footer = (damaged(chance, text) if chance.random() < 0.1 else text).encode("latin-1")
    if chance.random() < 0.9:
        return zone.question()
    year = chance.choice([2, 9_298])
    return asked(chance, zone.data(), f"file=year{year}.txt", year)


def good_rules(chance):
    """Rules that are good, at the ends of their numbers, so that local times are listed."""
    zone = Zone(chance)
    zone.version, zone.times = 0x32, []

    def day():
        text = chance.choice([f"J{chance.choice([1, 59, 60, 365])}", f"{chance.choice([0, 58, 59, 364, 365])}", f"M{chance.randint(1, 12)}.{chance.randint(1, 5)}.{chance.randint(0, 6)}"])
        return text + chance.choice(["", "/0", "/24", "/167", "/-167:59:59", "/167:59:59", f"/{chance.randint(-30, 30)}:30"])
    offset = chance.choice(["24:59:59", "-24:59:59", "0", "5", "-3:30", "0:00:01"])
    other = chance.choice(["", "", "24:59:59", "-24:59:59", "4", "-0:00:59"])
    zone.footer = f"AAA{offset}<+B->{other},{day()},{day()}".encode()
    return zone.question()


def footers(chance):
    """Footers of about 1,024 bytes, without an end, with bytes after it, and ones that don't agree with the last transition."""
    zone = Zone(chance)
    zone.version = 0x32
    good = zone.footer
    kind = chance.randrange(5)
    if kind == 0:
        zone.footer = sized(chance, 1_024, "A")[:-1].encode() + chance.choice([b"", good])
    elif kind == 1:
        zone.tail = chance.choice([b"", b"\0", b"\r\n", b" \n"])
    elif kind == 2:
        zone.tail = b"\n" + bytes(chance.randrange(256) for _ in range(chance.choice([1, 1_022, 1_023, 1_024, 1_025])))
    elif kind == 3:
        zone.footer = chance.choice([b"EST5", b"EST5EDT,M3.2.0,M11.1.0", b"LMT4:56:02", b"<EST>5", b"EST4:59:59", b"EDT4", b"ESX5"])
    return zone.question()


def cut_zones(chance):
    data = Zone(chance).data()
    at = chance.randrange(len(data))
    return asked(chance, data[:at] if chance.random() < 0.5 else data[:at] + bytes([chance.choice([0, 1, 127, 128, 255, chance.randrange(256)])]) + data[at + 1:])


def zone_sizes(chance):
    """Zone files of about the greatest length, which end with bytes after the footer."""
    zone = Zone(chance)
    zone.version, size = 0x32, near(chance, 1_048_576)
    data = zone.data()
    return asked(chance, data + bytes(size - len(data)))


LIMITS = [transition_counts, transition_gaps, transition_seconds, type_counts, offsets, abbreviations, flags, counts, versions, rules, good_rules, footers, cut_zones, zone_sizes]
