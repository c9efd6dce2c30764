"""Random questions that are refused, some of them just not, for each numbered refusal, for tools/try_limits."""
from trial_limits import Book, damaged, DAY, near, OVER, over_text, plain, Question, SMALL
from trial_spans import asked_over, bounded_book, HEADS, MINUTE, new_year, over_table, span, TABLE, usual_row


def file_of(chance, change):
    """A file of constants after a change, of which one time in eight is none."""
    book = Book(chance)
    if chance.random() < 0.875:
        change(book)
    return book.question()


def bad_counts(chance):
    return file_of(chance, lambda book: setattr(book, "count", chance.choice(["0", "501", "", "x", book.count + " 1", "+" + book.count, "0000000001"])))


def too_fine(chance):
    """A digit too many, in each number of a file."""
    def change(book):
        last = "0" * chance.choice([0, 1, 9]) + "1"
        constant = chance.choice(chance.choice(book.stations)["constants"])
        at = chance.randrange(5)
        if at < 2:
            constant[1 + at] += last
        elif at == 2:
            chance.choice(book.stations)["datum"] += last
        else:
            chance.choice(book.arguments if at == 3 else book.factors)[-1] += last
    return file_of(chance, change)


def years_that_differ(chance):
    return file_of(chance, lambda book: book.years.__setitem__(chance.choice([0, 1, 1, 1, 1]), str(len(book.factors[0]) + chance.choice([1, 1, -1, 400]))))


def wrong_constituents(chance):
    def change(book):
        constant = chance.choice(chance.choice(book.stations)["constants"])
        constant[0] = chance.choice(["M2", "c0", "X", "C9", constant[0] + "x"])
    return file_of(chance, change)


def no_ends(chance):
    return file_of(chance, lambda book: book.ends.__setitem__(chance.randrange(2), chance.choice(["*end*", "END", "*END", "*END**", "*END* 1", "1", "C0"])))


def bad_units(chance):
    return file_of(chance, lambda book: chance.choice(book.stations).__setitem__("units", chance.choice(["fathoms", "Feet", "", "feet feet", "knot", "knots^3", "m"])))


def table_with(chance, change):
    """A table after a change of a row, which has ten fields."""
    rows = [usual_row(chance, True) for _ in range(chance.randint(1, 3))]
    for at, it in enumerate(rows[1:]):
        it[0] = f"Other {at}"
    changed = chance.choice(rows)
    if chance.random() < 0.875:
        change(changed)
    return over_table(chance, "\n".join([HEADS[1], *(",".join(it) for it in rows)]) + "\n")


def too_fine_offsets(chance):
    return table_with(chance, lambda it: it.__setitem__(chance.randint(4, 7), chance.choice(["1.0000001", "-0.0000001", "100.0000000001", "0.00000001"])))


def wrong_offsets(chance):
    return table_with(chance, lambda it: it.__setitem__(chance.randint(2, 9), chance.choice(["x", "1:60", "0x1", "--1", "1:2", "1e1", " 1", ".", "9" * 19])))


def not_utf_8(chance):
    def change(it):
        at = chance.randrange(10)
        it[at] += chance.choice(["\udcff", "\udcc3", "\udce2\udc82", "\udcf0\udc9f\udc8c", "\udced\udca0\udc80", "\udcc0\udc80"]) + chance.choice(["", "a"])
    return table_with(chance, change)


def half_slacks(chance):
    return table_with(chance, lambda it: it.__setitem__(chance.choice([8, 9]), ""))


def words_of():
    return ["predict", *OVER, "mark=0.5", "zone=+01:00", "layout=csv"]


def words_with(chance, word):
    """The words of a question, mostly with a further one."""
    command, *rest = words_of()
    chance.shuffle(rest)
    if chance.random() < 0.875:
        rest.insert(chance.randrange(len(rest) + 1), word)
    return Question([command, *rest], {})


def unknown_commands(chance):
    words = words_of()
    words[0] = chance.choice(["predict", damaged(chance, "predict"), "Predict", "tide", "serve x", "peaks", "", "listen"])
    return Question(words if chance.random() < 0.9 else [], {})


def no_pairs(chance):
    return words_with(chance, chance.choice(["mark", "x", "", "mark:1", "-", "--", "--mark"]))


def unknown_keys(chance):
    return words_with(chance, chance.choice(["Mark=1", "marks=1", "=", "=1", "step=60", "port=1", "seed=1", "certificate=x", "sheets=tally", "mark =1"]))


def repeated_keys(chance):
    return words_with(chance, chance.choice(words_of()[1:]))


def missing_keys(chance):
    """Questions without one of their keys, or with all of them."""
    keys = {"predict": ["file", "station", "begin", "end"], "check": ["file", "certificate"], "peakcheck": ["file", "certificate"], "report": ["file", "station", "begin", "end", "sheets"],
            "sample": ["seed"], "stations": ["file"], "about": ["file", "station"], "heights": ["file", "station", "begin", "end"], "serve": ["file"], "trial": ["seed"]}
    usual = {"file": "file=none", "station": "station=Pier", "begin": DAY[0], "end": DAY[1], "certificate": "certificate=none", "sheets": "sheets=tally", "seed": "seed=1"}
    command = chance.choice(list(keys))
    left = chance.choice([*keys[command], *keys[command], "none" if "seed" not in keys[command] else "seed"])
    words = [usual[key] for key in keys[command] if key != left] + chance.choice([[], ["offsets=none"] if "seed" not in keys[command] else []])
    chance.shuffle(words)
    return Question([command, *words], {})


def named(chance, name, reference):
    """A question about a station, of the file or of a table's first row with this reference."""
    rows = [usual_row(chance, True) for _ in range(2)]
    rows[0][1] = reference
    table = "\n".join([HEADS[1], *(",".join(it) for it in rows)]) + "\n"
    command = chance.choice(["predict", "about", "heights", "highest", "certify"])
    words = [command, f"file={SMALL}", f"offsets={TABLE}", f"station={name}", *([] if command == "about" else DAY)]
    return Question(words, {SMALL: Book(chance).text().encode("latin-1"), TABLE: table.encode()})


def unknown_stations(chance):
    return named(chance, chance.choice(["dock", "Dock ", "pier", "Pier ", "Pie", "Race 2", " Pier", "Pier"]), "Pier")


def unknown_references(chance):
    return named(chance, "Dock", chance.choice(["Nowhere", "pier", "Pier ", "Dock", "Pie", "Pier", "\u00e9" * 200]))


def unknown_sheets(chance):
    words = chance.sample(["tally", "range", "first", "graph", "tall", "list", "x"], chance.randint(1, 4))
    return Question(["report", *OVER, f"sheets={','.join(words)}"], {})


def hydraulic(chance):
    """A current whose speeds are squared, before and after the refusals that come before and after it."""
    book = Book(chance)
    for it in book.stations:
        it["units"] = chance.choice(["knots^2"] * 7 + ["knots"])
    if chance.random() < 0.3:
        book.stations[0]["constants"][0][1] = "9000"
    return over_text(chance, book.text())


def backward_spans(chance):
    """Spans of no minute, and of a minute less than none."""
    begin = new_year(2000) + chance.randint(0, 500_000) * MINUTE
    return asked_over(chance, bounded_book(chance, 1999, 3), begin, begin + chance.choice([0, 0, -1, -1, 1, near(chance, -1_440)]) * MINUTE)


def empty_spans(chance):
    """Highest water of no minute and of one."""
    begin = new_year(2000) + chance.randint(0, 500_000) * MINUTE
    words = [f"file={SMALL}", f"station={chance.choice(['Pier', 'Pier', 'Dock'])}", f"offsets={TABLE}", *span(begin, begin + chance.choice([0, 0, 0, 1, -1]) * MINUTE)]
    return Question([chance.choice(["highest", "peak"]), *words], bounded_book(chance, 1999, 3))


def with_two_offsets(chance, command, more):
    """A row whose two offsets differ in one number, by the least that can be written, or agree."""
    one = [f"{chance.randint(0, 3)}:{chance.randint(0, 59):02}", plain(chance.randint(1, 3_000_000), 6), plain(chance.randint(-3_000_000, 3_000_000), 6)]
    other = list(one)
    if chance.random() < 0.9:
        at = chance.randrange(3)
        other[at] = ["0:01", "1.000001", "-0.000001"][at]
    table = f"{HEADS[0]}\nDock,Pier,{','.join(it for pair in zip(one, other) for it in pair)}\n"
    words = [command, f"file={SMALL}", f"offsets={TABLE}", "station=Dock", *span(new_year(2000) + 999 * MINUTE, new_year(2000) + 3_000 * MINUTE), *more]
    return Question(words, {SMALL: Book(chance).text().encode("latin-1"), TABLE: table.encode()})


def marks_not_here(chance):
    command = chance.choice(["predict", "certify", "calendar", "report"])
    mark = [f"mark={chance.choice(['0', '1.5', '-10000'])}"] if chance.random() < 0.95 else []
    return with_two_offsets(chance, command, mark + (["sheets=tally"] if command == "report" else []))


def levels_not_here(chance):
    return with_two_offsets(chance, chance.choice(["heights", "highest", "peak"]), [])


LIMITS = [bad_counts, too_fine, years_that_differ, wrong_constituents, no_ends, bad_units, too_fine_offsets, wrong_offsets, not_utf_8, half_slacks, unknown_commands, no_pairs,
          unknown_keys, repeated_keys, missing_keys, unknown_stations, unknown_references, unknown_sheets, hydraulic, backward_spans, empty_spans, marks_not_here, levels_not_here]
