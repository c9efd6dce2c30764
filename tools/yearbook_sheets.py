"""The sheets of a year as HTML, with the same elements as examples/server/html/year_sheets.js makes, for tools/yearbook."""

import calendar
import collections
import csv
import datetime
import decimal
import html
import io

from yearbook_clock import MINUTE, Point, clock_name, day_text, moment_of, offset_text

SIZES = (64, 72, 80)  # the most lines of a column for each size of type in year.css, which is 9, 8.5 or 8 points
COLUMNS_OF_MONTH = {6: (2, 3, 6, 12, 18), 4: (2, 4, 8, 16), 3: (3, 6, 12, 15)}  # the columns that a month may have, by the columns of a sheet
# By year.css, in mm: the height of a sheet's paper, the greatest height of a line, that of a line of text, and the height of all else.
PAPER_HIGH, MOST_HIGH, TEXT, AROUND = {'A4': 277, 'Letter': 259.4}, 5, 3.4, 30
LETTERS, NAME_LETTERS = 115, 88  # the letters that a line of text and one of the station's name have at least
SHORT = {'feet': 'ft', 'meters': 'm', 'knots': 'kn'}
SIGNS = {'High Tide': 'H', 'Low Tide': 'L', 'Max Flood': 'F', 'Max Ebb': 'E', 'Min Flood': 'f', 'Min Ebb': 'e',
         'Slack Flood Begins': 'SF', 'Slack Ebb Begins': 'SE'}
BOOKMARKS = '.sheet h2 { bookmark-level: none; } .sheet .when { bookmark-level: 1; } .sheet h3 { bookmark-level: 2; }'
WARNING = 'NOT FOR NAVIGATION. Predicted from harmonic constants, without the weather.'


def level_text(decimals):
    """A level with six decimals to hundredths, a half away from zero, as the program's listings have it."""
    shown = decimal.Decimal(decimals).quantize(decimal.Decimal('0.01'), decimal.ROUND_HALF_UP)
    return f'{abs(shown)}' if shown == 0 else f'{shown}'


def events_of(text):
    """The events of a reply in CSV, in the clock that the program has written."""
    events = []
    for row in csv.DictReader(io.StringIO(text)):
        moment = moment_of(row['moment'])
        local = datetime.datetime.strptime(row['local'], '%Y-%m-%d %H:%M').replace(tzinfo=datetime.timezone.utc)
        events.append(Point(moment, (*row['local'].split(), offset_text(local - moment)), row['event'], level_text(row['level'])))
    return events


def times_inside(changes, begin, end, is_inside):
    """The times inside as (from, to, whether each is cut), by changes as (the last minute before, whether it is inside then)."""
    times, start = [], (begin, True) if is_inside else None
    for moment, inside in changes:
        if inside and not start:
            start = (moment + MINUTE, False)
        elif not inside and start:
            times += [(start[0], moment, start[1], False)] if start[0] <= moment else []
            start = None
    return times + ([(start[0], end - MINUTE, start[1], True)] if start and start[0] < end else [])


def times_above(marks, sill, begin, end, level):
    """The times above a sill, from the first whole minute to the last. `level` is that at `begin`."""
    return times_inside([(mark.moment, mark.word == 'Mark Rising') for mark in marks], begin, end, level > sill)


def times_within(marks, low_marks, limit, begin, end, level):
    """The times at which -limit < level <= limit, by the marks of the limit and of minus the limit."""
    above, changes = {'high': level > limit, 'low': level > -limit}, []
    is_within = lambda: above['low'] and not above['high']
    first = is_within()
    passes = [(mark, 'low') for mark in low_marks] + [(mark, 'high') for mark in marks]
    for mark, side in sorted(passes, key=lambda it: it[0].moment):
        above[side] = mark.word == 'Mark Rising'
        changes.append((mark.moment, is_within()))
    return times_inside(changes, begin, end, first)


class Year:
    """A station's year: what the sheets show."""

    def __init__(self, station, year, clock, texts, level, constants):
        """`texts` are the listings for each mark, and `level` is that with which the year begins, if there is a mark."""
        self.station, self.year, self.clock, self.constants = station, year, clock, constants
        self.notes, self.units = station.get('notes') or {}, SHORT.get(station['units'], station['units'])
        self.begin, self.end = clock.start(year), clock.start(year + 1)
        self.events = events_of(texts[0])
        self.changes = clock.changes(self.begin, self.end)
        shown = [event for event in self.events if not event.is_mark()]
        self.is_current = station['units'].startswith('knots')
        self.sill = station.get('sill')
        above = self.times(level, *([event for event in events_of(text) if event.is_mark()] for text in texts)) if self.sill else []
        self.lines, self.above = {}, {}
        for point in sorted(self.changes + shown, key=lambda point: point.moment):
            add_line(self.lines.setdefault(point.date, []), point)
        for time in above:
            self.above.setdefault(clock.at(time[0])[0], []).append(self.above_text(*time))

    def times(self, level, *marks):
        """The times above the sill or within the limit."""
        inside = times_within if self.is_current else times_above
        return inside(*marks, decimal.Decimal(self.sill), self.begin, self.end, level)

    def above_text(self, start, stop, open_start, open_stop):
        first, last = self.clock.at(start), self.clock.at(stop)
        days = (datetime.date.fromisoformat(last[0]) - datetime.date.fromisoformat(first[0])).days
        end = '..' if open_stop else f'{last[1]} +{days}' if days > 1 else last[1]
        return f'{".." if open_start else first[1]}–{end}'

    def height(self, date):
        """How many lines a day takes."""
        return max(2, len(self.lines.get(date, [])), len(self.above.get(date, [])))

    def columns_on(self):
        """The columns of a sheet: as many as have room for their texts in type of 8 points."""
        if self.sill:
            return 3 if self.is_current else 4
        return 4 if self.is_current and any(len(event.shown) > 5 for event in self.events) else 6

    def columns(self, month, count):
        """The dates of a month in some columns; the columns of the other months begin with the same days."""
        dates = [f'{self.year:04}-{month:02}-{day + 1:02}' for day in range(calendar.monthrange(self.year, month)[1])]
        starts = [-(-31 * place // count) for place in range(count + 1)]
        return list(filter(None, (dates[start:stop] for start, stop in zip(starts, starts[1:]))))

    def layout(self):
        """How it is laid out: on as few sheets as can be in type of at least 8 points."""
        wide = self.columns_on()
        for count in COLUMNS_OF_MONTH[wide]:
            most = max(sum(map(self.height, dates)) for month in range(1, 13) for dates in self.columns(month, count))
            if most <= SIZES[-1]:
                break
        return Layout(wide, count, most)


class Layout(collections.namedtuple('Layout', 'wide count most')):
    """The columns of a sheet and of a month, and the lines of the fullest column."""

    def size(self):
        return next((size for size in SIZES if self.most <= size), SIZES[-1])

    def sheets(self, year):
        """The months of each sheet, each with its columns of dates."""
        months = [(month, year.columns(month, self.count)) for month in range(1, 13)]
        if self.count <= self.wide:
            return chunks(months, self.wide // self.count)
        return [[(month, some)] for month, columns in months for some in chunks(columns, self.wide)]


def chunks(items, size):
    return [items[place:place + size] for place in range(0, len(items), size)]


def is_after(slack, turn):
    """Whether a maximum is of the flood or the ebb that a slack begins."""
    return slack.word.split(' ')[1] == turn.word.split(' ')[1]


def add_line(lines, point):
    """Adds a point to a day's lines of (change or slack, turn): a maximum is beside the slack before it."""
    last = lines[-1] if lines else (None, None)
    if not point.word or point.is_slack():
        lines.append([point, None])
    elif last[0] and last[0].word and not last[1] and is_after(last[0], point):
        last[1] = point
    else:
        lines.append([None, point])


def element(name, content, **traits):
    words = ''.join(f' {key}="{html.escape(str(value))}"' for key, value in traits.items())
    return f'<{name}{words}>{content}</{name}>'


def cell(kind, text):
    return element('td', html.escape(text), **{'class': kind})


def unseen(text):
    return element('span', text, **{'class': 'unseen'})


def turn_cells(turn):
    if not turn:
        return cell('', '') * 3
    top = ' top' if turn.word in ('High Tide', 'Max Flood', 'Max Ebb') else ''
    return cell(f'sign{top}', SIGNS[turn.word]) + cell(f'time{top}', turn.time) + cell(f'level{top}', turn.shown)


def current_cells(slack, turn):
    """The cells of a current's line: the maximum beside a slack says which one begins."""
    if not slack or turn:
        return cell('begins', slack.time if slack else '') + turn_cells(turn)
    return cell('begins', slack.time) + element('td', SIGNS[slack.word], **{'class': 'sign', 'colspan': 3})


def rows_of(year, date):
    """The cells of each row of a day, behind its date."""
    wide, above = (4 if year.is_current else 3), year.above.get(date, [])
    rows = []
    for first, turn in year.lines.get(date, []):
        if first and not first.word:
            rows.append(element('td', f'clock {first.offset}', **{'class': 'change', 'colspan': wide}))
        else:
            rows.append(current_cells(first, turn) if year.is_current else turn_cells(turn))
    if not year.sill:
        return rows
    rows += [element('td', '', colspan=wide)] * (len(above) - len(rows))
    return [row + cell('above', above[place] if place < len(above) else '') for place, row in enumerate(rows)]


def day_rows(year, date):
    weekday = datetime.date.fromisoformat(date).strftime('%a')
    rows, height = rows_of(year, date), year.height(date)
    rows += [element('td', '\u00a0')] * (height - len(rows))
    head = element('th', f'{int(date[8:])}<br>{weekday}', scope='rowgroup', rowspan=height)
    return element('tbody', ''.join(element('tr', (head if place == 0 else '') + row) for place, row in enumerate(rows)),
                   **{'class': 'sunday' if weekday == 'Sun' else ''})


def times_name(year):
    """The name of the times above a sill or within a limit, in a word and a level."""
    return f'{"Within" if year.is_current else "Above"} {year.sill} {year.units}'


def heads_of(year):
    """The columns of a table with their heads."""
    begins, above = [('begins', 'Slack')] * year.is_current, [('above', times_name(year))] if year.sill else []
    return [('day', unseen('Day')), *begins, ('sign', unseen('Event')), ('time', 'Max' if year.is_current else 'Time'), ('level', year.units), *above]


def column_table(year, name, dates):
    heads = heads_of(year)
    return element('table', element('caption', name, **{'class': 'unseen'})
                   + element('colgroup', ''.join(f'<col class="{kind}">' for kind, _ in heads))
                   + element('thead', element('tr', ''.join(element('th', text, **{'class': kind, 'scope': 'col'}) for kind, text in heads)))
                   + ''.join(day_rows(year, date) for date in dates))


def month_part(year, month, columns):
    name = f'{calendar.month_name[month]} {year.year}'
    before = [change.offset for change in year.changes if change.date < columns[0][0]]
    offset = before[-1] if before else year.clock.at(year.begin)[2]
    tables = (column_table(year, f'{name}, {int(dates[0][8:])} to {int(dates[-1][8:])}', dates) for dates in columns)
    return element('section', element('h3', f'{name} {element("span", f"UTC{offset}")}')
                   + ''.join(element('div', table, **{'class': 'column'}) for table in tables), **{'class': 'month'})


def directions_text(notes):
    """The directions towards which a current sets, as `flood 108°, ebb 288°`."""
    found = [(word, notes.get(f'{word}_direction')) for word in ('flood', 'ebb')]
    return ', '.join(f'{word} {degrees:03}°' for word, degrees in found if isinstance(degrees, (int, float)))


def place_text(notes):
    """The coordinates, if there are any."""
    found = [(notes.get(key), signs) for key, signs in (('latitude', 'NS'), ('longitude', 'EW'))]
    if not all(isinstance(degrees, (int, float)) for degrees, _ in found):
        return ''
    return ', '.join(f'{abs(degrees):.4f}° {signs[degrees < 0]}' for degrees, signs in found)


def times_text(year):
    """The clocks of the times that are shown, as `Times in EST (UTC-5)`, and whose clock that is."""
    zone, names = year.station['zone'], [clock_name(year.clock, year.begin)]
    names += [f'from {day_text(datetime.date.fromisoformat(it.date))} {it.time} in {clock_name(year.clock, it.moment)}' for it in year.changes]
    whose = 'local time at the station' if zone == year.notes.get('zone') else f'the clock of {zone}'
    return f'Times in {", ".join(names)}, {whose}'


def turns_only_text(station):
    """Why a station has no times above a sill or within a limit."""
    what, between, missing = ('slack waters and greatest speeds', 'the speed', 'times within a limit') if station['units'].startswith('knots') else (
        'high and low waters', 'the level', 'times above a sill')
    return (f'This station has {what} only. They follow from {station["reference"]}, and nothing is known about {between} in between. '
            f'So there are no {missing} here.')


def about_lines(year):
    """The unit, the datum, the clock and the place."""
    station, notes, units = year.station, year.notes, year.station['units']
    datum = station.get('datum') or 'the datum of its constants'
    what = f'Current in {units}, flood above 0 and ebb below' if year.is_current else f'Tide in {units} above {datum}'
    after = f'by differences from {station["reference"]}' if station.get('reference') else ''
    source = f'constants from {notes["source"]}' if notes.get('source') else ''
    sill = f'{"limit of" if year.is_current else "sill at"} {year.sill} {units}' if year.sill else ''
    lines = [' · '.join(filter(None, (what, directions_text(notes) if year.is_current else '', after, sill))), times_text(year),
             ' · '.join(filter(None, (place_text(notes), notes.get('country'), notes.get('identifier'), source)))]
    return [line for line in lines + [turns_only_text(station) if station.get('left_out') else ''] if line]


def legend(year):
    words = {event.word for event in year.events}
    signs = ', '.join(f'{sign} {word}' for word, sign in SIGNS.items() if word in words)
    texts = [text for texts in year.above.values() for text in texts]
    times, extent = ' '.join(texts), {(): 'at no time of this year', ('..–..',): 'all of this year'}.get(tuple(texts))
    above = f'{times_name(year)}: {extent or "first to last whole minute, on the day on which it begins"}'
    return '; '.join([signs or 'no events in this year'] + [above] * bool(year.sill) + ['+N: it ends N days later'] * ('+' in times) + ['..: outside this year'] * ('..' in times))


def texts_below(year):
    """The texts below the columns, each with its class."""
    return [('legend', legend(year)), ('warning', WARNING), *(('constants', line) for line in year.constants)]


def months_text(months):
    names = [calendar.month_name[months[place][0]] for place in (0, -1)]
    return names[0] if len(months) == 1 else f'{names[0]} {"and" if len(months) == 2 else "to"} {names[1]}'


def sheet(year, layout, place, months, count):
    kind = (f'sheet {"current" if year.is_current else "tide"}{" with-sill" if year.sill else ""} wide-{layout.wide} months-{len(months)} '
            f'columns-{min(layout.count, layout.wide)} lines-{layout.size()}')
    names = f'{months_text(months)} {year.year} · sheet {place + 1} of {count}'
    text = lambda words, **traits: element('p', html.escape(words, False), **traits)
    return element('section', ''.join([
        element('h2', html.escape(year.station['name'], False)), text(names, **{'class': 'when'}), *map(text, about_lines(year)),
        element('div', ''.join(month_part(year, *part) for part in months), **{'class': 'months'}),
        *(text(words, **{'class': name}) for name, words in texts_below(year))]), **{'class': kind})


def sheets(year):
    """A year on its sheets."""
    layout = year.layout()
    found = layout.sheets(year)
    return ''.join(sheet(year, layout, place, months, len(found)) for place, months in enumerate(found))


def sheet_names(year):
    """The months of each sheet."""
    return [months_text(months) for months in year.layout().sheets(year)]


def line_height(year, paper):
    """The rule by which the fullest column fills the height of a paper, for WeasyPrint, which doesn't compute lengths."""
    texts = sum(-(-len(text) // LETTERS) for text in [*about_lines(year), *(text for _, text in texts_below(year))])
    texts += 2 * (-(-len(year.station['name']) // NAME_LETTERS) - 1)  # a line of a name is less high than two of text
    high = (PAPER_HIGH[paper] - AROUND - TEXT * texts) / year.layout().most
    return f'.column td, .column tbody th {{ line-height: {min(high, MOST_HIGH):.3f}mm; }}'


def document(title, body, style, paper, first_page=1, rule=''):
    """A document for WeasyPrint, with the number of each page below it."""
    pages = (f'@page {{ size: {paper}; margin: 10mm 7mm; @bottom-right {{ content: counter(page); font: 8pt Liberation Sans, sans-serif; }} }}'
             f' @page :first {{ counter-reset: page {first_page}; }} {rule} {BOOKMARKS}')
    return (f'<!DOCTYPE html>\n<html lang="en"><head><meta charset="utf-8"><title>{html.escape(title)}</title>'
            f'<style>{style}</style><style>{pages}</style></head><body>{body}</body></html>\n')
