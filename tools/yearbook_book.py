"""The whole of a yearbook: the PDF of all stations with its contents, and the index in HTML."""

import html
import subprocess

import yearbook_sheets as sheets
from yearbook_pdf import PAGE_LINK, joined
from yearbook_reasons import sentence

ROWS = 38  # stations on a page of contents
STYLE = '''
body { font: 9pt "Liberation Sans", Arial, sans-serif; margin: 0; }
h1 { font-size: 14pt; margin: 0 0 3mm; } p { margin: 0 0 2mm; }
.contents { break-after: page; } .contents:last-child { break-after: auto; }
table { width: 100%; border-collapse: collapse; table-layout: fixed; }
td, th { height: 6mm; padding: 0; white-space: nowrap; overflow: hidden; border-bottom: .1mm solid #999; text-align: left; font-size: 9pt; }
td.number, th.number { width: 14mm; text-align: right; } td.why { width: 110mm; font-size: 8pt; line-height: 2.9mm; white-space: normal; }
a { color: inherit; text-decoration: none; }
'''
INDEX_STYLE = '''
body { font: 16px/1.4 system-ui, sans-serif; margin: 1rem auto; max-width: 70rem; padding: 0 1rem; }
table { border-collapse: collapse; } th, td { text-align: left; padding: .2rem .8rem .2rem 0; border-bottom: 1px solid #dde5ec; }
.warning, .why { color: #8a1c1c; } code { overflow-wrap: anywhere; } .why code, .note { font-size: .85em; color: #555; }
'''


def contents_pages(count):
    return -(-count // ROWS)


def contents_row(station, line):
    name = html.escape(station['name'])
    if line is None:
        link = f'<a href="{PAGE_LINK}{station["page"]}">'
        return f'<tr><td colspan="2">{link}{name}</a></td><td class="number">{link}{station["page"]}</a></td></tr>'
    return f'<tr><td>{name}</td><td class="why" colspan="2">{html.escape(sentence(line, station))}</td></tr>'


def contents_of(title, book):
    rows = [contents_row(station, book.lines.get(station['key'])) for station in book.stations]
    pages = [rows[place:place + ROWS] for place in range(0, len(rows), ROWS)]
    head = '<tr><th>Station</th><th class="column"></th><th class="number">Page</th></tr>'
    return ''.join(f'<div class="contents"><h1>{html.escape(title)}</h1><p>{sheets.WARNING}</p>'
                   f'<table><col><col style="width: 96mm"><col style="width: 14mm">{head}{"".join(page)}</table></div>' for page in pages)


def bookmarks_of(station):
    """A station's bookmark, with one for each of its sheets below it."""
    return station['name'], station['page'], [(name, station['page'] + place, []) for place, name in enumerate(station['sheets'])]


def book_of(title, book, work):
    """One PDF of all stations: the contents, then each station's sheets, which already have page numbers."""
    text = sheets.document(title, contents_of(title, book), STYLE, book.words['paper'])
    contents, answered = work / 'contents.pdf', book.answered()
    subprocess.run(['weasyprint', '-', contents], input=text.encode(), capture_output=True, check=True)
    parts = [contents, *(book.file(station, 'pdf') for station in answered)]
    return joined(parts, title, [('Contents', 1, []), *map(bookmarks_of, answered)], contents_pages(len(book.stations)), work)


def sill_text(station):
    """The sill or the limit, or why there is none."""
    if station['left_out']:
        return f'<br><span class="note">{html.escape(sheets.turns_only_text(station))}</span>'
    if not station['sill']:
        return ''
    return f', {"limit of" if station["units"].startswith("knots") else "sill at"} {station["sill"]} {station["units"]}'


def index_row(station, line, suffixes):
    name, zone = html.escape(station['name']), html.escape(station['zone'])
    if line is not None:
        plain = sentence(line, station)
        code = '' if plain == line else f' <code>{html.escape(line)}</code>'
        return f'<tr><td>{name}</td><td colspan="3" class="why">{html.escape(plain)}{code}</td></tr>'
    links = ' '.join(f'<a href="stations/{station["key"]}.{suffix}">{suffix.upper()}</a>' for suffix in suffixes)
    return f'<tr><td>{name}</td><td>{zone}{sill_text(station)}</td><td>{station["page"]}</td><td>{links}</td></tr>'


def checked_with(book):
    """The files that the checker needs beside a certificate."""
    table = ' and the <a href="offsets.csv">table of subordinate stations</a>' if 'offsets' in book.words else ''
    return f'the <a href="constants.txt">constants</a>{table}'


def index_of(title, book):
    rows = ''.join(index_row(station, book.lines.get(station['key']), book.suffixes(station)) for station in book.stations)
    constants = ''.join(f'<li>{html.escape(line)}</li>' for line in book.constants)
    return (f'<!DOCTYPE html>\n<html lang="en"><head><meta charset="utf-8"><title>{title}</title><style>{INDEX_STYLE}</style></head><body>'
            f'<h1>{title}</h1><p class="warning">{sheets.WARNING}</p>'
            f'<p>{len(book.answered())} of {len(book.stations)} stations. <a href="yearbook.pdf">All on paper (PDF)</a>, '
            '<a href="SHA256SUMS">SHA-256 of each file</a>. '
            f'<a href="check.html">This page checks a certificate</a> (CERT) in your browser, with {checked_with(book)}.</p>'
            f'<table><tr><th>Station</th><th>Clock</th><th>Page</th><th>Files</th></tr>{rows}</table>'
            f'<ul>{constants}<li>{html.escape(book.version)}</li></ul></body></html>\n')
