#!/usr/bin/env python3
"""Looks at the page's pictures, tables, texts and controls in a browser, in light and dark and at two widths.

tools/trial_looks.py [program=crates/tide/out/tide] [pictures=FOLDER]

It needs Debian's python3, nginx-light, libjs-dygraphs, chromium and poppler-utils, and runs as an ordinary user, on free
ports of 127.0.0.1. It prints what it saw, and ends with status 1 if something isn't as it should be. With `pictures` it
keeps a picture of each page there. Debian has no axe-core, so the checks are here: the contrast of every text, the size
of every control, names of controls, heads of tables, the outline of the focus, and the width of the page.
"""

import base64
import os
import pathlib
import re
import shutil
import signal
import sys
import tempfile
import urllib.parse

from trial_site import Site, Tab, TOP, wanting

BOSTON = 'Boston, Boston Harbor, Massachusetts'
NARROWS = 'Trial Narrows, Massachusetts Current'
DOCK = 'Trial Dock, Massachusetts'
OFFSETS = ('name,reference,high_add,low_add,high_times,low_times,high_plus,low_plus,flood_add,ebb_add\n'
           f'"{DOCK}","{BOSTON}",0:05,0:12,0.930,0.960,0.000,0.000,,\n')
PAPERS = {'A4': (8.27, 11.69), 'Letter': (8.5, 11)}
SHOWN = 'document.querySelector("#answer[aria-busy=false]:not([hidden]), #trouble .note, #sheets[aria-busy=false], #verdict:not(:empty)") !== null'

# The pages: what they are about, the file, and the question.
PAGES = [
    ('the start page', '', None),
    ('a week with a sill', '', {'station': BOSTON, 'sill': '4'}),
    ('a week by a clock of 12 hours, in metres', '', {'station': BOSTON, 'hours': '12', 'units': 'metres', 'sill': '1.5'}),
    ('a week of a current with a limit', '', {'station': NARROWS, 'sill': '2'}),
    ('a week of a station without a curve', '', {'station': DOCK}),
    ('a month with a sill', '', {'station': BOSTON, 'sill': '4', 'view': 'month'}),
    ('a month of a current with a limit', '', {'station': NARROWS, 'sill': '2', 'view': 'month'}),
    ('a refusal', '', {'station': 'Atlantis'}),
    ('a year with a sill', 'year.html', {'station': BOSTON, 'sill': '4'}),
    ('a year of a current with a limit', 'year.html', {'station': NARROWS, 'sill': '2'}),
    ('a year of a station that is not there', 'year.html', {'station': 'Atlantis'}),
    ('a check', 'check.html', {'station': BOSTON, 'begin': '2025-06-01T04:00Z', 'end': '2025-06-08T04:00Z', 'mark': '4'}),
]

# The faults of a page: an array of texts. Colours are those of the browser, so the checks see what a reader sees.
FAULTS = r"""(() => {
  const faults = [], say = (kind, node, more = '') => faults.push(`${kind}: ${node.tagName?.toLowerCase() ?? ''} “${(node.textContent ?? '').trim().slice(0, 40)}” ${more}`);
  const canvas = document.createElement('canvas').getContext('2d', { willReadFrequently: true });
  const rgba = color => { canvas.clearRect(0, 0, 1, 1); canvas.fillStyle = color; canvas.fillRect(0, 0, 1, 1); return [...canvas.getImageData(0, 0, 1, 1).data]; };
  const light = ([red, green, blue]) => [red, green, blue].map(part => part / 255).map(part => (part <= 0.04045 ? part / 12.92 : ((part + 0.055) / 1.055) ** 2.4))
    .reduce((sum, part, place) => sum + part * [0.2126, 0.7152, 0.0722][place], 0);
  const contrast = (one, other) => { const [low, high] = [light(one), light(other)].sort((a, b) => a - b); return (high + 0.05) / (low + 0.05); };
  const ground = node => { for (let at = node; at; at = at.parentElement) { const color = rgba(getComputedStyle(at).backgroundColor); if (color[3] > 250) return color; } return rgba('Canvas'); };
  const isShown = node => node.checkVisibility({ opacityProperty: true, visibilityProperty: true }) && node.getBoundingClientRect().width > 1;
  let least = 21;
  const walker = document.createTreeWalker(document.body, NodeFilter.SHOW_TEXT);
  while (walker.nextNode()) {
    const node = walker.currentNode.parentElement;
    if (!walker.currentNode.data.trim() || !isShown(node) || node.closest(':disabled, .unseen, script')) continue;
    const ratio = contrast(rgba(getComputedStyle(node).color), ground(node));
    least = Math.min(least, ratio);
    if (ratio < 4.5) say(`contrast ${ratio.toFixed(2)}`, node);
  }
  const style = getComputedStyle(document.querySelector('#curve') ?? document.body), own = name => rgba(style.getPropertyValue(`--${name}`).trim());
  if (document.querySelector('#curve canvas')) for (const text of ['ink', 'mark', 'now']) for (const behind of ['page', 'shade']) {
    const ratio = contrast(own(text), own(behind));
    least = Math.min(least, ratio);
    if (ratio < 4.5) faults.push(`contrast ${ratio.toFixed(2)}: ${text} on ${behind} of the picture`);
  }
  for (const control of document.querySelectorAll('a[href], button, input, select, summary')) {
    if (!isShown(control) || (control.tagName === 'A' && getComputedStyle(control).display === 'inline' && control.closest('p'))) continue;
    const { width, height } = (['radio', 'checkbox'].includes(control.type) ? control.closest('label') : control).getBoundingClientRect();
    if (width < 24 || height < 24) say('small', control, `${control.name ?? ''} ${width.toFixed(0)} by ${height.toFixed(0)}`);
    const name = control.labels?.length || control.ariaLabel || control.textContent.trim() || control.title;
    if (!name) say('without a name', control, control.id);
  }
  for (const table of document.querySelectorAll('table')) {
    if (!table.querySelector('th')) say('without heads', table);
    for (const head of table.querySelectorAll('th')) if (!head.scope) say('without a scope', head);
    if (!table.caption && !table.closest('[aria-label]')) say('without a caption', table);
  }
  const ids = [...document.querySelectorAll('[id]')].map(({ id }) => id);
  for (const id of new Set(ids.filter((id, place) => ids.indexOf(id) !== place))) faults.push(`two elements with the id ${id}`);
  if (!document.documentElement.lang) faults.push('no language');
  if (document.querySelectorAll('h1').length !== 1) faults.push(`${document.querySelectorAll('h1').length} titles (h1)`);
  const { scrollWidth, clientWidth } = document.documentElement;
  if (scrollWidth > clientWidth) faults.push(`${scrollWidth} points wide of ${clientWidth}`);
  return { least: least.toFixed(2), faults };
})()"""

# The element with the focus, and whether an outline shows it.
FOCUSED = """(() => {
  const { outlineStyle, outlineWidth } = getComputedStyle(document.activeElement);
  return [document.activeElement === document.body, outlineStyle !== 'none' && parseFloat(outlineWidth) >= 2, document.activeElement.outerHTML.slice(0, 60)];
})()"""


class LooksTrial:
    """Trials of what a reader sees, for a class with a site, the words of the command line, and `say`."""

    def looked(self):
        for width, height in ((1280, 900), (390, 844)):
            for scheme in ('light', 'dark'):
                with Tab(self.site, width, height) as tab:
                    tab.call('Emulation.setEmulatedMedia', features=[{'name': 'prefers-color-scheme', 'value': scheme}])
                    for page in PAGES:
                        self.look(tab, page, f'{width} points wide, {scheme}')

    def look(self, tab, page, how):
        about, file, question = page
        query = '' if question is None else f'?{urllib.parse.urlencode({"date": "2025-06-01", "year": "2025", **question})}'
        tab.open(f'{file}{query}', SHOWN if question else 'document.querySelectorAll("#finder a").length > 0')
        seen = [tab.value(FAULTS)]
        self.keep(tab, f'{about}-{how}')
        tab.value('document.querySelectorAll("#question details, #take, #differences, #answer details").forEach(it => { it.open = true; })')
        tab.value('document.querySelectorAll("[name=known]").forEach(it => { it.value = "no sum"; it.dispatchEvent(new Event("input")); })')
        seen.append(tab.value(FAULTS))
        if not all(seen):
            self.say(False, f'{about}, {how}: the checks did not run')
            return
        faults = list(dict.fromkeys(fault for each in seen for fault in each['faults']))
        self.say(not faults, f'{about}, {how}: contrast of {min(float(each["least"]) for each in seen):.2f} or more, {len(faults)} faults')
        for fault in faults[:8]:
            print(f'     {fault}')

    def keep(self, tab, name):
        if 'pictures' in self.words:
            height = tab.call('Page.getLayoutMetrics')['cssContentSize']['height']
            clip = {'x': 0, 'y': 0, 'width': tab.value('innerWidth'), 'height': min(height, 5000), 'scale': 1}
            picture = tab.call('Page.captureScreenshot', captureBeyondViewport=True, clip=clip)
            name = re.sub(r'\W+', '-', name)
            pathlib.Path(self.words['pictures']).mkdir(parents=True, exist_ok=True)
            (pathlib.Path(self.words['pictures']) / f'{name}.png').write_bytes(base64.b64decode(picture['data']))

    def focused(self):
        """Each control that the Tab key reaches shows that it has the focus."""
        with Tab(self.site, 1280, 900) as tab:
            tab.open(f'?{urllib.parse.urlencode({"station": BOSTON, "date": "2025-06-01", "sill": "4"})}', SHOWN)
            reached, hidden = 0, []
            for _ in range(60):
                tab.press('Tab', 9)
                is_over, is_outlined, text = tab.value(FOCUSED)
                if is_over:
                    break
                reached += 1
                hidden += [] if is_outlined else [text]
            self.say(reached > 10 and not hidden, f'{reached} controls by the Tab key, {len(hidden)} without an outline {hidden[:3]}')

    def read_by_keys(self):
        """The arrow keys move the reading, and a telephone keeps the axis of levels in view."""
        with Tab(self.site, 390, 844) as tab:
            tab.open(f'?{urllib.parse.urlencode({"station": BOSTON, "date": "2025-06-01", "sill": "4"})}', SHOWN)
            tab.value('document.getElementById("chart").focus()')
            read = []
            for key, code in (('Home', 36), ('ArrowRight', 39), ('ArrowRight', 39), ('ArrowLeft', 37), ('End', 35)):
                tab.press(key, code)
                read.append(tab.value('document.getElementById("reading").textContent'))
            self.say(len(set(read)) == 4 and read[1] == read[3] and all(' feet' in text for text in read), f'readings by keys: {read}')
            axis = tab.value('(({ left, right }) => left >= 0 && right <= innerWidth)(document.querySelector(".axis").getBoundingClientRect())')
            scrolled = tab.value('document.getElementById("chart").scrollLeft')
            self.say(bool(axis) and scrolled > 0, f'the axis is in view with the curve scrolled by {scrolled} points')
            spoken = tab.value('document.getElementById("chart").getAttribute("aria-valuetext")')
            self.say(spoken == read[-1], f'spoken by a screen reader: {spoken}')

    def printed(self):
        """A year prints on as many sheets as it says, on two papers, in type that can be read."""
        with Tab(self.site, 1280, 900) as tab:
            for station, sill, hours, wanted in ((BOSTON, '', '24', 4), (BOSTON, '4', '24', 6), (BOSTON, '4', '12', 6), (BOSTON, '-1', '12', 12),
                                                 (NARROWS, '', '24', 4), (NARROWS, '', '12', 6), (NARROWS, '2', '24', 12), (NARROWS, '2', '12', 12)):
                tab.open(f'year.html?{urllib.parse.urlencode({"station": station, "year": "2025", "sill": sill, "hours": hours})}', SHOWN)
                size = tab.value('Math.min(...[...document.querySelectorAll(".column td, .column th, .sheet p")].map(cell => parseFloat(getComputedStyle(cell).fontSize))) * 0.75')
                for paper, inches in PAPERS.items():
                    sheet = self.site.folder / 'year.pdf'
                    tab.print_to(sheet, inches, landscape=False)
                    count = len(re.findall(rb'/Type\s*/Page\b', sheet.read_bytes()))
                    self.say(count == wanted and size >= 8, f'a year of {station}{f" with {sill}" if sill else ""} by {hours} hours on {paper}: {count} sheets, {size:.1f} points')


class Trial(LooksTrial):
    def __init__(self, site, words):
        self.site, self.words, self.failed = site, words, 0

    def say(self, holds, text):
        self.failed += not holds
        print(f'{"ok  " if holds else "NOT "} {text}', flush=True)


def with_trial_stations(words, folder):
    """The file of constants with a current, made of Boston's tide, and a table with a station of two offsets."""
    text = (TOP / 'examples/harbours.txt').read_bytes()
    lines = [line for line in text.splitlines() if line.strip() and not line.startswith(b'#')]
    boston = lines.index(BOSTON.encode()) + 1
    constants = [lines[boston], b'0.0000 knots', *lines[boston + 2:boston + int(lines[0]) + 2]]
    file, offsets = folder / 'constants.txt', folder / 'offsets.csv'
    file.write_bytes(b'\n'.join([text.rstrip(), NARROWS.encode(), *constants, b'']))
    offsets.write_text(OFFSETS)
    return {**words, 'file': str(file), 'offsets': str(offsets)}


def main():
    words = dict(word.split('=', 1) for word in sys.argv[1:] if '=' in word)
    if len(words) != len(sys.argv) - 1 or not words.keys() <= {'program', 'pictures'}:
        raise SystemExit(__doc__.split('\n\n')[1])
    if wanting():
        raise SystemExit(f'trial_looks: it needs the Debian packages: {" ".join(wanting())}')
    if os.geteuid() == 0:
        raise SystemExit('trial_looks: it runs as an ordinary user')
    signal.signal(signal.SIGTERM, lambda number, frame: sys.exit(128 + number))
    folder, site = pathlib.Path(tempfile.mkdtemp(prefix='trial_looks-')), None
    try:
        site = Site(folder, with_trial_stations({'program': str(TOP / 'crates/tide/out/tide'), **words}, folder))
        site.start()
        trial = Trial(site, words)
        for part in (trial.looked, trial.focused, trial.read_by_keys, trial.printed):
            part()
    finally:
        if site is not None:
            site.stop()
        shutil.rmtree(folder, ignore_errors=True)
    raise SystemExit(min(trial.failed, 1))


if __name__ == '__main__':
    main()
