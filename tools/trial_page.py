"""The trials of the page for tools/try_site: its tests, its texts, its keys, its notes on stations and its paper."""

import html
import itertools
import json
import pathlib
import re
import shutil
import subprocess
import sys
import urllib.parse

from trial_site import curve_columns, Tab, TOP

BOSTON = 'Boston, Boston Harbor, Massachusetts'
SEATTLE = 'Seattle, Puget Sound, Washington'
STRANGE = 'Cais "d\'Água", Olhão & <b>Ria</b>'
# A current of the trial, with the constants of Boston, and two stations by differences that have turns only.
RACE, COVE, SOUND = 'Race of the Trial, Massachusetts Current', 'Cove of the Trial, Massachusetts', 'Sound of the Trial, Massachusetts Current'
PAPERS = {'A4': (8.27, 11.69), 'Letter': (8.5, 11)}
# The page shows an answer, or the reason why there is none.
SHOWN = 'document.querySelector("#answer[aria-busy=false]:not([hidden]), #trouble .note") !== null'
# What the page has measured when its layout is the paper's: the right edges of the curve's canvas and of the text.
MEASURE = """matchMedia('print').addEventListener('change', ({ matches }) => {
  if (matches) window.measured = ['#curve canvas', 'body'].map(it => document.querySelector(it).getBoundingClientRect().right);
})"""

# What a question is about, the question, and what its page has.
OPENED = [
    ('a week with a sill', {'station': BOSTON, 'date': '2025-06-01', 'sill': '4'}, ['High Tide', '10.48', 'times above the sill at 4 feet', 'canvas']),
    ('the notes on a station', {'station': SEATTLE, 'date': '2025-06-01'},
     ['Times in PDT (UTC-7), local time at the station', 'above Mean Lower Low Water', '47.6026° N, 122.3393° W', 'NOS 9447130',
      'America/New_York, is 3 h ahead', 'nautical mile', 'canvas']),
    ('another clock than the station\'s', {'station': SEATTLE, 'date': '2025-06-01', 'zone': 'Europe/London'},
     ['Times in BST (UTC+1), the clock of Europe/London', 'America/Los_Angeles, is 8 h behind']),
    ('a week over spring forward', {'station': BOSTON, 'date': '2025-03-06', 'zone': 'America/New_York'},
     ['Times in EST (UTC-5), from Sun 9 Mar 03:00 in EDT (UTC-4)', '-05:00', '-04:00', 'canvas']),
    ('a week over fall back', {'station': BOSTON, 'date': '2025-10-30', 'zone': 'America/New_York'}, ['-05:00', '-04:00', 'canvas']),
    ('a month', {'station': BOSTON, 'date': '2025-06-10', 'view': 'month'}, ['June 2025', 'Mon 30', 'H High Tide']),
    ('a month below the sill', {'station': BOSTON, 'date': '2025-06-10', 'view': 'month', 'sill': '40'}, ['Above the sill at 40 feet: at no time of this month.']),
    ('a name with quotes, a comma, letters and a tag', {'station': STRANGE, 'date': '2025-06-01'}, [html.escape(STRANGE, False), 'Low Tide', 'canvas']),
    ('a limit of a current', {'station': RACE, 'date': '2025-06-01', 'sill': '2'}, ['times within the limit of 2 knots', 'Slack Flood Begins', 'canvas']),
    ('a negative limit', {'station': RACE, 'date': '2025-06-01', 'sill': '-2'}, ['times within the limit of 2 knots', 'canvas']),
    ('metres and 12 hours', {'station': BOSTON, 'date': '2025-06-01', 'sill': '1.2', 'units': 'metres', 'hours': '12'},
     ['Tide in metres (converted from feet)', '3:50 am', '3.19', 'sill at 1.2 metres', 'canvas']),
    ('turns only', {'station': COVE, 'date': '2025-06-01', 'sill': '4'},
     ['This station has high and low waters only.', 'So there are no times above a sill here.', 'canvas']),
    ('turns of a current only', {'station': SOUND, 'date': '2025-06-01'}, ['This station has slack waters and greatest speeds only.', 'canvas']),
    ('a week past the file', {'station': BOSTON, 'date': '2199-01-01'}, ['The constants reach from 1 January', 'by the clock of America/New_York', 'refused: out of years']),
    ('a station that is not there', {'station': 'Atlantis'}, ['There is no station “Atlantis” here. Look for a part of its name above.', 'refused: no station']),
    ('a name that is mistyped', {'station': 'Bostn Harbor'}, ['There is no station “Bostn Harbor” here', f'<span>{BOSTON} <']),
    ('a sill that is no number', {'station': BOSTON, 'sill': 'deep'}, ['The sill or limit, “deep”, is not a number', 'words: pair']),
    ('a day that is not there', {'station': BOSTON, 'date': '2026-13-45'}, ['The date, “2026-13-45”, is not a day of the calendar', 'Leave out what is wrong']),
    ('a year that is not there', {'station': BOSTON, 'year': '12345'}, ['The year, “12345”, is not a year from 0002 to 9998']),
    ('units that are not there', {'station': BOSTON, 'units': 'fathoms'}, ['The units, “fathoms”, are neither “feet” nor “metres”']),
]
# What a page must not have: the amber note of a refusal.
CALM = ['turns only', 'turns of a current only']

# Comments of a station as XTide's files have them, an element of its XML, and the notes that these yield.
COMMENTS = """#
# BEGIN HOT COMMENTS
# country: USA
# source: CO-OPS Metadata API
# station_id_context: NOS
# station_id: 8443970
# datum: Unknown
# !longitude: -71.0503
# !latitude: 42.3539
"""
ELEMENT = """<subordinatestation name="Pier &amp; Dock" latitude="95" longitude="-70.17" timezone=":America/New_York" country="USA"
  station_id_context="NOS" station_id="8417941" reference="Boston"></subordinatestation>"""
NOTED = {
    BOSTON: {'zone': 'America/New_York', 'latitude': 42.3539, 'longitude': -71.0503, 'country': 'USA', 'source': 'CO-OPS Metadata API',
             'identifier': 'NOS 8443970'},
    SEATTLE: {'zone': 'America/Los_Angeles'},
    'Pier & Dock': {'zone': 'America/New_York', 'country': 'USA', 'identifier': 'NOS 8417941'},
}


class PageTrial:
    """The trials of the page, for a class with a site, the words of the command line, `say` and `program`."""

    BOSTON, SHOWN = BOSTON, SHOWN

    def tab(self, *size):
        return Tab(self.site, *size)

    def address(self, **values):
        return f'?{urllib.parse.urlencode({"station": BOSTON, **values})}'

    def pages(self):
        with Tab(self.site, 1280, 900) as tab:
            document = tab.open('tests.html', 'document.getElementById("result").textContent !== "running"')
        counts = re.search(r'\d+ passed, \d+ failed', document)
        self.say(bool(counts) and counts[0].endswith(' 0 failed') and not tab.complaints, f'tests.html: {counts[0] if counts else "no result"}')
        for complaint in tab.complaints + re.findall('<li class="failed">(.*?)</li>', document):
            print(f'     {complaint}')

    def opened(self):
        """The page's texts for several questions."""
        with Tab(self.site, 1280, 900) as tab:
            for about, query, wanted in OPENED:
                tab.open(f'?{urllib.parse.urlencode(query)}', SHOWN)
                # The list of stations comes after the answer.
                tab.until(f'{json.dumps(wanted)}.every(text => document.documentElement.outerHTML.includes(text))', 10)
                document = tab.value('document.documentElement.outerHTML')
                missing = [text for text in wanted if text not in document]
                if about in CALM and 'class="note"' in document:
                    missing.append('calm')
                # A refusal's status is no fault of the page, but the browser reports it.
                faults = [line for line in tab.complaints if 'status of 4' not in line]
                self.say(not missing and not faults, f'page: {about}{"".join(f"; lacks {text}" for text in missing)}{"".join(faults)}')

    def yeared(self):
        """The year's page: a limit, metres and 12 hours, and years that aren't there."""
        shown = 'document.querySelector("#sheets[aria-busy=false]") !== null'
        for query, wanted in (({'station': RACE, 'year': '2027', 'sill': '2'}, ['Within 2 kn', 'limit of']),
                              ({'station': BOSTON, 'year': '2027', 'sill': '1.2', 'units': 'metres', 'hours': '12'}, ['Above 1.2 m', 'converted from feet']),
                              ({'station': BOSTON, 'year': '2027', 'sill': '40'}, ['Above 40 ft: at no time of this year', 'January 2027 <span>UTC-05:00<']),
                              ({'station': BOSTON, 'year': '2027', 'sill': '-40'}, ['Above -40 ft: all of this year']),
                              ({'station': 'Atlantis', 'year': '2027'}, ['There is no station “Atlantis” here', 'Look for a part of its name.']),
                              ({'year': '2027'}, ['Choose a station on the page of the week.']),
                              ({'station': '', 'year': '2027'}, ['Choose a station on the page of the week.']),
                              ({'station': BOSTON, 'year': '2027', 'paper': 'A5'}, ['The paper, “A5”, is neither “A4” nor “Letter”']),
                              ({'station': BOSTON, 'year': '12345'}, ['The year, “12345”, is not a year']),
                              ({'station': BOSTON, 'year': '2027', 'date': '2026-13-45'}, ['The date, “2026-13-45”, is not a day'])):
            with Tab(self.site, 1280, 900) as tab:
                document = tab.open(f'year.html?{urllib.parse.urlencode(query)}', shown)
                missing = [text for text in wanted if text not in document]
                faults = [line for line in tab.complaints if 'status of 4' not in line]
                self.say(not missing and not faults, f'year: {query}{"".join(f"; lacks {text}" for text in missing)}{"".join(faults)}')

    def checked(self):
        """The buttons that open the checker: of a sill, and of both sides of a limit."""
        ended = 'location.pathname.endsWith("/check.html") && document.getElementById("answer")?.hidden === false'
        for station, sill, marks in ((BOSTON, '4', ['4']), (RACE, '2', ['2', '-2'])):
            for button, mark in enumerate(marks):
                with Tab(self.site, 1280, 900) as tab:
                    tab.open(self.address(station=station, date='2025-10-30', sill=sill), SHOWN)
                    tab.value(f'document.querySelectorAll("#check button")[{button}].click()')
                    tab.until(ended)
                    span = tab.value('Object.fromEntries([...new URLSearchParams(location.search)].filter(([key]) => key === "begin" || key === "end"))')
                    shown = tab.value('document.getElementById("lines").textContent')
                wanted = self.program('predict', station=station, mark=mark, zone='@/usr/share/zoneinfo/America/New_York', **(span or {}))
                self.say(shown == f'Accepted\n{wanted}' and not tab.complaints, f'checker: {station[:6]} with a mark at {mark}: {wanted.count(chr(10)) - 1} events {tab.complaints}')

    def pressed(self):
        """The page by keys alone, as wide as a telephone."""
        with Tab(self.site) as tab:
            tab.open('', 'true')
            seen = [tab.until('document.querySelectorAll("#found a, #regions summary").length > 1')]
            tab.press('Tab', 9)
            tab.press('Tab', 9)
            seen.append(tab.value('document.activeElement.id') == 'words')
            tab.call('Input.insertText', text='harbor massa BOST')
            for _ in range(50):
                tab.press('ArrowDown', 40)
                if tab.value('document.activeElement.textContent').startswith(f'tide{BOSTON}'):
                    break
            seen.append(tab.value('document.activeElement.textContent').startswith(f'tide{BOSTON}'))
            tab.press('Enter', 13)
            seen.append(tab.until('location.search.includes("station=Boston") && document.querySelector("#curve canvas") !== null'))
            for _ in range(20):
                if tab.value('document.activeElement.name') != 'sill':
                    tab.press('Tab', 9)
            tab.call('Input.insertText', text='4,25')
            tab.press('Enter', 13)
            seen.append(tab.until('document.querySelector("#sheet h3").textContent === "Events, and times above the sill at 4.25 feet"'))
            seen.append('sill=4' in tab.value('location.search'))
            tab.value('document.getElementById("chart").scrollIntoView()')
            tab.call('Input.dispatchMouseEvent', type='mouseMoved', x=200, y=200)
            seen.append(tab.until('document.getElementById("reading").textContent.endsWith(" feet")'))
            width = tab.value('document.documentElement.scrollWidth')
            tab.value('scrollTo(0, 0)')
            form = tab.value('document.getElementById("answer").getBoundingClientRect().top / innerHeight')
            tab.value('history.back()')
            seen.append(tab.until('document.querySelector("#sheet h3").textContent === "Events"'))
            elsewhere = [url for url in tab.requests if not url.startswith((tab.origin, 'data:'))]
        steps = f'{sum(map(bool, seen))} of {len(seen)} steps {"" if all(seen) else seen}'
        self.say(all(seen) and width <= 360, f'page by keys alone: {steps}, {width} of 360 points wide')
        self.say(form < 0.4, f'the form fills {form:.0%} of a telephone\'s first screen')
        self.say(not elsewhere, f'{len(tab.requests)} requests of the page, {len(elsewhere)} to other hosts {elsewhere[:3]}')

    def typed(self):
        """A date that is typed digit by digit opens no page of a year such as 0002, and keeps its place in the field."""
        with Tab(self.site, 1280, 900) as tab:
            tab.open(self.address(date='2025-06-01'), f'{SHOWN} && document.querySelector("#near a") !== null')
            before = tab.value('history.length')
            tab.value('document.querySelector("[name=date]").focus()')
            for digit in '07152027':
                for kind, more in (('keyDown', {'text': digit}), ('keyUp', {})):
                    tab.call('Input.dispatchKeyEvent', type=kind, key=digit, windowsVirtualKeyCode=ord(digit), **more)
            shown = tab.until('new URLSearchParams(location.search).get("date") === "2027-07-15" && document.querySelector("#answer[aria-busy=false]") !== null', 10)
            steps = tab.value('history.length') - before
        self.say(shown and steps <= 2, f'a date that is typed: {steps} steps of the history')

    def extracted(self):
        """The notes that tools/stations_from_xtide.py makes, with and without comments."""
        file, xml = self.site.folder / 'noted.txt', self.site.folder / 'noted.xml'
        text = (TOP / 'examples/harbours.txt').read_text()
        file.write_text(text.replace(f'\n{BOSTON}\n', f'\n{COMMENTS}{BOSTON}\n'))
        xml.write_text(ELEMENT)
        run = subprocess.run([sys.executable, TOP / 'tools/stations_from_xtide.py', f'file={file}', f'xml={xml}'], capture_output=True, text=True)
        notes = json.loads(run.stdout)
        wrong = [name for name, wanted in NOTED.items() if notes.get(name) != wanted]
        self.say(not wrong and len(notes) == 8, f'stations_from_xtide.py: {run.stderr.strip()}{"".join(f"; wrong: {name}" for name in wrong)}')

    def noted(self):
        """The start page by name, a station found by its identifier, and the page without notes."""
        with Tab(self.site, 1280, 900) as tab:
            tab.open('', 'document.querySelectorAll("#found a, #regions summary").length > 1')
            names = tab.value('[...document.querySelectorAll("#found a > span:nth-child(2), #regions summary")].map(it => it.firstChild.textContent)')
            # Numbers within a name count as numbers, so only first words are compared. Stations without a region are the last.
            words = [re.match(r'\W*(\w+)', name)[1].lower() for name in names if name != 'Elsewhere ']
            self.say(words == sorted(words), f'start page: {len(names)} stations or regions by name, from {names[0]}')
            tab.value('document.getElementById("words").focus()')
            tab.call('Input.insertText', text='9447130')
            found = tab.until('document.querySelectorAll("#found a").length === 1') and tab.value('document.querySelector("#found a").textContent')
            self.say(bool(found) and SEATTLE in found, f'found by 9447130: {found}')
            notes = self.site.folder / 'html' / 'stations.json'
            text = notes.read_text()
            notes.unlink()
            document = tab.open(f'?{urllib.parse.urlencode({"station": SEATTLE, "date": "2025-06-01"})}', SHOWN)
            notes.write_text(text)
        self.say('Times in EDT (UTC-4), the clock of America/New_York' in document and 'canvas' in document and '47.6026' not in document,
                 'page: without the notes it has the browser\'s clock')

    def fresh(self):
        """What a first view loads, in which order, and what the next one takes from the browser's store."""
        with Tab(self.site, 1280, 900) as tab:
            tab.call('Network.clearBrowserCache')
            tab.open(self.address(), f'{SHOWN} && document.querySelector("#near a") !== null')
            first, asked = tab.bytes, [url.split('/')[-1].split('?')[0] for url in tab.requests]
            curve = tab.value('performance.getEntriesByType("resource").find((it) => it.name.includes("/heights")).responseEnd')
            tab.bytes = 0
            tab.open(self.address(), f'{SHOWN} && document.querySelector("#near a") !== null')
        again = [line.split('"')[2].split()[0] for line in (self.site.folder / 'access.log').read_text().splitlines() if '/stations.txt ' in line][-1]
        later = asked.index('stations.txt') > asked.index('heights') > asked.index('stations.json')
        self.say(first < 350_000 and later, f'a first view of {len(asked)} requests loads {first / 1000:.0f} kB, the curve after {curve:.0f} ms and the list of stations after it')
        self.say(again == '304' and tab.bytes < first / 2, f'a second view loads {tab.bytes / 1000:.0f} kB, and the list of stations not again')

    def steady(self):
        """The next week takes the place of this one without a jump, keeps the keyboard's place, and is told to a screen reader."""
        with Tab(self.site, 1280, 500) as tab:
            tab.open(self.address(date='2025-06-01', sill='4'), f'{SHOWN} && document.querySelector("#near a") !== null')
            tab.value('''window.tops = new Set(); scrollTo(0, 250); document.querySelector("[name=later]").focus({ preventScroll: true });
                (function look() { tops.add(Math.round(document.getElementById("sheet").getBoundingClientRect().top)); requestAnimationFrame(look); })()''')
            tab.value('document.querySelector("[name=later]").click()')
            changed = tab.until('location.search.includes("2025-06-08") && document.getElementById("about").textContent.includes("8 June 2025")')
            tab.until('document.querySelector("#answer[aria-busy=false]") !== null')
            tops, focused = tab.value('[...tops]'), tab.value('document.activeElement.name')
            said = tab.value('document.getElementById("status").textContent')
        self.say(changed and max(tops) - min(tops) <= 1 and focused == 'later', f'the next week moves the tables by {max(tops) - min(tops)} points')
        self.say('Week from Sunday, 8 June 2025' in said or 'Week from Sunday 8 June 2025' in said, f'told to a screen reader: {said}')

    def labelled(self):
        """Each control has a name, and each table has heads."""
        roles = {'textbox', 'searchbox', 'combobox', 'button', 'link', 'radio', 'Date', 'DisclosureTriangle'}
        nameless, tables = [], []
        with Tab(self.site, 1280, 900) as tab:
            tab.call('Accessibility.enable')
            for view in ('week', 'month'):
                tab.open(self.address(date='2025-06-01', sill='4', view=view), f'{SHOWN} && document.querySelector("#near a") !== null')
                tab.value('document.querySelectorAll("details").forEach(it => { it.open = true; })')
                nodes = tab.call('Accessibility.getFullAXTree')['nodes']
                nameless += [node['role']['value'] for node in nodes if not node.get('ignored') and node['role']['value'] in roles and not node.get('name', {}).get('value')]
                tables += tab.value('[...document.querySelectorAll("#sheet table")].map(it => it.querySelectorAll("th").length > 0)')
        self.say(not nameless and all(tables), f'controls without a name: {len(nameless)} {nameless[:3]}; {sum(map(bool, tables))} of {len(tables)} tables have heads')

    def weeks(self):
        """A week prints with its seventh day, on two papers, upright and lying, from windows of three widths."""
        query = urllib.parse.urlencode({'station': BOSTON, 'date': '2025-06-01', 'sill': '4'})
        for width in (1280, 1920, 360):
            with Tab(self.site) as tab:
                tab.resize(width, 900, mobile=width == 360)
                tab.open(f'?{query}', SHOWN)
                tab.value(MEASURE)
                before = tab.value('document.querySelector("#curve canvas").clientWidth')
                for (paper, inches), landscape in itertools.product(PAPERS.items(), (False, True)):
                    sheet = self.site.folder / 'week.pdf'
                    tab.print_to(sheet, inches, landscape)
                    first, last, points = curve_columns(sheet)
                    curve, text = tab.value('window.measured')
                    name = f'{paper} {"landscape" if landscape else "portrait"} from {width} points'
                    self.say(first < 0.15 * points and last > 0.92 * points and curve <= text + 1,
                             f'week on {name}: the curve from {first / points:.0%} to {last / points:.0%} of the paper')
                    self.picture(sheet, f'week-{name}')
                after = tab.value('document.querySelector("#curve canvas").clientWidth')
                self.say(before == after, f'after printing the curve is {after} points wide, as before')

    def picture(self, sheet, name):
        if 'pictures' in self.words:
            name = re.sub(r'\W+', '-', name)
            shutil.copy(sheet, pathlib.Path(self.words['pictures']) / f'{name}.pdf')

    def sheets(self):
        """A month prints on one sheet, of two papers."""
        sheet = self.site.folder / 'month.pdf'
        with Tab(self.site, 1280, 900) as tab:
            for query, (paper, inches) in itertools.product(self.months(), PAPERS.items()):
                tab.open(f'?{urllib.parse.urlencode({**query, "view": "month"})}', SHOWN)
                tab.print_to(sheet, inches, landscape=False)
                count = len(re.findall(rb'/Type\s*/Page\b', sheet.read_bytes()))
                self.say(count == 1, f'month of {query["station"]}{" with a sill" if "sill" in query else ""} on {paper}: {count} page')
                self.picture(sheet, f'month-{query["station"][:20]}-{query.get("sill", "")}-{paper}')

    def months(self):
        names = self.program('stations').splitlines()
        current = next((line.split(' ', 2)[2] for line in names if line.startswith('Ref knots ')), None)
        boston = {'station': BOSTON, 'date': '2025-10-01'}
        currents = [{'station': current, 'date': '2025-10-01'}, {'station': current, 'date': '2025-10-01', 'sill': '1'}] if current else []
        return [boston, {**boston, 'sill': '4'}, *currents]

    def pictured(self):
        boston = {'station': BOSTON, 'date': '2025-06-01', 'sill': '4'}
        current = next((query for query in self.months() if query['station'] != BOSTON), boston)
        for name, size, query in [('tide-with-sill', '1100,1250', boston), ('current', '1100,1150', {**current, 'date': '2025-06-01'}),
                                  ('telephone', '500,1500', boston)]:
            self.site.browse(f'?{urllib.parse.urlencode(query)}', f'--window-size={size}', '--hide-scrollbars',
                             f'--screenshot={pathlib.Path(self.words["pictures"]).resolve() / name}.png')
