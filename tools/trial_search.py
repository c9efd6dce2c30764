"""The trials of the page's search for tools/try_site: what the Enter key opens, over the names of XTide's file."""

import json

# What is typed, and the first part of the name that the Enter key opens. A name that the file lacks isn't tried.
RANKED = {
    'boston': 'Boston, Boston Harbor, Massachusetts', 'bost': 'Boston, Boston Harbor, Massachusetts',
    'boston harbor': 'Boston, Boston Harbor, Massachusetts', 'boston light': 'Boston Light, Boston Harbor, Massachusetts',
    '8443970': 'Boston, Boston Harbor, Massachusetts', 'portland': 'Portland, Casco Bay, Maine',
    'portland maine': 'Portland, Casco Bay, Maine', 'portland oregon': 'Portland, Morrison Street Bridge, Oregon',
    'portland head light': 'Portland Head Light, Casco Bay, Maine', 'san francisco': 'San Francisco, San Francisco Bay, California',
    'san francisco bar': 'San Francisco Bar, California', 'san diego': 'San Diego, San Diego Bay, California',
    'los angeles': 'Los Angeles (outer harbor), California', 'new york': 'The Battery, New York Harbor, New York',
    'battery': 'The Battery, New York Harbor, New York', 'the battery': 'The Battery, New York Harbor, New York',
    'seattle': 'Seattle, Puget Sound, Washington', 'key west': 'Key West, Florida', 'miami': 'Miami, Miamarina, Biscayne Bay, Florida',
    'miami beach': 'Miami Beach (city pier), Florida', 'honolulu': 'Honolulu, Honolulu Harbor, Oahu Island, Hawaii',
    'galveston pier': 'Galveston Pier 21, Galveston Channel, Texas', 'galveston': 'Galveston Pier 21, Galveston Channel, Texas',
    'hilo': 'Hilo, Hilo Bay, Kuhio Bay, Hawaii Island, Hawaii', 'pago pago': 'Pago Pago, American Samoa', 'juneau': 'Juneau, Gastineau Channel, Stephens Pass, Alaska',
    'anchorage': 'Anchorage, Knik Arm, Cook Inlet, Alaska', 'norfolk': 'Norfolk, Elizabeth River, Virginia',
    'baltimore': 'Baltimore (Fort McHenry), Maryland', 'philadelphia': 'Philadelphia (USCG Station), Delaware River, Pennsylvania',
    'sandy hook': 'Sandy Hook, New Jersey', 'monterey': 'Monterey, Monterey Harbor, California', 'cape may canal': 'Cape May Canal, Cape May, Delaware Bay, New Jersey',
    'port townsend': 'Port Townsend (Point Hudson), Admiralty Inlet, Washington', 'bar harbor': 'Bar Harbor, Frenchman Bay, Maine',
    'woods hole': 'Woods Hole, Buzzards Bay, Massachusetts', 'newport': 'Newport, Narragansett Bay, Rhode Island',
    'providence': 'Providence, State Pier no.1, Narragansett Bay, Rhode Island', 'charleston': 'Charleston, Cooper River entrance, South Carolina',
    'savannah': 'Savannah (Bull Street), Georgia', 'fort pulaski': 'Fort Pulaski, Savannah River entrance, Georgia',
    'saint augustine': 'St. Augustine, city dock, Florida', 'pearl harbor': 'Pearl Harbor, Ford Island Ferry Dock, Oahu Island, Hawaii',
    'nantucket': 'Nantucket, Nantucket Island, Nantucket Island, Massachusetts', 'gloucester harbor': 'Gloucester Harbor, Massachusetts',
    'deception pass': 'Deception Pass (Narrows) (Depth 17.6ft), Rosario Strait, Washington Current',
    'hell gate': 'Hell Gate, Wards Island, East River, New York',
    'bostn': 'Boston, Boston Harbor, Massachusetts', 'seatle': 'Seattle, Puget Sound, Washington', 'honalulu': 'Honolulu, Honolulu Harbor, Oahu Island, Hawaii',
    'galvestno': 'Galveston Pier 21, Galveston Channel, Texas', 'sanfrancisco': 'San Francisco, San Francisco Bay, California',
    'charlston': 'Charleston, Cooper River entrance, South Carolina', 'savanah': 'Savannah (Bull Street), Georgia',
    'key wset': 'Key West, Florida', 'batery new york': 'The Battery, New York Harbor, New York',
}

# The name of each first result, by the page's own functions over the lists that are served.
SEARCH = """Promise.all(['search.js', 'stations.js', 'replies.js'].map(file => import(`${location.origin}/${file}`))).then(async ([search, stations, replies]) => {
  const list = stations.withNotes(stations.readStations(await replies.readList()), await replies.readNotes());
  return %s.map(text => search.searchStations(list, text).found[0]?.name ?? '');
})"""


class SearchTrial:
    """The trials of the search, for a class with a site, `say` and `program`."""

    def ranked(self):
        lines = self.program('stations').splitlines()
        names = {name for name in RANKED.values() if any(f' {name}' in line for line in lines)}
        asked = {text: name for text, name in RANKED.items() if name in names}
        with self.tab(1280, 900) as tab:
            tab.open('tests.html', 'true')
            found = tab.value(SEARCH % json.dumps(list(asked)))
        wrong = [f'{text}: {first}' for (text, name), first in zip(asked.items(), found) if first != name]
        self.say(not wrong, f'search: {len(asked)} of {len(RANKED)} names are here, {len(wrong)} of them open another station {wrong[:3]}')

    def started(self):
        """The start page: stations seen last, regions, a place, and what is mistyped."""
        with self.tab(1280, 900) as tab:
            tab.open(self.address(), self.SHOWN)
            tab.open('', 'document.querySelector("#seen a") !== null')
            seen = [tab.value('document.querySelector("#seen a > span:nth-child(2)").firstChild.textContent') == self.BOSTON]
            count = tab.value('document.querySelectorAll("#regions details").length')
            if count:
                tab.value('[...document.querySelectorAll("#regions details")].find(it => it.textContent.startsWith("Massachusetts")).open = true')
                seen.append(tab.until(f'document.querySelector("#regions").textContent.includes({json.dumps(self.BOSTON)})'))
            for text, wanted in (('42.35 -71.05', 'nearest stations to 42.3500° N, 71.0500° W'), ('bostn', 'No station has “bostn”. Near it:'),
                                 ('xyzzy', 'or a name near it')):
                tab.value('document.getElementById("words").value = ""; document.getElementById("words").focus()')
                tab.call('Input.insertText', text=text)
                seen.append(tab.until(f'document.getElementById("count").textContent.includes({json.dumps(wanted)})', 5))
                if text != 'xyzzy':
                    seen.append(self.BOSTON in tab.value('document.querySelector("#found a").textContent'))
            tab.value('document.getElementById("words").value = ""; document.getElementById("words").dispatchEvent(new Event("input", { bubbles: true }))')
            tab.value('document.getElementById("forget").click()')
            seen.append(tab.value('document.getElementById("seen").hidden'))
        self.say(all(seen), f'start page: {count} regions, {sum(map(bool, seen))} of {len(seen)} steps {"" if all(seen) else seen}')

    def located(self):
        """The place of the browser is asked for by a button, and never without it."""
        with self.tab(1280, 900) as tab:
            tab.call('Emulation.setGeolocationOverride', latitude=42.36, longitude=-71.06, accuracy=10)
            tab.call('Browser.grantPermissions', permissions=['geolocation'], origin=tab.origin.rstrip('/'))
            tab.open('', 'document.getElementById("here").hidden === false')
            before = tab.value('document.getElementById("words").value')
            tab.value('document.getElementById("here").click()')
            found = tab.until(f'document.querySelector("#found a")?.textContent.includes({json.dumps(self.BOSTON)}) && document.getElementById("words").value === "42.3600 -71.0600"', 10)
        self.say(before == '' and found, 'the button asks the browser for its place, and lists the stations near it')
