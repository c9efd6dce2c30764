/** The stations seen last, in this browser alone. Without storage there are none. */
const KEY = 'tide.seen', MOST = 8;

export function seenStations() {
  try {
    const names = JSON.parse(localStorage.getItem(KEY) ?? '[]');
    return Array.isArray(names) ? names.filter(name => typeof name === 'string') : [];
  } catch {
    return [];
  }
}

function keep(names) {
  try {
    localStorage.setItem(KEY, JSON.stringify(names));
  } catch {
    // A browser that keeps nothing shows none.
  }
}

export const noteSeen = name => keep([name, ...seenStations().filter(other => other !== name)].slice(0, MOST));

export const forgetSeen = () => keep([]);
