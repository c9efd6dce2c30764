const FIELD = /(?:"((?:[^"]|"")*)"|([^",\r\n]*))(,|\r?\n|$)/g;

export function readRows(text) {
  const rows = [];
  let row = [];
  for (const [all, quoted, plain, end] of text.matchAll(FIELD)) {
    if (all === '' && row.length === 0) break;
    row.push(quoted === undefined ? plain : quoted.replaceAll('""', '"'));
    if (end === ',') continue;
    rows.push(row);
    row = [];
  }
  return rows;
}

/** The records below a header, each with its fields by the header's names. */
export function readRecords(text) {
  const [header, ...rows] = readRows(text);
  return rows.map(row => Object.fromEntries(header.map((name, place) => [name, row[place]])));
}
