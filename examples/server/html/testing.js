const results = [];

/** Notes whether a value is as wanted, by its JSON. */
export function same(about, found, wanted) {
  const [one, other] = [found, wanted].map(value => JSON.stringify(value));
  results.push({ about, passed: one === other, reason: one === other ? '' : `: ${one} in place of ${other}` });
}

/** Shows the results in tests.html. */
export function report() {
  const failed = results.filter(({ passed }) => !passed).length;
  document.getElementById('result').textContent = `${results.length - failed} passed, ${failed} failed`;
  for (const { about, passed, reason } of results) {
    const line = document.createElement('li');
    line.className = passed ? 'passed' : 'failed';
    line.textContent = `${passed ? 'passed' : 'FAILED'} ${about}${reason}`;
    document.getElementById('tests').append(line);
  }
}
