import { lineOf, readPoints } from './events.js';
import { answerOf } from './replies.js';

/** The lines of a reply that `tools/try_site` has put into replies.json, or why there are none. */
function listing({ status, type, body, zone }) {
  try {
    return readPoints(answerOf(status, type, body)).map(event => lineOf(event, zone)).join('\n');
  } catch (error) {
    return error.line;
  }
}

const replies = await (await fetch('replies.json')).json();
document.querySelector('pre').textContent = replies.map(listing).join('\n\n');
