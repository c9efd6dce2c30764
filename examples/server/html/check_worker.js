import { check } from './check_rules.js';
import { sha256 } from './check_sha.js';

self.onmessage = async ({ data }) => {
  const files = {}, sums = {};
  for (const [which, blob] of Object.entries(data)) {
    // Of a file that is longer than any may be, the length is enough. A file that can't be read is null.
    files[which] = blob.size > 400_000_000 ? { length: blob.size } : await blob.arrayBuffer().then(buffer => new Uint8Array(buffer), () => null);
    if (files[which] instanceof Uint8Array) sums[which] = sha256(files[which]);
  }
  let done = 0, told = 0;
  const report = total => minutes => {
    done += minutes;
    if (done < told + total / 100) return;
    told = done;
    postMessage({ part: done / total });
  };
  postMessage({ sums, answer: check(files, report) });
};
