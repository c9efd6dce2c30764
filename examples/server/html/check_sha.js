const words = text => Uint32Array.from(text.match(/\w{8}/g), word => parseInt(word, 16));
const ROUNDS = words(`428a2f9871374491b5c0fbcfe9b5dba53956c25b59f111f1923f82a4ab1c5ed5d807aa9812835b01243185be550c7dc3
  72be5d7480deb1fe9bdc06a7c19bf174e49b69c1efbe47860fc19dc6240ca1cc2de92c6f4a7484aa5cb0a9dc76f988da983e5152a831c66db00327c8bf597fc7c6e00bf3d5a79147
  06ca63511429296727b70a852e1b21384d2c6dfc53380d13650a7354766a0abb81c2c92e92722c85a2bfe8a1a81a664bc24b8b70c76c51a3d192e819d6990624f40e3585106aa070
  19a4c1161e376c082748774c34b0bcb5391c0cb34ed8aa4a5b9cca4f682e6ff3748f82ee78a5636f84c878148cc7020890befffaa4506cebbef9a3f7c67178f2`);
const schedule = new Uint32Array(64);
const turn = (word, by) => word >>> by | word << 32 - by;

/** Mixes the 64 bytes at a place into the state. */
function mix(state, bytes, at) {
  for (let i = 0; i < 64; i += 1) {
    const j = at + 4 * i, old = schedule[i - 15], late = schedule[i - 2];
    schedule[i] = i < 16 ? bytes[j] << 24 | bytes[j + 1] << 16 | bytes[j + 2] << 8 | bytes[j + 3]
      : schedule[i - 16] + (turn(old, 7) ^ turn(old, 18) ^ old >>> 3) + schedule[i - 7] + (turn(late, 17) ^ turn(late, 19) ^ late >>> 10);
  }
  let [a, b, c, d, e, f, g, h] = state;
  for (let i = 0; i < 64; i += 1) {
    const one = h + (turn(e, 6) ^ turn(e, 11) ^ turn(e, 25)) + (e & f ^ ~e & g) + ROUNDS[i] + schedule[i];
    const two = (turn(a, 2) ^ turn(a, 13) ^ turn(a, 22)) + (a & b ^ a & c ^ b & c);
    [h, g, f, e, d, c, b, a] = [g, f, e, d + one | 0, c, b, a, one + two | 0];
  }
  [a, b, c, d, e, f, g, h].forEach((word, i) => { state[i] += word; });
}

/** The SHA-256 of bytes in hexadecimal, by FIPS 180-4: a browser's own needs a secure context. */
export function sha256(bytes) {
  const state = words('6a09e667 bb67ae85 3c6ef372 a54ff53a 510e527f 9b05688c 1f83d9ab 5be0cd19'), whole = bytes.length - bytes.length % 64;
  const tail = new Uint8Array(bytes.length - whole < 56 ? 64 : 128);
  tail.set(bytes.subarray(whole));
  tail[bytes.length - whole] = 128;
  new DataView(tail.buffer).setBigUint64(tail.length - 8, BigInt(bytes.length) * 8n);
  for (let at = 0; at < whole; at += 64) mix(state, bytes, at);
  for (let at = 0; at < tail.length; at += 64) mix(state, tail, at);
  return [...state].map(word => word.toString(16).padStart(8, '0')).join('');
}

const SIZE = 64;
const isHexadecimal = text => /^[0-9a-f]+$/i.test(text);

/** A character as it was pasted. One that isn't ASCII has its number too, since it may look like another one or can't be seen. */
function characterText(character) {
  const number = `U+${character.codePointAt(0).toString(16).toUpperCase().padStart(4, '0')}`;
  return /[!-~]/.test(character) ? `“${character}”` : /[\p{L}\p{N}\p{P}\p{S}]/u.test(character) ? `“${character}” (${number})` : number;
}

/** What is wrong with words that have no SHA-256: about the word that is nearest to one, or about all of them together. */
function faultOf(words) {
  const isNear = word => [...word].filter(isHexadecimal).length >= SIZE / 2;
  const characters = [...(words.find(isNear) ?? words.join(''))], place = characters.findIndex(character => !isHexadecimal(character));
  if (place >= 0) return `This is no SHA-256: its character ${place + 1} is ${characterText(characters[place])}. A SHA-256 has only the digits 0 to 9 and the letters a to f.`;
  return characters.length === 0 ? '' : `This is no SHA-256: it has ${characters.length} characters. A SHA-256 has ${SIZE}.`;
}

/**
 * Each SHA-256 in a text that was pasted, such as lines of sha256sum, and what is wrong with a text that has none. Spaces and
 * colons may divide a SHA-256, and its letters may be upper-case.
 */
export function readSums(text) {
  const words = text.split(/[\s:=]+/).filter(Boolean), sums = [];
  let begun = '';
  for (const word of words) {
    if (!isHexadecimal(word) || begun.length + word.length > SIZE) begun = '';
    if (isHexadecimal(word)) begun += word.toLowerCase();
    if (begun.length === SIZE) sums.push(begun);
    if (begun.length >= SIZE) begun = '';
  }
  return { sums, fault: sums.length > 0 ? '' : faultOf(words) };
}
