// SHA-256 (FIPS 180-4) and the tagged hashes over it. Long texts go to the browser's own WebCrypto where it is there:
// over https, and on an address of this machine.

import { joined, netstring, utf8 } from './octets.js';

/** WebCrypto, where the browser gives it. */
export const subtle = globalThis.crypto && globalThis.crypto.subtle;

// The standard's constants are the first 32 bits of the fractions of roots of the first primes.
const PRIMES = [];
for (let n = 2; PRIMES.length < 64; n++) if (PRIMES.every(prime => n % prime !== 0)) PRIMES.push(n);
const fraction = x => (x - Math.floor(x)) * 4294967296 | 0;
const ROUNDS = Int32Array.from(PRIMES, prime => fraction(Math.cbrt(prime)));
const BEGIN = Int32Array.from(PRIMES.slice(0, 8), prime => fraction(Math.sqrt(prime)));

/** The standard's `ROTR`: 32 bits turned right. */
const turned = (x, by) => x >>> by | x << 32 - by;

/** Takes the 64 bytes at a place into the state; `w` is room for the schedule of 64 words. */
function hashBlock(state, bytes, at, w) {
  for (let i = 0; i < 16; i++, at += 4) {
    w[i] = bytes[at] << 24 | bytes[at + 1] << 16 | bytes[at + 2] << 8 | bytes[at + 3];
  }
  for (let i = 16; i < 64; i++) {
    const x = w[i - 15], y = w[i - 2];
    const low = turned(x, 7) ^ turned(x, 18) ^ x >>> 3, high = turned(y, 17) ^ turned(y, 19) ^ y >>> 10;
    w[i] = w[i - 16] + low + w[i - 7] + high | 0;
  }
  let [a, b, c, d, e, f, g, h] = state;
  for (let i = 0; i < 64; i++) {
    const t = h + (turned(e, 6) ^ turned(e, 11) ^ turned(e, 25)) + (e & f ^ ~e & g) + ROUNDS[i] + w[i] | 0;
    const u = (turned(a, 2) ^ turned(a, 13) ^ turned(a, 22)) + (a & b ^ a & c ^ b & c) | 0;
    h = g; g = f; f = e; e = d + t | 0; d = c; c = b; b = a; a = t + u | 0;
  }
  [a, b, c, d, e, f, g, h].forEach((word, i) => { state[i] += word; });
}

/** SHA-256 of bytes, 32 bytes. */
export function sha256(bytes) {
  const state = BEGIN.slice(), w = new Int32Array(64), whole = bytes.length & ~63;
  for (let at = 0; at < whole; at += 64) hashBlock(state, bytes, at, w);
  const left = bytes.length - whole, end = new Uint8Array(left < 56 ? 64 : 128), view = new DataView(end.buffer);
  end.set(bytes.subarray(whole));
  end[left] = 128;
  // the number of bits, which may have more than 32
  view.setUint32(end.length - 8, Math.floor(bytes.length / 536870912));
  view.setUint32(end.length - 4, bytes.length << 3 >>> 0);
  for (let at = 0; at < end.length; at += 64) hashBlock(state, end, at, w);
  const digest = new Uint8Array(32), out = new DataView(digest.buffer);
  state.forEach((word, i) => out.setInt32(4 * i, word));
  return digest;
}

const double = text => sha256(sha256(text));

/** From so many bytes on WebCrypto is faster, which answers later. */
const LONG = 2048;

/** `SHA-256(SHA-256(netstring(tag) ++ value))`. */
export async function tagged(tag, value) {
  const text = joined([netstring(utf8(tag)), value]);
  return subtle && text.length > LONG ? sha256(new Uint8Array(await subtle.digest('SHA-256', text))) : double(text);
}

/** The same of a short value, at once. */
export const taggedNow = (tag, value) => double(joined([netstring(utf8(tag)), value]));

/** The double hash of the netstrings of a tag and two values. */
export const pair = (tag, a, b) => double(joined([netstring(utf8(tag)), netstring(a), netstring(b)]));
