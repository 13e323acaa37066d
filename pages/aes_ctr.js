// AES-128 (FIPS 197) in counter mode (SP 800-38A, section 6.5): by WebCrypto where it is there, else here.

import { subtle } from './sha256.js';

/** The field's product by x. */
const doubled = x => (x << 1 ^ (x & 128 ? 0x11b : 0)) & 255;

/** The S-box: the inverse modulo x^8 + x^4 + x^3 + x + 1, and the affine map. */
const SBOX = new Uint8Array(256);
// p runs through the powers of 3, and q through those of its inverse
for (let p = 1, q = 1, first = true; first || p !== 1; first = false) {
  p ^= doubled(p);
  q ^= q << 1; q ^= q << 2; q ^= q << 4; q &= 255;
  if (q & 128) q ^= 9;
  SBOX[p] = (q ^ (q << 1 | q >> 7) ^ (q << 2 | q >> 6) ^ (q << 3 | q >> 5) ^ (q << 4 | q >> 4) ^ 99) & 255;
}
SBOX[0] = 99;

/** SubBytes and MixColumns in one table for each row of a column. */
const MIX = Array.from({ length: 4 }, (_, row) => Uint32Array.from(SBOX, s => {
  const word = (doubled(s) << 24 | s << 16 | s << 8 | doubled(s) ^ s) >>> 0;
  return row ? (word >>> 8 * row | word << 32 - 8 * row) >>> 0 : word;
}));

/** The 44 words of a key's schedule. */
function roundKeys(key) {
  const w = new Uint32Array(44), view = new DataView(key.buffer, key.byteOffset);
  for (let i = 0; i < 4; i++) w[i] = view.getUint32(4 * i);
  for (let i = 4, round = 1; i < 44; i++) {
    let t = w[i - 1];
    if (i % 4 === 0) {
      t = (SBOX[t >>> 16 & 255] ^ round) << 24 | SBOX[t >>> 8 & 255] << 16 | SBOX[t & 255] << 8 | SBOX[t >>> 24];
      round = doubled(round);
    }
    w[i] = w[i - 4] ^ t;
  }
  return w;
}

/** A column of the last round, which mixes no columns. */
const lastColumn = (x, y, z, v, key) =>
  (SBOX[x >>> 24] << 24 | SBOX[y >>> 16 & 255] << 16 | SBOX[z >>> 8 & 255] << 8 | SBOX[v & 255]) ^ key;

/** The bytes and the keystream from its byte 0, without WebCrypto. */
function counterMode(key, bytes) {
  const w = roundKeys(key), out = new Uint8Array(bytes.length), [t0, t1, t2, t3] = MIX;
  for (let block = 0, at = 0; at < bytes.length; block++, at += 16) {
    let a = w[0], b = w[1], c = w[2], d = w[3] ^ block;
    for (let r = 4; r < 40; r += 4) {
      const e = t0[a >>> 24] ^ t1[b >>> 16 & 255] ^ t2[c >>> 8 & 255] ^ t3[d & 255] ^ w[r];
      const f = t0[b >>> 24] ^ t1[c >>> 16 & 255] ^ t2[d >>> 8 & 255] ^ t3[a & 255] ^ w[r + 1];
      const g = t0[c >>> 24] ^ t1[d >>> 16 & 255] ^ t2[a >>> 8 & 255] ^ t3[b & 255] ^ w[r + 2];
      d = t0[d >>> 24] ^ t1[a >>> 16 & 255] ^ t2[b >>> 8 & 255] ^ t3[c & 255] ^ w[r + 3];
      a = e; b = f; c = g;
    }
    const words = [lastColumn(a, b, c, d, w[40]), lastColumn(b, c, d, a, w[41]), lastColumn(c, d, a, b, w[42]),
      lastColumn(d, a, b, c, w[43])];
    for (let i = 0; i < 16 && at + i < bytes.length; i++) {
      out[at + i] = bytes[at + i] ^ words[i >> 2] >>> 24 - 8 * (i & 3);
    }
  }
  return out;
}

/** The bytes under a key of 16 bytes, from byte 0 of the keystream: less than 2^32 blocks of them. */
export async function encrypted(key, bytes) {
  if (!subtle) return counterMode(key, bytes);
  const handle = await subtle.importKey('raw', key, 'AES-CTR', false, ['encrypt']);
  const how = { name: 'AES-CTR', counter: new Uint8Array(16), length: 128 };
  return new Uint8Array(await subtle.encrypt(how, handle, bytes));
}
