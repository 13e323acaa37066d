// The erasure code: GF(256) modulo x^8 + x^4 + x^3 + x^2 + 1, in which 2 generates all elements but 0. Block i of N
// belongs to the point 0 or 2^(i - 1), and at each byte the blocks are the values of one polynomial of degree below k.

/** Powers of 2, twice over so that a sum of two places needs no remainder, and each element's place among them. */
const POWERS = new Uint8Array(510), PLACES = new Uint8Array(256);
for (let i = 0, x = 1; i < 255; i++) {
  POWERS[i] = POWERS[i + 255] = x;
  PLACES[x] = i;
  x = x << 1 ^ (x & 128 ? 0x11d : 0);
}
const times = (a, b) => a && b ? POWERS[PLACES[a] + PLACES[b]] : 0;
const over = (a, b) => a ? POWERS[PLACES[a] + 255 - PLACES[b]] : 0;
const point = i => i === 0 ? 0 : POWERS[i - 1];

/** By Lagrange's formula: what primary block i counts for in block j. */
function factorOf(j, i, k) {
  let factor = 1;
  for (let m = 0; m < k; m++) {
    if (m !== i) factor = over(times(factor, point(j) ^ point(m)), point(i) ^ point(m));
  }
  return factor;
}

/** For each secondary block of N, and each primary block, the table of products with its factor. */
export function secondaryTables(k, n) {
  return Array.from({ length: n - k }, (_, j) => Array.from({ length: k }, (_, i) => {
    const factor = factorOf(k + j, i, k);
    return Uint8Array.from({ length: 256 }, (_, byte) => times(factor, byte));
  }));
}

/** The secondary block that has these tables: the sum of the primary blocks' products. */
export function secondaryBlock(primary, tables) {
  const block = new Uint8Array(primary[0].length);
  tables.forEach((table, i) => {
    const from = primary[i];
    for (let at = 0; at < block.length; at++) block[at] ^= table[from[at]];
  });
  return block;
}
