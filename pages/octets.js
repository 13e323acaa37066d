// Bytes, netstrings and base32.

/** The bytes of a text in UTF-8. */
export const utf8 = text => new TextEncoder().encode(text);

/** The bytes of all parts, one after the other. */
export function joined(parts) {
  const all = new Uint8Array(parts.reduce((sum, part) => sum + part.length, 0));
  let at = 0;
  for (const part of parts) {
    all.set(part, at);
    at += part.length;
  }
  return all;
}

/** Whether two byte strings are the same. */
export const same = (a, b) => a.length === b.length && a.every((byte, i) => byte === b[i]);

/** The order of two byte strings: below 0, 0 or above 0. */
export function bytewise(a, b) {
  for (let i = 0; i < Math.min(a.length, b.length); i++) if (a[i] !== b[i]) return a[i] - b[i];
  return a.length - b.length;
}

/** The number of bytes in decimal, `:`, the bytes and `,`. */
export const netstring = bytes => joined([utf8(bytes.length + ':'), bytes, utf8(',')]);

/** The bytes of the netstring at a place, and the place behind it; null where there is none. */
export function netstringAt(bytes, at) {
  // a length that counts has at most nine digits, so no colon is looked for behind these
  const head = bytes.subarray(at, at + 10), colon = head.indexOf(58);
  const digits = String.fromCharCode(...head.subarray(0, Math.max(colon, 0)));
  if (!/^(0|[1-9][0-9]*)$/.test(digits)) return null;
  const from = at + colon + 1, to = from + Number(digits);
  return bytes[to] === 44 ? [bytes.subarray(from, to), to + 1] : null;
}

const LETTERS = 'abcdefghijklmnopqrstuvwxyz234567';

/** The bytes that lower-case base32 without padding spells; null where it spells none (RFC 4648, section 6). */
export function fromBase32(text) {
  const bytes = new Uint8Array(Math.floor(text.length * 5 / 8));
  let bits = 0, held = 0, at = 0;
  for (const letter of text) {
    const value = LETTERS.indexOf(letter);
    if (value < 0) return null;
    held = (held << 5 | value) & 0xfff;
    bits += 5;
    if (bits >= 8) {
      bits -= 8;
      bytes[at++] = held >> bits & 255;
    }
  }
  // a letter too many, or bits behind the last byte that aren't 0, would give one byte string two texts
  const loose = held & (1 << bits) - 1;
  return bits >= 5 || loose !== 0 ? null : bytes;
}

/** Bytes in lower-case base32 without padding. */
export function toBase32(bytes) {
  let text = '', bits = 0, held = 0;
  for (const byte of bytes) {
    held = (held << 8 | byte) & 0xfff;
    bits += 8;
    while (bits >= 5) {
      bits -= 5;
      text += LETTERS[held >> bits & 31];
    }
  }
  return bits > 0 ? text + LETTERS[held << 5 - bits & 31] : text;
}
