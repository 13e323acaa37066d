// The texts of folders (Tahoe-LAFS's dirnodes document, for folders that can't change): entries of a name, a read cap,
// an empty write cap and metadata in JSON, in strictly rising order of the names' bytes.

import { parseCap } from './caps.js';
import { Told } from './faults.js';
import { bytewise, joined, netstring, netstringAt, utf8 } from './octets.js';

const NO_FOLDER = 'What this cap names is no folder: its bytes are none’s.';
const MOST_LEVELS = 100;

/** Half of a pair of UTF-16, which is no character. */
const LONE = /\p{Surrogate}/u;
/** Whether a text is one of whole characters; a file's name need not be. */
export const isText = text => !LONE.test(text);

/** The netstrings that bytes are, one after the other. */
function netstringsIn(bytes) {
  const found = [];
  for (let at = 0; at < bytes.length;) {
    const [text, next] = netstringAt(bytes, at) || [];
    if (!text) throw new Told(NO_FOLDER);
    found.push(text);
    at = next;
  }
  return found;
}

/** Whether a JSON text nests at most 100 levels, and each number in it is whole and has 64 bits, signed or not. */
function isWithinBounds(json) {
  const bare = json.replace(/"(?:[^"\\]|\\.)*"/g, '');
  let level = 0, most = 0;
  for (const [mark] of bare.matchAll(/[[\]{}]/g)) {
    level += mark === '[' || mark === '{' ? 1 : -1;
    most = Math.max(most, level);
  }
  const isWhole = number => /^-?[0-9]+$/.test(number) && number !== '-0' && BigInt(number) >= -(1n << 63n)
    && BigInt(number) < 1n << 64n;
  return most <= MOST_LEVELS && (bare.match(/-?[0-9][0-9.eE+-]*/g) || []).every(isWhole);
}

/** The object that metadata are; anything else throws. */
function metadataIn(json) {
  const metadata = JSON.parse(json, (key, value) => {
    if (!isText(key) || typeof value === 'string' && !isText(value)) throw new Told(NO_FOLDER);
    return value;
  });
  const isObject = metadata !== null && typeof metadata === 'object' && !Array.isArray(metadata);
  if (!isObject || !isWithinBounds(json)) throw new Told(NO_FOLDER);
  return metadata;
}

/** The child that an entry's bytes tell; anything else throws. */
function readEntry(bytes) {
  const strict = new TextDecoder('utf-8', { fatal: true, ignoreBOM: true }), parts = netstringsIn(bytes);
  if (parts.length !== 4 || parts[2].length !== 0) throw new Told(NO_FOLDER);
  const [name, cap, , metadataText] = parts.map(part => strict.decode(part));
  const child = { name, bytes: parts[0], cap: parseCap(cap), metadataText, metadata: metadataIn(metadataText) };
  if (name !== name.normalize('NFC') || child.cap.form === 'verify') throw new Told(NO_FOLDER);
  return child;
}

/** The children that a folder's bytes tell, in their order; bytes that are no folder's are refused in words. */
export function readFolder(text) {
  let before = new Uint8Array(0);
  return netstringsIn(text).map(entry => {
    let child;
    try {
      child = readEntry(entry);
    } catch {
      throw new Told(NO_FOLDER);
    }
    if (bytewise(before, child.bytes) >= 0) throw new Told(NO_FOLDER);
    before = child.bytes;
    return child;
  });
}

/** The bytes of the folder that a gateway makes of children: their names in NFC, caps and metadata. */
export function folderText(children) {
  const field = text => netstring(utf8(text));
  const entry = ({ bytes, cap, metadata }) =>
    netstring(joined([netstring(bytes), field(cap.text), field(''), field(JSON.stringify(metadata))]));
  const named = children.map(child => ({ ...child, bytes: utf8(child.name) }));
  return joined(named.sort((a, b) => bytewise(a.bytes, b.bytes)).map(entry));
}

/** The JSON of which a gateway makes a folder. It is joined by hand: an object would move names that are numbers. */
export function folderJson(children) {
  const members = children.map(({ name, cap, metadata }) =>
    JSON.stringify(name) + ':' + JSON.stringify([cap.dir ? 'dirnode' : 'filenode', { ro_uri: cap.text, metadata }]));
  return '{' + members.join(',') + '}';
}
