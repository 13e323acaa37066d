// Caps: the texts that name files and folders. Who holds one may read what it names.

import { Told } from './faults.js';
import { fromBase32, toBase32 } from './octets.js';
import { taggedNow } from './sha256.js';

/** How the texts begin, how what follows is read, and whether a folder is named. */
const KINDS = [
  ['URI:CHK:', 'chk', false], ['URI:LIT:', 'lit', false],
  ['URI:DIR2-CHK:', 'chk', true], ['URI:DIR2-LIT:', 'lit', true],
  ['URI:CHK-Verifier:', 'verify', false], ['URI:DIR2-CHK-Verifier:', 'verify', true],
];

const MUTABLE = /^URI:(SSK|MDMF|DIR2|DIR2-MDMF)(-RO|-Verifier)?:/;

/** The fields of a cap's text; a text that is none is refused in words. */
export function parseCap(text) {
  const found = KINDS.find(([beginning]) => text.startsWith(beginning));
  if (!found) {
    throw new Told(MUTABLE.test(text)
      ? 'This cap names what can change. This gateway has files and folders alone that can’t.'
      : 'This is no cap. A cap begins like URI:CHK: or URI:DIR2-CHK:');
  }
  const [beginning, form, dir] = found, rest = text.slice(beginning.length);
  if (form === 'lit') {
    const bytes = fromBase32(rest);
    if (!bytes) throw new Told('This cap is damaged: what follows ' + beginning + ' is no base32.');
    return { text, form, dir, bytes, size: bytes.length };
  }
  return { text, form, dir, ...fieldsOf(rest) };
}

/** `key` is the cipher's key, or of a verify cap the storage index. */
function fieldsOf(text) {
  const fields = text.split(':');
  if (fields.length !== 5) {
    throw new Told('This cap is cut off or damaged: it has ' + fields.length + ' of 5 fields.');
  }
  const [key, ueb] = fields.slice(0, 2).map(fromBase32), [k, n, size] = fields.slice(2).map(Number);
  if (!key || !ueb || key.length !== 16 || ueb.length !== 32) {
    throw new Told('This cap is damaged: a field has a wrong letter or length.');
  }
  const plain = fields.slice(2).every(field => /^(0|[1-9][0-9]*)$/.test(field));
  if (!plain || !(1 <= k && k <= n && n <= 256) || BigInt(fields[4]) >= 1n << 64n) {
    throw new Told('This cap is damaged: a number is out of its range.');
  }
  return { key, ueb, k, n, size };
}

/** The text of the cap that verifies a cap's shares and reads nothing; null where the bytes stand in the cap. */
export function verifyCap(cap) {
  if (cap.form === 'lit') return null;
  if (cap.form === 'verify') return cap.text;
  const index = taggedNow('webgate_key_to_storage_index_v1', cap.key).subarray(0, 16);
  const rest = cap.text.split(':').slice(3);
  return [cap.dir ? 'URI:DIR2-CHK-Verifier' : 'URI:CHK-Verifier', toBase32(index), ...rest].join(':');
}

/** The text of the cap that names the same bytes as a file: a folder's text is stored as a file is. */
export const asFile = cap => cap.text.replace(/^URI:DIR2-/, 'URI:');
