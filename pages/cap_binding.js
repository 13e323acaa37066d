// Whether bytes are those that a cap was made for: they are encrypted, cut and coded anew, and the hash of the URI
// extension block that comes out has to stand in the cap. So nothing is believed of who gave the bytes.

import { encrypted } from './aes_ctr.js';
import { secondaryBlock, secondaryTables } from './erasure.js';
import { joined, netstring, same, utf8 } from './octets.js';
import { pair, tagged, taggedNow } from './sha256.js';

/** The most bytes of a segment, before these are rounded up to a multiple of k. */
const MOST_SEGMENT = 131072;

/** The root of a hash tree over leaves of 32 bytes. */
function treeRoot(leaves) {
  const level = leaves.slice();
  while (level.length & level.length - 1) {
    level.push(taggedNow('webgate_tree_empty_leaf_v1', utf8(String(level.length))));
  }
  while (level.length > 1) {
    for (let i = 0; i < level.length / 2; i++) level[i] = pair('webgate_tree_node_v1', level[2 * i], level[2 * i + 1]);
    level.length /= 2;
  }
  return level[0];
}

/** The blocks of a segment, primary ones first: it is padded with zeros to a multiple of k. */
function blocksOf(segment, k, tables) {
  const length = Math.ceil(segment.length / k), padded = new Uint8Array(length * k);
  padded.set(segment);
  const primary = Array.from({ length: k }, (_, i) => padded.subarray(i * length, (i + 1) * length));
  return primary.concat(tables.map(row => secondaryBlock(primary, row)));
}

/** The hash of the URI extension block that bytes have under a key of 16 bytes, with k of n shares. */
async function extensionHash(key, k, n, bytes) {
  const segmentSize = Math.ceil(Math.min(MOST_SEGMENT, bytes.length) / k) * k;
  const text = await encrypted(key, bytes), tables = secondaryTables(k, n);
  const segments = [], shares = Array.from({ length: n }, () => []);
  for (let at = 0; at < text.length; at += segmentSize) {
    const segment = text.subarray(at, at + segmentSize);
    const hashes = blocksOf(segment, k, tables).map(block => tagged('webgate_block_v1', block));
    segments.push(await tagged('webgate_crypttext_segment_v1', segment));
    (await Promise.all(hashes)).forEach((hash, i) => shares[i].push(hash));
  }
  const number = value => utf8(String(value));
  const fields = [
    ['crypttext_root_hash', treeRoot(segments)], ['needed_shares', number(k)],
    ['num_segments', number(segments.length)], ['segment_size', number(segmentSize)],
    ['share_root_hash', treeRoot(shares.map(treeRoot))], ['size', number(bytes.length)], ['total_shares', number(n)],
  ];
  const block = joined(fields.flatMap(([name, value]) => [utf8(name + ':'), netstring(value)]));
  return tagged('webgate_uri_extension_v1', block);
}

/** Whether the bytes are those that a read cap was made for. */
export async function areBound(cap, bytes) {
  if (cap.form === 'lit') return same(cap.bytes, bytes);
  if (cap.form !== 'chk' || bytes.length === 0 || bytes.length !== cap.size) return false;
  return same(cap.ueb, await extensionHash(cap.key, cap.k, cap.n, bytes));
}
