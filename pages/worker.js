// Checks bytes against caps beside the page, so that the page stays quick: one after the other, so that the bytes of
// one file at a time are in memory.

import { parseCap } from './caps.js';
import { areBound } from './cap_binding.js';

let last = Promise.resolve();
self.onmessage = ({ data }) => { last = last.then(() => answer(data)); };

/** Answers whether a blob's bytes are a cap's: null where that can't be found out, as of a file that is gone. */
async function answer({ id, cap, blob }) {
  let bound = null;
  try {
    bound = await areBound(parseCap(cap), new Uint8Array(await blob.arrayBuffer()));
  } catch {
    // told by null
  }
  self.postMessage({ id, bound });
}
