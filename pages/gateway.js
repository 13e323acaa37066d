// What this page asks its gateway for. Nothing that comes is believed before the worker has checked it against a cap.

import { asFile, parseCap } from './caps.js';
import { Told } from './faults.js';
import { readFolder } from './folders.js';

/** The most bytes of one cap that are fetched: gateways may take longer bodies than this one. */
const MOST_FETCH = 134217728;
/** The most bytes that are read of a refusal, and of a report on shares. */
const MOST_WORDS = 1000, MOST_REPORT = 16777216;
/** How many folders are kept that were read. */
const MOST_FOLDERS = 500;

/** Where the gateway is: beside the page. */
const at = path => new URL(path, document.baseURI).href;

const WORDS = {
  __proto__: null,
  'bad cap': 'The gateway doesn’t know such a cap.',
  'not a readable cap': 'This cap verifies shares. It reads nothing.',
  'not enough shares': 'Too few good shares are left of it, so it can’t be read now.',
  'store full': 'A store of the gateway is full.',
  'store down': 'A store of the gateway doesn’t answer.',
  'body too long': 'It is longer than the gateway takes.',
  'bad children': 'The gateway doesn’t take a folder of such names.',
  'no such resource': 'There is no gateway at this address.',
};

const UNREACHED = 'The gateway can’t be reached.', BROKEN = 'The connection to the gateway broke off.';
export const STOPPED = 'You stopped it.';
const NOT_BOUND = 'What the gateway gave is not what this cap was made for, so it isn’t shown.';
const NOT_CHECKED = 'This browser can’t check what the gateway gave, so it isn’t shown.';

/** Why a reply has not what was asked for. */
function refusal(status, text) {
  const words = text.trim(), reason = words && words.length < 100 ? words : 'status ' + status;
  return new Told(WORDS[words] || 'The gateway refused: ' + reason + '.');
}

/** What fetching throws, in words: but for an abort, which is for the caller. */
const broken = (error, words) => error.name === 'AbortError' ? error : new Told(words);

/** The body of a response; null where it has more bytes than so many. */
async function bodyOf(response, most, progress) {
  const reader = (response.body || new Blob().stream()).getReader(), parts = [];
  for (let got = 0; ;) {
    const piece = await reader.read().catch(error => { throw broken(error, BROKEN); });
    if (piece.done) return new Blob(parts);
    got += piece.value.length;
    if (got > most) {
      reader.cancel().catch(() => {});
      return null;
    }
    parts.push(piece.value);
    if (progress) progress(got);
  }
}

/** The body of a reply 200, of at most so many bytes. */
async function asked(path, options, most, progress) {
  const how = { credentials: 'omit', referrerPolicy: 'no-referrer', cache: 'no-store', redirect: 'error', ...options };
  const response = await fetch(at(path), how).catch(error => { throw broken(error, UNREACHED); });
  const isGiven = response.status === 200, body = await bodyOf(response, isGiven ? most : MOST_WORDS, progress);
  if (!isGiven) throw refusal(response.status, body ? await body.text() : '');
  if (!body) throw new Told('The gateway gave more bytes than were asked for.');
  return body;
}

/** The bytes that the gateway gives for a read cap, which nothing has checked yet. */
async function fetched(cap, progress, signal) {
  if (cap.form === 'lit') return new Blob([cap.bytes]);
  if (cap.form === 'verify') throw new Told(WORDS['not a readable cap']);
  if (cap.size > MOST_FETCH) throw new Told('Its cap names more bytes than this page reads.');
  return asked('uri/' + asFile(cap), { signal }, cap.size, progress);
}

/** Names by whose ends a gateway says a type that browsers show. */
const OPENED = /\.(txt|md|csv|log|png|jpe?g|gif|webp|avif|mp4|webm|mp3|ogg|wav|flac)$/i;

/** The address at which the gateway gives a file of this name to any browser, which shows it; else null. */
export const openAddress = (cap, name) =>
  OPENED.test(name) ? at('uri/' + cap.text + '?filename=' + encodeURIComponent(name)) : null;

/** What the gateway tells of a cap's shares, in JSON. */
export async function reported(cap, verify, signal) {
  const path = 'uri/' + cap.text + '?t=check&output=JSON&verify=' + verify;
  return (await asked(path, { method: 'POST', signal }, MOST_REPORT)).text();
}

/** Sends a body, and gives the cap that is answered. XMLHttpRequest tells how much was sent, which fetch doesn't. */
function sent(method, path, body, progress, signal) {
  return new Promise((done, failed) => {
    const request = new XMLHttpRequest();
    const stop = () => request.abort();
    if (signal.aborted) return failed(new Told(STOPPED));
    request.open(method, at(path));
    request.setRequestHeader('Content-Type', 'application/octet-stream');
    request.upload.onprogress = event => progress && progress(event.loaded);
    request.onload = () => {
      if (request.status !== 200) return failed(refusal(request.status, request.responseText));
      try {
        done(parseCap(request.responseText));
      } catch {
        failed(new Told('The gateway answered with what is no cap.'));
      }
    };
    request.onerror = () => failed(new Told(UNREACHED));
    request.onabort = () => failed(new Told(STOPPED));
    request.onloadend = () => signal.removeEventListener('abort', stop);
    signal.addEventListener('abort', stop);
    request.send(body);
  });
}

/** Stores a file's bytes. */
export const sentFile = (blob, progress, signal) => sent('PUT', 'uri', blob, progress, signal);
/** Makes a folder of children in JSON. */
export const sentFolder = (json, signal) => sent('POST', 'uri?t=mkdir-immutable', json, null, signal);

// ---- the worker

const ADDRESS = { createScriptURL: () => 'worker.js' };
const trusted = globalThis.trustedTypes ? globalThis.trustedTypes.createPolicy('checker', ADDRESS) : ADDRESS;

let worker = null, asks = 0;
const waiting = new Map();

function startWorker() {
  worker = new Worker(trusted.createScriptURL(''), { type: 'module' });
  worker.onmessage = ({ data: { id, bound } }) => {
    waiting.get(id)(bound);
    waiting.delete(id);
  };
  // one that doesn't start or that failed answers nothing more
  worker.onerror = () => {
    worker = null;
    waiting.forEach(answer => answer(null));
    waiting.clear();
  };
}

/** Whether a blob's bytes are a cap's, found out beside the page; null where that couldn't be found out. */
export function isBound(cap, blob) {
  if (!worker) startWorker();
  return new Promise(answer => {
    waiting.set(++asks, answer);
    worker.postMessage({ id: asks, cap: cap.text, blob });
  });
}

/** Refuses bytes that aren't a cap's. */
async function requireBound(cap, blob) {
  const bound = await isBound(cap, blob);
  if (!bound) throw new Told(bound === null ? NOT_CHECKED : NOT_BOUND);
}

// ---- what was checked

/** The bytes of a read cap, checked. */
export async function readBlob(cap, progress, signal) {
  const blob = await fetched(cap, progress, signal);
  await requireBound(cap, blob);
  return blob;
}

/** Folders that were read, by their caps: what a cap names never changes. */
const folders = new Map();

/** The children of a folder, checked. */
export async function readChildren(cap, signal) {
  if (!cap.dir) throw new Told('A file is on the way, where a folder should be.');
  const known = folders.get(cap.text);
  if (known) return known;
  const text = await (await readBlob(cap, null, signal)).arrayBuffer(), children = readFolder(new Uint8Array(text));
  folders.set(cap.text, children);
  if (folders.size > MOST_FOLDERS) folders.delete(folders.keys().next().value);
  return children;
}

/** Reads the parts of a file one after the other, and gives each to `take` once it is checked. */
export async function readParts(caps, take, progress, signal) {
  const own = new AbortController(), stop = () => own.abort();
  signal.addEventListener('abort', stop);
  try {
    signal.throwIfAborted?.();
    let before = 0, next = fetched(caps[0], progress, own.signal);
    for (const [i, cap] of caps.entries()) {
      const blob = await next, from = before += cap.size;
      // one part comes while the one before it is checked
      if (i + 1 < caps.length) {
        next = fetched(caps[i + 1], got => progress(from + got), own.signal);
        next.catch(() => {});
      }
      await requireBound(cap, blob);
      await take(blob);
    }
  } finally {
    signal.removeEventListener('abort', stop);
    own.abort();
  }
}
