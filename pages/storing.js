// Storing files and folders: files first, then the folders, the innermost first. Each cap that the gateway answers is
// checked against the bytes that were sent.

import { addressOf, linkTo } from './addresses.js';
import { button, byId, copyButton, count, icon, make, named, paragraph, rowOf, shown, sizeText, span, tell,
  tellFault } from './elements.js';
import { Told, wordsOf } from './faults.js';
import { folderJson, folderText, isText } from './folders.js';
import { STOPPED, isBound, sentFile, sentFolder } from './gateway.js';
import { PART_BYTES, partsFolder } from './parts.js';

/** How many files are on their way at once, and how many parts of a long one. */
const LANES = 4, PART_LANES = 2;
/** What a file counts for beside its bytes, so that many small ones show progress. */
const OVERHEAD = 2000;
const MOST_FAULTS = 50;

/** What was stored since the page was opened, the newest first. The page keeps it nowhere. */
const results = [];
/** What is being stored: its files, how much of it was sent, and what failed. */
let storing = null;
/** What failed of what was stored last, and the trees that are not stored. */
let failed = null;

// ---- trees: `{ name, file }` and `{ name, children }`, which get a cap as they are stored

/** Reads what was dropped. A folder's entries come some at a time. */
async function treeOfEntry(entry) {
  const { name } = entry;
  if (entry.isFile) return { name, file: await new Promise((done, failed) => entry.file(done, failed)) };
  const reader = entry.createReader(), children = [];
  for (;;) {
    const some = await new Promise((done, failed) => reader.readEntries(done, failed));
    if (some.length === 0) return { name, children };
    for (const each of some) children.push(await treeOfEntry(each));
  }
}

/** The trees that were dropped. It has to be called at once: browsers forget what was dropped after the event. */
export function treesOfDrop(transfer) {
  const items = [...transfer.items].filter(item => item.kind === 'file');
  const entries = items.map(item => item.webkitGetAsEntry && item.webkitGetAsEntry() || item.getAsFile());
  return Promise.all(entries.filter(Boolean)
    .map(entry => entry instanceof File ? { name: entry.name, file: entry } : treeOfEntry(entry)));
}

/** The trees of a field's files, which tell the folders that they lie in. */
function treesOfFiles(files) {
  const top = { children: [] }, folders = new Map([['', top]]);
  const folderAt = path => {
    if (!folders.has(path)) {
      const end = path.lastIndexOf('/'), folder = { name: path.slice(end + 1), children: [] };
      folderAt(path.slice(0, Math.max(end, 0))).children.push(folder);
      folders.set(path, folder);
    }
    return folders.get(path);
  };
  for (const file of files) {
    const path = file.webkitRelativePath || file.name, end = path.lastIndexOf('/');
    folderAt(path.slice(0, Math.max(end, 0))).children.push({ name: path.slice(end + 1), file });
  }
  return top.children;
}

/** The files of a tree, each with its path. */
function* filesIn(tree, path = []) {
  if (tree.file) yield { tree, path: [...path, tree.name].join('/') };
  else for (const child of tree.children) yield* filesIn(child, [...path, tree.name]);
}

const sizeOf = tree => tree.file ? tree.file.size : tree.children.reduce((sum, child) => sum + sizeOf(child), 0);

// ---- what is sent

/** Stores the bytes of one body. */
async function storePiece(blob, progress, signal) {
  const cap = await sentFile(blob, progress, signal), checked = await isBound(cap, blob);
  if (cap.dir || checked === false) {
    throw new Told('The gateway’s cap is not of these bytes. Did the file change while it was sent?');
  }
  return { cap, checked: checked === true };
}

/** Makes a folder. */
async function storeFolder(children, signal) {
  const body = new Blob([folderJson(children)]);
  if (body.size > PART_BYTES) throw new Told('It has more names than the gateway takes.');
  const cap = await sentFolder(body, signal), checked = await isBound(cap, new Blob([folderText(children)]));
  if (!cap.dir || checked === false) throw new Told('The gateway’s cap is not of this folder.');
  return { cap, checked: checked === true };
}

/** Calls `work` of each of some values, so many at once; after a fault what was begun is ended, and no more begun. */
async function inLanes(number, values, work) {
  const rest = values.values();
  let fault = null;
  const lane = async () => {
    for (const value of rest) {
      if (fault) return;
      await work(value).catch(error => { fault ??= error; });
    }
  };
  await Promise.all(Array.from({ length: number }, lane));
  if (fault) throw fault;
}

/** Stores a file in parts, of which two at most are on their way. What was stored of them is kept for another try. */
async function storeParts(tree, progress, signal) {
  const { file } = tree, sent = [], parts = tree.parts ??= [];
  const places = Array.from({ length: Math.ceil(file.size / PART_BYTES) }, (_, i) => i);
  await inLanes(PART_LANES, places, async place => {
    const piece = file.slice(place * PART_BYTES, (place + 1) * PART_BYTES);
    const progressOfPiece = bytes => {
      sent[place] = bytes;
      progress(sent.reduce((sum, each) => sum + each, 0));
    };
    parts[place] ??= await storePiece(piece, progressOfPiece, signal);
    progressOfPiece(piece.size);
  });
  const folder = await storeFolder(partsFolder(parts.map(part => part.cap), file.size), signal);
  return { cap: folder.cap, checked: folder.checked && parts.every(part => part.checked) };
}

/** Stores one file of what is being stored; a fault is kept for the end. */
async function storeFile(run, { tree, path }) {
  const most = tree.file.size + OVERHEAD, signal = run.stop.signal;
  let before = 0;
  const progress = bytes => {
    run.sent += Math.min(bytes, most) - before;
    before = Math.min(bytes, most);
    showProgress();
  };
  try {
    if (signal.aborted) throw new Told(STOPPED);
    if (!isText(tree.name)) throw new Told('Its name is no text.');
    const isLong = tree.file.size > PART_BYTES;
    Object.assign(tree, await (isLong ? storeParts(tree, progress, signal) : storePiece(tree.file, progress, signal)));
    run.done++;
  } catch (error) {
    run.faults.push({ path, words: error instanceof Told ? error.message : 'The browser can’t read it.' });
  }
  progress(most);
}

/** The children of a folder whose own children are stored. */
function childrenOf(tree) {
  const timeOf = ({ file }) => file && file.lastModified > 0 ? { mtime: Math.floor(file.lastModified / 1000) } : {};
  const children = tree.children.map(child =>
    ({ name: child.name.normalize('NFC'), cap: child.cap, metadata: timeOf(child) }));
  if (new Set(children.map(child => child.name)).size < children.length) {
    throw new Told('Two names in it are the same but for their spelling.');
  }
  return children;
}

async function makeFolder(tree, signal) {
  const folder = await storeFolder(childrenOf(tree), signal);
  tree.cap = folder.cap;
  tree.checked = folder.checked && tree.children.every(child => child.checked);
}

/** Makes the folders of a tree, the innermost first, where all in them is stored. Whether the tree is stored then. */
async function makeFolders(run, tree, path = []) {
  if (tree.cap || tree.file) return Boolean(tree.cap);
  const here = [...path, tree.name];
  let whole = true;
  for (const child of tree.children) whole = await makeFolders(run, child, here) && whole;
  if (!whole) return false;
  try {
    await makeFolder(tree, run.stop.signal);
  } catch (error) {
    run.faults.push({ path: here.join('/'), words: wordsOf(error) });
  }
  return Boolean(tree.cap);
}

/** Stores trees. What is stored of them already isn't sent again. */
async function store(trees) {
  const files = trees.flatMap(tree => [...filesIn(tree)]), left = files.filter(({ tree }) => !tree.cap);
  const weigh = some => some.reduce((sum, { tree }) => sum + tree.file.size + OVERHEAD, 0), whole = weigh(files);
  const run = { stop: new AbortController(), whole, sent: whole - weigh(left), files: files.length,
    done: files.length - left.length, faults: [], doing: 'Storing' };
  storing = run;
  showStoring();
  const isLong = ({ tree }) => tree.file.size > PART_BYTES;
  await inLanes(LANES, left.filter(each => !isLong(each)), each => storeFile(run, each));
  await inLanes(1, left.filter(isLong), each => storeFile(run, each));
  run.doing = 'Making folders';
  showProgress();
  for (const tree of trees) if (await makeFolders(run, tree) && !results.includes(tree)) results.unshift(tree);
  const missing = trees.filter(tree => !tree.cap);
  storing = null;
  failed = missing.length > 0 ? { faults: run.faults, missing } : null;
  showHome();
  byId('failed')?.focus();
  tell(failed ? 'Not all was stored' : 'Stored');
  if (failed && !byId('failed')) tellFault('Not all was stored. What failed is told at the page’s beginning.');
}

/** Stores what was given, unless something is on its way. */
export function take(trees) {
  tellFault(storing && trees.length > 0 ? 'Wait until what you gave before is stored.' : '');
  if (trees.length === 0 || storing) return;
  failed = null;
  byId('failed')?.remove();
  store(trees);
}

/** Whether something would be lost if the page was left now. */
export const isStoring = () => storing !== null;

// ---- what is shown of it

function showStoring() {
  if (!byId('storing')) return showHome();
  byId('storing').replaceChildren();
  if (!storing) return;
  const { stop, whole } = storing;
  byId('storing').append(make('section', { className: 'sheet', ariaLabel: 'What is being stored' },
    make('p', { id: 'progress-text' }),
    make('progress', { id: 'progress', max: whole || 1, value: 0, ariaLabel: 'Progress' }),
    rowOf(button('Stop', () => stop.abort()))));
  showProgress();
}

function showProgress() {
  if (!storing || !byId('progress')) return;
  const { doing, done, files, faults, sent } = storing;
  byId('progress').value = sent;
  byId('progress-text').textContent = doing + ': ' + done + ' of ' + count(files, 'file')
    + (faults.length > 0 ? ', ' + count(faults.length, 'failure') : '');
}

/** What failed, and what can be done then. */
function failedPart({ faults, missing }) {
  const leave = then => () => { failed = null; byId('failed').remove(); then(); };
  return make('section', { className: 'box', role: 'alert', id: 'failed', tabIndex: -1 },
    make('h2', { textContent: 'Not stored: ' + missing.map(tree => shown(tree.name)).join(', ') }),
    make('ul', {}, faults.slice(0, MOST_FAULTS).map(({ path, words }) => make('li', {}, named(path), ': ' + words))),
    faults.length > MOST_FAULTS && paragraph('and ' + (faults.length - MOST_FAULTS) + ' more'),
    missing.some(tree => tree.children) && paragraph('A folder is made only when all in it is stored.'),
    rowOf(button('Try again', leave(() => store(missing)), { className: 'main' }),
      button('Leave it', leave(() => byId('pick').focus()))));
}

function resultItem(tree) {
  const { name, cap, children, parts, checked } = tree, isFolder = Boolean(children);
  const address = addressOf(cap.text, [], isFolder ? '' : name);
  const facts = [isFolder && count([...filesIn(tree)].length, 'file'), sizeText(sizeOf(tree)),
    parts && 'in ' + count(parts.length, 'part')].filter(Boolean).join(', ');
  return make('li', {},
    make('div', { className: 'item' }, make('span', {}, icon(isFolder), named(name)), span(facts, 'soft'),
      checked ? span('checked here', 'tag good') : span('not checked here', 'tag wait')),
    make('code', { className: 'cap', textContent: cap.text }),
    rowOf(copyButton('Copy cap', () => cap.text, name), copyButton('Copy link', () => linkTo(address), name),
      make('a', { className: 'button', href: address, textContent: 'Open', ariaLabel: 'Open ' + shown(name) })));
}

/** Makes one folder of all that was stored. */
async function foldTogether() {
  const tree = { name: 'All of these', isOfAll: true, children: results.filter(each => !each.isOfAll) };
  try {
    await makeFolder(tree, new AbortController().signal);
    results.unshift(tree);
    showHome();
    tell('One folder was made');
  } catch (error) {
    tellFault('No folder was made. ' + wordsOf(error));
  }
}

/** A field that takes files, which a button opens. */
const fileField = properties => make('input', { type: 'file', hidden: true, ...properties, onchange: ({ target }) => {
  take(treesOfFiles(target.files));
  target.value = '';
} });

function resultsPart() {
  const several = results.filter(tree => !tree.isOfAll).length > 1;
  return make('section', { className: 'sheet', ariaLabel: 'Stored' },
    paragraph('Keep these caps: they are the only way to what you stored, and this page forgets them.', 'soft'),
    make('ul', { className: 'list', id: 'results' }, results.map(resultItem)),
    several && rowOf(button('Make one folder of all these', foldTogether, { id: 'together' })));
}

/** Shows the page's beginning: where files are given, and what was stored. */
export function showHome() {
  if (location.hash.length > 1) return;
  document.title = 'Wozhinnam';
  const drop = make('section', { className: 'drop', id: 'drop', ariaLabel: 'Store files and folders' },
    make('h1', { id: 'title', tabIndex: -1, textContent: 'Drop files or folders here' }),
    paragraph('Each is stored, and you get its cap. Files over 16 MiB are stored in parts.', 'soft'),
    rowOf(button('Choose files', () => byId('files').click(), { className: 'main', id: 'pick' }),
      button('Choose a folder', () => byId('folder').click(), { id: 'pick-folder' })),
    fileField({ id: 'files', multiple: true }), fileField({ id: 'folder', webkitdirectory: true }));
  byId('main').replaceChildren(drop, failed ? failedPart(failed) : '', make('div', { id: 'storing' }),
    results.length > 0 ? resultsPart() : '');
  showStoring();
}
