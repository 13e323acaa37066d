// What a cap, and names from it, lead to: a file, a file in parts, a folder, or shares alone.

import { addressOf, linkTo } from './addresses.js';
import { parseCap, verifyCap } from './caps.js';
import { button, byId, checkedTag, copyButton, count, faultPart, icon, make, named, paragraph, rowOf, shown, sizeText,
  span, tell, timeText } from './elements.js';
import { Told, wordsOf } from './faults.js';
import { openAddress, readBlob, readChildren, readParts } from './gateway.js';
import { partsIn } from './parts.js';
import { sharesPart } from './shares.js';
import { isMedium, kindOf, viewOf } from './views.js';
import { visitSignal } from './visit.js';

/** The most bytes of a file in parts that are read to show it, and of a folder's text to see whether it is one. */
const MOST_SHOWN = 268435456, MOST_LOOKED_AT = 262144;
/** How many folders of a list are looked at for that, how many at once, and how many rows there are at first. */
const MOST_LOOKS = 100, LOOKS = 4, MOST_ROWS = 1000;

/** The cap and the metadata to which the names lead from a cap. */
async function walk(cap, names, signal) {
  let here = cap, metadata = null;
  for (const name of names) {
    const child = (await readChildren(here, signal)).find(each => each.name === name.normalize('NFC'));
    if (!child) throw new Told('The folder has no “' + shown(name) + '”.');
    here = child.cap;
    metadata = child.metadata;
  }
  return { cap: here, metadata };
}

/** The folders on the way, each with its link. */
function wayPart(cap, names) {
  const steps = names.map((name, i) => i === names.length - 1
    ? make('span', { ariaCurrent: 'page' }, named(name))
    : make('a', { href: addressOf(cap.text, names.slice(0, i + 1)) }, named(name)));
  const first = make('a', { href: addressOf(cap.text), textContent: 'The folder that you opened' });
  return make('nav', { className: 'way', ariaLabel: 'The way here' },
    make('ol', {}, [first, ...steps].map(step => make('li', {}, step))));
}

const titleOf = (cap, isFolder) => (isFolder ? 'A folder' : 'A file') + (cap.form === 'verify' ? '’s shares' : '');

function setTitle(title, text) {
  title.textContent = text;
  document.title = text + ' · Wozhinnam';
}

/** Shows what an address names. */
export async function showNode(place) {
  const signal = visitSignal(), title = make('h1', { id: 'title', tabIndex: -1, textContent: 'Looking…' });
  const body = make('div', {}, paragraph('Asking the gateway', 'soft'));
  const sheet = make('section', { className: 'sheet', ariaBusy: 'true', ariaLabelledby: 'title' }, title, body);
  byId('main').replaceChildren(sheet);
  title.focus({ preventScroll: true });
  try {
    const root = parseCap(place.cap);
    if (place.names.length > 0) sheet.prepend(wayPart(root, place.names));
    const { cap, metadata } = await walk(root, place.names, signal);
    if (signal.aborted) return;
    const name = place.names.length > 0 ? place.names.at(-1) : place.name;
    setTitle(title, name ? shown(name) : titleOf(cap, cap.dir));
    await showCap({ body, title, root, place, cap, name, metadata, signal });
  } catch (error) {
    if (signal.aborted) return;
    title.textContent = 'That can’t be shown';
    document.title = 'Wozhinnam';
    body.replaceChildren(faultPart(wordsOf(error)), sharesOf(place.cap) || '');
  }
  sheet.removeAttribute('aria-busy');
}

/** Shares of a cap's text; null where it is none. */
function sharesOf(text) {
  try {
    return sharesPart([parseCap(text)]);
  } catch {
    return null;
  }
}

async function showCap(node) {
  const { body, cap, signal } = node;
  if (cap.form === 'verify') return body.replaceChildren(verifierPart(cap));
  if (!cap.dir) return showFile(node);
  const children = await readChildren(cap, signal), parts = partsIn(children);
  if (signal.aborted) return;
  return parts ? showParts(node, parts) : showFolder(node, children);
}

function verifierPart(cap) {
  return make('div', {}, paragraph('This cap can check shares, and can read nothing.', 'soft'),
    rowOf(copyButton('Copy cap', () => cap.text)), sharesPart([cap]));
}

function copyButtons(cap, address) {
  const verify = verifyCap(cap);
  return [copyButton('Copy cap', () => cap.text), copyButton('Copy link', () => linkTo(address())),
    ...(verify ? [copyButton('Copy verify cap', () => verify)] : [])];
}

// ---- files

/** Gives a blob to the browser to save. It never has a type that the browser would show. */
function save(blob, name) {
  const url = URL.createObjectURL(new Blob([blob], { type: 'application/octet-stream' }));
  make('a', { href: url, download: name }).click();
  setTimeout(() => URL.revokeObjectURL(url), 60000);
}

/** The name of a file: by its folder, or where the cap alone is known by a field, which calls `changed`. */
function naming({ place, cap, name, title }, changed) {
  if (place.names.length > 0) {
    return { nameNow: () => name, address: () => addressOf(cap.text, [], name), fields: null };
  }
  const field = make('input', { type: 'text', id: 'file-name', value: name, autocomplete: 'off', spellcheck: false,
    placeholder: 'as photo.jpg' });
  const nameNow = () => field.value.trim(), address = () => addressOf(cap.text, [], nameNow());
  field.onchange = () => {
    history.replaceState(null, '', address());
    setTitle(title, shown(nameNow()) || titleOf(cap, false));
    changed();
  };
  return { nameNow, address, fields: make('div', { className: 'fields' },
    make('label', { htmlFor: 'file-name', textContent: 'Name' }), field) };
}

const timeIn = metadata => metadata && typeof metadata.mtime === 'number' && span(timeText(metadata.mtime));

/** The link to a file itself, which needs no page and checks nothing, where browsers show what has its name. */
function openPart(cap, nameNow) {
  const link = make('a', { className: 'button', id: 'open-file', target: '_blank', rel: 'noreferrer',
    textContent: 'Open in a tab' });
  const part = make('div', {}, rowOf(link, copyButton('Copy link for others', () => link.href)),
    paragraph('That link opens the file without this page: nothing checks its bytes.', 'soft'));
  const draw = () => {
    const address = openAddress(cap, nameNow());
    part.hidden = !address;
    link.href = address || '';
  };
  draw();
  return { part, draw };
}

/** Draws a view, unless another one was asked for meanwhile. */
function drawer(view) {
  let last = 0;
  return async (name, blob) => {
    const own = ++last, parts = await viewOf(name, blob);
    if (own === last) view.replaceChildren(...parts.filter(Boolean));
  };
}

async function showFile(node) {
  const { body, cap, metadata, signal } = node, state = span('Reading…');
  const view = make('div', { className: 'view', id: 'view' }), draw = drawer(view), actions = rowOf();
  let blob = null;
  const { nameNow, address, fields } = naming(node, () => {
    open.draw();
    if (blob) draw(nameNow(), blob);
  });
  const open = openPart(cap, nameNow);
  const facts = make('div', { className: 'facts' }, span(cap.form === 'lit' ? 'A file in its cap' : 'A file'),
    span(sizeText(cap.size)), timeIn(metadata), state);
  actions.append(...copyButtons(cap, address));
  body.replaceChildren(facts, fields || '', actions, open.part, view, sharesPart([cap]));
  blob = await readBlob(cap, got => {
    state.textContent = 'Reading: ' + sizeText(got) + ' of ' + sizeText(cap.size);
  }, signal);
  if (signal.aborted) return;
  state.replaceWith(checkedTag());
  actions.prepend(button('Download', () => save(blob, nameNow() || 'file'), { className: 'main', id: 'download' }));
  await draw(nameNow(), blob);
  tell('Read and checked: ' + sizeText(blob.size));
}

// ---- files in parts

/**
 * Saves a file in parts: each part as it is checked, where the browser lets a page write a file, and else as one blob,
 * which browsers keep on their disk. What was begun is taken away where a part can't be had.
 */
async function saveParts(name, caps, progress, signal) {
  if (!window.showSaveFilePicker) {
    const blobs = [];
    await readParts(caps, blob => { blobs.push(blob); }, progress, signal);
    return save(new Blob(blobs), name);
  }
  const handle = await window.showSaveFilePicker({ suggestedName: name }), file = await handle.createWritable();
  try {
    await readParts(caps, blob => file.write(blob), progress, signal);
    await file.close();
  } catch (error) {
    await file.abort().catch(() => {});
    if ((await handle.getFile()).size === 0) await handle.remove?.();
    throw error;
  }
}

/** Does one thing after another that reads all parts: it shows how far it is, and can be stopped. */
function readerOf(state, doing, size, signal) {
  let own = null;
  return async (work, done) => {
    if (own) return;
    own = new AbortController();
    const stop = () => own.abort();
    signal.addEventListener('abort', stop);
    doing.replaceChildren(button('Stop', stop));
    try {
      await work(got => {
        state.textContent = 'Reading and checking: ' + sizeText(got) + ' of ' + sizeText(size);
      }, own.signal);
      state.textContent = done;
    } catch (error) {
      state.textContent = error.name === 'AbortError' ? 'Stopped. Nothing was saved.' : wordsOf(error);
    }
    own = null;
    doing.replaceChildren();
  };
}

function showParts(node, { size, caps }) {
  const { body, title, cap, metadata, signal } = node, state = make('p', { id: 'state', role: 'status' });
  const view = make('div', { className: 'view', id: 'view' }), draw = drawer(view), doing = rowOf();
  const read = readerOf(state, doing, size, signal);
  const { nameNow, address, fields } = naming(node, () => offer());
  const download = button('Download', () => read(
    (progress, stopped) => saveParts(nameNow() || 'file', caps, progress, stopped),
    'All parts were checked here, and are saved as one file.'), { className: 'main', id: 'download' });
  const watch = button('Show it here', () => read(async (progress, stopped) => {
    const blobs = [];
    await readParts(caps, blob => { blobs.push(blob); }, progress, stopped);
    if (!signal.aborted) await draw(nameNow(), new Blob(blobs));
  }, 'All parts were checked here.'), { id: 'watch' });
  const offer = () => { watch.hidden = size > MOST_SHOWN || !isMedium(nameNow()); };
  offer();
  if (!nameNow()) setTitle(title, titleOf(cap, false));
  const facts = make('div', { className: 'facts' }, span('A file in ' + count(caps.length, 'part')),
    span(sizeText(size)), timeIn(metadata), span('list checked here', 'tag good'));
  body.replaceChildren(facts, fields || '', rowOf(download, watch, ...copyButtons(cap, address)),
    paragraph('Each part is checked as it is read.', 'soft'), state, doing, view,
    sharesPart([cap, ...caps]));
  tell('A file in ' + count(caps.length, 'part'));
}

// ---- folders

const isFolder = child => child.cap.dir && !child.parts;
const sizeOf = child => child.parts ? child.parts.size : child.cap.size;

const COLUMNS = [
  ['Name', child => child.name.toLowerCase(), 'name'],
  ['Kind', child => isFolder(child) ? 'folder' : kindOf(child.name), 'kind'],
  ['Size', child => isFolder(child) ? -1 : sizeOf(child), 'size'],
  ['Changed', child => Number(child.metadata.mtime) || 0, 'when'],
];

const names = new Intl.Collator(undefined, { numeric: true });

/** Children by a column, folders first in that of names. */
function sorted(children, column, up) {
  const [, key] = COLUMNS[column];
  return children.slice().sort((a, b) => {
    if (column === 0 && isFolder(a) !== isFolder(b)) return isFolder(a) ? -1 : 1;
    const [x, y] = [key(a), key(b)], order = typeof x === 'number' ? x - y : names.compare(x, y);
    return (up ? order : -order) || names.compare(a.name, b.name);
  });
}

/** The row of a child. */
function rowFor(child, address) {
  const { mtime, ...others } = child.metadata, isTime = typeof mtime === 'number';
  const isMore = Object.keys(isTime ? others : child.metadata).length > 0;
  const metadata = isMore && make('details', {}, make('summary', { textContent: 'metadata' }),
    make('pre', { textContent: child.metadataText }));
  return make('tr', {},
    make('td', { className: 'name' }, icon(isFolder(child)), make('a', { href: address }, named(child.name)), metadata),
    make('td', { className: 'kind soft', textContent: COLUMNS[1][1](child) }),
    make('td', { className: 'size', textContent: isFolder(child) ? '' : sizeText(sizeOf(child)) }),
    make('td', { className: 'when soft', textContent: isTime ? timeText(mtime) : '' }),
    make('td', { className: 'do' }, copyButton('Copy cap', () => child.cap.text, child.name)));
}

/** The table of children; `draw` draws it anew. */
function tableOf(children, addressFor) {
  let column = 0, up = true, most = MOST_ROWS;
  const rows = make('tbody'), more = rowOf();
  const sortBy = (i, label) => {
    up = column === i ? !up : true;
    column = i;
    draw();
    tell('Sorted by ' + label.toLowerCase() + (up ? '' : ', the last first'));
  };
  const heads = COLUMNS.map(([label, , className], i) =>
    make('th', { scope: 'col', className }, button(label, () => sortBy(i, label))));
  const caps = make('th', { scope: 'col', className: 'do' }, span('Cap', 'hidden'));
  const draw = () => {
    const order = sorted(children, column, up), all = () => { most = Infinity; draw(); };
    rows.replaceChildren(...order.slice(0, most).map(child => rowFor(child, addressFor(child))));
    heads.forEach((head, i) => i === column ? head.setAttribute('aria-sort', up ? 'ascending' : 'descending')
      : head.removeAttribute('aria-sort'));
    more.replaceChildren(...(order.length > most ? [button('Show all ' + order.length, all)] : []));
  };
  draw();
  const caption = make('caption', { className: 'hidden', textContent: 'What is in the folder' });
  const head = make('thead', {}, make('tr', {}, heads, caps));
  return { draw, parts: [make('table', { id: 'children' }, caption, head, rows), more] };
}

/** Looks which folders among children are files in parts; the children keep it. */
async function findParts(children, signal) {
  const isAsked = child => child.cap.dir && child.parts === undefined && child.cap.size <= MOST_LOOKED_AT;
  const asked = children.filter(isAsked).slice(0, MOST_LOOKS).values();
  const look = async () => {
    for (const child of asked) {
      if (signal.aborted) return;
      // a folder that can't be read now stays one
      child.parts = await readChildren(child.cap, signal).then(partsIn, () => undefined);
    }
  };
  await Promise.all(Array.from({ length: LOOKS }, look));
}

function contentsText(children) {
  const files = children.filter(child => !isFolder(child)), folders = children.length - files.length;
  const size = files.reduce((sum, child) => sum + sizeOf(child), 0);
  return [count(files.length, 'file'), folders > 0 && count(folders, 'folder'),
    files.length > 0 && sizeText(size) + ' in files'].filter(Boolean).join(', ');
}

function showFolder({ body, root, place, cap, signal }, children) {
  const contents = span(contentsText(children)), address = () => addressOf(cap.text);
  const table = tableOf(children, child => addressOf(root.text, [...place.names, child.name]));
  body.replaceChildren(make('div', { className: 'facts' }, contents, checkedTag()), rowOf(...copyButtons(cap, address)),
    ...(children.length > 0 ? table.parts : [paragraph('It is empty.', 'soft')]), sharesPart([cap]));
  tell('A folder of ' + count(children.length, 'name'));
  const known = children.filter(child => child.parts).length;
  findParts(children, signal).then(() => {
    if (signal.aborted || children.filter(child => child.parts).length === known) return;
    contents.textContent = contentsText(children);
    table.draw();
  });
}
