// How a file's bytes are shown, by the end of its name. No blob here has a type that could run scripts: what could is
// shown as a text or as a picture.

import { textOfDocument } from './documents.js';
import { button, make, paragraph, rowOf, shown, sizeText } from './elements.js';
import { urlOf } from './visit.js';

/** The most bytes of a text that are shown, of a drawing, and of a document. */
const MOST_TEXT = 262144, MOST_DRAWING = 4194304, MOST_DOCUMENT = 1048576;

// without a prototype, in which a file named `__proto__` or `constructor` would be found
const IMAGES = { __proto__: null, png: 'image/png', jpg: 'image/jpeg', jpeg: 'image/jpeg', gif: 'image/gif',
  webp: 'image/webp', avif: 'image/avif', bmp: 'image/bmp', ico: 'image/x-icon' };
const SOUNDS = { __proto__: null, mp3: 'audio/mpeg', ogg: 'audio/ogg', oga: 'audio/ogg', opus: 'audio/ogg',
  wav: 'audio/wav', flac: 'audio/flac', m4a: 'audio/mp4' };
const FILMS = { __proto__: null, mp4: 'video/mp4', m4v: 'video/mp4', webm: 'video/webm', ogv: 'video/ogg',
  mov: 'video/quicktime' };
const DOCUMENT = /^x?html?$/;
const TEXTS = new Set(('txt md markdown rst csv tsv log json xml yml yaml toml ini conf cfg env c h cc cpp hpp rs rt '
  + 'antt go py rb pl sh bash zsh js mjs ts jsx tsx css scss sql java kt swift hs ml lua r tex bib diff patch srt vtt '
  + 'ics vcf pem asc gitignore makefile dockerfile license readme').split(' '));

const ending = name => name.toLowerCase().split('.').pop();

/** What kind of file a name says. */
export function kindOf(name) {
  const end = ending(name);
  if (end in IMAGES || end === 'svg') return 'image';
  if (end in SOUNDS) return 'sound';
  if (end in FILMS) return 'film';
  return DOCUMENT.test(end) ? 'document' : TEXTS.has(end) ? 'text' : 'file';
}

/** Whether a long file of this name can be shown too: the browser reads of a blob what it needs. */
export const isMedium = name => ['image', 'sound', 'film'].includes(kindOf(name)) && ending(name) !== 'svg';

/** Whether bytes read as a text, by their beginning. */
async function looksLikeText(blob) {
  try {
    const beginning = new Uint8Array(await blob.slice(0, 4096).arrayBuffer());
    const text = new TextDecoder('utf-8', { fatal: true }).decode(beginning, { stream: true });
    return !/[\u0000-\u0008\u000e-\u001a\u001c-\u001f]/.test(text);
  } catch {
    return false;
  }
}

async function textView(blob) {
  const bytes = await blob.slice(0, MOST_TEXT).arrayBuffer(), whole = blob.size <= MOST_TEXT;
  // `stream` leaves out a character that the end cuts
  const text = new TextDecoder().decode(bytes, { stream: !whole });
  const rest = 'The first ' + sizeText(MOST_TEXT) + ' are shown. Download it for the rest.';
  return [make('pre', { tabIndex: 0, ariaLabel: 'The text', textContent: text }), !whole && paragraph(rest, 'soft')];
}

/** A document's text, and its source. */
async function documentView(blob) {
  const place = make('div'), note = paragraph('Its text alone: without styles, pictures and links.', 'soft');
  const own = [note, textOfDocument(await blob.text())], source = await textView(blob);
  let isSource = false;
  const draw = () => {
    place.replaceChildren(...(isSource ? source : own).filter(Boolean));
    change.textContent = isSource ? 'Show its text' : 'Show its source';
  };
  const change = button('', () => { isSource = !isSource; draw(); });
  draw();
  return [place, rowOf(change)];
}

/** A drawing as a picture, which runs no script and loads nothing; as a data address it has no origin. */
async function drawingView(name, blob) {
  const reader = new FileReader();
  const read = new Promise((done, failed) => Object.assign(reader, { onload: done, onerror: failed }));
  reader.readAsDataURL(new Blob([blob], { type: 'image/svg+xml' }));
  await read;
  return [make('img', { alt: shown(name), src: reader.result })];
}

/** The elements that show a file of this name. */
export async function viewOf(name, blob) {
  const end = ending(name);
  if (blob.size === 0) return [paragraph('It is empty.', 'soft')];
  if (end in IMAGES) return [make('img', { alt: shown(name), src: urlOf(blob, IMAGES[end]) })];
  if (end in SOUNDS) return [make('audio', { controls: true, src: urlOf(blob, SOUNDS[end]) })];
  if (end in FILMS) return [make('video', { controls: true, src: urlOf(blob, FILMS[end]) })];
  if (end === 'svg' && blob.size <= MOST_DRAWING) return drawingView(name, blob);
  if (DOCUMENT.test(end) && blob.size <= MOST_DOCUMENT) return documentView(blob);
  if (TEXTS.has(end) || await looksLikeText(blob)) return textView(blob);
  const words = 'There is no view of such a file. Give it a name that says what it is, as photo.jpg, or download it.';
  return [paragraph(words, 'soft')];
}
