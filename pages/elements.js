// What the page is made of: elements, whose texts are texts whatever stands in them, and names and sizes as they are
// shown.

export const byId = id => document.getElementById(id);

/** An element with these properties and children. Keys are this page's own words, never what came from elsewhere. */
export function make(name, properties = {}, ...children) {
  const element = document.createElement(name);
  for (const [key, value] of Object.entries(properties)) {
    if (key.startsWith('aria')) element.setAttribute('aria-' + key.slice(4).toLowerCase(), value);
    else if (key in element) element[key] = value;
    else element.setAttribute(key, value);
  }
  element.append(...children.flat().filter(child => child !== null && child !== undefined && child !== false));
  return element;
}

/** A paragraph; `className` says what it is for. */
export const paragraph = (textContent, className = '', properties = {}) =>
  make('p', { textContent, className, ...properties });

export const span = (textContent, className = '') => make('span', { textContent, className });

/** A paragraph that is read aloud as it comes. */
export const faultPart = words => paragraph(words, 'fault', { role: 'alert' });

/** A row of buttons and the like. */
export const rowOf = (...children) => make('div', { className: 'row' }, ...children);

export const button = (textContent, onclick, properties = {}) =>
  make('button', { type: 'button', textContent, onclick, ...properties });

/** Tells those who don't see the page. */
export const tell = text => { byId('live').textContent = text; };
/** Tells everybody what is at fault; no text takes it away. */
export const tellFault = text => { byId('said').textContent = text; };

/** The sign of a file or a folder. */
export function icon(isFolder) {
  const [svg, path] = ['svg', 'path'].map(name => document.createElementNS('http://www.w3.org/2000/svg', name));
  const line = isFolder ? 'M1.5 4.5v8.5h13V5.2h-7L6 3.2H1.5z' : 'M3.5 1.5h6l3 3v10h-9zM9.5 1.5v3h3';
  const attributes = { viewBox: '0 0 16 16', 'aria-hidden': 'true', class: isFolder ? 'icon dir' : 'icon' };
  Object.entries(attributes).forEach(([name, value]) => svg.setAttribute(name, value));
  path.setAttribute('d', line);
  svg.append(path);
  return svg;
}

const HIDDEN = /[\u0000-\u001f\u007f-\u009f\u061c\u200b-\u200f\u2028-\u202e\u2060-\u206f\ufeff]/g;

/** A name as it is shown: what can't be seen, or turns what is around it, has its number in its place. */
export const shown = name => name.replace(HIDDEN, c => '\\u{' + c.codePointAt(0).toString(16) + '}');

/** A name as an element, whose direction is its own. */
export const named = name => make('bdi', { className: 'name', textContent: shown(name) });

export const checkedTag = () => make('span', { className: 'tag good', textContent: 'checked here',
  title: 'These are the bytes that the cap was made for' });

/** A number of bytes in words. */
export function sizeText(size) {
  if (size < 1024) return size + (size === 1 ? ' byte' : ' bytes');
  const units = ['KiB', 'MiB', 'GiB', 'TiB', 'PiB', 'EiB'];
  let i = -1;
  do { size /= 1024; i++; } while (size >= 1023.5 && i < units.length - 1);
  return (size < 9.95 ? size.toFixed(1) : Math.round(size)) + ' ' + units[i];
}

/** A number of things in words. */
export const count = (n, one) => n + ' ' + one + (n === 1 ? '' : 's');

/** A time, of seconds since 1970, in words; nothing for what is no time. */
export function timeText(seconds) {
  const time = new Date(seconds * 1000);
  return isNaN(time) ? '' : time.toISOString().slice(0, 16).replace('T', ' ');
}

/** Copies as browsers did before they had a clipboard's interface, which is there over https alone. */
function copyBySelection(text, from) {
  const area = make('textarea', { value: text, className: 'hidden' });
  document.body.append(area);
  area.select();
  const done = document.execCommand('copy');
  area.remove();
  from.focus();
  return done;
}

async function copy(text, from) {
  const done = await navigator.clipboard?.writeText(text).then(() => true, () => false) || copyBySelection(text, from);
  const before = from.textContent;
  from.textContent = done ? 'Copied' : 'Can’t copy';
  tell(done ? 'Copied' : 'The browser didn’t let the page copy');
  setTimeout(() => { from.textContent = before; }, 1500);
}

/** A button that copies what `textOf` gives; `about` is the name of what it is of, where a page has several. */
export const copyButton = (label, textOf, about) => button(label, event => copy(textOf(), event.currentTarget),
  about ? { ariaLabel: label + ' of ' + shown(about) } : {});
