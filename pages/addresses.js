// Addresses of this page: `#CAP/NAME/..?name=NAME`. Browsers send nothing of what is behind `#`.

import { parseCap } from './caps.js';
import { Told } from './faults.js';

/** The address of what names lead to from a cap; `name` is what a file is called of which the cap alone is known. */
export function addressOf(capText, names = [], name = '') {
  const query = name ? '?name=' + encodeURIComponent(name) : '';
  return '#' + [capText, ...names.map(encodeURIComponent)].join('/') + query;
}

function decoded(text) {
  try {
    return decodeURIComponent(text);
  } catch {
    throw new Told('This address is damaged: a % in it has no number behind it.');
  }
}

/** The cap's text, the names and the name of an address, which may be of anything. */
export function readAddress(fragment) {
  const [path, query = ''] = fragment.replace(/^#/, '').split('?', 2), [cap, ...names] = path.split('/');
  return {
    cap: decoded(cap), names: names.filter(name => name !== '').map(decoded),
    name: query.startsWith('name=') ? decoded(query.slice(5)) : '',
  };
}

/** The address in what was pasted: a cap with names, or a link to this page or to another gateway, whose cap counts. */
export function addressIn(pasted) {
  const text = pasted.trim().replace(/^https?:[^#]*?(#|\/uri\/)/i, ''), end = text.search(/[/?]|$/);
  // mail programs break long caps; names keep their blanks
  const { cap, names, name } = readAddress(text.slice(0, end).replace(/\s+/g, '') + text.slice(end));
  return addressOf(parseCap(cap).text, names, name);
}

/** The whole address of this page, for another person. */
export const linkTo = address => location.href.split('#')[0] + address;
