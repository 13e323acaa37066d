// Documents (HTML) as their text alone, in elements of this page's own making. A frame would do less: whatever its
// sandbox and its policy forbid, browsers connect to where its links, frames and hints lead.

import { make } from './elements.js';

/** The elements that are kept, without any attribute, and what they become: headings stand below the page's own. */
const KEPT = { __proto__: null, h1: 'h3', h2: 'h4', h3: 'h5', h4: 'h6', h5: 'h6', h6: 'h6' };
const SAME = 'p div ul ol li dl dt dd pre code blockquote table caption thead tbody tfoot tr th td b strong i em u s '
  + 'sub sup small br hr';
for (const name of SAME.split(' ')) KEPT[name] = name;
for (const name of 'section article main header footer nav aside figure address'.split(' ')) KEPT[name] = 'div';

/** What has no text for readers. Of all other elements the text is kept. */
const LEFT_OUT = new Set(('head script style template noscript iframe object embed svg math select textarea video '
  + 'audio canvas').split(' '));

/** Puts the text of a node's children into an element. */
function copyInto(place, node) {
  for (const child of node.childNodes) {
    if (child.nodeType === Node.TEXT_NODE) place.append(child.data);
    if (child.nodeType !== Node.ELEMENT_NODE || LEFT_OUT.has(child.localName)) continue;
    const kept = KEPT[child.localName], own = kept ? make(kept) : place;
    if (child.localName === 'img' && child.alt) own.append('[' + child.alt + ']');
    copyInto(own, child);
    if (kept) place.append(own);
  }
}

const AS_IT_IS = { createHTML: text => text };
const trusted = globalThis.trustedTypes ? globalThis.trustedTypes.createPolicy('document', AS_IT_IS) : AS_IT_IS;

/** The text of a document. What is parsed so is in no window: it runs and loads nothing. */
export function textOfDocument(text) {
  const place = make('div', { className: 'document' });
  copyInto(place, new DOMParser().parseFromString(trusted.createHTML(text), 'text/html').body);
  return place;
}
