// Where the page begins: it shows what its address names, and takes what is typed and dropped.

import { addressIn, readAddress } from './addresses.js';
import { byId, faultPart, make, tellFault } from './elements.js';
import { Told, wordsOf } from './faults.js';
import { showNode } from './nodes.js';
import { isStoring, showHome, take, treesOfDrop } from './storing.js';
import { endVisit } from './visit.js';

/** Shows what the address names. */
function route() {
  endVisit();
  tellFault('');
  if (location.hash.length < 2) return showHome();
  try {
    showNode(readAddress(location.hash));
  } catch (error) {
    byId('main').replaceChildren(make('section', { className: 'sheet' },
      make('h1', { textContent: 'That can’t be shown' }), faultPart(wordsOf(error))));
  }
}

/** Goes to an address, also where it is shown already. */
function goTo(address) {
  if (location.hash === address) route();
  else location.hash = address;
}

function openTyped(event) {
  event.preventDefault();
  tellFault('');
  try {
    const address = addressIn(byId('cap').value);
    byId('cap').value = '';
    goTo(address);
  } catch (error) {
    tellFault(error instanceof Told ? error.message : 'This is no cap.');
    byId('cap').focus();
  }
}

function goHome(event) {
  event.preventDefault();
  history.pushState(null, '', location.pathname + location.search);
  route();
  byId('title').focus();
}

const hasFiles = event => [...event.dataTransfer.types].includes('Files');

function dragOver(event) {
  if (!hasFiles(event)) return;
  event.preventDefault();
  event.dataTransfer.dropEffect = 'copy';
  byId('drop')?.classList.add('over');
}

/** Takes what was dropped, wherever on the page. */
async function dropped(event) {
  if (!hasFiles(event)) return;
  event.preventDefault();
  byId('drop')?.classList.remove('over');
  const reading = treesOfDrop(event.dataTransfer);
  if (location.hash.length > 1) goHome(event);
  try {
    take(await reading);
  } catch {
    tellFault('The browser can’t read what was dropped.');
  }
}

byId('open').addEventListener('submit', openTyped);
byId('home').addEventListener('click', goHome);
byId('skip').addEventListener('click', event => {
  event.preventDefault();
  byId('main').focus();
});
addEventListener('dragover', dragOver);
addEventListener('dragleave', event => { if (!event.relatedTarget) byId('drop')?.classList.remove('over'); });
addEventListener('drop', dropped);
addEventListener('beforeunload', event => { if (isStoring()) event.preventDefault(); });
addEventListener('hashchange', route);
route();
