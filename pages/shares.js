// What the gateway tells of a cap's shares, as a picture. It is the gateway's word: nothing here checks it.

import { button, count, faultPart, make, paragraph, rowOf, span } from './elements.js';
import { Told } from './faults.js';
import { reported } from './gateway.js';
import { visitSignal } from './visit.js';

/**
 * A report on the n shares of a cap, of which nothing is taken for granted: how many numbers have a good share, the
 * bad shares, and by `sharemap`, where the gateway gives it, the servers of each number's good ones.
 */
function readReport(json, n) {
  const isNumber = number => Number.isInteger(number) && number >= 0 && number < n;
  const list = value => Array.isArray(value) ? value : [];
  const found = JSON.parse(json).results, map = found.sharemap;
  const bad = list(found['list-corrupt-shares']).filter(share => Array.isArray(share) && isNumber(share[2]))
    .map(([server, , number]) => ({ server: String(server), number }));
  const isMap = map !== null && typeof map === 'object' && !Array.isArray(map);
  const places = !isMap ? null : Object.entries(map)
    .map(([number, servers]) => ({ number: /^[0-9]+$/.test(number) ? Number(number) : -1, servers: list(servers) }))
    .flatMap(({ number, servers }) => servers.map(server => ({ server: String(server), number })))
    .filter(({ number }) => isNumber(number));
  const good = found['count-shares-good'];
  if (!Number.isInteger(good) || good < 0 || good > n) throw new Told('The gateway’s report can’t be read.');
  return { good, bad, places };
}

/** The marks of all n shares. Without a map nobody says which numbers are good, so good ones come first. */
function marksOf({ good, bad, places }, n) {
  const numbers = [...new Set(bad.map(share => share.number))];
  if (places) {
    const there = new Set(places.map(share => share.number));
    return Array.from({ length: n }, (_, number) =>
      ({ kind: there.has(number) ? 'good' : numbers.includes(number) ? 'bad' : 'lost', text: String(number) }));
  }
  const marks = Array.from({ length: good }, () => ({ kind: 'good', text: '✓' }));
  for (const number of numbers) if (marks.length < n) marks.push({ kind: 'bad', text: String(number) });
  while (marks.length < n) marks.push({ kind: 'lost', text: '' });
  return marks;
}

function verdictOf(good, { k, n }, verified) {
  const state = verified ? 'good' : 'there';
  if (good >= n) return 'All shares are ' + state + '.';
  const some = good + ' of ' + n + ' shares are ' + state + ', and ' + k;
  return good >= k ? 'It can be read: ' + some + ' are enough.' : 'It can’t be read now: ' + some + ' are needed.';
}

/** The servers that are told, each with the numbers of its good and its bad shares. */
function serversPart({ bad, places }, verified) {
  const servers = new Map();
  const add = (kind, shares) => shares.forEach(({ server, number }) => {
    if (!servers.has(server)) servers.set(server, { good: [], bad: [] });
    servers.get(server)[kind].push(number);
  });
  add('good', places || []);
  add('bad', bad);
  const numbers = (words, list) => list.length === 0 ? []
    : [words + (list.length === 1 ? 'share ' : 'shares ') + list.sort((a, b) => a - b).join(', ')];
  const order = new Intl.Collator('en', { numeric: true }).compare;
  const lines = [...servers].sort((a, b) => order(a[0], b[0])).map(([server, each]) => {
    const words = [...numbers(verified ? 'good ' : '', each.good), ...numbers('bad ', each.bad)];
    return make('li', { textContent: 'Server ' + server + ': ' + words.join('; ') });
  });
  return lines.length > 0 && make('ul', { id: 'servers' }, lines);
}

/** A square for each share, what the squares mean, and the servers. */
function picture(report, cap, verified) {
  const { k, n } = cap, { good, places } = report, marks = marksOf(report, n);
  const number = kind => marks.filter(mark => mark.kind === kind).length;
  const squares = marks.map(({ kind, text }, i) =>
    span(text, 'share ' + kind + (!places && i + 1 === k && k < n ? ' need' : '')));
  const ariaLabel = [[number('good'), 'good'], [number('bad'), 'bad'], [number('lost'), 'missing'], [k, 'needed']]
    .map(pair => pair.join(' ')).join(', ');
  return [
    paragraph(verdictOf(good, cap, verified), good >= k ? '' : 'fault'),
    make('div', { className: 'shares', role: 'img', ariaLabel }, squares),
    make('p', { className: 'key' }, span((places ? 'green: ' : '✓ ') + (verified ? 'good' : 'there')),
      number('bad') > 0 && span(places ? 'red: bad' : 'number: bad'), number('lost') > 0 && span('dashed: missing'),
      !places && k < n && span('left of the line: enough')),
    serversPart(report, verified),
  ].filter(Boolean);
}

/** Asks of one cap after the other, and shows that of which the least is left. */
async function lookAt(caps, verify, report, signal) {
  let worst = null;
  for (const [i, cap] of caps.entries()) {
    const where = caps.length > 1 ? ' Piece ' + (i + 1) + ' of ' + caps.length : '';
    const doing = verify ? 'The gateway reads each share…' : 'The gateway counts the shares…';
    report.replaceChildren(paragraph(doing + where, 'soft'));
    const found = readReport(await reported(cap, verify, signal), cap.n);
    if (!worst || found.good - cap.k < worst.found.good - worst.cap.k) worst = { found, cap, place: i };
  }
  const which = worst.place === 0 ? 'the list of its parts' : 'part ' + worst.place;
  const words = 'Of its ' + count(caps.length, 'piece') + ' the one of which the least is left is ' + which + ':';
  report.replaceChildren(caps.length > 1 ? paragraph(words) : '', ...picture(worst.found, worst.cap, verify));
}

/** Buttons that have the gateway look for the shares of caps, which a file in parts has several of; what it tells. */
export function sharesPart(caps) {
  const asked = caps.filter(cap => cap.form !== 'lit'), report = make('div', { id: 'report', role: 'status' });
  if (asked.length === 0) {
    return make('section', { className: 'health' },
      paragraph('Its bytes stand in the cap itself, so there are no shares that could be lost.', 'soft'));
  }
  const look = async verify => {
    try {
      await lookAt(asked, verify, report, visitSignal());
    } catch (error) {
      const words = error instanceof Told ? error.message : 'The gateway’s report can’t be read.';
      if (error.name !== 'AbortError') report.replaceChildren(paragraph(words, 'fault'));
    }
  };
  const [{ k, n }] = asked, made = n + (n === 1 ? ' was' : ' were') + ' made, and any ' + k + ' of them give it back.';
  return make('section', { className: 'health', ariaLabelledby: 'shares' },
    make('h2', { id: 'shares', textContent: 'Shares' }),
    paragraph((asked.length > 1 ? 'Of each of its ' + asked.length + ' pieces ' : '') + made, 'soft'),
    rowOf(button('Count them', () => look(false), { id: 'count' }),
      button('Read and verify each', () => look(true), { id: 'verify' })), report);
}
