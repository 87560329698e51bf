'use strict';
// The words in memory at one moment, as boxes in SVG: the words of the mutex, the lists of queued records along their links,
// and the words of each seat. Nothing here touches the document, so node runs this file after drawing.js.

const CELL = 116, STEP = 138, LEFT = 72, BOX = 42, LIST = 66;
const pairText = ({ stamp, seat }) => `stamp ${stamp}, ${seat ? 'seat ' + seat : 'none'}`;

// the parts of the picture: boxes for words, the disc of the responsibility, arrows along links
function drawnParts(view) {
  const state = stateAfter(view, view.at), touched = view.at > 0 ? wordOf(view.path[view.at - 1].step) : undefined;
  const nextAt = word => state.seats.flatMap((seat, i) => wordOf(seat.point) === word ? [i + 1] : []).join(', ');
  const box = (word, x, y, first, second, style = '') => {
    const next = word === '' ? '' : nextAt(word);
    const middle = (down, style, text) => label(x + CELL / 2, y + down, style, escape(text), 'middle');
    return `<rect x="${x}" y="${y}" width="${CELL}" height="${BOX}" rx="4"
 class="box ${style}${word !== '' && word === touched ? ' touched' : ''}" data-word="${word}"/>`
      + middle(17, 'soft', first) + middle(34, 'bold', second)
      + (next ? label(x + CELL - 3, y + 53, 'soft', 'next: ' + next, 'end') : '');
  };
  const link = (seat, x, y) => box('link.' + seat, x, y, 'link of ' + seat, pairText(state.seats[seat - 1].link));
  return { state, box, link };
}

const disc = (x, y, word) =>
  `<circle cx="${x + CELL}" cy="${y}" r="9" class="token" data-at="${word}"><title>the responsibility</title></circle>`;
const linkArrow = (x, y) =>
  `<path d="M${x} ${y + BOX / 2}h${STEP - CELL - 2}" class="arrow" marker-end="url(#plainhead)"/>`;

// a row of boxes under a name; with arrows if each leads to the next by its link
function drawList(name, items, y, draw, isLinked) {
  const out = [label(0, y + 25, 'soft', name)];
  if (items.length === 0) out.push(label(LEFT, y + 25, 'soft', 'empty'));
  items.forEach((item, i) => {
    if (isLinked && i > 0) out.push(linkArrow(LEFT + (i - 1) * STEP + CELL, y));
    out.push(draw(item, LEFT + i * STEP, y));
  });
  return out.join('');
}

// a word of the mutex, with the disc if the responsibility lies there
function drawWord({ state, box }, word, x, y) {
  const holds = word === 'owner' && state.owner !== '0' ? 'seat ' + state.owner : state[word];
  const isThere = state.placeName === { owner: 'owner', handoff: 'posted' }[word];
  return box(word, x, y, word, holds) + (isThere ? disc(x, y, word) : '');
}

function drawWake({ state, box }, seat, x, y) {
  const isThere = state.placeName === 'passed' && state.placeSeat === seat, word = 'wake.' + seat;
  return box(word, x, y, 'wake of ' + seat, state.seats[seat - 1].wake) + (isThere ? disc(x, y, word) : '');
}

// the picture in words, for a reader who does not see it
function memoryText(state) {
  const { pushed, cleared, popped } = listsOf(state);
  const list = (name, seats) => `${name} ${seats.length === 0 ? 'empty' : 'seat ' + seats.join(', then seat ')}`;
  const place = {
    free: 'nowhere', owner: 'in the owner word', posted: 'in the handoff word',
    passed: `in the wake word of seat ${state.placeSeat}`, carried: `in a call of seat ${state.placeSeat}`,
  }[state.placeName];
  return [`count ${state.count}`, `owner ${state.owner}`, `handoff ${state.handoff}`, `push word ${pairText(state.push)}`,
    list('push list', pushed), ...(cleared.length === 0 ? [] : [list('cleared list', cleared)]), list('pop list', popped),
    ...state.seats.map(({ wake, link }, i) => `wake of ${i + 1} ${wake}; link of ${i + 1} ${pairText(link)}`),
    `the responsibility ${place}`].join('; ');
}

// a list whose boxes are not linked, in rows of three; its name stands at the first one
function rowsOfThree([name, items, draw, isLinked]) {
  if (isLinked || items.length <= 3) return [[name, items, draw, isLinked]];
  return [[name, items.slice(0, 3), draw], ...rowsOfThree(['', items.slice(3), draw])];
}

function drawMemory(view) {
  const parts = drawnParts(view), { state, box, link } = parts, { pushed, cleared, popped } = listsOf(state);
  const seats = state.seats.map((seat, i) => i + 1);
  const record = seat => state.queue.find(text => text.startsWith(seat + '#'));
  const push = (seat, x, y) => seat === 0 ? box('push', x, y, 'push word', pairText(state.push)) : link(seat, x, y);
  const lists = [
    ['words', ['count', 'owner', 'handoff'], (word, x, y) => drawWord(parts, word, x, y)],
    ['push list', [0, ...pushed], push, true],
    ...(cleared.length > 0 ? [['cleared', cleared, link, true]] : []),
    ['pop list', popped, (seat, x, y) => box('', x, y, 'record of ' + seat, record(seat), 'plainmem')],
    ['wake', seats, (seat, x, y) => drawWake(parts, seat, x, y)],
    ['other links', seats.filter(seat => !pushed.includes(seat) && !cleared.includes(seat)), link],
  ].flatMap(rowsOfThree);
  const drawn = lists.map(([name, items, draw, isLinked], i) => drawList(name, items, 12 + i * LIST, draw, isLinked));
  const width = LEFT + Math.max(3, ...lists.map(([, items]) => items.length)) * STEP, height = 12 + lists.length * LIST;
  const head = `<svg width="100%" viewBox="0 0 ${width} ${height}" role="img" aria-label="${escape(memoryText(state))}">`;
  return `${head}${SVG_HEAD}${drawn.join('')}</svg>`;
}

if (typeof module !== 'undefined') Object.assign(module.exports, { CELL, memoryText, drawMemory });
