'use strict';
// Compares what a page draws with the traces, row by row: the bars and lines of the lanes, and where the disc of the
// responsibility is, for each stored schedule of the page and for random walks. It needs node, and no browser.
//
//   node drawing_test.js PAGE
const assert = require('assert');
const { readPage, randomNumbers, runTests } = require('./built_page.js');

const page = readPage(process.argv[2]);
const { graphs, whole, sentences } = page;
const below = randomNumbers();

// paths: those of the stored schedules, the beginnings of all tasks, and random walks in each graph
function pathsOfPage() {
  const paths = page.schedules.map(({ name, text, kind }) => {
    const graph = kind === 'path' ? graphs[name] : whole;
    return { graph, name, path: page.follow(graph, text).path };
  });
  for (const graph of Object.values(graphs).filter(({ kind }) => kind !== 'path')) {
    for (let walk = 0; walk < 12; walk++) {
      paths.push({ graph, name: `${graph.name}, walk ${walk}`, path: randomWalk(graph, 60) });
    }
  }
  return paths;
}

function randomWalk(graph, most) {
  const path = [];
  for (let i = 0; i < most; i++) {
    const events = page.eventsFrom(graph, page.endOf(path));
    if (events.length === 0) break;
    const { seat, act } = events[below(events.length)];
    page.extend(graph, path, seat, act);
  }
  return path;
}

// the elements of this name in a text, each by its attributes
const tags = (text, name) => [...text.matchAll(new RegExp(`<${name} ([^>]*?)/?>`, 'g'))].map(([, attributes]) =>
  Object.fromEntries([...attributes.matchAll(/([a-z-]+)="([^"]*)"/g)].map(([, key, value]) => [key, value])));

// what the trace of the path up to a moment has in its last line after the bar: count, owner, handoff, place and queue. Each
// trace is made once for each path
const linesAfter = new Map();
function lineAfter({ graph, path }, moment) {
  const known = linesAfter.get(path) ?? [];
  linesAfter.set(path, known);
  known[moment] ??= page.traceOf(graph, path.slice(0, moment)).trim().split('\n').pop().split(' | ')[1].split(' ');
  return known[moment];
}

// where the disc has to be, by the place of the trace
function placeOfDisc(place) {
  const [name, seat] = place.split('.');
  return { owner: 'owner', posted: 'handoff', passed: 'wake.' + seat, carried: 'seat.' + seat, free: undefined }[name];
}

// the disc is drawn once, where the trace says, and at the corner of the box of that word
function checkDisc(view) {
  const memory = page.drawMemory(view), seats = page.drawSeats(view, sentences);
  const discs = tags(memory + seats, 'circle').filter(tag => tag.class === 'token');
  const wanted = placeOfDisc(lineAfter(view, view.at)[3]);
  assert.deepStrictEqual(discs.map(tag => tag['data-at']), wanted === undefined ? [] : [wanted]);
  if (wanted === undefined) return;
  if (wanted.startsWith('seat.')) {
    // after the disc comes the name of its seat
    assert.match(seats.slice(seats.indexOf('data-at')).slice(0, 80), new RegExp(`</svg> Seat ${wanted.slice(5)} `));
    return;
  }
  const box = tags(memory, 'rect').find(tag => tag['data-word'] === wanted);
  assert.deepStrictEqual([Number(discs[0].cx), Number(discs[0].cy)], [Number(box.x) + page.CELL, Number(box.y)]);
}

// the texts in the boxes are those of the state, and the thick box is the word of the last step
function checkBoxes(view) {
  const memory = page.drawMemory(view), [count, owner, handoff] = lineAfter(view, view.at);
  const label = '<text [^>]*>([^<]*)</text>';
  const text = word => new RegExp(`data-word="${word.replace('.', '\\.')}"/>${label}${label}`).exec(memory)[2];
  assert.deepStrictEqual([text('count'), text('owner').replace('seat ', ''), text('handoff')], [count, owner, handoff]);
  const { seats, push } = page.stateAt(view.graph, view.at === 0 ? 0 : view.path[view.at - 1].to);
  const pair = link => `stamp ${link.stamp}, ${link.seat ? 'seat ' + link.seat : 'none'}`;
  assert.strictEqual(text('push'), pair(push));
  seats.forEach(({ wake, link }, i) => {
    assert.deepStrictEqual([text('wake.' + (i + 1)), text('link.' + (i + 1))], [wake, pair(link)]);
  });
  // the seats whose next step accesses a word are named below its box
  const wordOf = step => (/: ([a-z]+(?:\.\d+)?) /.exec(step) || [])[1];
  for (const box of tags(memory, 'rect').map(tag => tag['data-word']).filter(word => word)) {
    const next = seats.flatMap(({ point }, i) => wordOf(point) === box ? [i + 1] : []).join(', ');
    const third = '(?:<text [^>]*>next: ([^<]*)</text>)?', start = `data-word="${box.replace('.', '\\.')}"/>`;
    assert.strictEqual(new RegExp(start + label + label + third).exec(memory)[3] ?? '', next, box);
  }
  const step = view.at === 0 ? '' : view.path[view.at - 1].step, word = (/: ([a-z]+(?:\.\d+)?) /.exec(step) || [])[1];
  const thick = tags(memory, 'rect').filter(tag => /touched/.test(tag.class)).map(tag => tag['data-word']);
  assert.deepStrictEqual(thick, word && word !== 'begins' && !/^[a-z_]+: /.test(step) ? [word] : []);
}

// in each row of each lane the bar is that of the trace's place, and pieces lie where their rows are
function checkLanes(view) {
  const rows = page.rowsOf(view), layout = page.layoutOf(view.graph, rows, 900), { body } = page.drawLanes(view, 900);
  const bars = tags(body, 'rect').filter(tag => /bar/.test(tag.class));
  const lines = tags(body, 'path').filter(tag => 'data-seat' in tag);
  for (const bar of bars) {
    assert.strictEqual(Number(bar.x) + 6, layout.x(Number(bar['data-seat'])));
    assert.strictEqual(Number(bar.y), layout.y(Number(bar['data-from'])));
  }
  rows.forEach((row, r) => {
    const place = lineAfter(view, row.moment)[3], { seats } = page.stateAt(view.graph, view.path[row.moment - 1].to);
    for (let seat = 1; seat <= view.graph.seats; seat++) {
      const number = (piece, name) => Number(piece['data-' + name]);
      const at = piece => number(piece, 'seat') === seat && number(piece, 'from') <= r && r < number(piece, 'to');
      const stylesOf = pieces => pieces.filter(at).map(piece => piece.class);
      const wanted = style => style ? [style + (row.moment > view.at ? ' later' : '')] : [];
      const bar = { [`owner.${seat}`]: 'ownbar', [`carried.${seat}`]: 'carrybar' }[place];
      assert.deepStrictEqual(stylesOf(bars), wanted(bar), `the bar in row ${r} of seat ${seat}`);
      const { event, kind } = row, { point } = seats[seat - 1];
      const ends = event.seat === seat && kind === 'step' && page.isAnswer(event.turn);
      const line = point.includes(':') || ends ? 'call' : point.startsWith('sleeps') ? 'sleepline' : '';
      assert.deepStrictEqual(stylesOf(lines), wanted(line), `the line in row ${r} of seat ${seat}`);
    }
  });
}

// each change of the place from a post or a grant has its arrow, at the row of the step that took it
function checkArrows(view) {
  const rows = page.rowsOf(view), layout = page.layoutOf(view.graph, rows, 900), { body } = page.drawLanes(view, 900);
  const places = rows.map(row => lineAfter(view, row.moment)[3]), wanted = [];
  places.forEach((place, r) => {
    const before = r === 0 ? 'free' : places[r - 1];
    const kind = { posted: 'post', passed: 'grant' }[before.split('.')[0]];
    if (place !== before && kind) wanted.push([kind, layout.x(rows[r].event.seat) - 8, layout.y(r)]);
  });
  const drawn = tags(body, 'path').filter(tag => /^arrow (post|grant)/.test(tag.class)).map(tag => {
    const [, y, x] = /V([\d.]+)H([\d.]+)$/.exec(tag.d);
    return [tag.class.split(' ')[1], Number(x), Number(y)];
  });
  assert.deepStrictEqual(drawn, wanted);
}

// in each row that changes a word the values are those of the trace, and in no other row are there any
function checkValues(view) {
  const rows = page.rowsOf(view), layout = page.layoutOf(view.graph, rows, 900), { body } = page.drawLanes(view, 900);
  const shown = new Map(), values = body.slice(body.indexOf('<svg class="values"'));
  for (const [, y, value] of values.matchAll(/<text x="[\d.]+" y="([\d.]+)"[^>]*>([^<]*)<\/text>/g)) {
    shown.set(Number(y) - 4, [...shown.get(Number(y) - 4) ?? [], value]);
  }
  const wanted = new Map();
  rows.forEach(({ kind, moment }, r) => {
    const [now, then] = [moment, moment - 1].map(at => lineAfter(view, at));
    const isChanged = kind !== 'answer' && now.join() !== then.join();
    if (isChanged) wanted.set(layout.y(r), [0, 1, 2, 4].map(part => now[part]));
  });
  assert.deepStrictEqual(shown, wanted);
}

// the answer of a step to the question of its sentence: whether there is a record, and whether the seat is the owner
function checkAnswer(view) {
  const event = view.path[view.at - 1], asks = event && event.act === '.' && /\?$/.test(
    page.sentence(sentences, page.nameOf(event.step), event.seat).does);
  if (!event) return;
  const { owner, push } = page.stateAt(view.graph, event.to);
  const isYes = /^(try_)?lock/.test(event.step) ? owner === String(event.seat) : push.seat !== 0;
  assert.strictEqual(page.answerOf(event.step, event.seat), asks ? (isYes ? 'Yes.' : 'No.') : '', event.step);
}

const paths = pathsOfPage();

// a test that makes a check at some moments of each path
function atMoments(check, momentsOf) {
  return () => {
    let moments = 0;
    for (const { graph, name, path } of paths) for (const at of momentsOf(path.length)) {
      try {
        check({ graph, path, at });
      } catch (error) {
        throw new Error(`${name}, moment ${at}: ${error.message}`);
      }
      moments++;
    }
    return `${moments} moments of ${paths.length} paths`;
  };
}

const each = check => atMoments(check, last => Array.from({ length: last + 1 }, (none, at) => at));
const two = check => atMoments(check, last => [last, Math.floor(last / 2)]);
runTests([
  ['a step whose sentence asks a question is answered', each(checkAnswer)],
  ['bars and lines of the lanes, row by row', two(checkLanes)],
  ['arrows of posts and grants', two(checkArrows)],
  ['the values beside the lanes, row by row', two(checkValues)],
  ['the disc of the responsibility is at the place of the trace', each(checkDisc)],
  ['each box has its word and who accesses it next, and the thick one is that of the last step', each(checkBoxes)],
]);
