'use strict';
// The lanes of the page, as text in SVG, and the parts of drawings that memory.js and seats.js use too. Nothing here touches
// the document, so node runs this file after graph.js. A view is what the page shows: a graph, a path in it, and `at`, the
// moment: how many events of the path have happened.

const ESCAPED = { '&': '&amp;', '<': '&lt;', '>': '&gt;', '"': '&quot;' };
const escape = text => String(text).replace(/[&<>"]/g, character => ESCAPED[character]);
const label = (x, y, style, text, anchor = 'start') =>
  `<text x="${x}" y="${y}" class="${style}" text-anchor="${anchor}">${text}</text>`;
const stateAfter = (view, moment) => stateAt(view.graph, moment === 0 ? 0 : view.path[moment - 1].to);
const isAnswer = turn => turn !== 'begins' && turn !== 'goes on';
const isInCall = point => point.includes(':');
const laterIf = isLater => isLater ? ' later' : '';

// the name of a step as a reader sees it: what traces call take, the page calls collect
const nameOf = step => step.split(': ')[0];
const shownName = step => nameOf(step).replace(/ take (\d)$/, ', collect $1');
// a call as a reader sees it: the number of a send is that of a seat, and not of a step
const shownAct = act => act.replace(/^send_lock (\d+)$/, 'send_lock to seat $1');
const wordOf = step => (/: ([a-z]+(\.\d+)?) /.exec(step) || [])[1];

const head = kind => `<marker id="${kind}head" viewBox="0 0 8 8" refX="7" refY="4" markerWidth="9" markerHeight="9"
 markerUnits="userSpaceOnUse" orient="auto"><path d="M0 0L8 4L0 8z" class="${kind}head"/></marker>`;
const SVG_HEAD = `<defs>
<pattern id="stripes" width="8" height="8" patternUnits="userSpaceOnUse" patternTransform="rotate(45)">
<path d="M0 0V8" class="stripe"/></pattern>${['post', 'grant', 'plain'].map(head).join('')}</defs>`;

// ---- the lanes: one for each seat, and one row for each start of a call, each step and each answer

const PITCH = 20, TOP = 12;
// how wide the lines of the schedule are, at the left of the lanes
const LINES = 130;
// the words at the right of the lanes: the part of a trace's line, and how far to the right it stands
const COLUMNS = [['count', 0, 8], ['owner', 1, 54], ['handoff', 2, 100], ['queue', 4, 156]];

function rowsOf(view) {
  const rows = [];
  view.path.forEach((event, i) => {
    const start = event.act !== '.', moment = i + 1;
    const kind = !start ? 'step' : event.turn.startsWith('refused') ? 'refused' : 'begin';
    const name = start ? shownAct(event.act) : shownName(event.step);
    rows.push({ event, moment, kind, name, detail: start ? '' : shortStep(event.step) });
    if (isAnswer(event.turn)) rows.push({ event, moment, kind: 'answer', name: event.turn, detail: '' });
  });
  return rows;
}

// what a step did to its word, in short
function shortStep(step) {
  const found = /: (\S+) (\S+)( fails)? (\([^)]*\)|[^ ,]+)(?: -> (\([^)]*\)|[^ ,]+))?/.exec(step);
  if (!found) return '';
  const [, word, , fails, before, after] = found;
  return fails ? `${word} is ${before}, fails` : after ? `${word} → ${after}` : `${word} is ${before}`;
}

// how wide each lane is: as wide as its longest text, or more if the lanes are to have at least this width
function laneWidths(graph, rows, least) {
  const texts = rows.map(({ event, name, detail }) => ({ seat: event.seat, length: name.length + detail.length }));
  const longest = seat => Math.max(18, ...texts.filter(text => text.seat === seat).map(({ length }) => length));
  const widths = graph.seatNumbers.map(seat => 54 + Math.ceil(longest(seat) * 6.6));
  const spare = least - LINES - widths.reduce((sum, width) => sum + width, 0);
  return widths.map(width => width + Math.max(0, Math.floor(spare / graph.seats)));
}

// a value of a word, in words
function valueText(word, value) {
  const pair = /^\((\d+), (\d+|none)\)$/.exec(value), post = /^(\d+)\.(\d+)$/.exec(value);
  if (pair) return `stamp ${pair[1]} and ${pair[2] === 'none' ? 'no seat' : 'seat ' + pair[2]}`;
  if (post) return `post ${post[2]} of seat ${post[1]}`;
  if (value === '0' && word === 'handoff') return 'no post';
  return word === 'owner' ? (value === '0' ? 'no owner' : 'seat ' + value) : value;
}

// what a step found and did, as a sentence
function outcomeOf(step) {
  const found = /: (\S+) ([a-z-]+)( fails)? (\([^)]*\)|[^ ,]+)(?: -> (\([^)]*\)|[^ ,]+))?/.exec(step);
  if (!found) return '';
  const [, word, operation, fails, before, after] = found, was = valueText(word, before);
  if (fails) return `It failed: it found ${was}.`;
  if (operation === 'clear-head') return before.includes('none') ? 'It found an empty list.' : `It found ${was}.`;
  if (operation === 'exchange') return `It succeeded: the word has ${valueText(word, after)} now.`;
  return after === undefined ? `It found ${was}.` : `The word had ${was}, and has ${valueText(word, after)} now.`;
}

// the answer of a step to the question that its sentence asks; empty if it asks none
function answerOf(step, seat) {
  const owner = /^(?:try_)?lock 2: owner load (\d+)/.exec(step);
  if (owner) return owner[1] === String(seat) ? 'Yes.' : 'No.';
  if (!/^(unlock 4|start_wait 4|send_lock 7): push load /.test(step)) return '';
  return / none\)/.test(step) ? 'No.' : 'Yes.';
}

// how wide the values are: the queue is the last of them, and the longest
function valuesWidth(graph, rows) {
  const longest = Math.max(0, ...rows.map(({ event }) => stateAt(graph, event.to).line.split(' ')[4].length));
  return Math.max(218, COLUMNS[COLUMNS.length - 1][2] + 10 + 7 * longest);
}

// where seats and rows stand, in lines, lanes and values of at least this width together
function layoutOf(graph, rows, least) {
  const starts = [0], values = valuesWidth(graph, rows);
  for (const width of laneWidths(graph, rows, least - values)) starts.push(starts[starts.length - 1] + width);
  return {
    values, width: starts[graph.seats], height: Math.max(TOP + (rows.length + 1) * PITCH, 120),
    // the line of a seat's lane; for the seat after the last one, where it would be
    x: seat => starts[seat - 1] + 26,
    y: row => TOP + row * PITCH,
  };
}

const drawing = (style, width, height, parts) =>
  `<svg class="${style}" width="${width}" height="${height}" aria-hidden="true">${parts.join('')}</svg>`;

// where the lane of the seat that has made the last event begins and ends
function laneNow(view, { x }) {
  const seat = view.at > 0 ? view.path[view.at - 1].seat : 0;
  return seat === 0 ? { left: 0, right: 0 } : { left: x(seat) - 26, right: x(seat + 1) - 26 };
}

// the heads of the lanes and of the values, the lines, the lanes and the values themselves, how wide lines and values are, and
// where the row of the present moment stands, and the lane of its seat
function drawLanes(view, least) {
  const rows = rowsOf(view), layout = layoutOf(view.graph, rows, least);
  const { x, y, width, height, values } = layout;
  const heads = view.graph.seatNumbers.map(seat => label(x(seat), 17, 'bold', 'seat ' + seat, 'middle'));
  const lanes = view.graph.seatNumbers.map(seat => `<path d="M${x(seat)} 0V${height}" class="lane"/>`);
  const styleOf = moment => moment === view.at ? 'row now' : 'row';
  const hits = width => rows.map(({ moment }, r) => `<g class="${styleOf(moment)}" data-moment="${moment}">
<rect class="hit" x="0" y="${y(r) - PITCH / 2}" width="${width}" height="${PITCH}"/></g>`);
  const drawn = draw => rows.map((row, r) => draw(view, row, rows[r - 1], layout, y(r)));
  return {
    heads: drawing('lines', LINES, 26, []) + drawing('', width, 26, heads)
      + drawing('values', values, 26, COLUMNS.map(([word, , right]) => label(right, 17, 'soft', word))),
    body: drawing('lines', LINES, height, [...hits(LINES), ...drawn(drawLine)])
      + drawing('', width, height, [SVG_HEAD, ...hits(width), ...lanes, drawBars(view, rows, layout),
      drawArrows(view, rows, layout), ...drawn(drawRow)])
      + drawing('values', values, height, [...hits(values), ...drawn(drawValues)]),
    aside: LINES + values,
    now: y(rows.findIndex(row => row.moment === view.at)),
    ...laneNow(view, layout),
  };
}

// what the lane of a seat is like after a row: its line tells an open call or a sleep, its bar who owns or carries
function laneAt(view, row, seat) {
  const { placeName, placeSeat, seats } = stateAfter(view, row.moment), { point } = seats[seat - 1];
  const ends = row.kind !== 'answer' && row.event.seat === seat && row.event.act === '.' && isAnswer(row.event.turn);
  const line = isInCall(point) || ends ? 'call' : point.startsWith('sleeps') ? 'sleepline' : '';
  const bar = placeSeat === seat ? { owner: 'ownbar', carried: 'carrybar' }[placeName] || '' : '';
  return { line, bar, later: laterIf(row.moment > view.at) };
}

// the rows of a lane that are alike, each as one piece: first the lines of calls and sleepers, over them the bars
function drawBars(view, rows, layout) {
  const pieces = { line: [], bar: [] };
  for (const seat of view.graph.seatNumbers) {
    const lane = rows.map(row => laneAt(view, row, seat));
    for (const part of ['line', 'bar']) {
      for (let from = 0, to = 1; to <= rows.length; to++) {
        if (to < rows.length && lane[to][part] === lane[from][part] && lane[to].later === lane[from].later) continue;
        if (lane[from][part] !== '') {
          const bottom = layout.y(to) - (to === rows.length ? 8 : 0);
          pieces[part].push(drawPiece(part, layout.x(seat), layout.y(from), bottom, lane[from],
            `data-seat="${seat}" data-from="${from}" data-to="${to}"`));
        }
        from = to;
      }
    }
  }
  return pieces.line.join('') + pieces.bar.join('');
}

function drawPiece(part, x, top, bottom, lane, data) {
  if (part === 'line') return `<path d="M${x} ${top}V${bottom}" class="${lane.line}${lane.later}" ${data}/>`;
  const place = `x="${x - 6}" y="${top}" width="12" height="${bottom - top}"`;
  return `<rect ${place} class="under"/><rect ${place} class="${lane.bar}${lane.later}" ${data}/>`;
}

// an arrow from each post to the step that takes it, and from each grant to the step that loads it
function drawArrows(view, rows, layout) {
  const out = [];
  let from = -1, before = 'free';
  rows.forEach((row, to) => {
    const { placeName, placeSeat } = stateAfter(view, row.moment), place = placeName + placeSeat;
    if (place === before) return;
    const kind = /^posted/.test(before) ? 'post' : /^passed/.test(before) ? 'grant' : '';
    if (kind !== '') out.push(drawArrow(kind, rows[from], from, row, to, layout, laterIf(row.moment > view.at)));
    before = place;
    from = to;
  });
  return out.join('');
}

function drawArrow(kind, source, from, target, to, { x, y }, later) {
  const s = source.event.seat, t = target.event.seat, aside = kind === 'post' ? 16 : 22;
  const start = s < t ? x(s) + 20 + 7 * (source.name.length + source.detail.length + 1) : x(s) - 6;
  const turn = s > t ? `H${x(s) - aside}V${y(to) - PITCH / 2}` : '';
  return `<path d="M${start} ${y(from)}${turn}H${x(t) - aside}V${y(to)}H${x(t) - 8}" class="arrow ${kind}${later}"
 marker-end="url(#${kind}head)"/>`;
}

// the line above a row that begins a line of the schedule
function ruleAbove(row, before, y, width) {
  return before && before.event.line === row.event.line ? '' : `<path d="M0 ${y - PITCH / 2}H${width}" class="rule"/>`;
}

// the number and the text of a line of the schedule, at its first row
function drawLine(view, row, before, layout, y) {
  const rule = ruleAbove(row, before, y, LINES);
  if (rule === '') return '';
  const events = view.path.filter(event => event.line === row.event.line);
  return drawnRow(view, row, [rule, label(12, y + 4, 'soft', row.event.line), label(38, y + 4, '', lineText(events))]);
}

function drawRow(view, row, before, layout, y) {
  const left = layout.x(row.event.seat), out = [ruleAbove(row, before, y, layout.width)];
  if (row.kind === 'step') out.push(`<circle cx="${left}" cy="${y}" r="3.5" class="mark"/>`);
  if (row.kind === 'begin') out.push(`<circle cx="${left}" cy="${y}" r="4" class="hollow"/>`);
  if (row.kind === 'refused') out.push(`<path d="M${left - 4} ${y - 4}l8 8m0 -8l-8 8" class="cross"/>`);
  const style = { begin: 'halo bold', answer: 'halo slant', refused: 'halo slant', step: 'halo' }[row.kind];
  const detail = row.detail ? `<tspan class="soft" dx="7">${escape(row.detail)}</tspan>` : '';
  out.push(label(left + 12, y + 4, style, escape(row.name) + detail));
  return drawnRow(view, row, out);
}

const drawnRow = (view, row, parts) =>
  `<g class="${laterIf(row.moment > view.at)}" pointer-events="none">${parts.join('')}</g>`;

// the words after a row, if it has changed one
function drawValues(view, row, before, layout, y) {
  const now = stateAfter(view, row.moment).line.split(' '), then = stateAfter(view, row.moment - 1).line.split(' ');
  const styleOf = part => now[part] === then[part] ? 'soft' : '';
  const isChanged = row.kind !== 'answer' && now.join() !== then.join();
  const values = isChanged ? COLUMNS.map(([, part, right]) => label(right, y + 4, styleOf(part), now[part])) : [];
  return drawnRow(view, row, [ruleAbove(row, before, y, layout.values), ...values]);
}

if (typeof module !== 'undefined') {
  Object.assign(module.exports, { PITCH, rowsOf, layoutOf, laneAt, drawLanes, nameOf, shownName, outcomeOf, answerOf, isAnswer });
}
