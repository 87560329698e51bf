'use strict';
// The data of the page, and paths in it. Nothing here knows what a step does: each state and each step is looked up in a
// graph that the core printed. Nothing here touches the document, so node runs this file as it is.

// ---- graphs and sentences, as the page stores them

// a packed graph: scripts/draw/pack_graph.awk says what its lines are
function readGraph(text) {
  const [head, texts, states] = text.trim().split('\n\n').map(part => part.split('\n'));
  const [seats, budget] = head[0].split(' ').map(Number);
  const seatNumbers = Array.from({ length: seats }, (none, i) => i + 1);
  return { seats, seatNumbers, budget, texts, states };
}

// a pair such as (3, none): its stamp and its seat, which is 0 for none
function readPair(text) {
  const [stamp, seat] = text.slice(1, -1).split(', ');
  return { stamp: Number(stamp), seat: seat === 'none' ? 0 : Number(seat) };
}

function readSeat(text) {
  const [, depth, takes, posts, wake, link, point] = text.match(/^(\d+) (\d+) (\d+) (\S+) (\([^)]*\)) ([^|]*)/);
  return { depth: Number(depth), takes: Number(takes), posts: Number(posts), wake, link: readPair(link), point };
}

// the state with this number: the words, the seats, and what each seat may do
function stateAt(graph, node) {
  const [words, ...choices] = graph.states[node].split('|');
  const [line, push, ...seats] = words.split(' ').map(code => graph.texts[parseInt(code, 36)]);
  const [count, owner, handoff, place, queue] = line.split(' ');
  const [placeName, placeSeat = 0] = place.split('.');
  return {
    node, line, count, owner, handoff, placeName, placeSeat: Number(placeSeat),
    queue: queue === '-' ? [] : queue.split(','),
    push: readPair(push),
    seats: seats.map(readSeat),
    choices: choices.map((text, i) => ({
      moves: readMoves(graph, node, text),
      refusals: readRefusals(seats[i].split('|')[i + 1]),
    })),
  };
}

function readMoves(graph, node, text) {
  return text.split(' ').filter(item => item !== '').map(item => {
    const [event, distance] = item.split('.').map(code => parseInt(code, 36));
    const [act, step, turn] = graph.texts[event].split('|');
    return { act, step, turn, to: node + distance };
  });
}

function readRefusals(text = '') {
  return text.split(',').filter(item => item !== '').map(item => {
    const [act, why] = item.split('=');
    return { act, why };
  });
}

// a sentence of each step and answer by its name: what it does, and what can come next
function readSentences(text) {
  const sentences = {};
  for (const line of text.trim().split('\n').filter(line => line[0] !== '#')) {
    const [name, does, next = ''] = line.split('\t');
    sentences[name] = { does, next };
  }
  return sentences;
}

// the name under which steps.txt has a step: those that collect have one name, whichever call collects
const sentenceName = step => step.replace(/^.* (take \d)$/, '$1');

// the sentence of this name, for this seat
function sentence(sentences, name, seat) {
  const found = sentences[sentenceName(name)] || { does: name, next: '' };
  const fill = text => text.replace(/([Ss])eat S\b/g, '$1eat ' + seat);
  return { does: fill(found.does), next: fill(found.next) };
}

// tasks: the graph, the text, the schedule before it, the event that does it, and what was seen then
function readTasks(text) {
  return text.trim().split('\n').filter(line => line[0] !== '#').map(line => {
    const [graph, words, schedule, goal, seen] = line.split('\t');
    return { graph, text: words, schedule: schedule.replace(/;/g, '\n'), goal, seen };
  });
}

// whether an event ends a task: its step or its answer is the wanted one, or it leads to a fault
function isGoal(graph, goal, event) {
  if (goal === 'fault') return faultOf(graph, event.to) !== '';
  return [event.turn, event.seat + ' ' + event.turn, event.step].some(text => new RegExp(goal).test(text));
}

// ---- paths: a path is a list of events. Each has its seat, act, step, turn and next state, and its line of the schedule

function endOf(path) {
  return path.length === 0 ? 0 : path[path.length - 1].to;
}

// adds an event of this seat to a path. False if the graph has no such event there
function makeEvent(graph, path, seat, act, line) {
  const from = endOf(path);
  const choices = stateAt(graph, from).choices[seat - 1];
  if (!choices) return false;
  const move = choices.moves.find(move => move.act === act);
  if (move) {
    path.push({ seat, act, step: move.step, turn: move.turn, to: move.to, line });
    return true;
  }
  const refusal = choices.refusals.find(refusal => refusal.act === act);
  if (!refusal) return false;
  const turn = 'refused ' + refusal.why;
  path.push({ seat, act, step: `${act.split(' ')[0]}: ${turn}`, turn, to: from, line });
  return true;
}

// the path of a schedule, as far as the graph has it, and the first line that the graph does not have; 0 if it has all
function follow(graph, schedule) {
  const [head, ...lines] = schedule.trim().split('\n');
  const path = [];
  const seats = /^seats (\d+)( \d+)?$/.exec(head);
  if (!seats || Number(seats[1]) > graph.seats) return { path, fault: 1 };
  for (let i = 0; i < lines.length; i++) {
    const words = /^(\d+) (.+)$/.exec(lines[i]);
    if (!words || !followLine(graph, path, Number(words[1]), words[2], i + 2)) return { path, fault: i + 2 };
  }
  return { path, fault: 0 };
}

function followLine(graph, path, seat, act, line) {
  const many = act === '.' ? 1 : act === '*' ? Infinity : /^\+\d+$/.test(act) ? Number(act.slice(1)) : 0;
  if (many === 0) return makeEvent(graph, path, seat, act, line);
  for (let i = 0; i < many; i++) {
    if (!makeEvent(graph, path, seat, '.', line)) return i > 0;
    if (path[path.length - 1].turn !== 'goes on') return true;
  }
  return true;
}

// whether a path begins with all events of another one
function goesOn(start, path) {
  return start.every(({ seat, act, to }, i) => path[i]?.seat === seat && path[i].act === act && path[i].to === to);
}

// the line of the schedule to which a further event belongs: steps that one seat makes in a row are one line
function lineOfNext(path, seat, act) {
  const last = path[path.length - 1];
  if (!last) return 2;
  const isSame = act === '.' && last.act === '.' && last.seat === seat && last.turn === 'goes on';
  return isSame ? last.line : last.line + 1;
}

// adds an event, or with * all steps of the open call
function extend(graph, path, seat, act) {
  const one = act === '*' ? '.' : act;
  let made = false;
  while (makeEvent(graph, path, seat, one, lineOfNext(path, seat, one))) {
    made = true;
    if (act !== '*' || path[path.length - 1].turn !== 'goes on') break;
  }
  return made;
}

// the events of each line, in order
function linesOf(path) {
  const lines = [];
  for (const event of path) {
    if (lines.length === 0 || lines[lines.length - 1][0].line !== event.line) lines.push([]);
    lines[lines.length - 1].push(event);
  }
  return lines;
}

// a line of a schedule
function lineText(events) {
  const { seat, act } = events[0];
  const last = events[events.length - 1];
  if (act !== '.') return `${seat} ${act}`;
  if (last.turn !== 'goes on') return `${seat} *`;
  return events.length === 1 ? `${seat} .` : `${seat} +${events.length}`;
}

// ---- the texts that the programs read and write

// the budget of a schedule that names none
const LARGEST_BUDGET = 2 ** 36;

function scheduleOf(graph, path) {
  const budget = graph.budget === LARGEST_BUDGET ? '' : ' ' + graph.budget;
  return [`seats ${graph.seats}${budget}`, ...linesOf(path).map(lineText)].join('\n') + '\n';
}

function traceOf(graph, path) {
  return textOf(graph, path, () => []);
}

function explanationOf(graph, path) {
  return textOf(graph, path, (events, number) => events.map(event => `${number} ${event.seat} ${event.step}`));
}

function textOf(graph, path, before) {
  const text = [`1 seats ${graph.seats} | ${stateAt(graph, 0).line}`];
  linesOf(path).forEach((events, i) => {
    const last = events[events.length - 1];
    text.push(...before(events, i + 2));
    text.push(`${i + 2} ${last.seat} ${last.turn} | ${stateAt(graph, last.to).line}`);
  });
  return text.join('\n') + '\n';
}

// ---- searches

// questions, and whether an event is the answer
const WAYS = [
  ['a seat that falls asleep', event => /^ends Asleep/.test(event.turn)],
  ['an unlock that grants', event => /^ends Granted/.test(event.turn)],
  ['an unlock that posts', event => event.turn === 'ends Posted'],
  ['a post that a locker takes over', event => /^lock 8: .*, take/.test(event.step)],
  ['a post that is taken back', event => /^unlock 5: .*, take/.test(event.step)],
  ['a releaser that comes too late', event => event.turn === 'ends TakenOver'],
  ['a locker that comes too late', event => /^lock 8: .* fails/.test(event.step)],
  ['a push that has to be repeated', event => /^lock 6: .* fails/.test(event.step)],
  ['a post that a try_lock accepts', event => /, accept/.test(event.step)],
  ['a wait that is sent', event => event.turn === 'ends Sent'],
];

// whether a graph has such an event
function hasEvent(graph, isWanted) {
  return graph.texts.some(text => {
    const [act, step, turn] = text.split('|');
    return turn !== undefined && isWanted({ act, step, turn });
  });
}

// the fewest events from a state to one that is wanted. Empty if there are none
function wayTo(graph, from, isWanted) {
  const came = new Map([[from, null]]);
  for (const node of came.keys()) {
    for (const event of eventsFrom(graph, node)) {
      if (isWanted(event)) return unwind(came, node, event);
      if (!came.has(event.to)) came.set(event.to, { node, event });
    }
  }
  return [];
}

function eventsFrom(graph, node) {
  const one = (choice, i) => choice.moves.map(({ act, step, turn, to }) => ({ seat: i + 1, act, step, turn, to }));
  return stateAt(graph, node).choices.flatMap(one);
}

function unwind(came, node, last) {
  const events = [last];
  for (let at = came.get(node); at; at = came.get(at.node)) events.unshift(at.event);
  return events;
}

// ---- what never happens in the right mutex

// the points of calls that carry the responsibility, and those of a release, whose seat holds no more
const CARRIES = /^(\w+ \d+ take \d|lock (9|10)|unlock [236]|try_lock [36]|receive 3|start_wait [236]|send_lock 9): /;
const RELEASES = /^(unlock|start_wait) [2-9]/;

// how many seats, posts and grants have the responsibility in a state, by its words and the points of its seats
function manyResponsible({ handoff, seats }) {
  const isOne = ({ depth, point }) => CARRIES.test(point) || (depth > 0 && !RELEASES.test(point));
  const grants = seats.filter(({ wake }) => wake.startsWith('GRANT'));
  return (handoff === '0' ? 0 : 1) + grants.length + seats.filter(isOne).length;
}

// whether this seat sleeps in its lock, and gets no grant whatever the others do. Its own looks change nothing before that
function sleepsForEver(graph, node, seat) {
  const reached = new Set([node]);
  for (const at of reached) {
    const { seats, choices } = stateAt(graph, at);
    if (seats[seat - 1].point !== 'sleeps in its lock' || seats[seat - 1].wake !== 'QUIET') return false;
    choices.forEach(({ moves }, i) => moves.forEach(({ to }) => i + 1 === seat || reached.add(to)));
  }
  return true;
}

// the fault of a state, in words; empty if it has none
function faultOf(graph, node) {
  const { seats, owner } = stateAt(graph, node);
  const holders = seats.map((seat, i) => seat.depth > 0 && seat.point === 'rests' ? i + 1 : 0).filter(seat => seat !== 0);
  if (holders.length > 1) return `Seats ${holders.join(' and ')} hold the mutex at the same time.`;
  if (holders.length === 1 && owner !== String(holders[0])) {
    const named = owner === '0' ? 'that nobody does' : 'seat ' + owner;
    return `Seat ${holders[0]} holds the mutex, and the owner word says ${named}.`;
  }
  const lost = seats.findIndex(({ point }) => / link\.0 /.test(point)) + 1;
  const what = 'took a post over to serve a queued seat, and none is queued';
  if (lost !== 0) return `Seat ${lost} ${what}: its next step would read a record that is not there.`;
  // a sleeper is named when all calls have ended: until then a reader looks to those that are open for help
  const isOver = seats.every(({ point }) => !point.includes(':'));
  const asleep = isOver ? seats.findIndex((seat, i) => sleepsForEver(graph, node, i + 1)) + 1 : 0;
  return asleep === 0 ? '' : `Seat ${asleep} sleeps for ever: no call that a seat may still begin here gives it a grant.`;
}

// ---- the queue in memory: which of the queued records are where

// the records from this seat on, along the links
function chain(state, seat) {
  const seats = [];
  for (let at = seat; at !== 0 && !seats.includes(at); at = state.seats[at - 1].link.seat) seats.push(at);
  return seats;
}

// the push list starts at the push word, the cleared list at the link that a call loads next, and the pop list has the rest
function listsOf(state) {
  const pushed = chain(state, state.push.seat);
  const next = state.seats.map(seat => /take 2: link\.([1-9]\d*)/.exec(seat.point)).find(found => found);
  const cleared = next ? chain(state, Number(next[1])) : [];
  const queued = state.queue.map(record => Number(record.split('#')[0]));
  return { pushed, cleared, popped: queued.filter(seat => !pushed.includes(seat) && !cleared.includes(seat)) };
}

if (typeof module !== 'undefined') {
  Object.assign(module.exports, { readGraph, stateAt, readSentences, sentenceName, sentence, readTasks, isGoal, makeEvent,
    endOf, follow, goesOn, lineOfNext, extend, linesOf, lineText, LARGEST_BUDGET, scheduleOf, traceOf, explanationOf, WAYS,
    hasEvent, wayTo, eventsFrom, manyResponsible, sleepsForEver, faultOf, listsOf });
}
