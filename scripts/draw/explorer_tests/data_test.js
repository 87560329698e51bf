'use strict';
// Tests of the data of a page, and of its functions that find states, paths and texts. It needs node, and no browser.
//
//   node data_test.js PAGE     PAGE is docs/explorer.html, or docs/explorer_3_seats.html
const assert = require('assert');
const fs = require('fs');
const path = require('path');
const { TOP, SCHEDULES, readPage, startRows, printed, linksTo, storedPlace, stored, withoutSeats, runTests } =
  require('./built_page.js');

const page = readPage(process.argv[2]);
const { graphs, whole, sentences, tasks } = page;
const right = Object.values(graphs).filter(({ kind }) => kind === 'whole' || kind === 'more');
const wrong = Object.values(graphs).filter(({ kind }) => kind === 'wrong');
const paths = page.schedules.filter(({ kind }) => kind === 'path');
const examples = page.schedules.filter(({ kind }) => kind === 'example');
const tests = [];
const test = (name, run) => tests.push([name, run]);

// the states of a printed graph: their parts, and their events
function statesOf(printed) {
  const texts = [], states = [];
  for (const line of printed.split('\n')) {
    if (line[0] === '+') texts.push(line.slice(1));
    else if (line[0] === '=') states.push({ parts: line.slice(2).split(' ').map(number => texts[number]), events: [] });
    else if (/^\d+ \d+ \d+$/.test(line)) states[states.length - 1].events.push(line.split(' ').map(Number));
  }
  return { texts, states };
}

// what the page has of a state, in the form of the printed one
function shownState(graph, node) {
  const state = page.stateAt(graph, node), link = ({ stamp, seat }) => `(${stamp}, ${seat || 'none'})`;
  const seats = state.seats.map(seat =>
    `${seat.depth} ${seat.takes} ${seat.posts} ${seat.wake} ${link(seat.link)} ${seat.point}`);
  const events = state.choices.flatMap(({ moves, refusals }, i) => [
    ...moves.map(({ act, step, turn, to }) => `${i + 1} ${act}|${step}|${turn} ${to}`),
    ...refusals.map(({ act, why }) => `${i + 1} ${act}|${act.split(' ')[0]}: refused ${why}|refused ${why} ${node}`)]);
  return { parts: [state.line, link(state.push), ...seats], events: events.sort() };
}

for (const { name, text } of examples) {
  test(`${name}: as lfm replay and lfm_explain print it`, () => {
    assert.strictEqual(text, stored(name, '.lfm'));
    const { path: events, fault } = page.follow(whole, text);
    assert.strictEqual(fault, 0);
    assert.strictEqual(withoutSeats(page.traceOf(whole, events)), withoutSeats(stored(name, '.out')));
    if (fs.existsSync(storedPlace(name) + '.steps')) {
      assert.strictEqual(withoutSeats(page.explanationOf(whole, events)), withoutSeats(stored(name, '.steps')));
    }
    const again = page.scheduleOf(whole, events);
    assert.deepStrictEqual(page.follow(whole, again).path, events);
  });
}

for (const { name, text } of paths) {
  test(`${name}: to its end, as lfm replay prints it`, () => {
    const graph = graphs[name], { path: events, fault } = page.follow(graph, text);
    assert.strictEqual(text, stored(name, '.lfm'));
    assert.strictEqual(fault, 0);
    assert.strictEqual(events.length + 1, graph.states.length);
    assert.strictEqual(page.traceOf(graph, events), stored(name, '.out'));
    if (!fs.existsSync(storedPlace(name) + '.steps')) return;
    assert.strictEqual(page.explanationOf(graph, events), stored(name, '.steps'));
  });
}

test('all stored schedules that a whole graph has', () => {
  const all = fs.readdirSync(SCHEDULES, { recursive: true }).filter(file => file.endsWith('.lfm'));
  const files = all.filter(file => !file.includes('input_faults'));
  let known = 0;
  for (const file of files) {
    const schedule = fs.readFileSync(path.join(SCHEDULES, file), 'utf8');
    const { path: events, fault } = page.follow(whole, schedule);
    if (fault !== 0) continue;
    known++;
    const trace = fs.readFileSync(path.join(SCHEDULES, file.replace(/lfm$/, 'out')), 'utf8');
    assert.strictEqual(withoutSeats(page.traceOf(whole, events)), withoutSeats(trace), file);
  }
  assert(known >= (whole.seats === 2 ? 18 : 4), `${known} are known`);
  return `${known} of ${files.length}`;
});

test('a sentence names its seat', () => {
  assert.match(page.sentence(sentences, 'place owner', 2).does, /^Seat 2 owns /);
  assert.match(page.sentence(sentences, 'unlock 5 take 1', 2).does, /^remove the whole push list/);
});

test('each state is reached', () => {
  for (const graph of Object.values(graphs)) {
    const reached = new Set([0]);
    for (const node of reached) page.eventsFrom(graph, node).forEach(({ to }) => reached.add(to));
    assert.strictEqual(reached.size, graph.states.length, graph.name);
  }
});

test('each step, answer, refusal and place has a sentence, and what a call remembers has words', () => {
  const told = name => assert(sentences[page.sentenceName(name)], name);
  for (const graph of Object.values(graphs)) for (let node = 0; node < graph.states.length; node++) {
    const state = page.stateAt(graph, node);
    told('place ' + state.placeName);
    for (const { point } of state.seats) if (point.includes(':')) {
      told(point.split(': ')[0]);
      assert(!/ (seen|for|as|after) /.test(point) || / as #0$/.test(point) || page.memoryOf(point) !== '', point);
    }
    state.choices.forEach(({ refusals }) => refusals.forEach(({ act, why }) =>
      told(page.turnName({ act, turn: 'refused ' + why }))));
    page.eventsFrom(graph, node).forEach(({ act, step, turn }) => {
      if (act === '.') assert.match(page.outcomeOf(step), /^(It|The word) .*\.$/);
      if (page.isAnswer(turn)) told(page.turnName({ act, turn }));
    });
  }
});

for (const task of tasks.filter(task => graphs[task.graph])) {
  test(`a task: ${task.text}`, () => {
    const graph = graphs[task.graph], { path: start, fault } = page.follow(graph, `seats ${graph.seats}\n${task.schedule}`);
    assert.strictEqual(fault, 0);
    assert(!start.some(event => page.isGoal(graph, task.goal, event)), 'it is done at its start');
    const way = page.wayTo(graph, page.endOf(start), event => page.isGoal(graph, task.goal, event));
    assert(way.length > 0 && task.seen.length > 0);
    return `${way.length} events`;
  });
}

for (const graph of wrong) {
  test(`${graph.name}: a task asks for its fault, and its edit is one of the protocol`, () => {
    assert(tasks.some(task => task.graph === graph.name && task.goal === 'fault'));
    const edit = startRows().find(([, , name]) => name === graph.name)[4];
    assert.match(fs.readFileSync(path.join(TOP, edit), 'utf8'), /^file: src\//m);
  });
}

// the states from which one that is wanted can be reached, by the events backwards
function reaching(graph, isWanted, leaves) {
  const before = graph.states.map(() => []), reached = new Set();
  graph.states.forEach((text, node) => {
    if (isWanted(node)) reached.add(node);
    for (const event of page.eventsFrom(graph, node)) if (leaves(event)) before[event.to].push(node);
  });
  for (const node of reached) before[node].forEach(from => reached.add(from));
  return reached;
}

for (const graph of right) {
  test(`${graph.name}: one seat, post or grant has the responsibility, or none where the trace says free`, () => {
    for (let node = 0; node < graph.states.length; node++) {
      const state = page.stateAt(graph, node);
      assert.strictEqual(page.manyResponsible(state), state.placeName === 'free' ? 0 : 1, `state ${node}`);
    }
  });
}

for (const graph of right) {
  test(`${graph.name}: no state has a fault`, () => {
    for (let node = 0; node < graph.states.length; node++) {
      // the sleepers are left to the search below, which visits each state once
      const state = page.stateAt(graph, node);
      const holders = state.seats.filter(({ depth, point }) => depth > 0 && point === 'rests');
      assert(holders.length <= 1);
      state.seats.forEach(({ depth, point }, i) => {
        if (depth > 0 && point === 'rests') assert.strictEqual(state.owner, String(i + 1));
        if (point.includes(':')) assert.strictEqual(state.choices[i].moves.length, 1);
      });
    }
    for (let seat = 1; seat <= graph.seats; seat++) {
      const isFree = node => {
        const { point, wake } = page.stateAt(graph, node).seats[seat - 1];
        return point !== 'sleeps in its lock' || wake !== 'QUIET';
      };
      const reached = reaching(graph, isFree, event => event.seat !== seat);
      assert.strictEqual(reached.size, graph.states.length, `seat ${seat} sleeps for ever`);
    }
    // the same by the function of the page, for some states
    for (let node = 0; node < graph.states.length; node += 499) assert.strictEqual(page.faultOf(graph, node), '');
  });
}

// the calls of a graph as starts.txt names them, for this seat: a send has a target, which is another seat
function callsOf(graph, seat) {
  const [, , , ...named] = startRows().find(([, , name]) => name === graph.name)[4].split(' ');
  const every = ['lock', 'try_lock', 'unlock', 'receive', 'start_wait', 'send_lock'];
  const calls = named[0] === 'all' ? every : named.flatMap(names => names.split(','));
  const targets = graph.seatNumbers.filter(other => other !== seat).map(target => 'send_lock ' + target);
  return calls.flatMap(call => call === 'send_lock' ? targets : [call]);
}

for (const graph of right) {
  test(`${graph.name}: a seat without an open call begins each call, or is refused it`, () => {
    const calls = graph.seatNumbers.map(seat => callsOf(graph, seat).sort());
    const deepest = Number(startRows().find(([, , name]) => name === graph.name)[4].split(' ')[2]);
    for (let node = 0; node < graph.states.length; node++) {
      const { seats, choices } = page.stateAt(graph, node);
      seats.forEach(({ depth, point }, i) => {
        if (point.includes(':')) return;
        // at the greatest depth of the graph a further lock is left out
        const isKept = act => depth < deepest || !/lock$/.test(act) || act === 'unlock';
        const found = [...choices[i].moves, ...choices[i].refusals].map(({ act }) => act).sort();
        assert.deepStrictEqual(found, calls[i].filter(isKept), `seat ${i + 1} in state ${node}`);
      });
    }
  });
}

// whether these events lead from the state, one after another, to one that is wanted
function isWay(graph, from, events, isWanted) {
  let node = from;
  for (const { seat, act, to } of events) {
    const leads = event => event.seat === seat && event.act === act && event.to === to;
    if (!page.eventsFrom(graph, node).some(leads)) return false;
    node = to;
  }
  return events.length > 0 && isWanted(events[events.length - 1]);
}

test('each question of the page has a way, and a page of two seats has all', () => {
  const asked = page.WAYS.filter(([, isWanted]) => page.hasEvent(whole, isWanted));
  for (const [name, isWanted] of asked) assert(isWay(whole, 0, page.wayTo(whole, 0, isWanted), isWanted), name);
  assert(whole.seats !== 2 || asked.length === page.WAYS.length);
  return `${asked.length} questions`;
});

test('steps of one seat in a row are one line', () => {
  const events = [];
  for (const [seat, act] of [[1, 'lock'], [1, '.'], [1, '.'], [2, 'lock'], [2, '.'], [2, '.'], [1, 'unlock'], [2, '.']]) {
    assert(page.extend(whole, events, seat, act));
  }
  assert.deepStrictEqual(page.scheduleOf(whole, events).split('\n').slice(1),
    ['1 lock', '1 *', '2 lock', '2 +2', '1 unlock', '2 .', '']);
});

test('each queued record is in one of the lists, in order', () => {
  for (const graph of [...right, ...paths.map(({ name }) => graphs[name])]) {
    for (let node = 0; node < graph.states.length; node++) {
      const state = page.stateAt(graph, node), { pushed, cleared, popped } = page.listsOf(state);
      // the push list and the cleared list are newest first, and what is not collected yet is oldest
      assert.deepStrictEqual([...cleared.slice().reverse(), ...popped, ...pushed.slice().reverse()].map(String),
        state.queue.map(record => record.split('#')[0]), `${graph.name}, state ${node}`);
    }
  }
});

test('each link to a moment of this page leads there', () => {
  const links = linksTo(path.basename(process.argv[2], '.html'));
  for (const { hash } of links) {
    const [first, ...lines] = decodeURIComponent(hash).split(';'), graph = graphs[first] || whole;
    const head = first.startsWith('seats') ? first : 'seats ' + graph.seats;
    assert.strictEqual(page.follow(graph, [head, ...lines].join('\n')).fault, 0, hash);
  }
  return `${links.length} links`;
});

test('README, the first hour and the examples lead to the page', () => {
  const read = file => fs.readFileSync(path.join(TOP, file), 'utf8'), hour = read('CONTRIBUTING.md').split('\n## ')[1];
  assert.match(hour, /^The first hour\n/);
  for (const text of [read('README.md'), hour]) assert.match(text, /\]\(docs\/explorer\.html\)/);
  assert.match(read('examples/README.md'), /\]\(\.\.\/docs\/explorer\.html\)/);
});

// what a reader sees of a page in HTML, without what programs print
const seenText = html => html.replace(/<(style|script|code)[^]*?<\/\1>/g, '').replace(/<[^>]*>/g, ' ');

test('take is said of posts alone', () => {
  const html = fs.readFileSync(path.join(TOP, 'docs/explorer/page.html'), 'utf8');
  const said = [seenText(html), ...Object.values(sentences).flatMap(({ does, next }) => [does, next]),
    ...tasks.flatMap(({ text, seen }) => [text, seen]), ...page.WAYS.map(([name]) => name)];
  const parts = said.flatMap(text => text.split(/(?<=[.?!])\s/));
  const taken = parts.filter(part => /\b(take|takes|took|taken|taking)\b/i.test(part));
  taken.forEach(part => assert.match(part, /\bpost/i));
  assert(taken.length > 8);
  return `${taken.length} sentences`;
});

test('the terms of the page explain each call, each value of a wake word, and what their heading names', () => {
  const terms = /<details id="terms">[^]*?<\/details>/.exec(page.html)[0], explained = terms.match(/<dt>[^]*?<\/dl>/)[0];
  const calls = new Set(), values = new Set();
  for (const graph of right) for (let node = 0; node < graph.states.length; node++) {
    const { seats, choices } = page.stateAt(graph, node);
    seats.forEach(({ wake }) => values.add(wake.split('(')[0]));
    choices.forEach(({ moves }) => moves.forEach(({ act }) => act !== '.' && calls.add(act.split(' ')[0])));
  }
  for (const call of calls) assert(explained.includes(`<code>${call}</code>`), call);
  for (const value of values) assert.match(explained, new RegExp(`\\b${value}\\b`));
  const named = /<summary>Terms: (.*) …<\/summary>/.exec(terms)[1].split(', ');
  const heads = [...explained.matchAll(/<dt>(.*?)<\/dt>/g)].flatMap(([, head]) => head.split(', '));
  named.forEach(name => assert(heads.includes(name), name));
  return `${calls.size} calls, ${values.size} values`;
});

for (const graph of Object.values(graphs)) {
  test(`${graph.name}: the page has each state and event of the graph that its packer unpacks`, () => {
    const { texts, states } = statesOf(printed(graph.name));
    assert.strictEqual(graph.states.length, states.length);
    states.forEach(({ parts, events }, node) => {
      const wanted = events.map(([seat, text, to]) => `${seat} ${texts[text]} ${to}`).sort();
      assert.deepStrictEqual(shownState(graph, node), { parts, events: wanted }, `state ${node}`);
    });
    return `${states.length} states`;
  });
}

runTests(tests);
