'use strict';
// Compares a page with the built programs, byte for byte: random walks in its graphs, given as schedules to `lfm replay` and
// `lfm_explain`; and, if a program prints them, the graphs themselves. It needs node.
//
//   node programs_test.js PAGE LFM LFM_EXPLAIN LFM_STATES [WALKS]    a program that is not there is written as -
//   node programs_test.js PAGE --write FOLDER [WALKS]                writes the walks into a folder, with what is wanted
const assert = require('assert');
const fs = require('fs');
const path = require('path');
const { spawnSync } = require('child_process');
const { readPage, startRows, printed, stored, randomNumbers, runTests } = require('./built_page.js');

const [pageFile, lfm, explain, states, walks = '60'] = process.argv.slice(2);
const page = readPage(pageFile), { graphs } = page;
const below = randomNumbers();
const run = (program, args, input) => spawnSync(program, args, { input, encoding: 'utf8', maxBuffer: 1e9 });
const rows = startRows();
const tests = [];

// a random walk that also begins calls which are refused
function randomWalk(graph, most) {
  const events = [];
  while (events.length < most) {
    const { choices } = page.stateAt(graph, page.endOf(events));
    const open = choices.flatMap(({ moves }, i) => moves.map(({ act }) => [i + 1, act]));
    if (open.length === 0) break;
    const refused = choices.flatMap(({ refusals }, i) => refusals.map(({ act }) => [i + 1, act]));
    if (refused.length > 0 && below(6) === 0) page.extend(graph, events, ...refused[below(refused.length)]);
    page.extend(graph, events, ...open[below(open.length)]);
  }
  return events;
}

// writes the walks for programs that have to be run in another way: NAME.lfm, NAME.out and NAME.steps
function writeWalks(folder, many) {
  for (const graph of right) for (let walk = 0; walk < many; walk++) {
    const events = randomWalk(graph, 150), name = path.join(folder, `${graph.name}_${walk}`);
    fs.writeFileSync(name + '.lfm', page.scheduleOf(graph, events));
    fs.writeFileSync(name + '.out', page.traceOf(graph, events));
    fs.writeFileSync(name + '.steps', page.explanationOf(graph, events));
  }
}

const right = Object.values(graphs).filter(({ kind }) => kind === 'whole' || kind === 'more');
if (lfm === '--write') {
  writeWalks(explain, Number(states ?? 60));
  process.exit();
}
if (lfm !== '-' && explain !== '-') {
  for (const graph of right) tests.push([`${graph.name}: walks, as lfm replay and lfm_explain print them`, () => {
    let many = 0;
    for (let walk = 0; walk < Number(walks); walk++) {
      const events = randomWalk(graph, 150), schedule = page.scheduleOf(graph, events);
      assert.strictEqual(page.traceOf(graph, events), run(lfm, ['replay'], schedule).stdout, schedule);
      assert.strictEqual(page.explanationOf(graph, events), run(explain, [], schedule).stdout, schedule);
      many += events.length;
    }
    return `${walks} walks of ${many} events`;
  }]);
}

// whether a program knows these arguments: one that does not says how it is used, with status 2
const knows = (program, args, input) => program !== '-' && run(program, args, input).status !== 2;
if (knows(explain, ['states'], 'seats 1\n')) {
  for (const [, kind, name] of rows.filter(([, kind, name]) => kind === 'path' && graphs[name])) {
    tests.push([`${name}: the states of its schedule are those of lfm_explain states`, () => {
      assert.strictEqual(printed(name), run(explain, ['states'], stored(name, '.lfm')).stdout);
    }]);
  }
} else console.log('left out: the states of schedules, since lfm_explain states is not built');
if (knows(states, ['graph', '1', '1', '1', 'lock'], '')) {
  for (const graph of right) tests.push([`${graph.name}: the graph is that of lfm_states graph`, () => {
    const args = rows.find(([, , name]) => name === graph.name)[4].split(' ');
    assert.strictEqual(printed(graph.name), run(states, ['graph', ...args], '').stdout);
  }]);
} else console.log('left out: the graphs, since lfm_states graph is not built');
if (tests.length === 0) {
  console.log('left out: walks, since lfm and lfm_explain are not built');
  console.log('0 passed, 0 failed');
} else runTests(tests);
