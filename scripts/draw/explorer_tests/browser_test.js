'use strict';
// Opens a page in a headless Chromium, and clicks and looks as a reader does: through the examples, the tasks, and the links
// that lead to a moment. It needs node and Chromium, and no library.
//
//   node browser_test.js PAGE [PAGE_OF_3_SEATS [OPENED_PAGE]]     CHROMIUM names the browser
const assert = require('assert');
const fs = require('fs');
const { readPage, linksTo, stored, storedPlace, withoutSeats } = require('./built_page.js');
const { browser, address, text, test, choose, titles, chooseTitle, WALK_THE_WAY, MAKE_THE_WAY, words, layoutFaults,
  crossedRows, runInBrowser } = require('./reader.js');

const [pageFile, threeFile, openedFile] = process.argv.slice(2);
const page = readPage(pageFile);
const examples = page.schedules.filter(({ kind }) => kind === 'example');

// where each drawn bar of the lanes is on the screen, and each row: whether the pieces lie where their rows are
const drawnBars = () => browser.run(`(() => {
  const rows = [...document.querySelectorAll('#lanes .row .hit')].map(row => row.getBoundingClientRect());
  return [...document.querySelectorAll('#lanes rect.ownbar, #lanes rect.carrybar')].map(bar => {
    const box = bar.getBoundingClientRect(), { seat, from, to } = bar.dataset, middle = row => row.y + row.height / 2;
    return { seat, from, to, isAtItsRow: Math.abs(box.y - middle(rows[from])) < 2 };
  }); })()`);

// the word at whose box the disc is seen, or the seat at whose name
const discPlace = () => browser.run(`(() => {
  const discs = [...document.querySelectorAll('circle.token')];
  if (discs.length !== 1) return String(discs.length);
  const place = discs[0].getBoundingClientRect(), x = place.x + place.width / 2, y = place.y + place.height / 2;
  const panel = discs[0].closest('.seat');
  if (panel) return 'carried.' + /Seat (\\d)/.exec(panel.textContent)[1];
  const box = [...document.querySelectorAll('#memory [data-word]')].find(box => {
    const { right, top } = box.getBoundingClientRect();
    return Math.abs(right - x) < 3 && Math.abs(top - y) < 3;
  });
  return box ? box.dataset.word : 'no box'; })()`);

// the place that a trace names, as discPlace does
function placeOf(place, owner) {
  const [name, seat] = place.split('.');
  return { free: '0', owner: 'owner', posted: 'handoff', passed: 'wake.' + seat, carried: 'carried.' + seat }[name];
}

for (const { name, title } of examples) test(`looks at ${name}, event by event`, async () => {
  const trace = stored(name, '.out').trim().split('\n');
  await chooseTitle(title);
  const ends = await browser.run('view.path.map((event, i) => view.path[i + 1]?.line === event.line ? 0 : event.line)');
  for (const line of ends) {
    await browser.key('ArrowRight', 'ArrowRight');
    const shown = (await text('trace')).trim().split('\n').pop(), place = shown.split(' | ')[1].split(' ')[3];
    assert.strictEqual(await discPlace(), placeOf(place));
    if (line === 0) continue;
    assert.strictEqual(shown, trace[line - 1]);
    assert.strictEqual(await words(), trace[line - 1].split(' | ')[1].split(' ').slice(0, 3).join(' '));
  }
  assert.strictEqual(withoutSeats(await text('trace')), withoutSeats(stored(name, '.out')));
  const bars = await drawnBars();
  assert(bars.length > 0 && bars.every(({ isAtItsRow }) => isAtItsRow));
  assert.deepStrictEqual(await crossedRows(), []);
  for (const _ of ends) await browser.key('ArrowLeft', 'ArrowLeft');
  assert.strictEqual(await words(), '0 0 0');
});

const withSteps = examples.filter(({ name }) => fs.existsSync(storedPlace(name) + '.steps'));
for (const { name } of withSteps) test(`clicks through ${name}`, async () => {
  await browser.click('#anew');
  // the begins and steps of the stored explanation, without the numbers of their lines
  const lines = text => text.trim().split('\n');
  const events = text => lines(text).filter(line => !line.includes(' | ')).map(line => line.replace(/^\d+ /, ''));
  const wanted = events(stored(name, '.steps')), acts = lines(stored(name, '.lfm')).filter(line => /^\d+ [a-z]/.test(line));
  for (const line of wanted) {
    const act = /^\d [a-z_]+ \d/.test(line) ? '.' : acts.shift().slice(2);
    await browser.click(`button[data-seat="${line[0]}"][data-act="${act}"]`);
  }
  assert.deepStrictEqual(events(await browser.run('explanationOf(view.graph, view.path)')), wanted);
  const last = trace => trace.trim().split('\n').pop().replace(/^\d+ /, '');
  assert.strictEqual(last(await text('trace')), last(stored(name, '.out')));
});

test('a task shows a way to its end, and can be begun again', async () => {
  await browser.run('startTask(5)');
  await browser.click('#hint');
  assert.strictEqual(await text('moment'), '11 of 20');
  for (let i = 0; i < 9; i++) await browser.key('ArrowRight', 'ArrowRight');
  assert.match(await text('story'), /Shown\. It queued first, .* To do it yourself, press again/);
  await browser.run('goTo(12)');
  await browser.click('#story [data-task="5"]');
  assert.strictEqual(await text('moment'), '11 of 11');
});

test('a task is not done by a way that the page shows', async () => {
  const many = await browser.run('tasks.length');
  for (let i = 0; i < many; i++) {
    await browser.run(`startTask(${i})`);
    await browser.click('#hint');
    await browser.key('End', 'End');
    assert.match(await text('story'), /Shown\./, `task ${i + 1}`);
    assert(!(await text('story')).includes('Done.'), `task ${i + 1}`);
  }
  await browser.run('startFree()');
  assert.strictEqual(await browser.run(`document.querySelectorAll('.tasks li .done').length`), 0);
  // but by a last step that the reader makes
  await browser.run('startTask(0); showTheTask(); goTo(2)');
  await browser.click('button[data-seat="1"][data-act="."]');
  assert.match(await text('story'), /Done\./);
});

test('a choice that leads away from the end of a task says so', async () => {
  const isLost = async () => /farther from the end/.test(await text('story'));
  const posts = await browser.run(`tasks.findIndex(({ goal }) => goal === '^ends Posted$')`);
  await browser.run(`startTask(${posts})`);
  assert(!await isLost());
  await browser.run(`choose(1, 'unlock')`);
  assert(!await isLost());
  await browser.run(`choose(2, '*')`);
  assert(await isLost());
  await browser.run('goTo(view.given)');
  assert(!await isLost());
  await browser.run(`startTask(${posts}); choose(1, 'unlock'); choose(1, '*')`);
  assert.match(await text('story'), /Done\./);
  assert(!await isLost());
});

test('the second click of two makes a step, and begins no call', async () => {
  await browser.run(`startFree(); choose(1, 'lock'); choose(1, '.')`);
  const last = 'button[data-seat="1"][data-act="."]', next = 'button[data-seat="1"][data-act="unlock"]';
  await browser.click(last, 2);
  assert.match(await text('story'), /ends Held Free/);
  await browser.click(next, 2);
  assert.match(await text('story'), /ends Held Free/);
  await browser.click(next);
  assert.match(await text('story'), /Seat 1, unlock: The call has begun/);
});

// writes a schedule into its field, as an edit that the focus has left
const writeSchedule = lines => browser.run(`(() => {
  const schedule = document.getElementById('schedule');
  schedule.value = ${JSON.stringify(lines.join('\n') + '\n')};
  schedule.dispatchEvent(new Event('change'));
})()`);

test('an edited schedule goes on with a task only if it begins as the task does', async () => {
  const start = ['1 lock', '1 *', '2 lock', '2 *'], granted = ['1 unlock', '1 *'];
  await browser.run('startTask(2)');
  await writeSchedule(['seats 2 2', ...start, ...granted]);
  assert.match(await text('story'), /Task 3.*Done\./);
  await browser.run('startTask(2)');
  const exchanged = [...start, ...granted].map(line => line.replace(/^./, seat => 3 - seat));
  await writeSchedule(['seats 2 2', ...exchanged]);
  assert.match(await text('story'), /ends Granted 1/);
  assert(!/Task|Done/.test(await text('story')));
});

test('a fault is named, and its task done, when all calls have ended', async () => {
  await browser.run(`startTask(tasks.findIndex(({ graph }) => graph.name === 'without_recheck'))`);
  for (const act of ['1 .', '1 .', '1 .', '2 *']) await browser.run(`choose(${act[0]}, '${act[2]}')`);
  assert.match(await text('story'), /ends Asleep/);
  assert(!/Done|Here is the fault/.test(await text('story')));
  await browser.run(`choose(1, '.')`);
  assert.match(await text('story'), /Done\..*Here is the fault\. Seat 2 sleeps for ever/);
});

test('a choice in the past drops what came after it', async () => {
  await chooseTitle('A posted hand-off');
  await browser.run('goTo(3)');
  await browser.click('button[data-seat="2"][data-act="lock"]');
  assert.strictEqual(await text('moment'), '4 of 4');
});

test('the list leads from a wrong mutex to the free one', async () => {
  await chooseTitle('A wrong mutex: no recheck');
  await browser.click('button[data-seat="1"][data-act="lock"]');
  await choose('examples', '');
  assert.deepStrictEqual(await browser.run('[view.graph.kind, view.path.length]'), ['whole', 0]);
});

test('the list says that a task was started, and leads from it to the free mutex', async () => {
  const listed = () => browser.run(`document.getElementById('examples').value`);
  await browser.run('startTask(1)');
  assert.strictEqual(await listed(), 'task');
  await writeSchedule(['seats 2 2', '2 lock']);
  assert.strictEqual(await listed(), '');
  await browser.run('startTask(1)');
  await choose('examples', '');
  assert.deepStrictEqual(await browser.run('[view.task, view.path.length]'), [null, 0]);
});

test('a row is a way back', async () => {
  await chooseTitle('Both see each other: the locker wins');
  await browser.key('End', 'End');
  await browser.click('.row[data-moment="9"] .hit');
  assert.strictEqual((await text('moment')).split(' ')[0], '9');
});

test('the present row is in sight, however long the path is', async () => {
  await chooseTitle('Pop list beside push list');
  const seen = () => browser.run(`(() => {
    const lanes = document.getElementById('lanes').getBoundingClientRect();
    const row = document.querySelector('.now').getBoundingClientRect();
    return row.top >= lanes.top && row.bottom <= lanes.bottom + 1;
  })()`);
  await browser.key('End', 'End');
  assert(await seen());
  for (let i = 0; i < 60; i++) await browser.key('ArrowLeft', 'ArrowLeft');
  assert(await seen());
});

test('the schedule can be edited, and a line that leads nowhere is named until the next choice', async () => {
  await browser.click('#anew');
  await browser.run(`(() => {
    const schedule = document.getElementById('schedule');
    schedule.value = 'seats 2\\n1 lock\\n1 *\\n1 lock\\n';
    schedule.dispatchEvent(new Event('change'));
  })()`);
  assert.match(await text('fault'), /^line 4 /);
  assert.strictEqual(await text('moment'), '3 of 3');
  await browser.click('button[data-seat="2"][data-act="lock"]');
  assert.strictEqual(await text('fault'), '');
});

test('each task is done when its event has happened, and not before', async () => {
  const many = await browser.run('tasks.length');
  for (let i = 0; i < many; i++) {
    await browser.run(`startTask(${i})`);
    assert(!(await text('story')).includes('Done.'));
    await browser.run(`${MAKE_THE_WAY}; goTo(view.path.length - 1)`);
    assert(!(await text('story')).includes('Done.'), `task ${i + 1}, too early`);
    await browser.run('goTo(view.path.length)');
    assert((await text('story')).includes('Done.'), `task ${i + 1}`);
    assert.deepStrictEqual(await layoutFaults(), [], `task ${i + 1}`);
  }
  await browser.run('startFree()');
  assert.strictEqual(await browser.run(`document.querySelectorAll('.tasks li .done').length`), many);
  return `${many} tasks`;
});

test('a wrong mutex says so, and names its fault', async () => {
  for (const task of page.tasks.filter(({ goal }) => goal === 'fault')) {
    await browser.run(`startTask(tasks.findIndex(({ text }) => text === ${JSON.stringify(task.text)}))`);
    assert.match(await text('story'), /This mutex has a fault on purpose/);
    assert(!/Here is the fault/.test(await text('story')));
    const [name, given] = await browser.run('[view.graph.name, view.given]');
    await browser.run(WALK_THE_WAY);
    assert.match(await text('story'), /Here is the fault\. Seat/);
    await browser.click('#anew');
    assert.deepStrictEqual(await browser.run('[view.graph.name, view.path.length]'), [name, given]);
    await browser.click('#anew');
    assert.deepStrictEqual(await browser.run('[view.graph.kind, view.path.length]'), ['whole', 0]);
  }
});

test('where a mutex with a fault has two holders or none, the page does not tell a place', async () => {
  const stories = await browser.run(`graphs.owner_cleared_late.states.flatMap((text, node) => {
    const many = manyResponsible(stateAt(graphs.owner_cleared_late, node));
    Object.assign(view, { graph: graphs.owner_cleared_late, path: [], at: 0 });
    const { placeName } = stateAt(view.graph, node), texts = placeTexts(stateAt(view.graph, node), sentences);
    return many === (placeName === 'free' ? 0 : 1) ? [] : [[many, texts.join()]]; })`);
  assert(stories.length > 0);
  const said = { 0: /a fault nobody has/, 1: /^$/ };
  stories.forEach(([many, story]) => assert.match(story, said[many] ?? /a fault more than one has/));
  await browser.click('#anew');
});

test('schedules of more seats can be looked at', async () => {
  const many = await browser.run(`examples.filter(({ graph }) => graph.kind === 'path').length`);
  for (const title of (await titles()).filter(title => title.endsWith('(to look at)'))) {
    await chooseTitle(title);
    await browser.key('End', 'End');
    assert.strictEqual(await text('fault'), '');
    assert.strictEqual(await browser.run('view.path.length + 1'), await browser.run('view.graph.states.length'));
    assert.deepStrictEqual(await crossedRows(), []);
    assert.deepStrictEqual(await layoutFaults(), []);
    // no text of the memory is smaller than ten pixels
    const scale = await browser.run(`(() => { const svg = document.querySelector('#memory svg');
      return svg.getBoundingClientRect().width / svg.viewBox.baseVal.width; })()`);
    assert(12 * scale >= 10, `${title}: ${scale}`);
  }
  return `${many} of them`;
});

// the address, once the page has written it: a timer that is set later and waits as long ends later
async function writtenAddress() {
  await browser.run('new Promise(end => setTimeout(end, ADDRESS_PAUSE))');
  return browser.run('location.hash');
}

test('a link opens the same moment, also of a wrong mutex', async () => {
  for (const [graph, schedule] of [['whole', '1 lock\\n1 *\\n2 lock\\n2 +4'], ['without_recheck', '1 lock\\n1 .']]) {
    await browser.run(`load(graphs.${graph}, 'seats 2\\n${schedule}')`);
    const hash = await writtenAddress(), name = await browser.run('view.graph.name'), trace = await text('trace');
    await browser.open(address(pageFile) + hash);
    assert.strictEqual(await text('trace'), trace);
    assert.strictEqual(await browser.run('view.graph.name'), name);
  }
});

test('the address is that of the last choice, however many were made before it', async () => {
  await browser.run(`(async () => {
    for (let times = 0; times < 300; times++) {
      load(graphs.whole, 'seats 2\\n1 lock' + (times % 2 ? '\\n1 *' : ''));
      await new Promise(end => setTimeout(end, 0));
    }
    load(graphs.whole, 'seats 2\\n2 lock');
  })()`);
  assert.strictEqual(decodeURIComponent(await writtenAddress()), '#seats 2 2;2 lock');
});

const linesOfHash = hash => decodeURIComponent(hash).split(';').join('\n');

// the example that a link of examples/README.md belongs to: the last one whose heading stands before it
const exampleOf = before => [...before.matchAll(/^\*\*\d\. `(?:\w+\/)?(\w+)`:/gm)].pop()[1];

test('each of the six examples has a link, which opens at a moment of it', async () => {
  const links = linksTo('explorer').filter(({ file }) => file === 'examples/README.md');
  assert.deepStrictEqual(links.map(({ before }) => exampleOf(before)), withSteps.map(({ name }) => name));
  for (const { before, hash } of links) {
    const name = exampleOf(before), example = page.follow(page.whole, stored(name, '.lfm')).path;
    await browser.open(`${address(pageFile)}#${hash}`);
    assert.strictEqual(await text('fault'), '');
    const wanted = page.follow(page.whole, linesOfHash(hash)).path, states = path => path.map(({ seat, to }) => [seat, to]);
    const shown = await browser.run('view.path.map(({ seat, to }) => [seat, to])');
    assert.deepStrictEqual(shown, states(wanted), name);
    assert.deepStrictEqual(shown, states(example).slice(0, shown.length), name);
    assert.strictEqual(await text('moment'), `${shown.length} of ${shown.length}`);
    assert.strictEqual(await text('trace'), page.traceOf(page.whole, wanted));
  }
  return `${links.length} links`;
});

test('an address that is typed in a task ends the task', async () => {
  await browser.run('startTask(1)');
  await browser.run(`location.hash = '#' + encodeURIComponent('seats 2 2;2 lock;2 *')`);
  await browser.run('new Promise(end => setTimeout(end, 100))');
  assert.strictEqual(await text('moment'), '3 of 3');
  assert(!/Task/.test(await text('story')));
});

test('an address that names nothing opens the free mutex, and the line that leads nowhere is named', async () => {
  for (const [hash, fault] of [['#%', ''], ['#seats 9', 'line 1'], ['#nothing;1 lock;1 lock', 'line 3']]) {
    await browser.open(address(pageFile) + hash);
    assert.strictEqual((await text('fault')).split(' of the schedule')[0], fault);
    assert.match(await text('trace'), /^1 seats 2 \| 0 0 0 free -/);
  }
});

test('a recursive lock, and an unlock that still holds', async () => {
  await chooseTitle('Recursion');
  for (const act of ['lock', '*', 'lock', '*', 'unlock']) await browser.click(`button[data-seat="1"][data-act="${act}"]`);
  assert.strictEqual(await browser.run('view.path.at(-1).turn'), 'ends Still 1');
});

if (threeFile) test('the page of three seats: its tasks, and lanes', async () => {
  await browser.open(address(threeFile));
  const many = await browser.run('tasks.length');
  assert(many >= 3);
  for (let i = 0; i < many; i++) {
    await browser.run(`startTask(${i}); ${MAKE_THE_WAY}`);
    assert((await text('story')).includes('Done.'));
    assert.deepStrictEqual(await layoutFaults(), []);
  }
});

if (openedFile) test('a page for a schedule opens at it', async () => {
  await browser.open(address(openedFile));
  assert.strictEqual(await browser.run('view.graph.name'), 'opened');
  await browser.key('End', 'End');
  assert.strictEqual(await text('trace'), stored('two_pushers', '.out'));
});

test('nothing is asked of a network, and no script failed', async () => {
  assert(!/(src|href)=|https?:\/\/|@import|url\((?!#)/.test(fs.readFileSync(pageFile, 'utf8')));
  assert.deepStrictEqual(browser.faults, []);
});

runInBrowser(pageFile);
