'use strict';
// Opens a page in a headless Chromium, in windows of several sizes: no text is cut, no panel lies over another one, and what
// a reader needs first is in sight. Also the picture of the page in README.md is one of the page as it is. It needs node and
// Chromium, and no library.
//
//   node layout_test.js PAGE [PAGE_OF_3_SEATS]     CHROMIUM names the browser
const assert = require('assert');
const fs = require('fs');
const { browser, address, text, test, chooseTitle, WALK_THE_WAY, layoutFaults, cutItems, crossedRows, runInBrowser } =
  require('./reader.js');
const { PICTURE, readPicture, digest, drawnNow } = require('./picture.js');

const [pageFile, threeFile] = process.argv.slice(2);

const MOMENTS = ['', '#seats 2 2;1 lock;1 *;2 lock;2 .;1 unlock;1 +4;2 +4',
  '#seats 2 2;1 lock;1 *;1 start_wait;1 *;2 send_lock 1;2 *'];
for (const [width, height, dark] of [[1500, 900], [1500, 900, true], [1280, 800], [1000, 800], [700, 900]]) {
  test(`${width} pixels${dark ? ', dark' : ''}: no text is cut, and no panel lies over another`, async () => {
    for (const moment of MOMENTS) {
      await browser.open(address(pageFile) + encodeURI(moment), width, height, dark);
      assert.deepStrictEqual(await layoutFaults(), []);
      assert.deepStrictEqual(await crossedRows(), []);
    }
  });
}

// what a reader of each page sees: its start, a task, a wrong mutex with its fault, and a schedule of many seats
const SIGHTS = ['startFree()', `startTask(0); ${WALK_THE_WAY}`, `startTask(tasks.length - 1); ${WALK_THE_WAY}`,
  'startExample(examples.length - 1); goTo(view.path.length)'];
for (const width of [1000, 1100, 1250, 1600]) {
  test(`${width} pixels: each list has room for its items, and each button and heading for its text`, async () => {
    for (const file of [pageFile, threeFile].filter(file => file)) {
      await browser.open(address(file), width, 800);
      assert.deepStrictEqual(await cutItems(), []);
      const hasExamples = await browser.run('examples.length > 0');
      for (const sight of SIGHTS.filter(sight => hasExamples || !sight.startsWith('startExample'))) {
        await browser.run(sight);
        assert.deepStrictEqual(await layoutFaults(), [], sight);
        assert.deepStrictEqual(await crossedRows(), [], sight);
      }
    }
  });
}

test('on random walks no text of a lane runs into another', async () => {
  await browser.open(address(pageFile), 1000, 800);
  for (let walk = 0; walk < 25; walk++) {
    await browser.run(`(() => { let seed = ${walk * 7919 + 1}; const path = [];
      for (let i = 0; i < 60; i++) {
        const events = eventsFrom(graphs.whole, endOf(path));
        seed = (Math.imul(seed, 1664525) + 1013904223) >>> 0;
        const { seat, act } = events[Math.floor(seed / 2 ** 32 * events.length)] ?? {};
        if (seat) extend(graphs.whole, path, seat, act);
      }
      Object.assign(view, { graph: graphs.whole, path, task: null }); goTo(path.length); })()`);
    assert.deepStrictEqual(await crossedRows(), [], await text('trace'));
  }
});

// whether what these selectors find lies in the window
const inSight = (...selectors) => browser.run(`${JSON.stringify(selectors)}.every(selector => {
  const { top, bottom, left, right } = document.querySelector(selector).getBoundingClientRect();
  return top >= 0 && left >= 0 && bottom <= innerHeight && right <= innerWidth; })`);

for (const [width, height] of [[1450, 900], [1280, 720], [1000, 700]]) {
  test(`${width} pixels: the first screen says what this is and what to do first, and has the first tasks`, async () => {
    await browser.open(address(pageFile), width, height);
    assert.match(await browser.run(`document.querySelector('header p').innerText`),
      /^This page runs a mutex, [^.]* you choose which seat makes the next step\. To begin, press try at task 1 [^.]*\.$/);
    assert(await inSight('header p', '#seats', '#story', '[data-task="0"]', '[data-task="1"]'));
    await browser.click('[data-task="0"]');
    assert.match(await browser.run(`document.querySelector('header p').innerText`), /press start over\.$/);
    await browser.click('button[data-seat="1"][data-act="lock"]');
    await browser.click('button[data-seat="1"][data-act="*"]');
    assert(await inSight('#seats', '#story', '#on', '.now'));
    await browser.click('#anew');
    assert(await inSight('[data-task="0"]'));
  });
}

// what a function of the page finds after each event of each task
const afterEachStep = find => browser.run(`tasks.flatMap((task, number) => {
  startTask(number);
  showWay(event => isGoal(task.graph, task.goal, event));
  const found = [];
  for (let at = 1; at <= view.path.length; at++) {
    goTo(at);
    found.push((${find})(number + 1, at));
  }
  return found;
})`);

for (const file of [pageFile, threeFile].filter(file => file)) {
  test(`${file}: after each step of each task its rows are in the window, which is not scrolled`, async () => {
    await browser.open(address(file), 1280, 900);
    const places = await afterEachStep(`(number, at) => {
      const lanes = document.getElementById('lanes').getBoundingClientRect();
      const isIn = ({ top, bottom }) => top >= lanes.top && bottom <= Math.min(lanes.bottom, innerHeight);
      const rows = [...document.querySelectorAll('#lanes .now')].map(row => row.getBoundingClientRect());
      return { number, at, isInSight: rows.length > 0 && rows.every(isIn) && scrollY === 0 };
    }`);
    assert.deepStrictEqual(places.filter(({ isInSight }) => !isInSight), []);
    return `${places.length} moments`;
  });
}

for (const [width, height] of [[1450, 900], [1280, 900], [1000, 900]]) {
  test(`${width} pixels: no step moves a button on, back or start over, or the first button of a seat`, async () => {
    await browser.open(address(pageFile), width, height);
    const places = await afterEachStep(`() => {
      const panels = [...document.querySelectorAll('.seat .buttons')];
      const topOf = element => element.getBoundingClientRect().top + (element.closest('.time') ? 0 : scrollY);
      return [...['back', 'on', 'anew'].map(id => document.getElementById(id)), ...panels.slice(0, 2)].map(topOf).join(' ');
    }`);
    assert.strictEqual(new Set(places).size, 1, [...new Set(places)].join(' | '));
  });
}

test('a path that goes on says how', async () => {
  await browser.open(address(pageFile));
  await chooseTitle('A posted hand-off');
  assert.match(await text('story'), /More events follow: on ▶ shows the next one/);
  await browser.key('End', 'End');
  assert(!/More events follow/.test(await text('story')));
});

if (threeFile) for (const [width, height] of [[1450, 900], [1000, 800]]) {
  test(`${width} pixels: the page of three seats`, async () => {
    await browser.open(address(threeFile), width, height);
    assert(await inSight('header p', '#seats', '#story', '[data-task="0"]'));
    const many = await browser.run('tasks.length');
    for (let i = 0; i < many; i++) {
      await browser.run(`startTask(${i}); ${WALK_THE_WAY}`);
      assert.deepStrictEqual(await layoutFaults(), []);
      assert.deepStrictEqual(await crossedRows(), []);
    }
  });
}

// the lines of the schedule, the values, and the texts of the present row in the lanes: where they are on the screen
const placesOfNow = () => browser.run(`(() => {
  const place = element => { const { left, right, top } = element.getBoundingClientRect(); return { left, right, top }; };
  const { top, bottom } = document.querySelector('.now .hit').getBoundingClientRect();
  const texts = [...document.querySelectorAll('.rows text.halo')].map(place);
  return { lanes: place(document.getElementById('lanes')), lines: place(document.querySelector('.rows .lines')),
    values: place(document.querySelector('.rows .values')),
    texts: texts.filter(text => text.top >= top - 1 && text.top < bottom) }; })()`);

test('the present row, the lines and the values stay in sight where the lanes are scrolled', async () => {
  await browser.open(address(pageFile), 1000, 800);
  await chooseTitle('Pop list beside push list');
  const last = await browser.run('view.path.length');
  for (let at = last; at > 0; at -= 5) {
    await browser.run(`goTo(${at})`);
    const { lanes, lines, values, texts } = await placesOfNow();
    assert(values.right <= lanes.right + 1 && lines.left >= lanes.left - 1 && values.left >= lines.right - 1);
    assert(texts.length > 0 && texts.every(({ left, right }) => left >= lines.right - 1 && right <= values.left + 1), `moment ${at}`);
  }
});

test('README has a picture of the page as it is', async () => {
  const { moment, width, height, picture, drawing, text } = readPicture(), png = fs.readFileSync(PICTURE);
  const again = 'docs/pictures/explorer.png is of another page: scripts/draw/explorer_tests/picture.js takes it anew';
  assert.deepStrictEqual([png.readUInt32BE(16), png.readUInt32BE(20)], [width, height]);
  assert.strictEqual(digest(png), picture, again);
  await browser.open(address(pageFile) + '#' + encodeURIComponent(moment), width, height);
  const now = await drawnNow(browser);
  assert.deepStrictEqual(now.text, text, again);
  assert.strictEqual(now.drawing, drawing, again);
});

runInBrowser(pageFile);
