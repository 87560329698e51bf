'use strict';
// Opens a page in a headless Chromium, and uses it by keys alone; and reads the names and landmarks that a screen reader
// gets. It needs node and Chromium, and no library.
//
//   node keyboard_test.js PAGE     CHROMIUM names the browser
const assert = require('assert');
const { readPage } = require('./built_page.js');
const { browser, address, text, test, chooseTitle, MAKE_THE_WAY, tabTo, focused, layoutFaults, runInBrowser } =
  require('./reader.js');

const [pageFile] = process.argv.slice(2);
const page = readPage(pageFile);
const POSTED = '#' + encodeURIComponent('seats 2 2;1 lock;1 *;2 lock;2 .;1 unlock;1 *');
const lastTurn = () => browser.run('view.path.at(-1).turn');

// all that the key Tab should reach, by numbers, and what the focus is at now: its number, and whether it is seen
const NUMBER_THE_CONTROLS = `(() => {
  const names = 'a[href], button, select, input, textarea, summary, [tabindex="0"]';
  const controls = [...document.querySelectorAll(names)].filter(element => !element.disabled && element.checkVisibility());
  controls.forEach((element, i) => { element.numberInTest = i; });
  document.activeElement.blur();
  return controls.map(({ id, textContent, tagName }) => id || textContent.slice(0, 20) || tagName); })()`;
const focusNow = () => browser.run(`(() => {
  const element = document.activeElement, { outlineStyle, outlineWidth } = getComputedStyle(element);
  const { left, right, top, bottom } = element.getBoundingClientRect();
  const isInView = right > 0 && left < innerWidth && bottom > 0 && top < innerHeight;
  const isSeen = isInView && outlineStyle === 'solid' && parseFloat(outlineWidth) >= 2;
  return { number: element.numberInTest, isSeen }; })()`);

for (const [name, hash] of [['the first screen', ''], ['a moment', POSTED]]) {
  test(`${name}: Tab reaches each control, and its focus is seen`, async () => {
    await browser.open(address(pageFile) + hash, 1000, 700);
    const controls = await browser.run(NUMBER_THE_CONTROLS), reached = new Set();
    for (let i = 0; i < controls.length + 1; i++) {
      await browser.key('Tab', 'Tab');
      const { number, isSeen } = await focusNow();
      if (number === undefined) continue;
      assert(isSeen, controls[number]);
      reached.add(number);
    }
    assert.deepStrictEqual(controls.filter((control, i) => !reached.has(i)), []);
    return `${controls.length} controls`;
  });
}

test('the keys of the page work from each control, and not in the schedule', async () => {
  await browser.open(address(pageFile) + POSTED);
  for (const id of ['back', 'slider', 'lanes', 'trace', 'story', 'examples', 'ways']) {
    await browser.run(`document.getElementById('${id}').focus(); goTo(5)`);
    await browser.key('ArrowRight', 'ArrowRight');
    assert.strictEqual(await text('moment'), '6 of 11', id);
    await browser.key('ArrowLeft', 'ArrowLeft');
    assert.strictEqual(await text('moment'), '5 of 11', id);
  }
  await browser.run(`document.getElementById('schedule').focus()`);
  for (const key of ['ArrowLeft', 'Digit1', 'Digit0']) await browser.key(key.replace('Digit', ''), key);
  assert.strictEqual(await text('moment'), '5 of 11');
});

test('at the slider its own keys work, and those of the page', async () => {
  await browser.run(`document.getElementById('slider').focus(); goTo(5)`);
  for (const [key, moment] of [['ArrowUp', 6], ['ArrowRight', 7], ['ArrowDown', 6], ['Home', 0], ['End', 11]]) {
    await browser.key(key, key);
    assert.strictEqual(await text('moment'), `${moment} of 11`, key);
  }
  await browser.key('0', 'Digit0');
  assert.strictEqual(await text('moment'), '0 of 0');
});

test('a button of the slider keeps the focus, and gives it to the other one where it cannot be pressed any more', async () => {
  await browser.open(address(pageFile) + POSTED);
  for (const [id, moment, next] of [['on', 9, 'on'], ['on', 10, 'back'], ['back', 2, 'back'], ['back', 1, 'on']]) {
    await browser.run(`goTo(${moment}); document.getElementById('${id}').focus()`);
    await browser.key('Enter', 'Enter');
    assert.strictEqual(await focused(), next, `${id} at ${moment}`);
  }
});

const IN_ONE_COLUMN = ['header', '.time', '.seats', '.story', '.lanes', 'details', '.text'];
const IN_TWO_COLUMNS = ['header', '.time', '.seats', '.lanes', '.story', 'details', '.text'];
for (const [width, wanted] of [[1000, IN_ONE_COLUMN], [1500, IN_TWO_COLUMNS]]) {
  test(`${width} pixels: the key Tab goes down the page, column by column`, async () => {
    await browser.open(address(pageFile), width, 900);
    await browser.run('startTask(5)');
    const controls = await browser.run(NUMBER_THE_CONTROLS), areas = ['header'];
    await browser.run(`document.getElementById('${controls[0]}').focus()`);
    for (let i = 1; i < controls.length; i++) {
      await browser.key('Tab', 'Tab');
      const area = await browser.run(`${JSON.stringify(wanted)}.find(area => document.activeElement.closest(area))`);
      if (area !== areas.at(-1)) areas.push(area);
    }
    assert.deepStrictEqual(areas, wanted);
    // in each column an area stands below the one before
    await browser.run('scrollTo(0, 0)');
    const tops = await browser.run(`${JSON.stringify(wanted)}.map(area => {
      const { left, top } = document.querySelector(area).getBoundingClientRect();
      return { isLeft: left < innerWidth / 2, top }; })`);
    for (const isLeft of [true, false]) {
      const column = tops.filter(place => place.isLeft === isLeft).map(({ top }) => top);
      assert.deepStrictEqual(column, [...column].sort((a, b) => a - b));
    }
  });
}

test('no line of the trace is wider than its box', async () => {
  await browser.open(address(pageFile));
  await chooseTitle('Pop list beside push list');
  await browser.key('End', 'End');
  const { width, room } = await browser.run(`(() => { const trace = document.getElementById('trace');
    return { width: trace.scrollWidth, room: trace.clientWidth }; })()`);
  assert(width <= room, `${width} in ${room}`);
});

test('by keys a reader goes from one start to the next, and back', async () => {
  await browser.open(address(pageFile));
  await browser.run(`document.getElementById('examples').focus()`);
  const shown = () => browser.run(`[view.path.length, view.graph.name, document.getElementById('examples').value]`);
  for (const place of [0, 1]) {
    await browser.key('ArrowDown', 'ArrowDown');
    const { text: schedule } = page.schedules[place];
    assert.deepStrictEqual(await shown(), [page.follow(page.whole, schedule).path.length, page.whole.name, String(place)]);
  }
  for (const place of ['0', '']) {
    await browser.key('ArrowUp', 'ArrowUp');
    assert.deepStrictEqual((await shown())[2], place);
  }
  assert.strictEqual(await focused(), 'examples');
  assert.strictEqual(await text('moment'), '0 of 0');
});

test('by keys a reader goes from one item of a list to the next', async () => {
  await browser.open(address(pageFile));
  await browser.run(`document.getElementById('ways').focus()`);
  const shown = [];
  for (const [, isWanted] of page.WAYS.slice(0, 3)) {
    await browser.key('ArrowDown', 'ArrowDown');
    shown.push(await browser.run('view.path.length'));
    const last = await browser.run('view.path.at(-1)');
    assert(isWanted(last), last.step);
  }
  await browser.key('ArrowRight', 'ArrowRight');
  assert.strictEqual(await text('moment'), `1 of ${shown[2]}`);
  await browser.key('Tab', 'Tab');
  assert.strictEqual(await browser.run(`document.getElementById('ways').value`), '');
});

test('after a choice in a list by the mouse the keys belong to the page', async () => {
  await browser.open(address(pageFile));
  for (const list of ['examples', 'ways']) {
    await browser.run(`(() => { const list = document.getElementById('${list}');
      list.focus(); list.value = '0'; list.dispatchEvent(new Event('change')); })()`);
    assert.strictEqual(await focused(), 'story');
    await browser.run('goTo(0)');
    await browser.key('1', 'Digit1');
    assert.strictEqual(await text('moment'), '1 of 1');
    await browser.key('0', 'Digit0');
    assert.strictEqual(await text('moment'), '0 of 0');
  }
});

test('an edit of the schedule is shown when Tab leaves it', async () => {
  await browser.open(address(pageFile));
  await browser.run(`(() => { const { schedule } = { schedule: document.getElementById('schedule') };
    schedule.focus(); schedule.select(); document.execCommand('insertText', false, 'seats 2 2\\n1 lock\\n1 *\\n'); })()`);
  await browser.key('Tab', 'Tab');
  assert.strictEqual(await lastTurn(), 'ends Held Free');
});

test('keys: seat 1 locks, seat 2 locks and sleeps, seat 1 unlocks to the end', async () => {
  await browser.open(address(pageFile));
  await browser.key('0', 'Digit0');
  for (const key of ['1', '1', '1', '2']) await browser.key(key, 'Digit' + key);
  await browser.key('@', 'Digit2', 8);
  await browser.key('1', 'Digit1');
  assert.strictEqual(await browser.run('view.path.at(-1).act'), 'unlock'); // the first call that seat 1 may begin
  await browser.key('!', 'Digit1', 8);
  assert.strictEqual(await lastTurn(), 'ends Granted 2');
});

test('by Tab and Enter alone: a task from its start to its end, and the next one', async () => {
  await browser.open(address(pageFile));
  await tabTo('task 0');
  await browser.key('Enter', 'Enter');
  assert.strictEqual(await focused(), 'story');
  await browser.run(`document.getElementById('examples').focus()`);
  await tabTo('1 lock');
  for (const next of ['1 .', '1 .']) {
    await browser.key('Enter', 'Enter');
    assert.strictEqual(await focused(), next);
  }
  await browser.key('Enter', 'Enter');
  assert.match(await focused(), /^1 /);
  assert.match(await text('story'), /Done\./);
  await tabTo('task 1');
  await browser.key('Enter', 'Enter');
  assert.match(await text('story'), /Task 2/);
});

test('the focus stays at the seat whose button was pressed', async () => {
  await browser.open(address(pageFile));
  await browser.run(`document.getElementById('examples').focus()`);
  await tabTo('2 lock');
  await browser.key('Enter', 'Enter');
  assert.match(await focused(), /^2 /);
});

test('the key n begins the next task', async () => {
  await browser.run(`startTask(0); ${MAKE_THE_WAY}; document.activeElement.blur()`);
  await browser.key('n', 'KeyN');
  assert.match(await text('story'), /Task 2/);
});

const LANDMARKS = ['banner', 'main', 'navigation', 'region', 'complementary', 'contentinfo'];

// the landmarks of the page, each by its role and its name
const landmarks = async () => (await browser.send('Accessibility.getFullAXTree')).nodes
  .filter(({ ignored, role }) => !ignored && LANDMARKS.includes(role?.value))
  .map(({ role, name }) => `${role.value}: ${name?.value ?? ''}`.replace(/(region: Seat \d).*/, '$1'));

test('each area of the page is a landmark with a name of its own', async () => {
  const areas = lanes => ['banner: what is shown', 'main: Which seat makes the next step?', 'navigation: moments',
    'region: Seat 1', 'region: Seat 2', `region: ${lanes}`, 'region: what is happening now',
    'region: The words in memory now', 'region: Schedule', 'region: What lfm replay prints for it'].sort();
  await browser.open(address(pageFile));
  assert.deepStrictEqual((await landmarks()).sort(), areas('tasks'));
  await browser.open(address(pageFile) + POSTED);
  assert.deepStrictEqual((await landmarks()).sort(), areas('what has happened: the trace says it in text'));
});

test('names and headings for a screen reader', async () => {
  await browser.open(address(pageFile) + POSTED);
  const nodes = await browser.send('Accessibility.getFullAXTree').then(({ nodes }) => nodes.filter(node => !node.ignored));
  const named = role => nodes.filter(node => node.role?.value === role).map(node => node.name?.value ?? '');
  assert(named('heading').includes('Which seat makes the next step?'));
  for (const role of ['button', 'combobox', 'slider', 'textbox']) {
    named(role).forEach(name => assert(name.trim() !== '', `a ${role} without a name`));
  }
  // two buttons of one name would be told apart by their places alone
  const isEnabled = ({ properties }) => !properties.some(({ name }) => name === 'disabled');
  const names = nodes.filter(node => node.role?.value === 'button' && isEnabled(node)).map(node => node.name.value);
  assert.deepStrictEqual(names, [...new Set(names)]);
  assert(names.includes('seat 2: make this step') && names.includes('seat 2: finish the call'), names.join(', '));
  const [memory] = named('image');
  assert.match(memory, /^count 1; owner 0; handoff 1\.1; .*; the responsibility in the handoff word$/);
});

test('the tasks have names of their own, and what has just happened is read out', async () => {
  await browser.open(address(pageFile));
  const { nodes } = await browser.send('Accessibility.getFullAXTree');
  const names = nodes.filter(node => node.role?.value === 'button').map(node => node.name.value);
  page.tasks.filter(({ graph }) => page.graphs[graph]).forEach((task, i) => assert(names.includes(`try task ${i + 1}`)));
  assert.strictEqual(await browser.run(`document.getElementById('story').getAttribute('aria-live')`), 'polite');
  assert.deepStrictEqual(await layoutFaults(), []);
});

runInBrowser(pageFile);
