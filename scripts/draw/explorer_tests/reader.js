'use strict';
// What the tests in a browser have in common: what a reader of the page does there, and what is seen there. One browser is
// opened for each test file.
const path = require('path');
const { Browser } = require('./browser.js');
const { runTests } = require('./built_page.js');

const browser = new Browser();
const address = file => 'file://' + path.resolve(file);
const text = id => browser.run(`document.getElementById('${id}').textContent`);
const tests = [];
const test = (name, run) => tests.push([name, run]);

// ---- what a reader does

const choose = (list, value) => browser.run(`(() => {
  const list = document.getElementById('${list}');
  list.value = '${value}';
  list.dispatchEvent(new Event('change'));
  document.activeElement.blur();
})()`);
const titles = () => browser.run('examples.map(({ title }) => title)');
const chooseTitle = async title => choose('examples', (await titles()).findIndex(found => found.startsWith(title)));
// walks the shortest way to the end of the present task, as the page shows it
const WALK_THE_WAY = 'showWay(event => isGoal(view.graph, view.task.goal, event)); goTo(view.path.length)';
// makes the events of that way, as a reader does at the buttons of the seats
const MAKE_THE_WAY = `wayTo(view.graph, endOf(view.path), event => isGoal(view.graph, view.task.goal, event))
  .forEach(({ seat, act }) => choose(seat, act))`;

// presses Tab until this has the focus
async function tabTo(wanted) {
  for (let i = 0; i < 80; i++) {
    if (await focused() === wanted) return;
    await browser.key('Tab', 'Tab');
  }
  throw new Error('the key Tab does not lead to ' + wanted);
}

// ---- what is seen

// what the boxes of count, owner and handoff say
const words = () => browser.run(`['count', 'owner', 'handoff'].map(word => {
  const box = document.querySelector('[data-word=' + word + ']');
  return box.nextElementSibling.nextElementSibling.textContent.replace('seat ', '');
}).join(' ')`);

// what has the focus: a button by its seat and act, anything else by its name
const focused = () => browser.run(`(() => { const { dataset, id, tagName } = document.activeElement;
  return dataset.seat ? dataset.seat + ' ' + dataset.act : dataset.task ? 'task ' + dataset.task : id || tagName; })()`);

// no text is wider than what holds it, no panel lies over another one, and the panels of the seats fill their row
const layoutFaults = () => browser.run(`(() => {
  const faults = [], box = element => element.getBoundingClientRect();
  const names = 'header, .seat, .time, #lanes, .legend, #story, #memory, .text section, details';
  const panels = [...document.querySelectorAll(names)];
  panels.forEach((a, i) => panels.slice(i + 1).forEach(b => {
    const p = box(a), q = box(b);
    if (p.left < q.right - 1 && q.left < p.right - 1 && p.top < q.bottom - 1 && q.top < p.bottom - 1) {
      faults.push((a.id || a.className) + ' lies over ' + (b.id || b.className));
    }
  }));
  for (const element of document.querySelectorAll('header, .seat, .time, #story, .legend, button, select, h1, h2')) {
    if (element.scrollWidth > element.clientWidth + 1 && getComputedStyle(element).display !== 'inline') {
      faults.push('cut: ' + element.textContent.slice(0, 40));
    }
  }
  for (const name of ['#memory text', '.values text']) for (const label of document.querySelectorAll(name)) {
    if (box(label).right > box(label.closest('svg')).right + 1) faults.push('cut: ' + label.textContent);
  }
  for (const rect of document.querySelectorAll('#memory .box')) {
    const label = rect.nextElementSibling.nextElementSibling;
    if (box(label).width > box(rect).width) faults.push('too wide: ' + label.textContent);
  }
  const end = Math.max(...[...document.querySelectorAll('.seat')].map(seat => box(seat).right));
  if (Math.abs(end - box(document.querySelector('#lanes')).right) > 1) faults.push('the seats are not as wide as the lanes');
  if (document.documentElement.scrollWidth > innerWidth) faults.push('the page is wider than the window');
  return faults; })()`);

// the lists that have no room for one of their items. Beside it a list needs room for its arrow, in pixels
const ARROW = 16;
const cutItems = () => browser.run(`[...document.querySelectorAll('select')].flatMap(list => {
  const { font, paddingLeft, paddingRight } = getComputedStyle(list), brush = document.createElement('canvas').getContext('2d');
  brush.font = font;
  const room = list.clientWidth - parseFloat(paddingLeft) - parseFloat(paddingRight) - ${ARROW};
  return [...list.options].map(({ text }) => text).filter(text => brush.measureText(text).width > room); })`);

// a row of a lane whose text runs into what stands at its right, or out of the lanes
const crossedRows = () => browser.run(`[...document.querySelectorAll('#lanes .rows svg')].flatMap(svg => {
  const labels = [...svg.querySelectorAll('g:not(.row) > text')], end = svg.getBoundingClientRect().right;
  const places = labels.map(label => [label.textContent, label.getBoundingClientRect()]), faults = [];
  places.forEach(([a, p], i) => {
    if (p.right > end + 1) faults.push(a + ' | the end');
    places.slice(i + 1).forEach(([b, q]) => {
      if (Math.abs(p.y - q.y) < 5 && p.left < q.right - 1 && q.left < p.right - 1) faults.push(a + ' | ' + b);
    });
  });
  return faults; })`);

// opens a page, runs the tests of this file, and closes the browser
function runInBrowser(file) {
  browser.open(address(file)).then(() => runTests(tests)).catch(error => {
    console.log('FAILED ' + error.message + '\n0 passed, 1 failed');
    process.exitCode = 1;
  }).finally(() => browser.close());
}

module.exports = { browser, address, text, test, choose, titles, chooseTitle, WALK_THE_WAY, MAKE_THE_WAY, tabTo,
  words, focused, layoutFaults, cutItems, crossedRows, runInBrowser };
