'use strict';
// Reads a built page for the tests: its functions that touch no document, and its data. It also counts what passed and what
// failed.
const fs = require('fs');
const path = require('path');
const { execFileSync } = require('child_process');

const TOP = path.join(__dirname, '../../..');
const SCHEDULES = path.join(TOP, 'examples/schedules');

// the scripts of a page but the last one, which touches the document: run as they are
function functionsOf(html) {
  const scripts = [...html.matchAll(/<script>\n([^]*?)<\/script>/g)].map(found => found[1]);
  const module = { exports: {} };
  new Function('module', scripts.slice(0, -1).join('\n').replaceAll("'use strict';", ''))(module);
  return module.exports;
}

function readPage(file) {
  const html = fs.readFileSync(file, 'utf8'), page = functionsOf(html);
  const block = id => html.match(new RegExp(`<script type="text/plain" id="${id}">\n([^]*?)</script>`))[1];
  const start = /<script .* data-start="(.*?)" data-kind="(.*?)" data-title="(.*?)">\n([^]*?)<\/script>/g;
  const graphs = {}, schedules = [];
  for (const [, name, kind, title, text] of html.matchAll(start)) {
    const packed = kind === 'path' ? text.slice(text.indexOf('\n\n') + 2) : text;
    if (kind !== 'example') graphs[name] = { ...page.readGraph(packed), name, kind };
    const schedule = text.split('\n\n')[0].trimEnd() + '\n';
    if (kind === 'example' || kind === 'path') schedules.push({ name, kind, title, text: schedule });
  }
  const whole = Object.values(graphs).find(({ kind }) => kind === 'whole');
  const sentences = page.readSentences(block('sentences')), tasks = page.readTasks(block('tasks'));
  return { ...page, html, graphs, whole, schedules, sentences, tasks };
}

// where the stored files of a schedule are, by its name
function storedPlace(name) {
  const places = ['', 'handoffs', 'sends'].map(folder => path.join(SCHEDULES, folder, name));
  return places.find(place => fs.existsSync(place + '.lfm'));
}

// the rows of starts.txt: the page, what it is, its name, its title, and where it is from
function startRows() {
  const lines = fs.readFileSync(path.join(TOP, 'docs/explorer/starts.txt'), 'utf8').trim().split('\n');
  return lines.filter(line => line[0] !== '#').map(line => line.split('\t'));
}

// the graph of this name, as scripts/draw/explorer unpacks it
function printed(name) {
  return execFileSync(path.join(TOP, 'scripts/draw/explorer'), ['--print', name], { encoding: 'utf8', maxBuffer: 1e9 });
}

// the links to moments of a page in the pages of the repository: the file of each, what stands before it there, and what
// follows its #
function linksTo(name) {
  const inDocs = fs.readdirSync(path.join(TOP, 'docs')).filter(file => file.endsWith('.md')).map(file => 'docs/' + file);
  const link = new RegExp(`${name}\\.html#([^)\\s]+)`, 'g');
  return ['README.md', 'CONTRIBUTING.md', 'examples/README.md', ...inDocs].flatMap(file => {
    const text = fs.readFileSync(path.join(TOP, file), 'utf8');
    return [...text.matchAll(link)].map(({ 1: hash, index }) => ({ file, before: text.slice(0, index), hash }));
  });
}

const stored = (name, suffix) => fs.readFileSync(storedPlace(name) + suffix, 'utf8');

// a mutex of one seat is shown in a graph of two, and with a smaller budget
const withoutSeats = text => text.replace(/^1 seats \d+/, '').replace(/^seats .*/, '');

// a random number below another one: the same numbers in each run
function randomNumbers() {
  let seed = 1;
  return below => {
    seed = (Math.imul(seed, 1664525) + 1013904223) >>> 0;
    return Math.floor(seed / 2 ** 32 * below);
  };
}

// runs tests one after the other, each with a name, and prints the counts. If STOP_AT_FAULT is set, it ends at the first
// fault
async function runTests(tests) {
  let passed = 0, failed = 0;
  for (const [name, test] of tests) {
    try {
      const note = await test();
      passed++;
      console.log(`passed: ${name}${note ? ': ' + note : ''}`);
    } catch (error) {
      failed++;
      console.log(`FAILED ${name}: ${String(error.stack).slice(0, 1500)}`);
      if (process.env.STOP_AT_FAULT) break;
    }
  }
  console.log(`${passed} passed, ${failed} failed`);
  if (failed !== 0) process.exitCode = 1;
}

module.exports = { TOP, SCHEDULES, readPage, startRows, printed, linksTo, storedPlace, stored, withoutSeats, randomNumbers,
  runTests };
