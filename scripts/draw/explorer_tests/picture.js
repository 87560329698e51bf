'use strict';
// Takes pictures of a page. They differ with the fonts of a machine, so no test compares their bytes. Of the one in README
// docs/pictures/explorer.txt says at which moment it was taken, and what the page said there: layout_test.js compares that.
//
//   node picture.js                                            takes the one in README.md anew, and writes that file anew
//   node picture.js PAGE MOMENT FILE WIDTH HEIGHT [dark]       another picture
//
// It needs node and Chromium.
const crypto = require('crypto');
const fs = require('fs');
const path = require('path');
const { Browser } = require('./browser.js');
const { TOP } = require('./built_page.js');

const PICTURE = path.join(TOP, 'docs/pictures/explorer.png'), TEXT = path.join(TOP, 'docs/pictures/explorer.txt');
const PAGE = path.join(TOP, 'docs/explorer.html');
const digest = bytes => crypto.createHash('sha256').update(bytes).digest('hex');

// what docs/pictures/explorer.txt says: a name and a value in each line, and after an empty line the text of the page
function readPicture() {
  const [head, body] = fs.readFileSync(TEXT, 'utf8').split('\n\n');
  const rows = head.split('\n').map(line => /^(\S+) (.*)$/.exec(line).slice(1)), fields = Object.fromEntries(rows);
  return { ...fields, width: Number(fields.width), height: Number(fields.height), text: body.trimEnd().split('\n') };
}

// the texts that a page shows, and a digest of its drawings and its style: neither depends on the fonts
async function drawnNow(browser) {
  const { text, drawing } = await browser.run(`(() => {
    const walker = document.createTreeWalker(document.body, NodeFilter.SHOW_TEXT), text = [];
    while (walker.nextNode()) {
      const { parentElement, textContent } = walker.currentNode, line = textContent.replace(/\\s+/g, ' ').trim();
      const isHidden = parentElement.closest('script, style, option:not(:checked), details:not([open]) > :not(summary)');
      if (line !== '' && !isHidden) text.push(line);
    }
    const drawing = ['#lanes', '#memory', 'style'].map(name => document.querySelector(name).innerHTML).join('');
    return { text, drawing }; })()`);
  return { text, drawing: digest(drawing) };
}

// takes a picture of a page at a moment, and says what is drawn there
async function takePicture({ page, moment, file, width, height, isDark = false }) {
  const browser = new Browser();
  try {
    await browser.open('file://' + path.resolve(page) + '#' + encodeURIComponent(moment), width, height, isDark);
    await browser.picture(file);
    return await drawnNow(browser);
  } finally {
    await browser.close();
  }
}

async function takePictureOfReadme() {
  const { moment, width, height } = readPicture();
  const { text, drawing } = await takePicture({ page: PAGE, moment, file: PICTURE, width, height });
  const head = { moment, width, height, picture: digest(fs.readFileSync(PICTURE)), drawing };
  const lines = Object.entries(head).map(([name, value]) => `${name} ${value}`);
  fs.writeFileSync(TEXT, [...lines, '', ...text, ''].join('\n'));
}

if (require.main === module) {
  const [page, moment, file, width, height, dark] = process.argv.slice(2);
  if (page === undefined) takePictureOfReadme();
  else takePicture({ page, moment, file, width: Number(width), height: Number(height), isDark: dark === 'dark' });
}

module.exports = { PICTURE, readPicture, digest, drawnNow };
