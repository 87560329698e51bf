'use strict';
// Replaces a text of a file, which it must have exactly once, by another one. In both \n is the end of a line:
//
//   node edit.js FILE OLD NEW
const fs = require('fs');

const [file, before, after] = process.argv.slice(2).map(text => text.replaceAll('\\n', '\n'));
const parts = fs.readFileSync(file, 'utf8').split(before);
if (parts.length !== 2) process.exit(1);
fs.writeFileSync(file, parts.join(after));
