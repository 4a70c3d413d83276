// node tries/decks.js PAGE EXAMPLES MFBANK MFCHECK: decks through the page's reader (reader.js), and rows through its
// module, in Node: a row takes less than a microsecond, the sound of EXAMPLES is heard,
// and the next office makes of keys what the rules say.
'use strict';
const fs = require('fs');
const path = require('path');
const { pathToFileURL } = require('url');
const { Module, Reader, modulesOf } = require('./chain.js');
const { is, end } = require('./checks.js');
const { tryEars } = require('./ears.js');
const { tryReader } = require('./reader.js');
const { trySecond } = require('./second.js');
const { dialRows } = require('./seeds.js');
const { tryTaken } = require('./taken.js');

const [, , page, examples, mfbank, mfcheck] = process.argv;
const MOST_BYTES = 450000;
const MOST_NANOSECONDS = 1000;
const read = (name) => fs.readFileSync(path.join(examples, name));

const readDoc = (name) => fs.readFileSync(path.join(examples, '..', 'docs', name), 'utf8');

// ---- the caller of docs/EMBEDDING.md

const partsOf = (rows) => rows.map((row) => row.split(',')).map(([, state, ms]) => [state, Number(ms)]);

async function tryCaller() {
  const code = /```js\nimport \{ open \} from '.\/mfchain.mjs';\n([^]*?)```/.exec(readDoc('EMBEDDING.md'))[1];
  const { open } = await import(pathToFileURL(path.join(__dirname, '..', 'mfchain.mjs')));
  const printed = [];
  const call = new Function('open', 'table', 'rows', 'deck', 'console', `return (async () => { ${code} })()`);
  const log = (...words) => printed.push(words.join(' '));
  await call(open, read('routes.toml').toString(), partsOf(dialRows(7, '0')), read('calls.deck').toString(), { log });
  is('the caller of docs/EMBEDDING.md prints the tapes, the code and the page', printed, [
    '0007 1 KEYED 0001 KP:1100+1700 0:1300+1500 ST:1500+1700', '', '',
    '0008 1 KEYED 0003 KP:1100+1700 4:700+1300 1:700+900 1:700+900 ST:1500+1700', `234 ${read('calls.page')}`]);
}

// ---- how fast a row is: the least of many short runs, since a machine does other things too

function nanosecondsOfRow(module, table) {
  module.useTable(table);
  module.forget(7);
  const rows = partsOf(dialRows(7, '2345678').concat('7,B,400'));
  let least = Infinity;
  for (let run = 0; run < 3000; run++) {
    const began = process.hrtime.bigint();
    for (let i = 0; i < 4; i++) for (const [state, ms] of rows) module.take(7, state, ms);
    least = Math.min(least, Number(process.hrtime.bigint() - began) / (4 * rows.length));
  }
  return least;
}

async function main() {
  const { module: wasm, lowered, reader: readerOfPage } = modulesOf(page);
  const size = fs.statSync(page).size;
  is(`the module has ${wasm.length} bytes, its copy ${lowered.length}, the page ${size}`, size <= MOST_BYTES, true);
  is('the module imports nothing', WebAssembly.Module.imports(new WebAssembly.Module(wasm)), []);
  await tryCaller();
  await tryTaken(path.join(__dirname, '..', 'mfchain.mjs'));
  await tryReader(page, examples, mfbank, mfcheck);
  const reader = await Reader.open(readerOfPage);
  for (const [name, bytes] of [['the module', wasm], ['its copy', lowered]]) {
    const module = await Module.open(bytes);
    const nanoseconds = nanosecondsOfRow(module, reader.table('', module.tableBytes()));
    is(`${nanoseconds.toFixed(0)} ns a row, by ${name}`, nanoseconds < MOST_NANOSECONDS, true);
    tryEars(module, name, read);
    trySecond(module, name, reader, read);
  }
  end();
}

main();
