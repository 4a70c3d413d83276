// The page of each deck of a folder, made as a whole and row by row, beside the page or the fault that stands there.
//
// usage: node examples/js/decks.mjs [FOLDER [MFCHAIN]]
import fs from 'node:fs';
import path from 'node:path';
import { fileURLToPath, pathToFileURL } from 'node:url';

const [, , given, file] = process.argv;
const folder = given ?? path.join(path.dirname(fileURLToPath(import.meta.url)), '..');
const { open, Refused } = await import(file ? pathToFileURL(file) : '../../web/mfchain.mjs');

const ROW = /^([0-9]+),([MBC]),([0-9]+)$/;

// The page of a deck, or its fault, in the words of mfbank.
function wholePage(chain, deck) {
  try {
    return chain.page(deck);
  } catch (fault) {
    if (!(fault instanceof Refused)) throw fault;
    return `mfbank: ${fault.message}\n`;
  }
}

// The same by one row after another. A deck ends each of its lines.
async function pageByRows(table, rows) {
  const chain = await open(table);
  const tapes = new Map();
  const take = (line, state, ms) => {
    const { entry } = chain.take(line, state, ms);
    if (!tapes.has(line)) tapes.set(line, []);
    if (entry) tapes.get(line).push(entry);
  };
  for (const [, line, state, ms] of rows) take(Number(line), state, Number(ms));
  for (const line of tapes.keys()) take(line, 'C', 0);
  const entries = [...tapes].sort(([a], [b]) => a - b).flatMap(([, tape]) => tape);
  const refused = entries.filter((entry) => entry.split(' ')[2] === 'REFUSED').length;
  return [...entries, `KEYED ${entries.length - refused} REFUSED ${refused}`, ''].join('\n');
}

const chain = await open('');
let wrong = 0;
const compare = (name, page, wanted) => {
  if (page !== wanted) wrong += 1;
  console.log(`${page === wanted ? 'same ' : 'OTHER'} ${name}`);
};
const decks = fs.readdirSync(folder).filter((name) => name.endsWith('.deck'));
for (const name of decks) {
  const read = (end) => fs.readFileSync(path.join(folder, name.replace(/deck$/, end)), 'utf8');
  const deck = read('deck');
  const isTaken = fs.existsSync(path.join(folder, name.replace(/deck$/, 'page')));
  const wanted = read(isTaken ? 'page' : 'err');
  compare(name, wholePage(chain, deck), wanted);
  const [table, records] = deck.split(/^---\n/m);
  const rows = records.trimEnd().split('\n').slice(1).map((row) => ROW.exec(row));
  if (isTaken && rows.every(Boolean)) compare(`${name}, by rows`, await pageByRows(table, rows), wanted);
}
if (wrong || !decks.length) process.exit(1);
