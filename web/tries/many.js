// node tries/many.js PAGE EXAMPLES MFBANK [chromium|firefox ...]: 1,000 decks that are made by a seed go through the page in
// each of these browsers, chosen in its file field, and have to give what MFBANK gives, faults too. Half of them have
// tables in all sorts of TOML, or faulty rows. Calls are dialled first, by keys and by a button, and go on in the next
// office.
'use strict';
const { spawnSync } = require('child_process');
const fs = require('fs');
const path = require('path');
const { pathToFileURL } = require('url');
const { Browser } = require('./browser.js');
const { Firefox } = require('./firefox.js');
const { is, end } = require('./checks.js');
const { printedByB } = require('./next.js');
const { deckOf, deckOfSeededTable, seeded } = require('./seeds.js');

const DECKS = Number(process.env.DECKS) || 1000;
const AT_ONCE = 50;
const hard = require('./tables.json');

// Seeded records after a hard table, one of the seeded tables, or one of the tables of examples/.
function deckOfSeed(seed, tables) {
  const { throwOf } = seeded(seed);
  const kind = throwOf(4);
  if (kind === 0) return deckOf(seed, [hard[throwOf(hard.length)].trimEnd()]);
  return kind === 1 ? deckOfSeededTable(seed) : deckOf(seed, tables);
}

function givenBy(mfbank, deck) {
  const { status, stdout, stderr } = spawnSync(mfbank, { input: deck, maxBuffer: 1 << 26 });
  return status === 0 ? stdout.toString() : `Refused: ${stderr.toString().replace('mfbank: ', '').trimEnd()}`;
}

// Chooses each deck in the page's file field, and waits for what is shown; a page is taken whole, as it would be saved.
const CHOOSE = `async (decks) => {
  const given = [];
  for (const deck of decks) {
    const bytes = Uint8Array.from(atob(deck), (letter) => letter.charCodeAt(0));
    const chosen = new DataTransfer();
    chosen.items.add(new File([bytes], 'seeded.deck'));
    document.getElementById('file').files = chosen.files;
    document.getElementById('file').dispatchEvent(new Event('change'));
    const read = document.getElementById('read');
    while (!/refused|read in|could not/.test(read.textContent)) await new Promise((done) => setTimeout(done, 2));
    const isPage = /read in/.test(read.textContent);
    given.push(isPage ? await window.saved.text() : document.getElementById('page').textContent);
  }
  return given;
}`;

const KEEP_SAVED = `(() => {
  const { createObjectURL } = URL;
  URL.createObjectURL = (blob) => { window.saved = blob; return createObjectURL(blob); };
  return true;
})()`;

async function tryBrowser(name, it, file, decks, wanted) {
  await it.open(path.join(__dirname, '..', '..', 'examples', 'seven_digits.wav'));
  await it.go(`${pathToFileURL(file)}#quiet`, '!!document.querySelector(".telephone .hook")');
  await it.key('0');
  await it.until('document.querySelectorAll("#entries li").length >= 1');
  const entry = await it.run('document.querySelector("#entries code").textContent');
  is(`0 is dialled, in ${name}`, entry, '0007 1 KEYED 0001 KP:1100+1700 0:1300+1500 ST:1500+1700');
  await it.run(`document.querySelector('[data-number="2345678"]').click()`);
  await it.until('document.querySelectorAll("#second-entries li").length >= 2');
  const onward = await it.run('[...document.querySelectorAll("#second-entries code")].map((it) => it.textContent)');
  const [line] = printedByB();
  is(`0 and 234 5678 go on in the next office, in ${name}`, onward,
    ['0000 1 KEYED 0001 KP:1100+1700 0:1300+1500 ST:1500+1700', line.replace('0000 1', '0000 2')]);
  await it.run(KEEP_SAVED);
  const given = [];
  for (let at = 0; at < decks.length; at += AT_ONCE) {
    const some = decks.slice(at, at + AT_ONCE).map((deck) => deck.toString('base64'));
    given.push(...await it.run(`(${CHOOSE})(${JSON.stringify(some)})`));
  }
  const compared = wanted.map((text, i) => ({ seed: i + 1, text, given: given[i] }));
  const others = compared.filter((one) => one.text !== one.given);
  const taken = wanted.filter((text) => !text.startsWith('Refused: ')).length;
  is(`${decks.length} decks, ${taken} of them accepted, in ${name}`, others, []);
  is(`nothing was said in the console of ${name}`, it.messages, []);
  await it.close();
}

async function tryMany(file, examples, mfbank, names) {
  const tables = ['routes.toml', 'routes_of_ten.toml'];
  const texts = tables.map((name) => fs.readFileSync(path.join(examples, name), 'utf8').trimEnd());
  const decks = Array.from({ length: DECKS }, (_, i) => deckOfSeed(i + 1, texts));
  const wanted = decks.map((deck) => givenBy(mfbank, deck));
  const kinds = { chromium: Browser, firefox: Firefox };
  for (const name of names) await tryBrowser(name, new kinds[name](), file, decks, wanted);
}

module.exports = { tryMany };

if (require.main === module) {
  const [, , file, examples, mfbank, ...names] = process.argv;
  tryMany(file, examples, mfbank, names).then(end, (fault) => { console.error(fault); process.exit(1); });
}
