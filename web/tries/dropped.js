// Decks that a visitor drops on the page or chooses, a very long one among them.
'use strict';
const { spawnSync } = require('child_process');
const fs = require('fs');
const os = require('os');
const path = require('path');
const { is } = require('./checks.js');

const LONG = 1000000;

async function tryDecks(it, examples, read) {
  for (const name of fs.readdirSync(examples).filter((file) => file.endsWith('.deck'))) {
    const base = name.slice(0, -5);
    const isPage = fs.existsSync(path.join(examples, `${base}.page`));
    await it.drop(name, read(name).toString());
    const wanted = isPage ? read(`${base}.page`).toString()
      : `Refused: ${read(`${base}.err`).toString().replace('mfbank: ', '').trimEnd()}`;
    is(`${name}, dropped`, await it.text('#page'), wanted);
  }
  await it.drop('quoted.deck', '---\n"line","state","ms"\r\n7,"M","600"\r\n');
  is('a deck in quotes, dropped', await it.text('#page'), '0007 1 REFUSED ABANDONED 0\nKEYED 0 REFUSED 1\n');
  await it.drop('trunk.deck', '[[route]]\ncode = "234"\ntrunk = 10000\n---\nline,state,ms\n7,M,600\n7,X,60\n');
  is('a refused one is told line by line', await it.texts('#deck-places p'), [
    'Line 7, column 3: the state is not M, B or C: 7,X,60',
    'Line 3, column 1: the trunk group is not 0 to 9999: trunk = 10000']);
  await it.chooseFile('#file', path.join(examples, 'seven_digits.wav'));
  await it.until('/^seven_digits.wav/.test(document.getElementById("listening").textContent)');
  const left = [await it.text('#page'), await it.texts('#deck-places p')];
  is('nothing of it is left where a recording was chosen for a deck', left, ['', []]);
}

// Calls of many lines in turn, in so many records.
function longDeck(table, records) {
  const rows = [];
  for (let call = 0; rows.length < records; call++) {
    const line = call % 10000;
    rows.push(`${line},M,500`);
    for (const digit of ['411', '0', '2345678', '611'][call % 4]) {
      const pulses = Number(digit) || 10;
      for (let i = 1; i <= pulses; i++) rows.push(`${line},B,60`, `${line},M,${i < pulses ? 40 : 600}`);
    }
    rows.push(`${line},B,400`);
  }
  return `${table}\n---\nline,state,ms\n${rows.slice(0, records).join('\n')}\n`;
}

// Keeps the longest time between two frames, and what may be saved.
const WATCH = `(() => {
  window.longest = 0;
  let last = performance.now();
  const look = () => {
    const now = performance.now();
    longest = Math.max(longest, now - last);
    last = now;
    if (!window.isRead) requestAnimationFrame(look);
  };
  requestAnimationFrame(look);
  const { createObjectURL } = URL;
  URL.createObjectURL = (blob) => { window.saved = blob; return createObjectURL(blob); };
})()`;

async function tryLongDeck(it, mfbank, table) {
  const folder = fs.mkdtempSync(path.join(os.tmpdir(), 'mfbank-deck-'));
  const deck = path.join(folder, 'long.deck');
  fs.writeFileSync(deck, longDeck(table, LONG));
  const ran = spawnSync(mfbank, { input: fs.readFileSync(deck), maxBuffer: 1 << 28 });
  await it.run(WATCH);
  await it.chooseFile('#file', deck);
  await it.until('/^long.deck: read/.test(document.getElementById("read").textContent)', 60000);
  const saved = await it.run('saved.text()');
  is(`a deck of 1,000,000 records: ${await it.text('#read')}`, saved === ran.stdout.toString(), true);
  const longest = await it.run('isRead = true, Math.round(longest)');
  is(`the page did not stand still: ${longest} ms at most between two frames`, longest < 500, true);
  fs.rmSync(folder, { recursive: true, force: true });
}

module.exports = { tryDecks, tryLongDeck };
