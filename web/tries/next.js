// The next office as a visitor sees it: a call of the first office goes on there, by the line of docs/NETWORK.md, and
// sounds; what breaks off or is not understood is refused; and its table may be changed.
'use strict';
const fs = require('fs');
const os = require('os');
const path = require('path');
const { Ear, Module, heardText, modulesOf } = require('./chain.js');
const { is } = require('./checks.js');

const NETWORK = path.join(__dirname, '..', '..', 'docs', 'NETWORK.md');
const HEAD_BYTES = 44;
const SAMPLES_A_SECOND = 8000;
const KEY_SAMPLES = 544;
const PAIRS = { 5: [900, 1300], 6: [1100, 1300], 7: [700, 1500], KP: [1100, 1700], ST: [1500, 1700] };

// The line of the page that the second office of the network prints, and its totals.
function printedByB() {
  const [, line, totals] = /b\.toml\n {4}(0000 .*)\n {4}(KEYED .*)\n/.exec(fs.readFileSync(NETWORK, 'utf8'));
  return [line, totals];
}

const entriesOf = (it) => it.texts('#second-entries code');
const untilEntries = (it, count) => it.until(`document.querySelectorAll('#second-entries li').length >= ${count}`);

// A recording of keys; a number is a silence of so many seconds.
function recordingOf(module, head, sounds) {
  const samples = sounds.flatMap((it) => {
    if (typeof it === 'number') return Array(SAMPLES_A_SECOND * it).fill(0);
    return [...module.tone(...PAIRS[it], KEY_SAMPLES), ...Array(KEY_SAMPLES).fill(0)];
  });
  const wav = Buffer.concat([head.subarray(0, HEAD_BYTES), Buffer.from(Int16Array.from(samples).buffer)]);
  wav.writeUInt32LE(wav.length - 8, 4);
  wav.writeUInt32LE(2 * samples.length, HEAD_BYTES - 4);
  return wav;
}

async function tryCall(it, module) {
  const [line, totals] = printedByB();
  is('the next office has no entry', [await entriesOf(it), await it.text('#second-totals')], [[], 'KEYED 0 REFUSED 0']);
  await it.click('[data-number="2345678"]');
  await untilEntries(it, 1);
  is('234 5678 goes on as the network of docs/NETWORK.md has it', await entriesOf(it), [line]);
  is('with its totals', await it.text('#second-totals'), totals);
  is('its route is lit', await it.texts('#second-route .taken'), ['565 → trunk 30, delete 2, prefix 7']);
  await it.until('document.querySelector("#entries li:last-child .far")');
  await it.run('sounds.length = 0');
  await it.soundAgain();
  await it.until('sounds.some((sound) => sound.length > 1000)');
  await it.until('/sent/.test(document.getElementById("keying").textContent)');
  is('a call that sounds once more is no other one', await entriesOf(it), [line]);
  await it.run('sounds.length = 0');
  await it.click('#second-entries button');
  const sound = await it.run('sounds.find((sound) => sound.length > 1000).map((sample) => sample * 32768)');
  const ear = new Ear(module);
  is('it sounds on', heardText([...ear.hear(Int16Array.from(sound)), ...ear.end()]), 'KP 7 5 6 7 8 ST');
  await it.hangUp();
}

const RECORDED = [
  ['a keying without ST', ['KP', '5', '6', '5'], ['REFUSED ABANDONED 3']],
  ['a second KP', ['KP', '5', 'KP', '6', 'ST'], ['REFUSED MUTILATED 1']],
  ['a silence of 11 s, and a number after it', ['KP', '5', 11, 'KP', '5', '6', '5', 'ST'],
    ['REFUSED TIMEDOUT 1', 'KEYED 0030 KP:1100+1700 7:700+1500 5:900+1300 ST:1500+1700']],
  ['a number of no route', ['KP', '6', '6', 'ST'], ['REFUSED UNKNOWN 2']],
  ['no keying', ['5', '6', 'ST'], []],
];

async function tryRecorded(it, module, read) {
  const folder = fs.mkdtempSync(path.join(os.tmpdir(), 'mfbank-next-'));
  for (const [what, sounds, wanted] of RECORDED) {
    const file = path.join(folder, `${what}.wav`);
    fs.writeFileSync(file, recordingOf(module, read('seven_digits.wav'), sounds));
    const before = (await entriesOf(it)).length;
    await it.chooseFile('#recording', file);
    await it.until(`/ keys? in /.test(document.getElementById('listening').textContent)
      && document.getElementById('listening').textContent.startsWith('${what}')`);
    const given = (await entriesOf(it)).slice(before);
    is(`a recording: ${what}`, given, wanted.map((words, i) => `0000 ${before + 1 + i} ${words}`));
  }
  fs.rmSync(folder, { recursive: true });
  is('the totals count them', await it.text('#second-totals'), 'KEYED 2 REFUSED 4');
}

async function tryTables(it) {
  const before = await entriesOf(it);
  await it.write('plan = 8', 'second-routes');
  is('its table is refused', await it.text('#second-fault'),
    'Refused: plan is neither 7 nor 10. The table before it stays in use.');
  const place = 'Line 1, column 1: plan is neither 7 nor 10: plan = 8';
  is('with the text line', await it.texts('#second-places p'), [place]);
  is('and nothing else changes', [await entriesOf(it), await it.text('#fault')], [before, '']);
  await it.write('[[route]]\ncode = "0"\ntrunk = 611\nprefix = "9"', 'second-routes');
  is('another one begins the page anew', [await it.text('#second-fault'), await entriesOf(it)], ['', []]);
  await it.click('[data-number="0"]');
  await untilEntries(it, 1);
  is('and is in use', await entriesOf(it), ['0000 1 KEYED 0611 KP:1100+1700 9:1100+1500 0:1300+1500 ST:1500+1700']);
  await it.hangUp();
}

async function tryNext(it, page, read) {
  const module = await Module.open(modulesOf(page).lowered);
  await it.visit('#quiet');
  await it.listen();
  await tryCall(it, module);
  await tryRecorded(it, module, read);
  await tryTables(it);
  await it.visit('#quiet');
}

module.exports = { tryNext, printedByB };
