// What the module's ear hears, in Node: the sound of examples/ gives the keys of its page, in parts of any lengths and
// through noise; of silence nothing is heard; and of bytes that are no ear the call says so, and changes nothing.
'use strict';
const { Ear, heardText } = require('./chain.js');
const { is } = require('./checks.js');
const { seeded } = require('./seeds.js');

const MOST_NOISE = 277;
const FILLED_AT = 624;      // how many samples of its window an ear has
const NO_EAR = 28;
const NOT_BEGUN = 3;

// The samples of a WAV file of 16 bits, whose header has 44 bytes.
const samplesOf = (wav) => new Int16Array(wav.buffer.slice(wav.byteOffset + 44, wav.byteOffset + wav.length));

// The keys of the first entry of a page.
const keysOfPage = (page) => page.toString().split('\n')[0].match(/(KP|ST|[0-9])(?=:)/g).join(' ');

// What is heard of samples that come in parts.
function heardIn(module, samples, length) {
  const ear = new Ear(module);
  const keys = [];
  for (let at = 0; at < samples.length; at += length) keys.push(...ear.hear(samples.subarray(at, at + length)));
  return [...keys, ...ear.end()];
}

function disturbed(samples, most) {
  const { throwOf } = seeded(1);
  return samples.map((sample) => sample + throwOf(2 * most + 1) - most);
}

// A call of the module with all that it wants.
const hearAt = ({ calls, at: { ear, samples, heard, heardOf, count } }, length, room) => calls.mfweb_hear(
  BigInt(ear), BigInt(samples), BigInt(length), BigInt(heard), BigInt(room), BigInt(heardOf), BigInt(count));

function tryRoom(module, samples, wanted) {
  const { at } = module;
  module.calls.mfweb_ear(BigInt(at.ear));
  new Int16Array(module.bytes.buffer, at.samples, samples.length).set(samples);
  const status = hearAt(module, samples.length, 1);
  const { first } = module.memory.read('heard', at.heard);
  const isFull = module.number(at.count) === 1 && module.number(at.heardOf) < samples.length;
  is('an ear takes samples while there is room', [status, isFull, first], [0, true, wanted[0].first]);
}

function tryNoEar(module, name) {
  const { at } = module;
  const parts = ['ear', 'heard'].map((type) => [at[type], at[type] + module.memory.bytesOf(type)]);
  for (const [from, until] of parts) module.bytes.set(Uint8Array.from({ length: until - from }, (_, i) => i * 7), from);
  module.view.setUint32(at.ear + FILLED_AT, 80, true);
  const seen = () => Buffer.concat(parts.map(([from, until]) => module.bytes.slice(from, until)));
  const before = seen();
  const statuses = [hearAt(module, 16000, 4), module.calls.mfweb_heard(BigInt(at.ear), BigInt(at.heard))];
  is(`what is no ear is refused, by ${name}`, statuses, [NO_EAR, NO_EAR]);
  is('and nothing has changed', Buffer.compare(before, seen()), 0);
}

// A table of zeros was never begun, and is told from one that has no code.
function tryNoTable(module, name) {
  const { at: { lines, digits, place } } = module;
  module.bytes.fill(0, lines, lines + module.memory.bytesOf('table'));
  const status = module.calls.mfweb_route(BigInt(lines), BigInt(digits), 1n, BigInt(place));
  is(`a table that was never begun finds no code, by ${name}`, [status, module.number(place)], [NOT_BEGUN, 0]);
}

function tryEars(module, name, read) {
  const samples = samplesOf(read('seven_digits.wav'));
  const wanted = keysOfPage(read('seven_digits.page'));
  const heard = heardIn(module, samples, samples.length);
  is(`seven_digits.wav is heard, by ${name}`, heardText(heard), wanted);
  for (const length of [1, 79, 997]) {
    is(`in parts of ${length} samples`, heardIn(module, samples, length), heard);
  }
  is('through noise', heardText(heardIn(module, disturbed(samples, MOST_NOISE), 4000)), wanted);
  const past = heard.at(-1).past;
  is('cut off in its last key', heardText(heardIn(module, samples.subarray(0, 20 * past), 4000)), wanted);
  is('of silence nothing is heard', heardIn(module, disturbed(new Int16Array(20000), MOST_NOISE), 4000), []);
  const often = new Int16Array(40 * samples.length);
  for (let i = 0; i < 40; i++) often.set(samples, i * samples.length);
  const began = process.hrtime.bigint();
  const keys = heardIn(module, often, often.length);
  const seconds = Number(process.hrtime.bigint() - began) / 1e9;
  const times = Math.round(often.length / 8000 / seconds);
  const all = Array(40).fill(wanted).join(' ');
  is(`${keys.length} keys in a row, ${times} times as fast as they sound`, heardText(keys), all);
  tryRoom(module, samples, heard);
  tryNoEar(module, name);
  tryNoTable(module, name);
}

module.exports = { tryEars, keysOfPage, samplesOf };
