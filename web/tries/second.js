// node tries/second.js PAGE EXAMPLES: what the register and the table of the next office make of keys, by the module of a
// page and its copy, in Node. It is what the rules say (rules.js), for cases that a person reckoned and for lists that a
// seed makes; and what is refused changes nothing.
'use strict';
const fs = require('fs');
const path = require('path');
const { Ear, Incoming, Module, Reader, modulesOf, timedKeyOf } = require('./chain.js');
const { is, end } = require('./checks.js');
const { samplesOf } = require('./ears.js');
const { DIGIT, KP, ST, OTHER, CLEAR, TIME_OUT, outcomesOf, linesOf } = require('./rules.js');
const { seeded } = require('./seeds.js');

const LISTS = 200;
const SILENCES = [CLEAR - 1, CLEAR, CLEAR + 1, TIME_OUT - 1, TIME_OUT, TIME_OUT + 1, 20000, -300];
const TABLE = `plan = 10
[[route]]\ncode = "0"\ntrunk = 1
[[route]]\ncode = "203"\ntrunk = 30\ndelete = 1
[[route]]\ncode = "203234"\ntrunk = 17\ndelete = 10\nprefix = "56"
[[route]]\ncode = "404"\ntrunk = 9999\ndelete = 10\nprefix = "0123"
[[route]]\ncode = "505"\ntrunk = 0\nprefix = "9"
[[route]]\ncode = "222"\ntrunk = 222\ndelete = 2\nprefix = "00000000"
[[route]]\ncode = "233"\ntrunk = 233\ndelete = 3
[[route]]\ncode = "323"\ntrunk = 323\n`;

const [NOT_BEGUN, NO_ROOM] = [3, 7];
const NAMES = { KP: { kind: KP, digit: 0 }, ST: { kind: ST, digit: 0 }, OTHER: { kind: OTHER, digit: 0 } };
const keyOf = (name, begin, end) => ({ ...(NAMES[name] ?? { kind: DIGIT, digit: Number(name) }), begin, end });

// Keys of 68 ms and silences of 68 ms.
const at = (start, names) => names.split(' ').map((name, i) => keyOf(name, start + 136 * i, start + 136 * i + 68));

const CASES = [
  ['a number', at(0, 'KP 5 6 5 6 7 8 ST'), [['NUMBER', '565678']]],
  ['keys outside a keying', at(0, '2 ST OTHER 3'), []],
  ['KP and ST alone', at(0, 'KP ST'), [['UNKNOWN', 0]]],
  ['ten digits', at(0, 'KP 2 1 2 5 5 5 0 1 2 3 ST'), [['NUMBER', '2125550123']]],
  ['eleven digits', at(0, 'KP 1 2 1 2 5 5 5 0 1 2 3 ST'), [['UNKNOWN', 11]]],
  ['two numbers', at(0, 'KP 1 ST KP 2 ST'), [['NUMBER', '1'], ['NUMBER', '2']]],
  ['a second KP', at(0, 'KP 1 2 KP 3 ST'), [['MUTILATED', 2]]],
  ['a pair that is none', at(0, 'KP 1 OTHER 3 ST'), [['MUTILATED', 1]]],
  ['heard again after 500 ms', [...at(0, 'KP 1 OTHER'), ...at(840, 'KP 4 ST')], [['MUTILATED', 1], ['NUMBER', '4']]],
  ['but not after 499', [...at(0, 'KP 1 OTHER'), ...at(839, 'KP 4 ST')], [['MUTILATED', 1]]],
  ['a silence of 10,000 ms', [...at(0, 'KP 1'), ...at(10204, '2 ST')], [['TIMEDOUT', 1]]],
  ['and of 9,999', [...at(0, 'KP 1'), ...at(10203, '2 ST')], [['NUMBER', '12']]],
  ['a KP after a time-out', [...at(0, 'KP 1'), ...at(20000, 'KP 2 ST')], [['TIMEDOUT', 1], ['NUMBER', '2']]],
  ['no ST', at(0, 'KP 1 2 3'), [['ABANDONED', 3]]],
  ['a KP alone', at(0, 'KP'), [['ABANDONED', 0]]],
  ['times that run back', [...at(50000, 'KP 1'), ...at(0, '2 ST')], [['NUMBER', '12']]],
];

// What keys are: keyings, most of them whole, and keys between them.
function namesOf({ throwOf, oneOf, happens }) {
  const some = (count, ...all) => Array.from({ length: count }, () => oneOf(...all));
  return Array.from({ length: throwOf(6) }, () => {
    const between = some(oneOf(0, 0, 0, 1, 2), '2', 'ST', 'OTHER');
    const count = oneOf(0, 1, 3, 4, 7, 9, 10, 11, oneOf(20, 254, 255, 256));
    const last = happens(5) ? [] : [oneOf('ST', 'ST', 'ST', 'KP', 'OTHER')];
    return [...between, 'KP', ...some(count, '0', '2', '2', '3', '3', '4', '5', '9'), ...last];
  }).flat();
}

// A list of keys, with silences at and beside the limits.
function listOf(seed) {
  const dice = seeded(seed);
  const { throwOf, oneOf, happens } = dice;
  let begin = throwOf(1000);
  return namesOf(dice).map((name) => {
    const end = begin + oneOf(0, 30, 68, 100);
    const key = keyOf(name, begin, end);
    begin = Math.max(0, end + (happens(9) ? oneOf(...SILENCES) : 68));
    return key;
  });
}

// The lines that the page writes of keys which come one by one, as a trunk does it.
function linesGiven(module, keys) {
  const register = new Incoming(module);
  return [...register.take(keys), ...register.end()].map((outcome, i) => {
    return module.entryText(0, i + 1, module.onward(outcome, module.at.secondTable));
  });
}

// Of a whole list: what is certain by its keys is a beginning of what all of them come to.
function isBegun(module, keys) {
  const [certain, all] = [false, true].map((hasEnded) => module.incoming(keys, hasEnded));
  return JSON.stringify(certain) === JSON.stringify(all.slice(0, certain.length)) && all.length - certain.length <= 1;
}

function tryLists(module, name, routes) {
  const lists = Array.from({ length: LISTS }, (_, i) => listOf(i + 1));
  const wrong = lists.filter((keys) => {
    return JSON.stringify(linesGiven(module, keys)) !== JSON.stringify(linesOf(routes, keys)) || !isBegun(module, keys);
  });
  const entries = lists.map((keys) => linesOf(routes, keys).length).reduce((sum, count) => sum + count, 0);
  is(`${LISTS} lists of keys give the ${entries} entries of the rules, by ${name}`, wrong, []);
}

// A call of the module with what it wants, in so many rooms.
function callsOf({ calls, at: place }) {
  const [timed, outcomes, outcome, lines, marks, count] = [place.timed, place.outcomes, place.outcome, place.lines,
    place.marks, place.count].map(BigInt);
  return {
    incoming: (keys, rooms) => calls.mfweb_incoming(timed, BigInt(keys), 1, outcomes, BigInt(rooms), count),
    onward: (table, rooms) => calls.mfweb_onward(BigInt(table), outcome, marks, BigInt(rooms), count),
    lines,
  };
}

function tryStatuses(module, name) {
  const { incoming, onward } = callsOf(module);
  const { at: place, bytes } = module;
  const parts = ['outcomes', 'marks'].map((part) => [place[part], place[part] + 240]);
  for (const [from, until] of parts) bytes.set(Uint8Array.from({ length: until - from }, (_, i) => i * 7), from);
  const seen = () => Buffer.concat(parts.map(([from, until]) => bytes.slice(from, until)));
  const before = seen();
  module.memory.write('outcome', place.outcome, { kind: 0, count: 3 });
  bytes.set([2, 3, 3], module.memory.placeOf('outcome', 'digits', place.outcome));
  bytes.fill(0, place.lines, place.lines + module.tableBytes());
  const statuses = [incoming(8, 8), onward(place.lines, 24), onward(place.secondTable, 2)];
  is(`too few rooms and no table are told, by ${name}`, statuses, [NO_ROOM, NOT_BEGUN, NO_ROOM]);
  is('nothing is given', module.number(place.count), 0);
  is('and nothing has changed', Buffer.compare(before, seen()), 0);
}

// When each key of seven_digits.wav began, and how long it lasted, as `mfrx --json` tells them.
const TOLD = [[500, 100], [667, 70], [802, 70], [940, 70], [1075, 67], [1212, 67], [1347, 67], [1482, 70]];

function tryTimes(module, name, read) {
  const ear = new Ear(module);
  const keys = [...ear.hear(samplesOf(read('seven_digits.wav'))), ...ear.end()].map(timedKeyOf);
  is(`keys have the times that mfrx tells, by ${name}`, keys.map(({ begin, end }) => [begin, end - begin]), TOLD);
}

function trySecond(module, name, reader, read) {
  for (const [what, keys, wanted] of CASES) {
    if (JSON.stringify(outcomesOf(keys)) !== JSON.stringify(wanted)) is(`the rules: ${what}`, outcomesOf(keys), wanted);
  }
  module.useTable(reader.table(TABLE, module.tableBytes()), module.at.secondTable);
  const routes = module.routesInUse(module.at.secondTable);
  const other = CASES.filter(([, keys, wanted]) => {
    const given = linesGiven(module, keys).map((line) => line.split(' ').slice(2, 4).join(' '));
    return given.some((words, i) => wanted[i][0] !== 'NUMBER' && words !== `REFUSED ${wanted[i][0]}`)
      || given.length !== wanted.length;
  });
  is(`${CASES.length} cases as a person reckoned them, by ${name}`, other.map(([what]) => what), []);
  tryLists(module, name, routes);
  tryStatuses(module, name);
  tryTimes(module, name, read);
}

async function main(page, examples) {
  const { module, lowered, reader } = modulesOf(page);
  const read = (name) => fs.readFileSync(path.join(examples, name));
  for (const [name, bytes] of [['the module', module], ['its copy', lowered]]) {
    trySecond(await Module.open(bytes), name, await Reader.open(reader), read);
  }
  end();
}

module.exports = { trySecond };

if (require.main === module) main(...process.argv.slice(2));
