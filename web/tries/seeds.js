// Decks and route tables that are made by a seed: right ones, and such as have something wrong here and there.
'use strict';

// Numbers by a seed.
function seeded(seed) {
  let state = seed;
  const throwOf = (sides) => {
    state = (state * 1103515245 + 12345) % 2147483648;
    return Math.floor(state / 65536) % sides;
  };
  return { throwOf, oneOf: (...all) => all[throwOf(all.length)], happens: (part) => throwOf(part) === 0 };
}

const EDGES = [0, 1, 14, 15, 19, 20, 60, 119, 120, 179, 180, 299, 300, 600, 19999, 20000, 86400000];
const NUMBERS = ['0', '411', '2345678', '2125551234', '6661234', '234567', '5551234', '2126661234', '6661234'];

function dialRows(line, number, pulse = 60) {
  const rows = [`${line},M,500`];
  for (const digit of number) {
    const pulses = Number(digit) || 10;
    for (let i = 1; i <= pulses; i++) rows.push(`${line},B,${pulse}`, `${line},M,${i < pulses ? 40 : 600}`);
  }
  return rows;
}

// A field as it stands, or in quotes.
const quoted = ({ happens }, row) => row.split(',').map((field) => (happens(3) ? `"${field}"` : field)).join(',');

const faultOf = ({ oneOf }, line) => oneOf(
  `${line},M`, `${line},M,60,`, `${line},X,60`, `${line},M,`, `10000,M,60`, `,M,60`, `${line},C,1`,
  `${line},M,86400001`, `${line},"M,60`, `${line},M"",60`, `"${line},M,60"`, ` ${line},M,60`, `${line},m,60`,
  `00007,M,60`, `${line},M,1e3`, `${line},M,60 `, `"${line}""",M,60`);

function rowsOf(dice) {
  const { throwOf, oneOf, happens } = dice;
  const lines = Array.from({ length: 1 + throwOf(5) }, () => throwOf(10000));
  const rows = [];
  for (let i = throwOf(60); i > 0; i--) {
    const line = oneOf(...lines);
    if (happens(3)) {
      rows.push(`${line},${oneOf('M', 'B')},${oneOf(...EDGES)}`);
    } else if (happens(50)) {
      rows.push(`${line},C,0`);
    } else {
      const dialled = dialRows(line, oneOf(...NUMBERS), happens(9) ? 130 : 60);
      rows.push(...dialled, `${line},B,${oneOf(60, 299, 300, 400)}`);
    }
    if (happens(150)) rows.push(faultOf(dice, line));
  }
  return rows;
}

// A deck, with one of these tables.
function deckOf(seed, tables) {
  const dice = seeded(seed);
  const { oneOf, happens } = dice;
  const table = oneOf(...tables);
  const rows = rowsOf(dice);
  const end = oneOf('\n', '\n', '\r\n', '\r', '\n\n');
  const header = happens(60) ? oneOf('line,state', '"line,state",ms', 'Line,state,ms') : 'line,state,ms';
  const records = [header, ...rows].map((row) => (happens(4) && !row.includes('"') ? quoted(dice, row) : row));
  const text = records.join(end) + (happens(3) ? '' : end);
  const mark = happens(20) ? '\ufeff' : '';
  return Buffer.from(`${table}${oneOf('\n---\n', '\r\n---\r\n', '\n---\n')}${mark}${text}`);
}

// ---- route tables: half of them are such as may be right, and the rest are wild

const LIMIT_NAMES = ['pulse_min', 'pulse_max', 'make_min', 'pause', 'release', 'timeout'];
const LIMITS = ['20', '60', '119', '15', '180', '300', '20000', '0', '1_000_000', '1000001', '-1', '"60"',
  '99999999999', 'true'];
const CODES = ['"234"', '"0"', '"411"', '"212"', '"555"', "'666'", '"345"', '"611"'];
const WRONG_CODES = ['"212555"', '"1"', '"23"', '""', '"2345"', '"23a"', '234'];
const TRUNKS = ['1', '17', '9999', '0', '+5'];
const WRONG_TRUNKS = ['10000', '-1', '"1"'];
const WRONG_DELETES = ['3', '7', '10', '11', '-1', '"3"'];
const PREFIXES = ['"56"', '"9"', '"12345678"', '""'];
const WRONG_PREFIXES = ['"123456789"', '"1x"', '7'];

class TableMaker {
  constructor(seed) {
    Object.assign(this, seeded(seed));
    this.isWild = this.happens(2);
  }

  maybe(line, part) { return this.happens(part) ? `${line}\n` : ''; }

  // One of the right words, or now and then of a wild table a wrong one.
  of(right, wrong) { return this.isWild && this.happens(4) ? this.oneOf(...wrong) : this.oneOf(...right); }

  table() {
    let text = this.maybe(`plan = ${this.of(['7', '10'], ['8', '-7', '"7"'])}`, 2);
    const wrong = ['limits', 'route'].map((name) => this.maybe(`${name} = ${this.oneOf('5', '"no"')}`, 40)).join('');
    if (this.isWild) text += wrong;
    if (this.happens(4)) text += this.limits();
    text += this.maybe('[other]\nroute = 3', 9);
    if (this.isWild) text += this.maybe('[route]\ntrunk = 3', 30);
    for (let i = this.throwOf(5); i > 0; i--) text += this.route();
    if (this.isWild) text += this.maybe(this.oneOf('[[route]', 'plan', '= 3', 'x = "a', '[[route]] x'), 25);
    return text;
  }

  limits() {
    const wild = LIMIT_NAMES.map((name) => this.maybe(`${name} = ${this.oneOf(...LIMITS)} # ms`, 5)).join('');
    if (this.isWild) return `[limits]\n${wild}`;
    const [shortest, longest] = [this.oneOf('10', '1', '20'), this.oneOf('99', '119', '150')];
    return `[limits]\npulse_min = ${shortest}\npulse_max = ${longest} # ms\nrelease = ${this.oneOf('200', '300')}\n`;
  }

  route() {
    const has = () => !this.isWild || !this.happens(12);
    const code = has() ? `code = ${this.of(CODES, WRONG_CODES)}\n` : '';
    const trunk = has() ? `trunk = ${this.of(TRUNKS, WRONG_TRUNKS)}\n` : '';
    return `[[route]]\n${code}${trunk}${this.maybe(`delete = ${this.of(['0', '1', '1'], WRONG_DELETES)}`, 3)}`
      + this.maybe(`prefix = ${this.of(PREFIXES, WRONG_PREFIXES)}`, 3) + this.maybe('comment = "a # b"', 6);
  }
}

// Numbers of each plan, after a route table.
const ROWS_OF_TABLE = ['0', '411', '2345678', '2125551234', '2126661234', '5551234', '6661234']
  .flatMap((number, line) => dialRows(line, number)).join('\n');

const deckOfTable = (table) => Buffer.from(`${table}---\nline,state,ms\n${ROWS_OF_TABLE}\n`);
const deckOfSeededTable = (seed) => deckOfTable(new TableMaker(seed).table());

module.exports = { TableMaker, seeded, deckOf, deckOfTable, deckOfSeededTable, dialRows };
