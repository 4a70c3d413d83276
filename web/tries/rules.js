// What comes of the keys of a trunk, by the words of docs/DEFINITIONS.md on an incoming register: over whole lists, and
// without a state. A key is { kind, digit, begin, end } as the page has it; an outcome is what an entry says of it.
'use strict';

const [TIME_OUT, CLEAR, MOST_DIGITS, MOST_COUNT] = [10000, 500, 10, 255];
const [DIGIT, KP, ST, OTHER] = [1, 2, 3, 4];
const PAIRS = { 1: '700+900', 2: '700+1100', 3: '900+1100', 4: '700+1300', 5: '900+1300', 6: '1100+1300', 7: '700+1500',
  8: '900+1500', 9: '1100+1500', 0: '1300+1500', KP: '1100+1700', ST: '1500+1700' };

const firstOf = (list, isIt) => {
  const at = list.findIndex(isIt);
  return at < 0 ? list.length : at;
};

// Of a KP and the keys after it: its outcome, and how many keys it takes.
function keyingOf([kp, ...rest]) {
  const silences = rest.map((key, i) => Math.max(0, key.begin - (rest[i - 1] ?? kp).end));
  const inTime = firstOf(silences, (silence) => silence >= TIME_OUT);
  const good = Math.min(inTime, firstOf(rest, ({ kind }) => kind !== DIGIT));
  const number = rest.slice(0, good).map(({ digit }) => digit).join('');
  const count = Math.min(good, MOST_COUNT);
  if (good === inTime) return { outcome: [inTime < rest.length ? 'TIMEDOUT' : 'ABANDONED', count], taken: good + 1 };
  if (rest[good].kind === ST) {
    const outcome = good >= 1 && good <= MOST_DIGITS ? ['NUMBER', number] : ['UNKNOWN', count];
    return { outcome, taken: good + 2 };
  }
  const clear = good + 1 + firstOf(silences.slice(good + 1), (silence) => silence >= CLEAR);
  return { outcome: ['MUTILATED', count], taken: clear + 1 };
}

function outcomesOf(keys) {
  const found = [];
  for (let at = 0; at < keys.length;) {
    const { outcome, taken } = keys[at].kind === KP ? keyingOf(keys.slice(at)) : { taken: 1 };
    if (outcome) found.push(outcome);
    at += taken;
  }
  return found;
}

// What an entry says of an outcome, by routes of the longest code.
function wordsOf(routes, [what, which]) {
  if (what !== 'NUMBER') return `REFUSED ${what} ${which}`;
  const [route] = routes.filter(({ code }) => which.startsWith(code)).sort((a, b) => b.code.length - a.code.length);
  if (!route) return `REFUSED UNKNOWN ${which.length}`;
  const keys = ['KP', ...route.prefix, ...which.slice(route.deleted), 'ST'].map((key) => `${key}:${PAIRS[key]}`);
  return `KEYED ${String(route.trunk).padStart(4, '0')} ${keys.join(' ')}`;
}

// The lines of the page of keys, without its totals.
const linesOf = (routes, keys) => outcomesOf(keys).map((outcome, i) => `0000 ${i + 1} ${wordsOf(routes, outcome)}`);

module.exports = { DIGIT, KP, ST, OTHER, CLEAR, TIME_OUT, outcomesOf, linesOf };
