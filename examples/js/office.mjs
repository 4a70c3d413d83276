// Three telephones whose dials run back at once, and a caller who comes in by digits. Each entry is printed at the ms at
// which it is certain, with the keys that the far end hears in its tones.
//
// usage: node examples/js/office.mjs [MFCHAIN]
import { pathToFileURL } from 'node:url';

const [, , file] = process.argv;
const { open, Ear } = await import(file ? pathToFileURL(file) : '../../web/mfchain.mjs');

const TABLE = `
[[route]]
code = "234"
trunk = 17
delete = 3
prefix = "56"

[[route]]
code = "411"
trunk = 3
`;
const SAMPLES_A_MS = 8;

// The makes and breaks by which a number is dialled, ten pulses a second, and hung up.
function* movesOf(number) {
  yield ['M', 500];
  for (const digit of number) {
    for (let pulse = 0; pulse < (Number(digit) || 10); pulse++) yield* [['B', 60], ['M', 40]];
    yield ['M', 600];
  }
  yield ['B', 400];
}

// What the far end hears of the keys of an entry.
function heardOf(chain, marks) {
  const ear = new Ear(chain);
  const { lead, kp, key, gap } = chain.cadence();
  const heard = [...ear.hear(new Int16Array(SAMPLES_A_MS * lead))];
  for (const { kind, low, high } of marks.filter((mark) => mark.low)) {
    heard.push(...ear.hear(chain.tone(low, high, SAMPLES_A_MS * (kind === 'KP' ? kp : key))));
    heard.push(...ear.hear(new Int16Array(SAMPLES_A_MS * gap)));
  }
  return [...heard, ...ear.end()].map(({ key }) => key).join(' ');
}

function tell(chain, ms, { entry, marks }) {
  if (!entry) return;
  console.log(`${String(ms).padStart(5)} ms  ${entry}`);
  const heard = heardOf(chain, marks);
  if (heard) console.log(`          the far end hears ${heard}`);
}

const chain = await open(TABLE);
const telephones = [[7, '2345678'], [8, '411'], [9, '5551234']].map(([line, number]) => {
  return { line, moves: movesOf(number), until: 0 };
});

// By pulses: the telephone whose last move ended first moves next.
while (telephones.length) {
  telephones.sort((a, b) => a.until - b.until || a.line - b.line);
  const [first] = telephones;
  const { value: move } = first.moves.next();
  if (!move) { telephones.shift(); continue; }
  first.until += move[1];
  tell(chain, first.until, chain.take(first.line, ...move));
}

// By digits, as from a network that has heard them by itself.
chain.seize(100);
for (const digit of [2, 3, 4, 9]) chain.digit(100, digit);
tell(chain, 0, chain.release(100));
console.log(`411 is decided by the code ${chain.route('411').code}`);
