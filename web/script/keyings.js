// What an ear hears of a recording or a microphone: a line for each keying, which a KP begins and an ST ends.

const MOST_KEYINGS = 60;
const WINDOWS_A_SECOND = 400;
// The level of an amplitude of 10,000 is -7 dBm0, and that of a key is this amplitude squared.
const FULL_LEVEL_DB = 87;

const decibels = (key) => 10 * Math.log10(Math.min(key.lowLevel, key.highLevel)) - FULL_LEVEL_DB;
const tonesMs = (key) => (key.past - key.first) * 1000 / WINDOWS_A_SECOND;
const withMinus = (number) => number.toFixed(0).replace('-', '−');

class Keyings {
  constructor(list) {
    this.list = list;
    this.clear();
  }

  clear() {
    this.list.textContent = '';
    this.keys = [];
    this.count = 0;
  }

  add(keys) { keys.forEach((key) => this.addKey(key)); }

  addKey(key) {
    if (key.kind === Kind.KP || this.keys.length === 0) this.beginLine();
    this.count++;
    this.keys.push(key);
    this.line.firstElementChild.textContent = heardText(this.keys);
    this.line.lastElementChild.textContent = this.words();
    if (key.kind === Kind.ST) this.keys = [];
  }

  beginLine() {
    this.keys = [];
    this.line = make('li', {}, this.list);
    make('code', {}, this.line);
    make('span', {}, this.line);
    if (this.list.children.length > MOST_KEYINGS) this.list.firstElementChild.remove();
  }

  // When the keys of the line began, how long they sounded, and how loud the faintest of their tones was.
  words() {
    const lengths = this.keys.map(tonesMs);
    const [shortest, longest] = [Math.min(...lengths), Math.max(...lengths)].map((ms) => ms.toFixed(0));
    const length = shortest === longest ? shortest : `${shortest} to ${longest}`;
    const faintest = withMinus(Math.min(...this.keys.map(decibels)));
    const from = (this.keys[0].first / WINDOWS_A_SECOND).toFixed(2);
    return `from ${from} s; tones of ${length} ms, the faintest at ${faintest} dBm0`;
  }
}
