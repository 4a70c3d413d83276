// One sound on a trunk, as an incoming register takes it: its keys with their times, and what becomes of each keying.
// What the register makes of keys is decided in the module.

const MOST_REGISTER_KEYS = 1024;

// A key that an ear heard, with the times that `mfrx --json` tells of it, in whole ms from the beginning of the sound.
// A window begins with each 20th sample, 8 in a ms; a key begins 20 samples after its first one does.
function timedKeyOf({ kind, value, first, past }) {
  const msOf = (samples) => Math.floor(samples / 8);
  const begin = msOf(20 * first + 20);
  return { kind, digit: value, begin, end: begin + msOf(20 * (past - first) + 20) };
}

class Incoming {
  constructor(module) {
    this.module = module;
    this.keys = [];        // since the register last stood as at first
    this.told = 0;         // how many outcomes of these were told
  }

  // The outcomes that these keys make certain.
  take(keys) { return keys.flatMap((key) => this.takeKey(key)); }

  // A register that stands as at first waits for a KP, and after the ST of a keying it does so again: the keys so far
  // may be forgotten. One that has heard very many keys without that is begun anew.
  takeKey(key) {
    if (this.keys.length === 0 && key.kind !== Kind.KP) return [];
    this.keys.push(key);
    const outcomes = this.news(false);
    const isOver = (outcomes.length > 0 && key.kind === Kind.ST) || this.keys.length === MOST_REGISTER_KEYS;
    if (isOver) this.beginAnew();
    return outcomes;
  }

  // The sound has ended: the outcome of a keying that is open.
  end() {
    const outcomes = this.news(true);
    this.beginAnew();
    return outcomes;
  }

  // What is told now and was not told before.
  news(hasEnded) {
    const outcomes = this.module.incoming(this.keys, hasEnded).slice(this.told);
    this.told += outcomes.length;
    return outcomes;
  }

  beginAnew() {
    this.keys = [];
    this.told = 0;
  }
}
