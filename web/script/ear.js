// An ear of the module's: samples of 16 bits, 8,000 a second, and the keys that sounded in them, each as it ends.

const keyName = (mark) => ({ [Kind.KP]: 'KP', [Kind.ST]: 'ST' })[mark.kind] ?? String(mark.value);
const heardName = (key) => (key.kind === OTHER_PAIR ? `${key.low}+${key.high}` : keyName(key));
const heardText = (keys) => (keys.length ? keys.map(heardName).join(' ') : 'nothing');

class Ear {
  constructor(module) {
    this.module = module;
    this.known = module.newEar();
  }

  // The keys that these samples end.
  hear(samples) {
    const all = [];
    for (let at = 0; at < samples.length;) {
      const { taken, keys, ear } = this.module.hear(this.known, samples.subarray(at));
      this.known = ear;
      all.push(...keys);
      at += taken;
    }
    return all;
  }

  // The key that sounds where the samples end, if there is one.
  end() {
    const key = this.module.heardLast(this.known);
    return key ? [key] : [];
  }
}

// From -1 to 1, as browsers have samples, to 16 bits.
const wholeSamples = (samples) => {
  return Int16Array.from(samples, (sample) => Math.max(-32768, Math.min(32767, Math.round(32768 * sample))));
};
