// What happened in one call attempt, for its picture: the loop's makes and breaks, and what the register made of them.

const MOST_RUNS = 600;

class Attempt {
  // from: the ms of the line's record at which it begins.
  constructor(from) {
    this.from = from;
    this.runs = [];
    this.parts = [];
    this.next = 0;         // the first run that is in no digit yet
  }

  // A row of the loop. Neighbouring rows of one contact are one run; a wrong one is known when the next begins.
  add({ closed, ms, wrong }) {
    const last = this.runs.at(-1);
    if (last?.closed === closed) {
      last.ms += ms;
    } else if (this.runs.length < MOST_RUNS) {
      if (wrong !== Wrong.NOTHING && last) Object.assign(last, { isWrong: true, wrong });
      this.runs.push({ closed, ms, isWrong: false });
    }
  }

  // The breaks since the last digit were one, or spoiled one.
  digit({ figure, isSpoiled }, limits) {
    const part = this.pulses();
    if (!part) return;
    const wrong = part.runs.find((run) => run.isWrong);
    const words = wrong ? wordsOfWrong(wrong, limits) : '';
    this.parts.push({ ...part, figure, kind: isSpoiled ? 'bad' : '', words });
  }

  // The runs from the first break after the last digit to the last break.
  pulses() {
    const first = this.runs.findIndex((run, i) => i >= this.next && !run.closed);
    if (first < 0) return null;
    const end = this.runs.length - [...this.runs].reverse().findIndex((run) => !run.closed);
    this.next = end;
    return { first, end, runs: this.runs.slice(first, end) };
  }

  // What is left of an attempt that ended before its number did.
  end(kind) {
    if (kind === Kind.ABANDONED) {
      const hangUp = this.runs.pop();
      hangUp.words = 'hangs up';
      const part = this.pulses();
      if (part) this.parts.push({ ...part, figure: '…', kind: 'open', words: 'no pause ended these' });
      this.runs.push(hangUp);
    }
    if (kind === Kind.TIMED_OUT) Object.assign(this.runs.at(-1), { isWrong: true, words: 'time-out' });
  }
}

// Why a run spoiled its digit, in the words of mfhear: the module says by which limit it did, and these are the limits in
// use.
function wordsOfWrong({ wrong, ms }, { make_min, pulse_min, pulse_max }) {
  return {
    [Wrong.SHORT_BREAK]: `break ${ms} ms < ${pulse_min}`,
    [Wrong.LONG_BREAK]: `break ${ms} ms > ${pulse_max}`,
    [Wrong.SHORT_MAKE]: `make ${ms} ms < ${make_min}`,
    [Wrong.EXTRA_BREAK]: 'pulse 11',
  }[wrong];
}
