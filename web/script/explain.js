// One call, slowed down where it is explained: it halts at each stage and says in words what happens there. The sound
// is on.

const EXPLAINED_NUMBER = '411';
const SLOW_PACE = 0.1;
// So many breaks of a digit are seen before the loop is explained.
const SEEN_BREAKS = 3;

// Each stage, its words, and the pace after them.
const EXPLAINED = [
  { at: 'looping', stage: '.looping', pace: SLOW_PACE, title: 'The dial runs back',
    words: 'Somebody turned a 4 as far as the stop, and that sent nothing. Now a spring drives the wheel back, and a cam '
      + 'below it opens the two wires to the office: four times for a 4, ten times a second. Three breaks are in the picture.' },
  { at: 'registering', stage: '.registering', pace: 1, title: 'A digit is stored',
    words: 'No other break came for a while, so the digit is over: four breaks, a 4. The register pulls up the relays 0 '
      + 'and 4, which make 4 together. Every digit has exactly two, so one relay that sticks or fails is noticed at once.' },
  { at: 'routing', stage: '#routing', pace: 1, title: 'The number is complete',
    words: 'Three digits are enough for 411, information. The register calls a marker and hands the digits over. The '
      + 'marker looks up where they go, and at once serves somebody else: a few markers are enough for a whole town.' },
  { at: 'sending', stage: '#sending', pace: 1, title: 'It is keyed to the next office',
    words: 'Now listen. The number goes out on the trunk ten times as fast as it was dialled: each digit as two of six '
      + 'tones, never one alone. KP, the key pulse, says that a number comes; ST, start, that this was all.' },
  { at: 'far', stage: '#sending', pace: 1, title: 'The far end has heard it',
    words: 'Six filters took the tones apart again, and the next office knows the number too. It sends the call on in the '
      + 'same way, until one office has the line that is wanted, and rings its bell.' },
];

class Explain {
  constructor(office) {
    this.office = office;
    this.stages = [];
    this.goOn = null;      // what waits for "Next"
    $('explain').addEventListener('click', () => this.begin());
    $('next').addEventListener('click', () => this.next());
    $('enough').addEventListener('click', () => this.stop());
  }

  begin() {
    this.stop();
    this.office.setRow(false);
    this.office.setSound(true);
    this.office.setPace(1);
    this.stages = [...EXPLAINED];
    this.breaks = 0;
    this.mark(this.stages[0]);
    this.office.telephones[0].showCall(EXPLAINED_NUMBER);
  }

  // The loop is broken, by the dial: the first digit is slow.
  broke() {
    if (this.stages[0]?.at !== 'looping') return;
    this.breaks += 1;
    if (this.breaks === 1) this.office.setPace(SLOW_PACE);
    if (this.breaks === SEEN_BREAKS) this.at('looping');
  }

  // Halts where this stage is the next to be explained, and returns whether it is; `goOn` is done after "Next".
  at(name, goOn = () => {}) {
    if (this.stages[0]?.at !== name) return false;
    const stage = this.stages.shift();
    this.office.setPace(0);
    Object.assign(this, { goOn, pace: stage.pace });
    this.mark(stage);
    $('explained-title').textContent = stage.title;
    $('explained-words').textContent = stage.words;
    $('next').textContent = this.stages.length ? 'Next' : 'Done';
    $('explained').hidden = false;
    $('next').focus({ preventScroll: true });
    return true;
  }

  next() {
    if (this.stages.length) this.leave(this.pace, this.stages[0]);
    else this.stop();
  }

  stop() {
    const isUnderWay = this.stages.length > 0 || this.goOn !== null;
    this.stages = [];
    if (isUnderWay) this.leave(1, null);
  }

  leave(pace, stage) {
    const { goOn } = this;
    this.goOn = null;
    this.mark(stage);
    $('explained').hidden = true;
    this.office.setPace(pace);
    goOn?.();
  }

  // The dial and this stage are seen; on a phone nothing else is.
  mark(stage) {
    document.querySelector('.explained')?.classList.remove('explained');
    document.body.classList.toggle('explaining', Boolean(stage));
    if (!stage) return;
    document.querySelector(stage.stage).classList.add('explained');
    scrollTo(0, 0);
  }
}
