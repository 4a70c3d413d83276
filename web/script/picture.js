// The picture of an attempt, as mfhear draws it: each digit over its pulses, in red what spoiled one, and below the
// time of the line's record. One unit is one ms.

const MOST_RUN_MS = 1600;
const WORDED_RUN_MS = 300;
const TICK_MS = 500;

// Where things stand, from above; and the room on both sides.
const PICTURE = {
  band: 40, bandHeight: 560, figure: 180, aboveClosed: 260, closed: 330, open: 530, belowOpen: 590, under: 670,
  underThat: 745, axis: 800, foot: 930, left: 280, right: 240,
};

class AttemptPicture {
  constructor(attempt, label) {
    const widths = attempt.runs.map((run) => Math.min(run.ms, MOST_RUN_MS));
    this.ends = widths.map((_, i) => PICTURE.left + widths.slice(0, i + 1).reduce((sum, width) => sum + width, 0));
    this.widths = widths;
    const width = (this.ends.at(-1) ?? PICTURE.left) + PICTURE.right;
    this.svg = makeSvg('svg', { class: 'attempt', role: 'img', 'aria-label': label,
      viewBox: `0 0 ${width} ${PICTURE.foot}`, style: `width: ${Math.round(width / 5)}px` });
    this.text('closed', PICTURE.left - 50, PICTURE.closed + 20, 'end');
    this.text('open', PICTURE.left - 50, PICTURE.open + 20, 'end');
    attempt.parts.forEach((part) => this.drawPart(part));
    this.drawLoop(attempt.runs);
    attempt.runs.forEach((run, i) => this.drawRun(run, i));
    this.drawAxis(attempt);
  }

  from(i) { return this.ends[i] - this.widths[i]; }

  to(i) { return this.ends[i]; }

  text(words, x, y, kind) { makeSvg('text', { class: kind, x, y }, this.svg, words); }

  path(kind, d) { makeSvg('path', { class: kind, d }, this.svg); }

  drawPart({ first, end, figure, kind, words }) {
    const [x, width] = [this.from(first), this.to(end - 1) - this.from(first)];
    makeSvg('rect', { class: `band ${kind}`, x, y: PICTURE.band, width, height: PICTURE.bandHeight }, this.svg);
    this.text(figure, x + width / 2, PICTURE.figure, `figure ${kind}`);
    if (words) this.text(words, x + width / 2, PICTURE.under, `reason ${kind}`);
  }

  drawLoop(runs) {
    const y = (run) => (run.closed ? PICTURE.closed : PICTURE.open);
    const course = runs.map((run, i) => `V${y(run)}H${this.to(i)}`).join('');
    this.path('loop', `M${PICTURE.left} ${PICTURE.open}${course}`);
  }

  // A wrong run is red, with its ms; a long make has its ms over it, and a very long run is torn.
  drawRun(run, i) {
    const [from, to] = [this.from(i), this.to(i)];
    const [y, other] = run.closed ? [PICTURE.closed, PICTURE.open] : [PICTURE.open, PICTURE.closed];
    const middle = (from + to) / 2;
    const kind = run.isWrong ? 'words bad' : 'words';
    if (run.isWrong) this.path('wrong', `M${from} ${other}V${y}H${to}V${other}`);
    if (run.words) {
      const [first, second] = run.closed ? [PICTURE.aboveClosed - 75, PICTURE.aboveClosed]
        : [PICTURE.under, PICTURE.underThat];
      this.text(run.words, middle, first, kind);
      this.text(`${run.ms} ms`, middle, second, kind);
    } else if (run.isWrong) {
      this.text(String(run.ms), middle, run.closed ? PICTURE.closed - 25 : PICTURE.belowOpen, kind);
    } else if (run.closed && run.ms >= WORDED_RUN_MS) {
      this.text(`${run.ms} ms`, middle, PICTURE.aboveClosed, kind);
    }
    if (run.ms > MOST_RUN_MS) this.tear(middle, y);
  }

  tear(x, y) { this.path('tear', `M${x - 46} ${y + 45}l36 -90M${x + 10} ${y + 45}l36 -90`); }

  // A tick for each half second, and its time at each second; none in a run that is torn.
  drawAxis({ from, runs }) {
    this.path('axis', `M${PICTURE.left} ${PICTURE.axis}H${this.ends.at(-1)}`);
    let began = from;
    runs.forEach((run, i) => {
      if (run.ms > MOST_RUN_MS) this.tear((this.from(i) + this.to(i)) / 2, PICTURE.axis);
      else this.drawTicks(began, began + run.ms, this.from(i));
      began += run.ms;
    });
  }

  // The ticks of the times from `began` on and before `until`, of a run whose left is at x.
  drawTicks(began, until, x) {
    for (let at = Math.ceil(began / TICK_MS) * TICK_MS; at < until; at += TICK_MS) {
      const isSecond = at % 1000 === 0;
      this.path('axis', `M${x + at - began} ${PICTURE.axis}v${isSecond ? 40 : 22}`);
      if (isSecond) this.text(`${at / 1000} s`, x + at - began, PICTURE.axis + 105, '');
    }
  }
}
