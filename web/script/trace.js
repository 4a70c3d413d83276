// The trace of a loop: the makes and breaks of its last seconds, and over them what the register made of them.

const TRACE_MS = 8000;
const TRACE_LEFT = 46;
const MOST_CHANGES = 400;
const MOST_NOTES = 60;

class Trace {
  constructor(canvas, clock) {
    this.canvas = canvas;
    this.clock = clock;
    this.changes = [];
    this.notes = [];
    this.isClosed = false;
  }

  changed(at, closed) {
    this.isClosed = closed;
    this.changes.push({ at, closed });
    if (this.changes.length > MOST_CHANGES) this.changes.shift();
  }

  // kind: 'digit', 'bad' or ''
  note(text, kind, at) {
    this.notes.push({ text, kind, at });
    if (this.notes.length > MOST_NOTES) this.notes.shift();
  }

  // Nothing that happened is on it any more.
  isEmpty() {
    const last = Math.max(this.changes.at(-1)?.at ?? -Infinity, this.notes.at(-1)?.at ?? -Infinity);
    return last < this.clock.now() - this.span();
  }

  // A narrow trace shows less time, so that pulses stay apart; slow motion shows fewer, and fast time more.
  span() {
    return TRACE_MS * Math.max(this.clock.pace, 0.12) * Math.min(1, Math.max(this.canvas.clientWidth / 700, 0.4));
  }

  draw(colours) {
    const { canvas } = this;
    if (canvas.clientWidth === 0) return;
    const larger = largerBy();
    const ratio = (devicePixelRatio || 1) * larger;
    const [width, height] = [canvas.clientWidth / larger, canvas.clientHeight / larger];
    if (canvas.width !== Math.round(width * ratio) || canvas.height !== Math.round(height * ratio)) {
      canvas.width = Math.round(width * ratio);
      canvas.height = Math.round(height * ratio);
    }
    const pen = canvas.getContext('2d');
    pen.setTransform(ratio, 0, 0, ratio, 0, 0);
    pen.clearRect(0, 0, width, height);
    const span = this.span();
    const until = this.clock.now();
    const place = {
      from: until - span, until, width, height,
      x: (at) => Math.max(TRACE_LEFT, width - 2 - (until - at) / span * (width - TRACE_LEFT)),
      y: (closed) => (closed ? 24 : height - 9),
    };
    this.drawSeconds(pen, place, span, colours);
    this.drawLoop(pen, place, colours);
    this.drawNotes(pen, place, colours);
  }

  drawSeconds(pen, { from, until, height, x, y }, span, colours) {
    const step = span > 20000 ? 10000 : span > 2000 ? 1000 : 100;
    pen.strokeStyle = colours.rule;
    pen.lineWidth = 1;
    for (let at = Math.ceil(from / step) * step; at < until; at += step) {
      pen.beginPath();
      pen.moveTo(x(at), 18);
      pen.lineTo(x(at), height - 4);
      pen.stroke();
    }
    pen.fillStyle = colours.soft;
    pen.font = '12px system-ui, sans-serif';
    pen.textAlign = 'left';
    pen.fillText('made', 2, y(true) + 4);
    pen.fillText('broken', 2, y(false) + 4);
  }

  drawLoop(pen, { from, width, x, y }, colours) {
    const seen = this.changes.filter((change) => change.at > from);
    let closed = seen.length ? !seen[0].closed : this.isClosed;
    pen.strokeStyle = colours.line;
    pen.lineWidth = 2;
    pen.lineJoin = 'round';
    pen.beginPath();
    pen.moveTo(TRACE_LEFT, y(closed));
    for (const change of seen) {
      pen.lineTo(x(change.at), y(closed));
      closed = change.closed;
      pen.lineTo(x(change.at), y(closed));
    }
    pen.lineTo(width, y(closed));
    pen.stroke();
  }

  drawNotes(pen, { from, width, x }, colours) {
    pen.textAlign = 'center';
    let free = 0;
    for (const { text, kind, at } of this.notes) {
      if (at < from) continue;
      pen.fillStyle = kind === 'bad' ? colours.red : kind === 'digit' ? colours.lamp : colours.soft;
      pen.font = kind === 'digit' ? 'bold 14px system-ui, sans-serif' : '12px system-ui, sans-serif';
      const wide = pen.measureText(text).width;
      const middle = Math.max(TRACE_LEFT + wide / 2, Math.min(width - wide / 2 - 2, x(at)));
      if (middle - wide / 2 < free) continue;
      free = middle + wide / 2 + 4;
      pen.fillText(text, middle, 13);
    }
  }
}
