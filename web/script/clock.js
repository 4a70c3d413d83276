// The page's time, in ms. It runs as the visitor says: ten times slower, as it does, or twenty times faster. While what
// was due at a moment is done it stands at that moment: a hidden tab is woken seconds late.

class Clock {
  constructor() {
    this.pace = 1;
    this.began = performance.now();
    this.before = 0;
    this.stands = null;
  }

  now() { return this.stands ?? this.before + (performance.now() - this.began) * this.pace; }

  // How many ms of the visitor's time a moment is past.
  ago(moment) { return (this.before - moment) / this.pace + performance.now() - this.began; }

  // Does something as at a moment that has passed.
  at(moment, what) {
    const { stands } = this;
    this.stands = moment;
    try { what(); } finally { this.stands = stands; }
  }

  // Does something as at one moment: a page may stand still between two looks at the clock.
  atOnce(what) { this.at(this.now(), what); }

  setPace(pace) {
    this.before = this.now();
    this.began = performance.now();
    this.pace = pace;
  }
}
