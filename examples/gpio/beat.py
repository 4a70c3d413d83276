"""Makes a clock of the edges of a pin: rows SECONDS,LEVEL with each edge, and ten times a second between.

usage: gpiomon -c gpiochip0 -b pull-up -l 17 | beat.py [--open]
       gpiomon -c gpiochip0 -b pull-up -l 17 27 | beat.py [--open] 17 27
       gpiomon --line-buffered -B pull-up -l gpiochip0 17 | beat.py [--open]

An edge alone is no clock: that a digit has ended shows only with the next one. `mfbench` and `mfloop` take these rows as
they come (--format edges). The first two lines are of libgpiod 2, the third is of libgpiod 1. Where pins are named, a row has
a level for each, in their order; else all edges are of one pin. A pin is closed at first; with --open it is open. An edge
that comes after a beat of a later time is dated with that beat, and counted on standard error at the end.
"""
import os
import re
import select
import sys
import time

BEAT_NS = 100 * 10**6
# A beat tells the level of so long ago, since an edge is read some time after it came.
BEHIND_NS = 30 * 10**6
# Times count from so long before the start, since edges may wait to be read then.
BEFORE_NS = 10**9
# What gpiomon of libgpiod 1 and 2 prints, if nothing else is asked for. (Its own %n of libgpiod 1 leaves out zeros.)
EDGES = (
    re.compile(r"event: +(?P<edge>RISING|FALLING) EDGE +offset: +(?P<pin>[0-9]+) +timestamp: +\[ *(?P<s>[0-9]+)\.(?P<ns>[0-9]{9})\]"),
    re.compile(r"(?P<s>[0-9]+)\.(?P<ns>[0-9]{9})\s+(?P<edge>rising|falling)\s+(?P<pin>.*)"),
)
READER_IS_GONE, INTERRUPTED = 141, 130


class EdgesError(ValueError):
    """What comes are no edges, and the text says why."""


class Beat:
    """The levels of pins, and the time up to which they are told."""

    def __init__(self, pins: list, level: int):
        self._pins, self._levels = pins, [level] * max(1, len(pins))
        # the edges of kernels before 5.7 have the time of day
        self._clocks = [time.CLOCK_MONOTONIC, time.CLOCK_REALTIME]
        self._starts = [time.clock_gettime_ns(clock) - BEFORE_NS for clock in self._clocks]
        self._at = self.late = 0
        self._write()

    def _write(self) -> None:
        print(f"{self._at // 10**9}.{self._at % 10**9:09},{','.join(map(str, self._levels))}", flush=True)

    def beat(self) -> None:
        """Tells that the levels hold."""
        now = time.clock_gettime_ns(self._clocks[0]) - self._starts[0]
        self._at = max(self._at, now - BEHIND_NS)
        self._write()

    def take(self, number: int, text: str) -> None:
        """Takes an edge as gpiomon prints it."""
        edge = next(filter(None, (form.fullmatch(text) for form in EDGES)), None)
        names = [name.strip('"') for name in edge["pin"].split()] if edge else []
        places = [place for place, pin in enumerate(self._pins) if pin in names]
        if not edge or self._pins and not places:
            raise EdgesError(f"text line {number} is no edge of gpiomon, or of a pin that is not named")
        at = int(edge["s"]) * 10**9 + int(edge["ns"])
        if len(self._clocks) > 1:
            nearest = min((0, 1), key=lambda clock: abs(at - self._starts[clock]))
            self._clocks, self._starts = [self._clocks[nearest]], [self._starts[nearest]]
        at -= self._starts[0]
        self.late += at < self._at
        self._at = max(self._at, at)
        self._levels[places[0] if places else 0] = int(edge["edge"].lower() == "rising")
        self._write()


def follow(beat: Beat) -> None:
    """Takes edges from standard input until it ends, with a beat where none comes."""
    left, number, due = b"", 0, time.monotonic_ns() + BEAT_NS
    while True:
        wait = max(0, due - time.monotonic_ns()) / 10**9
        if select.select([0], [], [], wait)[0]:
            piece = os.read(0, 65536)
            if not piece:
                return
            *lines, left = (left + piece).split(b"\n")
            for text in lines:
                number += 1
                beat.take(number, text.decode("utf-8", "replace").rstrip("\r"))
        else:
            beat.beat()
        due = time.monotonic_ns() + BEAT_NS


def main(words: list) -> int:
    """Does what the words ask."""
    is_open = words[:1] == ["--open"]
    pins = words[is_open:]
    if any(pin.startswith("-") for pin in pins) or len(set(pins)) < len(pins):
        is_help = words in (["--help"], ["-h"])
        print(__doc__, file=sys.stdout if is_help else sys.stderr)
        return 0 if is_help else 2
    status = 0
    try:
        beat = Beat(pins, int(not is_open))
        try:
            follow(beat)
        finally:
            if beat.late:
                print(f"beat.py: {beat.late} edges came late, and are dated with a beat", file=sys.stderr)
    except EdgesError as fault:
        print(f"beat.py: {fault}", file=sys.stderr)
        status = 1
    except KeyboardInterrupt:
        status = INTERRUPTED
    except BrokenPipeError:
        os.dup2(os.open(os.devnull, os.O_WRONLY), sys.stdout.fileno())
        status = READER_IS_GONE
    return status


if __name__ == "__main__":
    sys.exit(main(sys.argv[1:]))
