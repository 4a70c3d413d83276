"""Dials on a pin in real time: plays rows of `mfdial` or of `mftandem --rows`, on a loop or on a trunk.

The pin is the loop, or the M lead of a trunk: 1 is a make, or off hook. With an E lead each call seizes the trunk, waits
for the start signal of the far office, dials or sounds, holds, and releases. What happens is told on standard error, and
at the end how late the edges were. The status is 1 where a call was given up, or an edge came too late.
"""
import argparse
import gc
import re
import signal
import subprocess
import sys
import time

sys.dont_write_bytecode = True  # no folder beside what is installed
from pins import open_pins

MS = 10**6  # nanoseconds
HEADER = "line,state,ms"
ROW = re.compile(r"([0-9]{1,4}),([MBC]),([0-9]{1,8})\r?\n?")
# Start dial, as docs/DEFINITIONS.md has it. A delay dial is an off hook of any length up to the time when a call is given up.
WINK_MS, DELAY_MS, AFTER_MS, GIVE_UP_MS = (100, 350), (100, 5000), 70, 5000
# The break that hangs up.
RELEASE_MS = 300
# The last part of a wait goes by in a loop, since a process that sleeps is woken late.
SPIN_NS = MS // 2
# An edge that is later may spoil its pulse.
MOST_LATE_MS = 5
INTERRUPTED, TERMINATED = 130, 143


class RowsError(ValueError):
    """The rows cannot be played, and the text says why."""


def rows_of(stream, named):
    """The level and the ms of each row of a line, as they come: of the line that is named, or else of the only one."""
    line = named
    for number, text in enumerate(stream, 1):
        if number == 1 and text.strip() == HEADER:
            continue
        row = ROW.fullmatch(text)
        if not row:
            raise RowsError(f"text line {number} is no row LINE,STATE,MS")
        if line is None:
            line = int(row[1])
        if int(row[1]) == line and row[2] == "C":
            return
        if int(row[1]) == line:
            yield int(row[2] == "M"), int(row[3])
        elif named is None:
            raise RowsError(f"text line {number} is of another line than those before: --line says which is played")


def runs_of(rows):
    """The level and the ms of each run of rows of one level, with the row after it. A break that hangs up comes as soon as
    it does, and so does what it has more."""
    level, held, hangs_up = 0, 0, True
    for next_level, ms in rows:
        if next_level != level:
            if held:
                yield level, held
            level, held, hangs_up = next_level, 0, False
        held += ms
        hangs_up = hangs_up or not level and held >= RELEASE_MS
        if hangs_up:
            yield level, held
            held = 0
    if held:
        yield level, held


class Player:
    """A pin, whose edges come when they are due."""

    def __init__(self, pins):
        self._pins, self._level = pins, 0
        self._start = self.due = time.monotonic_ns()
        self._edges = self._late = self.latest = 0

    def tell(self, text: str) -> None:
        """Tells what happens, and when."""
        seconds = (time.monotonic_ns() - self._start) / 10**9
        print(f"outpulse.py: {seconds:.3f} s: {text}", file=sys.stderr, flush=True)

    def wait(self) -> None:
        """Waits for the moment that is due."""
        left = self.due - time.monotonic_ns() - SPIN_NS
        if left > 0:
            time.sleep(left / 10**9)
        while time.monotonic_ns() < self.due:
            pass

    def put(self, level: int) -> None:
        """Sets the level when it is due. What comes after an edge that is too late is put off with it, so that no run is
        shorter than it should be by more than an edge may be late."""
        self.wait()
        if level == self._level:
            return
        self._pins.set([level])
        late = time.monotonic_ns() - self.due
        self._level = level
        self._edges, self._late, self.latest = self._edges + 1, self._late + late, max(self.latest, late)
        if late > MOST_LATE_MS * MS:
            self.due += late

    def rest(self, ms: int) -> None:
        """The level holds for so long."""
        self.due += ms * MS

    def from_now(self) -> None:
        """What comes next is due now, at the earliest: what was waited for had no time of its own."""
        self.due = max(self.due, time.monotonic_ns())

    def lateness(self) -> str:
        """How late the edges were."""
        mean = self._late / max(1, self._edges) / MS
        return f"{self._edges} edges, late by {mean:.3f} ms in the mean, {self.latest / MS:.3f} ms at most"


class Trunk:
    """What is dialled on: a loop, or a trunk whose far office answers on the E lead."""

    def __init__(self, pins, player: Player, has_lead: bool, start, hold_ms: int):
        self._pins, self._player, self._has_lead, self._hold_ms = pins, player, has_lead, hold_ms
        self.start = start  # the shortest and the longest start signal, or None where none is waited for

    def _is_idle(self) -> bool:
        """Whether the far office is on hook, or soon is."""
        until = time.monotonic_ns() + GIVE_UP_MS * MS
        while self._pins.level():
            if self._pins.edge(until) is None:
                return not self._pins.level()
        while self._pins.edge(0):
            pass  # what the lead did before
        return True

    def _signal_ms(self):
        """How long the start signal was, once it is over. None where none comes in time."""
        until, began = time.monotonic_ns() + GIVE_UP_MS * MS, None
        while True:
            edge = self._pins.edge(until)
            if edge is None:
                return None
            at, level = edge
            if level:
                began = at
            elif began is not None:
                ms = (at - began) / MS
                if self.start[0] <= ms <= self.start[1]:
                    return ms
                self._player.tell(f"no start signal, but off hook for {ms:.0f} ms")

    def seize(self) -> bool:
        """Seizes the trunk, and waits for its start signal. Where it is False the call is given up."""
        player = self._player
        player.wait()
        if self._has_lead and not self._is_idle():
            player.tell("given up: the far office is off hook")
            return False
        player.from_now()
        player.put(1)
        player.tell("seized")
        if self.start is None:
            return True
        ms = self._signal_ms()
        player.from_now()
        if ms is None:
            player.put(0)
            player.tell(f"given up: no start signal in {GIVE_UP_MS} ms")
            return False
        player.tell(f"start signal of {ms:.0f} ms")
        player.rest(AFTER_MS)
        return True

    def hold(self) -> None:
        """Holds the trunk, and tells what the far office does meanwhile."""
        self._player.rest(self._hold_ms)
        while self._has_lead:
            edge = self._pins.edge(self._player.due)
            if edge is None:
                return
            self._player.tell(f"the far office is {'off' if edge[1] else 'on'} hook")

    def release(self) -> None:
        """Releases the trunk."""
        self._player.put(0)
        self._player.tell("released")


def dial(trunk: Trunk, player: Player, rows) -> int:
    """Plays rows, and returns how many calls were given up. A call begins with the first make on hook, and ends with a break
    that hangs up, or with the rows. Where a start signal is waited for, that takes the place of the make. How a run is
    split into rows changes nothing."""
    is_called = is_seizing = False
    given_up = 0
    is_on_hook = True
    for level, ms in runs_of(rows):
        if level and is_on_hook:
            is_on_hook, is_called = False, trunk.seize()
            given_up += not is_called
            is_seizing = trunk.start is not None
        is_seizing = is_seizing and bool(level)
        if not level and (is_on_hook or ms >= RELEASE_MS):
            if is_called:
                trunk.hold()
                trunk.release()
            player.rest(ms)
            is_on_hook, is_called = True, False
        elif is_called and not is_seizing:
            player.put(level)
            player.rest(ms)
    if is_called:
        trunk.hold()
        trunk.release()
    return given_up


def sound(trunk: Trunk, player: Player, command: str) -> int:
    """Has a command sound on one call, and returns how many were given up, or sounded wrong."""
    if not trunk.seize():
        return 1
    player.wait()
    player.tell(f"sounds: {command}")
    status = subprocess.call(command, shell=True, stdin=subprocess.DEVNULL)
    player.from_now()
    if status:
        player.tell(f"the command ends with status {status}")
    trunk.hold()
    trunk.release()
    player.rest(RELEASE_MS)
    return int(status != 0)


def options_of(words: list):
    """What the words ask for."""
    parser = argparse.ArgumentParser(prog="outpulse.py", description=__doc__, allow_abbrev=False,
                                     formatter_class=argparse.RawDescriptionHelpFormatter)
    parser.add_argument("chip", help="as gpiochip0; log: no pin, but rows on standard output; log:FILE: also an E lead")
    parser.add_argument("pin", type=int, help="the loop, or the M lead")
    parser.add_argument("--low", action="store_true", help="the pin is low for a make")
    parser.add_argument("--line", type=int, help="play the rows of this line alone")
    parser.add_argument("--lead", type=int, metavar="PIN", help="the E lead, with the pin's own pull-up")
    parser.add_argument("--lead-low", action="store_true", help="the E lead is low for off hook")
    parser.add_argument("--delay", action="store_true", help="wait for delay dial, and not for a wink of 100 to 350 ms")
    parser.add_argument("--immediate", action="store_true", help="wait for no start signal")
    parser.add_argument("--hold", type=int, default=0, metavar="MS", help="how long a call is held before its release (0)")
    parser.add_argument("--sound", metavar="COMMAND", help="one call, on which this command sounds, in place of rows")
    options = parser.parse_args(words)
    if options.delay and (options.immediate or options.lead is None):
        parser.error("--delay wants --lead, and no --immediate")
    if options.hold < 0 or options.pin < 0 or (options.lead or 0) < 0:
        parser.error("a pin and a time are 0 or more")
    return options


def play(options) -> int:
    """Plays what is asked for, and returns the status."""
    has_lead = options.lead is not None
    pins = open_pins(options.chip, [options.pin], options.lead, options.low, options.lead_low)
    player = Player(pins)
    try:
        start = None if options.immediate or not has_lead else DELAY_MS if options.delay else WINK_MS
        trunk = Trunk(pins, player, has_lead, start, options.hold)
        if options.sound is None:
            given_up = dial(trunk, player, rows_of(sys.stdin, options.line))
        else:
            given_up = sound(trunk, player, options.sound)
        player.wait()
    finally:
        pins.set([0])
        pins.close()
        player.tell(player.lateness())
    return int(given_up > 0 or player.latest > MOST_LATE_MS * MS)


def main(words: list) -> int:
    """Does what the words ask."""
    options = options_of(words)
    signal.signal(signal.SIGTERM, lambda *_: sys.exit(TERMINATED))  # not before the pin is released
    gc.disable()  # it stops a program for some tenths of a millisecond
    try:
        return play(options)
    except (OSError, RowsError, UnicodeDecodeError) as fault:
        print(f"outpulse.py: {fault}", file=sys.stderr)
        return 1
    except KeyboardInterrupt:
        return INTERRUPTED


if __name__ == "__main__":
    sys.exit(main(sys.argv[1:]))
