"""Lamps for the lines of an office: what each does, from the events of mflive as they come.

usage: mflive --events DECK | lamps.py
       mflive --events DECK | lamps.py --gpio CHIP LAMPS...

The first shows a row for each line that was seized: five lamps, of which one is lit (on hook, seized, dialling,
complete, refused), its digits as two out of five, and what was keyed last, or why a call was refused. At the end of the
events, or at ctrl-C, the rows stay.

With --gpio it lights lamps on pins instead, by libgpiod 1 or 2 (pins.py), until the events end. LAMPS are one or more of

    7=17,27,22,23,24          the five lamps of line 7
    digit:7=5,6,13,19,26      the elements 0, 1, 2, 4 and 7 of its last digit, until it hangs up
    trunk:17=12               trunk group 17, while a line has a call there

Where CHIP is `log` nothing is lit: standard output gets a row for each change, its time in seconds and the level of each
pin, in the order in which they are named.
"""
import json
import os
import sys
from collections import defaultdict

try:
    import curses
except ImportError:  # some builds of Python have none
    curses = None

sys.dont_write_bytecode = True  # no folder beside what is installed
from pins import open_pins

STATES = ("ON HOOK", "SEIZED", "DIALLING", "COMPLETE", "REFUSED")
WEIGHTS = (0, 1, 2, 4, 7)
# As of programs that SIGPIPE and SIGINT end.
READER_IS_GONE, INTERRUPTED = 141, 130


class LampsError(ValueError):
    """The lamps cannot be shown, and the text says why."""


class Line:
    """What is known of a line."""

    def __init__(self):
        self.state, self.dialled, self.last, self.trunk = "ON HOOK", "", "", None

    def take(self, told: dict) -> None:
        """Takes an event, or an entry."""
        if "outcome" in told:
            self.finish(told)
        elif told["event"] == "SEIZED":
            self.state, self.dialled = "SEIZED", ""
        elif told["event"] == "DIGIT":
            self.dialled = told["dialled"]
            if self.state == "SEIZED":
                self.state = "DIALLING"
        elif told["event"] == "RELEASED":
            self.state, self.trunk = "ON HOOK", None

    def finish(self, told: dict) -> None:
        """Takes an entry. Who hangs up too early is on hook before the call is refused."""
        if told["outcome"] == "KEYED":
            self.last = f"{told['trunk']:04} {' '.join(told['keys'])}"
        else:
            self.last = f"{told['reason']} {told['heard']}"
        if self.state != "ON HOOK":
            self.state = "COMPLETE" if told["outcome"] == "KEYED" else "REFUSED"
            self.trunk = told.get("trunk")


def elements(digit: str) -> list:
    """Which of five elements operate for a digit, by their weights."""
    total = int(digit) or 11
    pair = next((a, b) for a in WEIGHTS for b in WEIGHTS if a < b and a + b == total)
    return [int(weight in pair) for weight in WEIGHTS]


def weights(digit: str) -> str:
    """The weights of the elements that operate for a digit."""
    return "".join(str(weight) if operates else "." for weight, operates in zip(WEIGHTS, elements(digit)))


def row_text(number: int, line: Line) -> str:
    """A line as a row of the screen."""
    lamps = " ".join("*" if state == line.state else "." for state in STATES)
    digits = " ".join(map(weights, line.dialled))
    return f"{number:04}  {lamps}  {line.state:8}  {digits:41}  {line.last}"


def rows_of(lines: dict) -> list:
    """The rows of the screen."""
    return ["line  H S D C R  state     two of five of each digit                  keyed or refused last",
            *(row_text(number, line) for number, line in sorted(lines.items()))]


def draw(screen, lines: dict) -> None:
    """Shows as many rows as the screen has."""
    height, width = screen.getmaxyx()
    screen.erase()
    for place, text in enumerate(rows_of(lines)[:height]):
        screen.addnstr(place, 0, text, width - 1, curses.A_BOLD if place == 0 else curses.A_NORMAL)
    screen.refresh()


def show(screen, lines: dict) -> None:
    """Shows what comes of each event."""
    try:
        curses.curs_set(0)
    except curses.error:
        pass  # this terminal always shows its cursor
    for told in events():
        lines.setdefault(told["line"], Line()).take(told)
        draw(screen, lines)


def event_of(text: bytes) -> dict:
    """The event, entry or totals of a text line."""
    told = json.loads(text)
    if "line" in told:
        Line().take(told)
    elif "keyed" not in told:
        raise KeyError("line")
    return told


def events():
    """Each event and each entry, as it comes; the totals are none."""
    number = 0
    for number, text in enumerate(sys.stdin.buffer, 1):
        try:
            told = event_of(text)
        except (ValueError, KeyError, TypeError, AttributeError):
            raise LampsError(f"text line {number} is none of mflive --events") from None
        if "line" in told:
            yield told
    if number == 0:
        raise LampsError("standard input is empty: mflive --events writes what is shown")


def state_levels(lines: dict, number: int) -> list:
    """The levels of the lamps of a line: that of what it does is lit."""
    return [int(state == lines[number].state) for state in STATES]


def digit_levels(lines: dict, number: int) -> list:
    """The levels of the elements of a line's last digit."""
    line = lines[number]
    is_shown = line.dialled and line.state != "ON HOOK"
    return elements(line.dialled[-1]) if is_shown else [0] * len(WEIGHTS)


def trunk_levels(lines: dict, number: int) -> list:
    """The level of the lamp of a trunk group."""
    return [int(any(line.trunk == number for line in lines.values()))]


# What lamps show, by the word before the number of a line or of a trunk group, and how many these are.
SHOWN = {"": (state_levels, 5), "digit": (digit_levels, 5), "trunk": (trunk_levels, 1)}


def lamps_of(word: str) -> tuple:
    """What says the levels of the lamps that a word names, the number that it is asked for, and their pins."""
    what, _, numbers = word.partition("=")
    kind, _, number = what.rpartition(":")
    pins = [int(pin) for pin in numbers.split(",")]
    levels, count = SHOWN.get(kind, (None, 0))
    if len(pins) != count:
        raise ValueError(word)
    return levels, int(number), pins


def light(chip: str, asked: list) -> None:
    """Lights the lamps that are asked for."""
    lines = defaultdict(Line)

    def levels_now() -> list:
        return [level for levels, number, _ in asked for level in levels(lines, number)]

    shown = levels_now()
    pins = open_pins(chip, [pin for _, _, numbers in asked for pin in numbers])
    try:
        pins.set(shown)
        for told in events():
            lines[told["line"]].take(told)
            if levels_now() != shown:
                shown = levels_now()
                pins.set(shown)
    finally:
        pins.close()


def light_words(words: list) -> None:
    """Lights the lamps that the words after --gpio ask for."""
    chip, *asked = words
    if not asked:
        raise ValueError("--gpio")
    light(chip, [lamps_of(word) for word in asked])


def show_rows() -> None:
    """Shows the rows until the events end, and leaves them there."""
    if curses is None:
        raise LampsError("this Python has no curses: take another, or --gpio")
    if not sys.stdout.isatty():
        raise LampsError("standard output is no terminal: leave the pipe behind it out, or take --gpio")
    lines = {}
    try:
        curses.wrapper(show, lines)
    except KeyboardInterrupt:
        pass
    except curses.error as fault:
        raise LampsError(f"the terminal shows no rows: {fault}") from None
    print("\n".join(rows_of(lines)))


def main(words: list) -> int:
    """Does what the words ask."""
    status = 0
    try:
        if words in (["--help"], ["-h"]):
            print(__doc__)
        elif words[:1] == ["--gpio"]:
            light_words(words[1:])
        elif words or sys.stdin.isatty():
            raise ValueError(words)
        else:
            show_rows()
    except (LampsError, OSError) as fault:
        if isinstance(fault, BrokenPipeError):
            os.dup2(os.open(os.devnull, os.O_WRONLY), sys.stdout.fileno())
            return READER_IS_GONE
        print(f"lamps.py: {fault}", file=sys.stderr)
        status = 1
    except ValueError:
        print(__doc__, file=sys.stderr)
        status = 2
    except KeyboardInterrupt:
        status = INTERRUPTED
    return status


if __name__ == "__main__":
    sys.exit(main(sys.argv[1:]))
