"""What `mflive --events` prints of a deck, read from docs/DEFINITIONS.md alone.

usage: events.py deck SEED > DECK
       events.py read [SINCE] < DECK > OBJECTS
       events.py try MFLIVE DECKS

The first makes a deck by a seed; the second reads one as whole lists: after each record the record of its line so far
is cut into runs, attempts and trains anew, and what the one before did not yet say is told. It keeps no state of a
line. The third does both of so many seeds, compares the program MFLIVE, and measures it beside `mflive --json`.
"""
import json
import random
import resource
import subprocess
import sys
import tomllib
from bisect import bisect_right
from contextlib import redirect_stdout
from datetime import datetime, timedelta, timezone
from io import StringIO

STANDARD = {"pulse_min": 20, "pulse_max": 119, "make_min": 15, "pause": 180, "release": 300, "timeout": 20000}

# How many times the processor time of `--json` that of `--events` may be, over all decks.
MOST_TIMES = 1.2


class Office:
    """A route table."""

    def __init__(self, text: str):
        table = tomllib.loads(text)
        self.plan = table.get("plan", 7)
        self.limits = STANDARD | table.get("limits", {})
        self.routes = table.get("route", [])

    def length(self, digits: list):
        """How many digits the numbers have that begin so; None where that is not yet known."""
        if digits[:1] == [0]:
            return 1
        if len(digits) < 3:
            return None
        first, second, third = digits[:3]
        if first >= 2 and second == 1 and third == 1:
            return 3
        if first >= 2 and second <= 1:
            return 10 if self.plan == 10 else 7
        return 7

    def number(self, good: list):
        """The shortest beginning of good digits that is a number."""
        for end in range(len(good) + 1):
            if self.length(good[:end]) == end:
                return good[:end]
        return None

    def order(self, number: list):
        """The trunk group and the digits that go out."""
        text = "".join(map(str, number))
        covering = [route for route in self.routes if text.startswith(route["code"])]
        if not covering:
            return None
        route = max(covering, key=lambda it: len(it["code"]))
        return route["trunk"], route.get("prefix", "") + text[route.get("delete", 0):]


def attempts_of(rows: list, limits: dict) -> list:
    """The attempts of a line, each as its runs and whether a release follows."""
    record = []
    for state, ms in rows:
        if state == "C":
            break
        if ms > 0:
            record.append((state, ms))
    runs = []
    for state, ms in record:
        if runs and runs[-1][0] == state:
            runs[-1] = (state, runs[-1][1] + ms)
        else:
            runs.append((state, ms))
    if runs and runs[0][0] == "B":
        runs = runs[1:]
    attempts, piece = [], []
    for state, ms in runs:
        if state == "B" and ms >= limits["release"]:
            if piece:
                attempts.append((piece, True))
            piece = []
        else:
            piece.append((state, ms))
    if piece:
        attempts.append((piece, False))
    return attempts


def trains_of(runs: list, limits: dict):
    """The trains of an attempt, and whether it is timed out."""
    heard, timed = [], False
    for state, ms in runs:
        heard.append((state, ms))
        if state == "M" and ms >= limits["timeout"]:
            timed = True
            break
    trains, train = [], []
    for state, ms in heard[1:]:
        train.append((state, ms))
        if state == "M" and ms >= limits["pause"]:
            trains.append(train)
            train = []
    return trains, timed


def digit_of(train: list, limits: dict):
    """The digit of a train; None where it is mutilated."""
    breaks = [ms for state, ms in train if state == "B"]
    makes = [ms for state, ms in train[:-1] if state == "M"]
    fits = all(limits["pulse_min"] <= ms <= limits["pulse_max"] for ms in breaks)
    if 1 <= len(breaks) <= 10 and fits and all(ms >= limits["make_min"] for ms in makes):
        return len(breaks) % 10
    return None


def good_of(digits: list) -> list:
    """The digits before the first mutilated one."""
    return digits[:digits.index(None)] if None in digits else digits


class Attempt:
    """What is known of an attempt by the rows so far."""

    def __init__(self, office: Office, runs: list, released: bool, closed: bool):
        trains, timed = trains_of(runs, office.limits)
        digits = [digit_of(train, office.limits) for train in trains]
        good = good_of(digits)
        number = office.number(good)
        self.signals = [("SEIZED", None)] + [("DIGIT", digit) for digit in digits]
        self.signals += [("TIMEDOUT", None)] * timed + [("RELEASED", None)] * released
        self.dialled = "".join(map(str, good if number is None else number))
        if number is not None:
            order = office.order(number)
            self.outcome = ("UNKNOWN", len(number)) if order is None else order
            self.keyed = order is not None
        else:
            reason = "MUTILATED" if None in digits else "TIMEDOUT" if timed else "ABANDONED"
            self.outcome, self.keyed = (reason, len(good)), False
        self.certain = number is not None or None in digits or timed or released or closed


class Line:
    """The rows of a line so far."""

    def __init__(self, office: Office, number: int):
        self.office, self.number, self.rows = office, number, []

    def attempts(self, count: int) -> list:
        """The attempts of its first rows."""
        rows = self.rows[:count]
        closed = any(state == "C" for state, _ in rows)
        found = attempts_of(rows, self.office.limits)
        return [Attempt(self.office, runs, released, closed and place == len(found) - 1)
                for place, (runs, released) in enumerate(found)]

    def lasts(self, count: int) -> int:
        """How many ms its first rows last."""
        return sum(ms for _, ms in self.rows[:count])

    def began(self, place: int) -> int:
        """How many ms its rows last before the one with which an attempt begins."""
        counts = range(len(self.rows))
        limits = self.office.limits
        return self.lasts(bisect_right(counts, place, key=lambda k: len(attempts_of(self.rows[:k], limits))) - 1)

    def take(self, state: str, ms: int) -> list:
        """Takes a row: the objects of its events, and of the entry that it completes."""
        self.rows.append((state, ms))
        count = len(self.rows)
        before, after = self.attempts(count - 1), self.attempts(count)
        signals = [signal for attempt in after for signal in attempt.signals]
        known = sum(len(attempt.signals) for attempt in before)
        objects = []
        for name, digit in signals[known:]:
            told = {"line": self.number, "at_ms": self.lasts(count), "event": name}
            if name == "DIGIT":
                told |= {"digit": digit, "dialled": after[-1].dialled}
            objects.append(told)
        decided = sum(attempt.certain for attempt in before)
        for place, attempt in enumerate(after):
            if attempt.certain and place >= decided:
                objects.append(self.entry(place, attempt, count))
        return objects

    def entry(self, place: int, attempt: Attempt, count: int) -> dict:
        """The object of an entry."""
        told = {"line": self.number, "entry": place + 1, "from_ms": self.began(place), "at_ms": self.lasts(count),
                "dialled": attempt.dialled}
        if attempt.keyed:
            trunk, sent = attempt.outcome
            return told | {"outcome": "KEYED", "trunk": trunk, "sent": sent, "keys": ["KP", *sent, "ST"]}
        reason, heard = attempt.outcome
        return told | {"outcome": "REFUSED", "reason": reason, "heard": heard}


def time_text(since: datetime, ms: int) -> str:
    """The time of day so many ms later, in UTC."""
    time = since.astimezone(timezone.utc) + timedelta(milliseconds=ms)
    text = time.strftime("%Y-%m-%dT%H:%M:%S")
    fraction = f"{time.microsecond:06}".rstrip("0")
    return text + ("." + fraction if fraction else "") + "Z"


def read(deck: str, since) -> None:
    """Prints the objects of a deck."""
    table, _, text = deck.partition("---\n")
    office, lines = Office(table), {}
    keyed = refused = 0
    rows = [row.split(",") for row in text.splitlines()[1:]]
    rows = [(int(line), state, int(ms)) for line, state, ms in rows]
    for line, state, ms in rows + [(line, "C", 0) for line in sorted({line for line, _, _ in rows})]:
        for told in lines.setdefault(line, Line(office, line)).take(state, ms):
            keyed += told.get("outcome") == "KEYED"
            refused += told.get("outcome") == "REFUSED"
            if since:
                told |= {"at": time_text(since, told["at_ms"])}
                told |= {"from": time_text(since, told["from_ms"])} if "from_ms" in told else {}
            print(json.dumps(told, sort_keys=True, separators=(",", ":")))
    print(json.dumps({"keyed": keyed, "refused": refused}, sort_keys=True, separators=(",", ":")))


def make(seed: int) -> None:
    """Prints a deck by a seed."""
    dice = random.Random(seed)
    limits = {}
    if dice.random() < 0.4:
        limits = {"pulse_min": dice.randint(5, 30), "pulse_max": dice.randint(90, 150), "make_min": dice.randint(5, 30),
                  "pause": dice.randint(100, 250), "release": dice.randint(200, 400),
                  "timeout": dice.randint(1000, 5000)}
    if dice.random() < 0.5:
        print("plan = 10")
    if limits:
        print("[limits]", *(f"{name} = {ms}" for name, ms in limits.items()), sep="\n")
    limits = STANDARD | limits
    for code in ["0", "411", *(f"{n}{m}{x}" for n in range(2, 10) for m in range(2, 10) for x in (3, 7))]:
        if dice.random() < 0.7:
            delete = dice.randint(0, len(code)) if len(code) > 1 else 0
            prefix = "".join(str(dice.randrange(10)) for _ in range(dice.randint(1, 3)))
            print(f'[[route]]\ncode = "{code}"\ntrunk = {dice.randrange(10000)}')
            print(f'delete = {delete}\nprefix = "{prefix}"')
    print("---\nline,state,ms")
    lines = dice.sample(range(10000), 3)
    for _ in range(dice.randint(5, 25)):
        row(dice, dice.choice(lines), limits)
    for line in lines:
        call(dice, line, limits)


def call(dice: random.Random, line: int, limits: dict) -> None:
    """Prints a call that dials well, after a hang-up, and the end of it."""
    cut(dice, line, "B", limits["release"])
    cut(dice, line, "M", dice.randint(1, 500))
    for _ in range(dice.choice([1, 3, 7, 8, 10])):
        digit(dice, line, limits, dice.randint(1, 10))
    if dice.random() < 0.5:
        cut(dice, line, "B", limits["release"])


def digit(dice: random.Random, line: int, limits: dict, count: int) -> None:
    """Prints a digit of so many pulses that is dialled well."""
    for place in range(count):
        cut(dice, line, "B", dice.randint(limits["pulse_min"], limits["pulse_max"]))
        if place < count - 1:
            cut(dice, line, "M", dice.randint(limits["make_min"], 80))
    cut(dice, line, "M", dice.randint(limits["pause"], limits["pause"] + 400))


def row(dice: random.Random, line: int, limits: dict) -> None:
    """Prints rows of a line: a digit mostly, else a spoilt one, a hang-up, a wait, a short row or a close."""
    what = dice.random()
    if what < 0.75:
        digit(dice, line, limits, dice.choice([1, 2, 3, 4, 5, 6, 7, 8, 9, 10, 10, 11, 12]))
    elif what < 0.8:
        for state in "BMBM":
            cut(dice, line, state, dice.randint(1, 250))
    elif what < 0.85:
        cut(dice, line, "B", dice.randint(limits["release"] - 20, limits["release"] + 300))
        cut(dice, line, "M", dice.randint(1, 900))
    elif what < 0.9:
        cut(dice, line, "M", dice.randint(limits["timeout"] - 400, limits["timeout"] + 400))
    elif what < 0.99:
        print(f"{line},{dice.choice('MB')},{dice.choice([0, 1, 5, 50, 100])}")
    else:
        print(f"{line},C,0")


def cut(dice: random.Random, line: int, state: str, ms: int) -> None:
    """Prints a run as one row, or as two."""
    first = dice.randint(0, ms) if dice.random() < 0.2 else 0
    if first:
        print(f"{line},{state},{first}")
    print(f"{line},{state},{ms - first}")


def printed(call, *words) -> bytes:
    """What a call prints."""
    with redirect_stdout(StringIO()) as text:
        call(*words)
    return text.getvalue().encode()


def told(mflive: str, words: list, deck: bytes) -> tuple:
    """What the program prints of a deck, and the seconds of a processor that it took."""
    before = resource.getrusage(resource.RUSAGE_CHILDREN)
    text = subprocess.run([mflive, *words], input=deck, capture_output=True, check=True).stdout
    after = resource.getrusage(resource.RUSAGE_CHILDREN)
    return text, after.ru_utime + after.ru_stime - before.ru_utime - before.ru_stime


def compare(mflive: str, decks: int) -> None:
    """Compares the program with what is read here: with a time of day in every third deck."""
    count, events_took, json_took = 0, 0.0, 0.0
    for seed in range(1, decks + 1):
        deck = printed(make, seed)
        since = "2027-12-31T20:59:58.75-03:00" if seed % 3 == 0 else None
        words = ["--since", since] if since else []
        events, took = told(mflive, ["--events", *words], deck)
        events_took += took
        if events != printed(read, deck.decode(), datetime.fromisoformat(since) if since else None):
            sys.exit(f"events: deck {seed} is told otherwise")
        lines = events.splitlines(keepends=True)
        entries = [line for line in lines if b'"event":' not in line]
        objects, took = told(mflive, ["--json", *words], deck)
        json_took += took
        if b"".join(entries) != objects:
            sys.exit(f"events: deck {seed} has other entries")
        count += len(lines) - len(entries)
    print(f"{decks} decks, {count} events: each is told as the definitions have it")
    print(f"--events took {events_took / json_took:.2f} times the processor time of --json")
    if events_took > MOST_TIMES * json_took:
        sys.exit(f"events: that is over {MOST_TIMES}")


if __name__ == "__main__":
    if sys.argv[1] == "deck":
        make(int(sys.argv[2]))
    elif sys.argv[1] == "try":
        compare(sys.argv[2], int(sys.argv[3]))
    else:
        read(sys.stdin.read(), datetime.fromisoformat(sys.argv[2]) if len(sys.argv) > 2 else None)
