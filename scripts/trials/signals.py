"""usage: scripts/trials/signals.py LIBRARY CALLS: gives the C library random signals from two threads, half of the calls
each, on lines of their own by one office. What has to come of each call says an office of a few lines in here."""
import random
import sys
from concurrent.futures import ThreadPoolExecutor

sys.path.insert(0, "examples/python")
from mfchain import CLOSED, NOT_SEIZED, SEIZED, WRONG_DIGIT, Office, SignalError

TABLE = '[[route]]\ncode = "0"\ntrunk = 1\n[[route]]\ncode = "234"\ntrunk = 17\ndelete = 3\nprefix = "56"\n'
PAIRS = dict(zip("1234567890", [(700, 900), (700, 1100), (900, 1100), (700, 1300), (900, 1300), (1100, 1300),
                                (700, 1500), (900, 1500), (1100, 1500), (1300, 1500)]))
ACTS = ["digit"] * 16 + ["seize"] * 4 + ["release"] * 2 + ["mutilated_digit", "time_out", "close"]
REFUSALS = {"mutilated_digit": "MUTILATED", "time_out": "TIMEDOUT", "release": "ABANDONED", "close": "ABANDONED"}


def entry(line: int, number: str) -> list:
    """The marks of a complete number."""
    keyed, trunk = (number, 1) if number == "0" else ("56" + number[3:], 17)
    if number != "0" and not number.startswith("234"):
        return [(line, "UNKNOWN", len(number), 0, 0)]
    keys = [(line, "DIGIT", int(digit), *PAIRS[digit]) for digit in keyed]
    return [(line, "TRUNK", trunk, 0, 0), (line, "KP", 0, 1100, 1700), *keys, (line, "ST", 0, 1500, 1700)]


class Line:
    """What is known of a line that is told signals alone."""

    def __init__(self, line: int):
        self.line, self.closed, self.seized, self.ended, self.digits = line, False, False, True, ""

    def told(self, act: str, digit: int):
        """The marks of an act, or the status by which it is refused."""
        if act == "digit" and digit > 9:
            return WRONG_DIGIT
        if self.closed:
            return [] if act == "close" else CLOSED
        if act == "seize":
            if self.seized:
                return SEIZED
            self.seized, self.ended, self.digits = True, False, ""
            return []
        if act != "close" and not self.seized:
            return NOT_SEIZED
        marks = []
        if not self.ended and act == "digit":
            self.digits += str(digit)
            service = len(self.digits) == 3 and self.digits[0] > "1" and self.digits[1:] == "11"
            if self.digits == "0" or service or len(self.digits) == 7:
                marks, self.ended = entry(self.line, self.digits), True
        elif not self.ended:
            marks, self.ended = [(self.line, REFUSALS[act], len(self.digits), 0, 0)], True
        if act in ("release", "close"):
            self.seized = False
        self.closed = act == "close"
        return marks


def wrong_calls(office: Office, line: int, calls: int) -> int:
    """How many of so many calls on a line do otherwise than they should; those that are told ends at ten."""
    throw, known, wrong = random.Random(line), Line(line), 0
    for _ in range(calls):
        if known.closed and throw.random() < 0.5:
            office.reopen(line)
            known = Line(line)
        act, digit = throw.choice(ACTS), int(throw.choice("023456789234"))
        if throw.random() < 0.5 and len(known.digits) < 3:
            digit = int("234"[len(known.digits)])
        if throw.random() < 0.01:
            digit = throw.randrange(10, 300)
        before = office.dialled(line)
        wanted = known.told(act, digit)
        try:
            given = office.digit(line, digit) if act == "digit" else getattr(office, act)(line)
        except SignalError as error:
            given = error.status
        lamps = [] if known.ended else [int(digit) for digit in known.digits]
        if given != wanted or office.dialled(line) != (lamps if isinstance(wanted, list) else before):
            wrong += 1
            if wrong <= 10:
                print(f"signals.py: line {line}, {act} {digit}: {given} in place of {wanted}", file=sys.stderr)
    return wrong


half = int(sys.argv[2]) // 2
shared = Office(TABLE, sys.argv[1])
with ThreadPoolExecutor(2) as pool:
    wrongs = list(pool.map(lambda line: wrong_calls(shared, line, half), (7, 8)))
if sum(wrongs):
    sys.exit(f"signals.py: {sum(wrongs)} calls do otherwise")
print(f"{2 * half} calls from two threads of Python, on a line each")
