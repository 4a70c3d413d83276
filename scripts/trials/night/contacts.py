"""Contacts that dial, made by chance, and what an office makes of them, reckoned from docs/DEFINITIONS.md alone."""
import itertools
from dataclasses import dataclass

MS = 1_000_000
LINE = 7
MOST_BOUNCE = 9 * MS // 2
BOUNCE_GRAIN = MS // 50
FIRST_HOLD = MS // 5
ROUTES = (("234", 17, 3, "56"), ("411", 3, 0, ""), ("0", 1, 0, ""))
PAIRS = {
    "1": "700+900", "2": "700+1100", "3": "900+1100", "4": "700+1300", "5": "900+1300",
    "6": "1100+1300", "7": "700+1500", "8": "900+1500", "9": "1100+1500", "0": "1300+1500",
}
SPREAD = 2


@dataclass
class Contact:
    """A contact that is open at first: the ns at which it changes, and the ns at which its recording ends."""

    changes: list
    end: int

    def runs(self):
        """Returns the state and the ms of each run. Its two ends are rounded, a half up, and then subtracted."""
        ends = [(ns + MS // 2) // MS for ns in (0, *self.changes, self.end)]
        return [("BM"[at % 2], after - before) for at, (before, after) in enumerate(itertools.pairwise(ends))]


@dataclass
class Story:
    """What a line did, what was recorded of it, and what an office with this route table makes of it."""

    clean: Contact
    recorded: Contact
    table: str
    outcomes: list

    def deck(self):
        """Returns the deck of the clean contact."""
        rows = "".join(f"{LINE},{state},{ms}\n" for state, ms in self.clean.runs())
        return f"{self.table}---\nline,state,ms\n{rows}"

    def page(self):
        """Returns the page that the deck has to give."""
        entries = "".join(f"{LINE:04} {attempt} {it}\n" for attempt, it in enumerate(self.outcomes, 1))
        keyed = sum(it.startswith("KEYED") for it in self.outcomes)
        return f"{entries}KEYED {keyed} REFUSED {len(self.outcomes) - keyed}\n"


def length(digits):
    """Returns how many digits a number has that begins so, or None where that is not known yet."""
    if digits[:1] == "0":
        return 1
    if len(digits) < 3:
        return None
    return 3 if digits[0] in "23456789" and digits[1:3] == "11" else 7


def outcome(digits):
    """Returns the end of the entry of an attempt in which good digits were dialled, and then was hung up."""
    if length(digits) != len(digits):
        return f"REFUSED ABANDONED {len(digits)}"
    for code, trunk, delete, prefix in ROUTES:
        if digits.startswith(code):
            keys = " ".join(f"{it}:{PAIRS[it]}" for it in prefix + digits[delete:])
            return f"KEYED {trunk:04} KP:1100+1700 {keys} ST:1500+1700"
    return f"REFUSED UNKNOWN {len(digits)}"


def digits_of_a_call(chance):
    """Returns a number that has a route or none, or the beginning of one."""
    many = str(chance.randint(2, 9)) + str(chance.choice("023456789")) + "".join(chance.choices("0123456789", k=5))
    routed = "234" + many[3:]
    return chance.choice(("0", "411", routed, routed, routed, many, "1" + many[1:], many[:chance.randint(1, 6)]))


def train(chance, at, digit, opens, closes):
    """Returns the changes of the pulses of a digit, each a ms from its place at most."""
    changes = []
    for _ in range(10 if digit == "0" else int(digit)):
        shut = at + opens + chance.randint(-MS, MS)
        changes += [at, shut]
        at = shut + closes + chance.randint(-MS, MS)
    return changes


def call(chance, at, digits):
    """Returns the changes of a call that begins then, up to the break with which it hangs up: 8 to 12 pulses a second,
    of which the line is open for 55 to 70 %."""
    period, share = 1000 * MS / chance.uniform(8, 12), chance.uniform(0.55, 0.70)
    opens, closes = round(period * share), round(period * (1 - share))
    changes = [at]
    at += chance.randint(400 * MS, 1_200 * MS)
    for digit in digits:
        changes += train(chance, at, digit, opens, closes)
        at = changes[-1] + chance.randint(400 * MS, chance.choice((900, 900, 5_000)) * MS)
    return [*changes, at]


def bounced(chance, changes, most=MOST_BOUNCE):
    """Returns the changes, each followed by up to eight more within so many ns. Each is held for 0.2 ms at first, so
    that it is seen by 8,000 samples a second."""
    recorded = []
    for at in changes:
        more = chance.sample(range(FIRST_HOLD, most, BOUNCE_GRAIN), 2 * chance.randint(0, 4))
        recorded += [at, *(at + it for it in sorted(more))]
    return recorded


def busy(chance, end):
    """Returns a contact that changes now and then, from a ms on: another wire of the recording."""
    changes = chance.sample(range(MS, end - MS, MS // 3), chance.randint(20, 200))
    return Contact(sorted(changes), end)


def limits_of(clean):
    """Returns limits that lie close around the runs of a contact, so that a page tells where a few ms are missing.
    What comes before the first make may be missing in a recording, and is passed over."""
    runs = clean.runs()[1:]
    pulses = [ms for state, ms in runs if state == "B" and ms < 300]
    between = [ms for state, ms in runs if state == "M" and ms < 180]
    ending = [ms for state, ms in runs if state == "M" and ms >= 180]
    limits = {
        "pulse_min": min(pulses) - SPREAD, "pulse_max": max(pulses) + SPREAD,
        "pause": min(ending) - SPREAD, "timeout": max(ending) + SPREAD + 1,
        "release": min(ms for state, ms in runs if state == "B" and ms >= 300) - SPREAD,
    }
    return limits | ({"make_min": min(between) - SPREAD} if between else {})


def table_of(limits):
    """Returns a route table with these limits; with none it has the standard ones."""
    head = "".join(["[limits]\n"] * bool(limits) + [f"{name} = {ms}\n" for name, ms in limits.items()])
    return head + "".join(
        f'[[route]]\ncode = "{code}"\ntrunk = {trunk}\ndelete = {delete}\nprefix = "{prefix}"\n'
        for code, trunk, delete, prefix in ROUTES)


def story_of_calls(chance):
    """Returns a line that calls two or three times, with limits close around it. It rests longest at the end, so that
    the next call is lost where a rest between two calls is told too short."""
    dialled = [digits_of_a_call(chance) for _ in range(chance.randint(2, 3))]
    changes, at = [], chance.randint(300 * MS, 1_500 * MS)
    for digits in dialled:
        changes += call(chance, at, digits)
        at = changes[-1] + chance.randint(1_500 * MS, 4_000 * MS)
    end = changes[-1] + 4_500 * MS
    clean, recorded = Contact(changes, end), Contact(bounced(chance, changes), end)
    return Story(clean, recorded, table_of(limits_of(clean)), [outcome(digits) for digits in dialled])
