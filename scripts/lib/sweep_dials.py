"""Dials with their answers: 400 lists of calls, what mfdial sends of each, and what a register must make of them.

What is sent and what is to be heard are both worked out here, by the definitions in docs/DEFINITIONS.md and by no
program: a `Dial` sends, and `outcomes` is a register. So mfdial has to send these very bytes, and mfhear to hear
these very numbers. See scripts/sweep.
"""
import hashlib
import json
import os
import random
import subprocess
import sys

sys.path.insert(0, os.path.dirname(os.path.abspath(__file__)))
from sweep import MAY, MUST, MUST_NOT, made_in, page_of, print_table, told, work  # noqa: E402

PULSE_MIN, PULSE_MAX, MAKE_MIN, PAUSE, RELEASE, TIMEOUT = 20, 119, 15, 180, 300, 20_000
BITS = (1 << 64) - 1
STEP = 0x9E3779B97F4A7C15

# --- what is sent ---


def word_at(state, n):
    """Word n of splitmix64 after a state, from 1."""
    z = (state + n * STEP) & BITS
    z = ((z ^ (z >> 30)) * 0xBF58476D1CE4E5B9) & BITS
    z = ((z ^ (z >> 27)) * 0x94D049BB133111EB) & BITS
    return z ^ (z >> 31)


class Dial:
    """A dial: its times in ms, how it is worn, and its faults, each (call, digit, pulse), (call, digit) or (call,)."""

    def __init__(self, speed=10, slow=0, jitter=0, bounce=0, seed=0, faults=(), vcd=False, **times):
        worn = {"slow": slow, "jitter": jitter, "bounce": bounce, "seed": seed}
        named = {**({} if speed == 10 else {"speed": speed}), **times, **{name: n for name, n in worn.items() if n}}
        self.words = [it for name, n in named.items() for it in (f"--{name.replace('_', '-')}", str(n))]
        self.words += ["--vcd"] if vcd or bounce else []
        said = [f"{'.'.join(map(str, place))}:{kind}" + (f"={ms}" if ms else "") for place, kind, ms in faults]
        self.words += ["--fault", ",".join(said)] if faults else []
        usual = {"break": 60 if speed == 10 else 30, "make": 40 if speed == 10 else 20, "pause": 600, "seize": 500,
                 "hang_up": 400}
        self.times = {**usual, **times}
        self.slow, self.jitter, self.bounce, self.seed, self.vcd = slow, jitter, bounce, seed, vcd or bounce > 0
        self.faults = {place + (kind == "preliminary" and ("first",) or ()): (kind, ms) for place, kind, ms in faults}

    def fits(self):
        """Whether the times of the words are within the standard limits, without which mfdial wants --out-of-limits."""
        it = self.times
        return (PULSE_MIN <= it["break"] <= PULSE_MAX and MAKE_MIN <= it["make"] < PAUSE <= it["pause"] < TIMEOUT
                and 0 < it["seize"] < TIMEOUT and it["hang_up"] >= RELEASE)

    def pulse(self, state, before):
        """The break and the make of a pulse that has so many before it in its digit."""
        def worn(n, ms):
            swing = word_at(state, n + 1) % (2 * self.jitter + 1) - self.jitter
            return max(0, ms * (100 + self.slow * before) // 100 + swing)
        return worn(2 * before, self.times["break"]), worn(2 * before + 1, self.times["make"])

    def digit(self, call, digit, state, value):
        """The pulses of a digit, the pause after it, and a flash."""
        pulses = []
        for before in range(value or 10):
            pulse = self.pulse(state, before)
            kind, ms = self.faults.get((call, digit, before + 1), (None, None))
            pulses += {"lost": [], "extra": [pulse, pulse], "break": [(ms, pulse[1])]}.get(kind, [pulse])
        kind, ms = self.faults.get((call, digit), (None, None))
        if pulses:
            pulses[-1] = pulses[-1][0], ms if kind == "pause" else self.times["pause"]
        return pulses + ([(ms, self.times["pause"])] if kind == "flash" else [])

    def call(self, call, state, digits):
        """The runs of a call: its seizing make, and its pulses."""
        kind, ms = self.faults.get((call, "first"), (None, None))
        pulses = [(ms, self.times["pause"])] if kind else []
        for n, value in enumerate(digits, 1):
            pulses += self.digit(call, n, word_at(state, n), value)
        return [("M", self.times["seize"])] + [run for pulse in pulses for run in zip("BM", pulse)]

    def lines(self, calls):
        """The runs of each line, lines ascending: its calls, with a hang-up between two."""
        lines = {}
        for n, (line, number) in enumerate(calls, 1):
            runs = lines.setdefault(line, [])
            runs += [("B", self.times["hang_up"])] if runs else []
            runs += self.call(n, word_at(self.seed, n), list(map(int, number)))
        return dict(sorted(lines.items()))

    def sent(self, calls):
        """What mfdial prints: rows, or the contact of the one line as a VCD."""
        lines = self.lines(calls)
        if self.vcd:
            return vcd_of(next(iter(lines.values())), self.bounce, self.seed)
        rows = [f"{line},{contact},{ms}\n" for line, runs in lines.items() for contact, ms in runs]
        return "line,state,ms\n" + "".join(rows)


def joined(runs):
    """Neighbours of one contact as one run, and none of 0 ms."""
    longest = []
    for contact, ms in runs:
        if ms and longest and longest[-1][0] == contact:
            longest[-1] = contact, longest[-1][1] + ms
        elif ms:
            longest.append((contact, ms))
    return longest


def vcd_of(runs, bounce, seed):
    """The contact with its bounces: on hook for a second, the runs, and on hook for a second."""
    lines, at = ["$timescale 1 us $end", "$var wire 1 ! loop $end", "$enddefinitions $end"], 0
    for n, (contact, ms) in enumerate(joined([("B", 1000), *runs, ("B", 1000)])):
        level, now, state, part = int(contact == "M"), at, (seed + 9 * n * STEP) & BITS, bounce // 8
        bounces = word_at(state, 1) % 5 if n and part and bounce < ms * 1000 else 0
        for j in range(bounces):
            holds, leaves = (1 + word_at(state, 2 * j + k) % part for k in (2, 3))
            lines += [f"#{now}", f"{level}!", f"#{now + holds}", f"{1 - level}!"]
            now += holds + leaves
        lines += [f"#{now}", f"{level}!"]
        at += ms * 1000
    return "\n".join([*lines, f"#{at}"]) + "\n"


# --- what is heard ---


def whole(digits, plan):
    """Whether digits are a number."""
    if digits[:1] == [0]:
        return len(digits) == 1
    if len(digits) < 3:
        return False
    first, middle, last = digits[:3]
    if first >= 2 and middle == 1 and last == 1:
        return len(digits) == 3
    return len(digits) == (10 if plan == 10 and first >= 2 and middle < 2 else 7)


def outcomes(runs, plan):
    """What a register makes of the runs of a line, one outcome for each time that it is seized."""
    heard, register = [], None
    for contact, ms in joined(runs):
        if contact == "B" and register:
            register.open(ms)
            if ms >= RELEASE:
                heard.append(register.outcome())
                register = None
        elif contact == "M":
            if register is None:
                register = Register(plan)
            register.closed(ms)
    return heard + ([register.outcome()] if register else [])


class Register:
    """A register, from the make that seizes it on."""

    def __init__(self, plan):
        self.plan, self.digits, self.number = plan, [], None
        self.count, self.is_bad, self.refusal, self.is_over = 0, False, None, False
        self.short = False

    def open(self, ms):
        if ms >= RELEASE or self.is_over:
            return
        self.is_bad |= self.short or not PULSE_MIN <= ms <= PULSE_MAX
        self.count += 1

    def closed(self, ms):
        if self.is_over:
            return
        self.short = ms < MAKE_MIN and self.count > 0
        if ms >= PAUSE and self.count:
            self.take(0 if self.count == 10 else self.count, self.is_bad or self.count > 10)
            self.count, self.is_bad, self.short = 0, False, False
        if ms >= TIMEOUT and not self.is_over:
            self.end("TIMEDOUT")

    def take(self, digit, is_spoiled):
        if is_spoiled:
            self.end("MUTILATED")
        else:
            self.digits.append(digit)
            if whole(self.digits, self.plan):
                self.number, self.is_over = "".join(map(str, self.digits)), True

    def end(self, refusal):
        self.refusal, self.is_over = refusal, True

    def outcome(self):
        return self.number or f"{self.refusal or 'ABANDONED'} {len(self.digits)}"


# --- the cases ---


class Case:
    """A list of calls, how they are dialled, what is wanted, and by which limit."""

    def __init__(self, want, why, calls, dial, plan=7, words=()):
        self.want, self.why, self.calls, self.dial, self.plan = want, why, calls, dial, plan
        self.words = [*dial.words, *([] if dial.fits() else ["--out-of-limits"]), *([] if plan == 7 else ["--plan", str(plan)]), *words]

    def text(self):
        return "".join(f"{line} {number}\n" for line, number in self.calls)

    def heard(self):
        return {line: outcomes(runs, self.plan) for line, runs in self.dial.lines(self.calls).items()}


def number_of(dice, digits=7, least=0):
    """A complete number of plan 7, each of whose digits has at least so many pulses."""
    while True:
        number = [dice.randrange(2, 10)] + [dice.randrange(10) for _ in range(digits - 1)]
        if number[1] > 1 and all((it or 10) >= least for it in number):
            return "".join(map(str, number))


def times_of(speed, share):
    """The break and the make of a dial of so many pulses a second and so much % break, in whole ms."""
    cut = round(1000 / speed * share / 100)
    return {"break": cut, "make": round(1000 / speed) - cut}


def good_cases(dice):
    """Dials without a fault."""
    def one(want, why, **dial):
        return Case(want, why, [(7, number_of(dice))], Dial(**dial))
    for speed in (8, 8.5, 9, 9.5, 10, 10.5, 11):
        for share in (58, 61, 64):
            yield one(MUST, "Bell System: 8 to 11 pulses a second, 58 to 64 % break", **times_of(speed, share))
    for speed in (9, 9.5, 10, 10.5, 11):
        for share in (63, 66.7, 70):
            yield one(MUST, "Post Office: 9 to 11 pulses a second, 63 to 70 % break", **times_of(speed, share))
    for speed in (11.5, 12):
        for share in (50, 58, 61, 66.7, 70):
            yield one(MAY, "more than 11 pulses a second", **times_of(speed, share))
    for speed in (18, 19, 20, 21, 22):
        for share in (50, 58, 61, 64):
            yield one(MAY, "18 to 22 pulses a second", speed=20, **times_of(speed, share))
    for cut in (20, 30, 40, 50, 75, 80, 85):
        yield one(MAY, "10 pulses a second, 20 to 85 % break", **{"break": cut, "make": 100 - cut})
    for want, ms in ((MUST, (20, 21, 118, 119)), (MUST_NOT, (18, 19, 120, 121))):
        for cut in ms:
            yield one(want, limit_of("pulse_min 20 ms" if cut < 60 else "pulse_max 119 ms", want), **{"break": cut})
    for want, ms in ((MUST, (15, 16, 178, 179)), (MUST_NOT, (13, 14))):
        for make in ms:
            yield one(want, limit_of("make_min 15 ms" if make < 60 else "pause 180 ms", want), make=make)
    for want, ms in ((MUST, (180, 181, 19_998, 19_999)), (MUST_NOT, (170, 179))):
        for pause in ms:
            yield one(want, limit_of("pause 180 ms" if pause < 999 else "timeout 20,000 ms", want), pause=pause)
    for want, ms in ((MUST, (1, 10, 19_999)), (MUST_NOT, (20_000, 20_001))):
        for seize in ms:
            yield one(want, limit_of("timeout 20,000 ms", want), seize=seize)


def limit_of(name, want):
    return f"{name}, {'just beyond' if want == MUST_NOT else 'just within'}"


def faulty_cases(dice):
    """Faults at single places: the first, a middle and the last digit, and their first, a middle and the last pulse."""
    def one(want, why, number, *faults, **dial):
        return Case(want, why, [(7, number)], Dial(faults=faults, **dial))
    for digit in (1, 4, 7):
        for want, ms in ((MUST, (20, 119)), (MUST_NOT, (19, 120, 299))):
            for cut in ms:
                for pulse in (1, 2, 0):
                    number = number_of(dice, least=3)
                    why = limit_of("one break: pulse_min 20 ms" if cut < 60 else "one break: pulse_max 119 ms", want)
                    yield one(want, why, number, ((1, digit, pulse or int(number[digit - 1]) or 10), "break", cut))
    for digit in (1, 4, 6):
        for ms in (180, 19_999):
            yield one(MUST, limit_of("one pause: 180 to 19,999 ms", MUST), number_of(dice), ((1, digit), "pause", ms))
        for ms in (1, 14, 179, 20_000):
            why = "one pause: under 180 ms, or the timeout of 20,000"
            yield one(MUST_NOT, why, number_of(dice, least=6), ((1, digit), "pause", ms))
    for ms in (180, 20_000, 30_000):
        yield one(MUST, "a pause after the last digit", number_of(dice), ((1, 7), "pause", ms))
    for digit in (1, 4, 6):
        for ms in (20, 61, 119):
            yield one(MUST, "a flash of 20 to 119 ms is a pulse: a digit 1 more", number_of(dice), ((1, digit), "flash", ms))
        for ms in (1, 19, 120, 299):
            yield one(MUST_NOT, "a flash that is no pulse and no release", number_of(dice), ((1, digit), "flash", ms))
        for ms in (300, 1_000):
            yield one(MUST, "a flash of the release 300 ms hangs up", number_of(dice), ((1, digit), "flash", ms))
    for ms in (20, 61, 119):
        for _ in range(3):
            why = "a preliminary pulse of 20 to 119 ms is a digit 1"
            yield one(MUST, why, number_of(dice), ((1,), "preliminary", ms))
    for ms in (1, 19, 120, 299):
        yield one(MUST_NOT, "a preliminary pulse that is no pulse and no release", number_of(dice), ((1,), "preliminary", ms))
    for ms in (300, 500):
        yield one(MUST, "a preliminary pulse of the release 300 ms hangs up", number_of(dice), ((1,), "preliminary", ms))
    for digit in (1, 2, 4, 7):
        for pulse in (1, 2, 3):
            yield one(MUST, "a lost pulse: the digit is one less", number_of(dice, least=3), ((1, digit, pulse), "lost", 0))
            number = number_of(dice, least=3).replace("0", "9")
            yield one(MUST, "one pulse more: the digit is one more", number, ((1, digit, pulse), "extra", 0))
    for digit in (2, 4, 7):
        number = number_of(dice, least=3)
        number = number[:digit - 1] + "0" + number[digit:]
        yield one(MUST_NOT, "eleven pulses are no digit", number, ((1, digit, 5), "extra", 0))
        number = number[:digit - 1] + "1" + number[digit:] if digit > 3 else number[:digit] + "1" + number[digit + 1:]
        place = digit if digit > 3 else digit + 1
        yield one(MUST_NOT, "a digit of which nothing comes", number, ((1, place, 1), "lost", 0))
    for first, second in ((1, 4), (4, 1), (2, 7), (7, 2), (3, 5), (6, 7)):
        faults = ((1, first, 1), "break", 19), ((1, second, 2), "break", 130)
        yield one(MUST_NOT, "two spoiled digits: the first counts", number_of(dice, least=3), *faults)


def worn_cases(dice):
    """Dials that slow down, and times that swing."""
    def zero():
        return number_of(dice)[:6] + "0"

    def judged(why, number, **dial):
        it = Dial(**dial)
        is_heard = outcomes(it.lines([(7, number)])[7], 7) == [number]
        return Case(MAY if is_heard else MUST_NOT, why, [(7, number)], it)
    for slow in (1, 2):
        for _ in range(3):
            yield Case(MUST, "a governor that slows down to 8 pulses a second", [(7, zero())], Dial(slow=slow))
    for slow in (4, 6, 8, 10, 11, 12, 13, 20, 40):
        yield judged("a governor that slows down further", zero(), slow=slow)
    for slow in (5, 20, 30, 33, 34, 60):
        yield judged("a governor that slows down further", zero(), speed=20, slow=slow)
    for jitter in (1, 2, 3, 5):
        for _ in range(3):
            why = "times that swing by up to 5 ms"
            yield Case(MUST, why, [(7, number_of(dice))], Dial(jitter=jitter, seed=dice.randrange(1 << 32)))
    for jitter in (10, 15, 20, 25, 26, 30, 35, 39):
        for _ in range(2):
            yield judged("times that swing by more", number_of(dice), jitter=jitter, seed=dice.randrange(1 << 32))
    for jitter in (1, 3, 5, 8, 10, 12):
        why = "times that swing at 20 pulses a second"
        yield judged(why, number_of(dice), speed=20, jitter=jitter, seed=dice.randrange(1 << 32))


def bouncing_cases(dice):
    """Contacts that bounce, recorded in us."""
    for us in (8, 100, 500, 1_000, 2_000, 5_000, 8_000, 10_000):
        for speed in (10, 20):
            for _ in range(2):
                dial = Dial(speed=speed, bounce=us, seed=dice.randrange(1 << 32))
                yield Case(MUST, "bounces within up to 10 ms of each change", [(7, number_of(dice))], dial)
    for us in (100, 1_000, 5_000, 10_000):
        for digit in (1, 4, 7):
            fault, seed = ((1, digit, 2), "break", 120), dice.randrange(1 << 32)
            dial = Dial(bounce=us, seed=seed, faults=[fault])
            yield Case(MUST_NOT, "bounces, and one break: pulse_max 119 ms, just beyond", [(7, number_of(dice, least=3))], dial)
    for us in (1_000, 3_000, 10_000):
        numbers = [(7, number_of(dice)) for _ in range(3)]
        dial = Dial(bounce=us, seed=dice.randrange(1 << 32), hang_up=300)
        yield Case(MUST, "bounces, and calls after a release of 300 ms", numbers, dial)
        dial = Dial(bounce=us, jitter=3, slow=1, seed=dice.randrange(1 << 32))
        yield Case(MUST, "bounces, times that swing, and a governor that slows down", [(7, number_of(dice))], dial)
    for _ in range(3):
        yield Case(MUST, "a contact that does not bounce, in us", [(7, number_of(dice))], Dial(vcd=True))


def several_cases(dice):
    """Several calls, other numbers, and calls that are not complete."""
    for hang_up in (300, 301):
        calls = [(7, number_of(dice)) for _ in range(3)]
        yield Case(MUST, limit_of("release 300 ms", MUST), calls, Dial(hang_up=hang_up))
    for hang_up in (298, 299):
        calls = [(7, number_of(dice)) for _ in range(3)]
        yield Case(MUST_NOT, limit_of("release 300 ms", MUST_NOT) + ": the later calls", calls, Dial(hang_up=hang_up))
    for spoiled in (1, 2, 3):
        for digit in (1, 7):
            calls = [(7, number_of(dice, least=3)) for _ in range(3)]
            dial = Dial(faults=[((spoiled, digit, 2), "break", 130)])
            yield Case(MUST, "one call of three spoiled: the others are heard", calls, dial)
    for _ in range(6):
        calls = [(dice.choice((0, 7, 52, 9_999)), number_of(dice)) for _ in range(dice.randrange(4, 9))]
        yield Case(MUST, "calls of several lines", calls, Dial())
    for number in ("0", "411", "611", "1234567"):
        yield Case(MUST, "numbers of 1, 3 and 7 digits", [(7, number)], Dial())
    for number in ("2125551234", "5085551234", "4135550000", "5551234", "0", "411"):
        yield Case(MUST, "numbers of the plan of ten digits", [(7, number)], Dial(), plan=10)
    for digits in (1, 2, 3, 4, 5, 6):
        number = number_of(dice)[:digits]
        yield Case(MUST, "a number that is not complete is abandoned", [(7, number)], Dial(), words=["--incomplete"])
    for more in (1, 2, 3):
        number = number_of(dice) + number_of(dice)[:more]
        yield Case(MUST, "digits after a number are ignored", [(7, number)], Dial(), words=["--incomplete"])
        faults = [((1, 8, 1), "break", 130)]
        yield Case(MUST, "and so are spoiled ones", [(7, number)], Dial(faults=faults), words=["--incomplete"])


def cases():
    """400 of them."""
    dice = random.Random(1951)
    kinds = (good_cases, faulty_cases, worn_cases, bouncing_cases, several_cases)
    listed = [case for kind in kinds for case in kind(dice)]
    while len(listed) < 400:
        dial = Dial(jitter=dice.randrange(1, 4), slow=dice.randrange(3), seed=dice.randrange(1 << 32))
        listed.append(Case(MUST, "times that swing, and a governor that slows down", [(7, number_of(dice))], dial))
    return listed


# --- making and judging ---


def make(folder, mfdial):
    """Writes what mfdial sends of each case, and adds the cases to the manifest."""
    if os.path.isdir(folder) and any(it.startswith("dial") for it in os.listdir(folder)):
        sys.exit(f"sweep: {folder} has dials")
    counts = dict.fromkeys((MUST, MAY, MUST_NOT), 0)
    with made_in(folder), open(os.path.join(folder, "manifest.jsonl"), "a") as manifest:
        for n, case in enumerate(cases(), 1):
            name = f"dial{n:03}.{'vcd' if case.dial.vcd else 'csv'}"
            made = subprocess.run([mfdial, *case.words], input=case.text().encode(), capture_output=True)
            if made.returncode:
                sys.exit(f"sweep: {name}: {made.stderr.decode().strip()}")
            if made.stdout.decode() != case.dial.sent(case.calls):
                sys.exit(f"sweep: {name}: mfdial {' '.join(case.words)} sends other times than are worked out")
            with open(os.path.join(folder, name), "wb") as dialled:
                dialled.write(made.stdout)
            it = {"file": name, "sha256": hashlib.sha256(made.stdout).hexdigest(), "command": ["mfdial", *case.words],
                  "calls": case.text(), "plan": case.plan, "outcomes": case.heard(), "want": case.want, "why": case.why}
            print(json.dumps(it), file=manifest)
            counts[case.want] += 1
    print(f"{sum(counts.values())} dials: {counts[MUST]} must be heard, {counts[MAY]} may, {counts[MUST_NOT]} must not")


def heard_by_mfhear(mfhear, mfloop):
    def heard(path, it):
        with open(path, "rb") as dialled:
            rows = dialled.read()
        if path.endswith(".vcd"):
            [line] = it["outcomes"]
            rows = subprocess.run([mfloop, "--wire", f"{line}=loop"], input=rows, stdout=subprocess.PIPE, check=True).stdout
        deck = (b"" if it["plan"] == 7 else b"plan = 10\n") + b"---\n" + rows
        told = subprocess.run([mfhear, "--json"], input=deck, stdout=subprocess.PIPE, check=True).stdout
        lines = {}
        for attempt in map(json.loads, told.splitlines()):
            refused = f"{attempt['reason']} {attempt['heard']}"
            lines.setdefault(str(attempt["line"]), []).append(attempt["number"] or refused)
        return lines
    return heard


def heard_by(command):
    """Another register: of the file that is its last word it prints '7 2345678' or '7 MUTILATED 3', one in a line."""
    def heard(path, it):
        lines = {}
        for told in subprocess.run([*command, path], stdout=subprocess.PIPE, check=True).stdout.decode().splitlines():
            line, outcome = told.split(" ", 1)
            lines.setdefault(line, []).append(outcome)
        return lines
    return heard


def numbers_in(lines):
    return {(line, it) for line, heard in lines.items() for it in heard if it.isdigit()}


def judge(folder, mfhear, mfloop, *command):
    """Lets registers hear the dials: how many are heard as is worked out, and of how many another number is heard."""
    registers = {"mfhear": heard_by_mfhear(mfhear, mfloop)}
    if command:
        registers[os.path.basename(command[0])] = heard_by(command)
    table, failed = {}, 0
    with open(os.path.join(folder, "manifest.jsonl")) as manifest:
        for it in (it for it in map(json.loads, manifest) if "calls" in it):
            path = os.path.join(folder, it["file"])
            with open(path, "rb") as dialled:
                if hashlib.sha256(dialled.read()).hexdigest() != it["sha256"]:
                    sys.exit(f"sweep: {it['file']} is not the one of the manifest")
            row = table.setdefault((it["want"], it["why"]), [0, {name: [0, 0, 0] for name in registers}])
            row[0] += 1
            for name, heard in registers.items():
                lines = heard(path, it)
                row[1][name][0] += lines == it["outcomes"]
                row[1][name][1] += bool(numbers_in(lines) - numbers_in(it["outcomes"]))
                failed += name == "mfhear" and lines != it["outcomes"]
    cells = [["Want", "Limit", "Dials", *registers]]
    for (want, why), (count, heard) in table.items():
        cells.append([want, why, str(count), *(told(*heard[name]) for name in registers)])
    print_table(cells)
    with open(os.path.join(folder, "judged_dials.html"), "w") as page:
        page.write(page_of(cells))
    if failed:
        sys.exit(f"sweep: mfhear is wrong of {failed} dials")


if __name__ == "__main__":
    work({"make": make, "judge": judge})
