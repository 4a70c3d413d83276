"""Turns of a dial by a seed, and what is to be told of each. `pwm` calls it.

usage: pwm.py make FOLDER SEED TURNS
       pwm.py judge FOLDER LINES

`make` writes FOLDER/turns.bin, samples of eight contacts at 20 kHz that dial one after the other (a set bit is a
closed loop), FOLDER/clean.bin, the same without bounces, and FOLDER/turns.txt, the edges of each turn.

`judge` reads what `sigrok-cli -P pwm` says of each wire of the clean recording (FOLDER/N.pwm), with its numbers of
samples, and the lines of mfbench of both recordings (LINES.clean and LINES), and compares speed and share of each turn
in tenths: of the clean ones with sigrok's, and of all with a reckoning of its own, by the edges. Where there are no such
files, as in scripts/tries/bench, LINES alone is compared.
"""
import os
import random
import sys
from fractions import Fraction

RATE = 20000
SETTLE = 100  # samples: 5 ms
WIRES = 8


def tenths(figure):
    """A figure in tenths, a half rounded up, as it is printed."""
    whole = (10 * figure + Fraction(1, 2)).__floor__()
    return f"{whole // 10}.{whole % 10}"


def turn(random_, at):
    """The edges of a turn from a sample on, those of its bounces, and where it ends."""
    pulses = random_.randint(5, 10)
    speed = random_.uniform(8, 12)
    share = random_.uniform(0.55, 0.70)
    edges, bounces = [], []
    for _ in range(pulses):
        period = RATE / speed * random_.uniform(0.99, 1.01)
        edges.append(round(at))
        edges.append(round(at + period * share))
        at += period
    if random_.random() < 0.3:
        # a level that is left again after up to 2 ms, up to three times, at some edges
        for edge in edges:
            here = edge
            for _ in range(random_.randint(0, 3)):
                first, second = random_.randint(1, 40), random_.randint(1, 40)
                bounces.append((here + first, here + first + second))
                here += first + second
    return edges, bounces, round(at)


def make(folder, seed, turns):
    """Writes the recordings and the turns."""
    random_ = random.Random(seed)
    each = (turns + WIRES - 1) // WIRES
    wires = []
    for wire in range(WIRES):
        at, all_turns = RATE, []
        for _ in range(each):
            edges, bounces, end = turn(random_, at)
            all_turns.append((edges, bounces))
            at = end + RATE * random_.randint(6, 9) // 10
        wires.append((all_turns, at))
    length = max(end for _, end in wires) + RATE
    clean, spoilt = bytearray(length), bytearray(length)
    with open(f"{folder}/turns.txt", "w") as out:
        for wire, (all_turns, _) in enumerate(wires):
            levels = bytearray(b"\1" * length)
            for edges, _ in all_turns:
                for begin, end in zip(edges[::2], edges[1::2]):
                    levels[begin:end] = bytes(end - begin)
            bounced = bytearray(levels)
            for edges, bounces in all_turns:
                for begin, end in bounces:
                    for sample in range(begin, end):
                        bounced[sample] ^= 1
                print(wire, bool(bounces), *settled(bounced, edges), file=out)
            for target, source in ((clean, levels), (spoilt, bounced)):
                bits = int.from_bytes(bytes(target), "little") | int.from_bytes(bytes(source), "little") << wire
                target[:] = bits.to_bytes(length, "little")
    for name, samples in (("clean", clean), ("turns", spoilt)):
        with open(f"{folder}/{name}.bin", "wb") as out:
            out.write(samples)


def settled(levels, edges):
    """The edges of a turn as they settle: a run that is too short belongs to the next one that is not."""
    found, level, run = [], 1, None
    for at in range(edges[0] - SETTLE, edges[-1] + 4 * SETTLE):
        if run is None or levels[at] != levels[at - 1]:
            run = at
        if at - run + 1 == SETTLE and levels[at] != level:
            level = levels[at]
            # the run begins where the last settled one ended: behind it all is too short
            found.append(begin_of(levels, run))
    return found


def begin_of(levels, at):
    """Where the short runs before a sample begin."""
    while True:
        begin = at - 1
        while levels[begin - 1] == levels[begin]:
            begin -= 1
            if at - begin >= SETTLE:
                return at
        at = begin


def figures(edges):
    """Speed and share of a turn, by its edges."""
    begins, ends = edges[::2], edges[1::2]
    whole = begins[-1] - begins[0]
    broken = sum(end - begin for begin, end in zip(begins[:-1], ends))
    return tenths(Fraction((len(begins) - 1) * RATE, whole)), tenths(Fraction(100 * broken, whole))


def periods_of(file):
    """The periods that sigrok says: sample, length, and how many samples of it the contact is open."""
    found = []
    for line in open(file):
        place, rest = line.split(" ", 1)
        begin, end = (int(part) for part in place.split("-"))
        duty = Fraction(rest.split(": ")[1].rstrip("%\n")) / 100
        found.append((begin, end - begin, round(duty * (end - begin))))
    return found


def judge(folder, lines):
    """Compares; the status is 1 where something differs."""
    turns = []
    for line in open(f"{folder}/turns.txt"):
        wire, bounced, *edges = line.split()
        turns.append((int(wire), bounced == "True", [int(edge) for edge in edges]))
    told = {}
    has_sigrok = os.path.exists(f"{folder}/0.pwm")
    for kind, name in ((False, f"{lines}.clean"), (True, lines)) if has_sigrok else ((True, lines),):
        for line in open(name):
            words = line.split()
            if len(words) > 5 and words[0].isdigit() and words[1].isdigit():
                told.setdefault((kind, int(words[0])), []).append((int(words[2]), words[3], words[4]))
    differences = checked = seen_by_sigrok = 0
    for wire in range(WIRES):
        of_wire = [turn for turn in turns if turn[0] == wire]
        periods = periods_of(f"{folder}/{wire}.pwm") if has_sigrok else []
        for index, (_, bounced, edges) in enumerate(of_wire):
            wanted = (len(edges) // 2, *figures(edges))
            if told[(True, wire)][index] != wanted:
                print(f"wire {wire}, turn {index + 1}: {told[(True, wire)][index]} in place of {wanted}")
                differences += 1
            checked += 1
            if bounced or not has_sigrok:
                continue
            mine = [it for it in periods if edges[0] <= it[0] < edges[-2]]
            whole, broken = sum(it[1] for it in mine), sum(it[2] for it in mine)
            by_sigrok = (len(mine) + 1, tenths(Fraction(len(mine) * RATE, whole)), tenths(Fraction(100 * broken, whole)))
            seen_by_sigrok += 1
            if told[(False, wire)][index] != by_sigrok:
                print(f"wire {wire}, turn {index + 1}: {told[(False, wire)][index]}; sigrok {by_sigrok}")
                differences += 1
    beside = f", {seen_by_sigrok} of them beside sigrok" if has_sigrok else ""
    print(f"{checked} turns{beside}: {differences} differences in tenths")
    return 1 if differences or not checked else 0


if __name__ == "__main__":
    if sys.argv[1:2] == ["make"] and len(sys.argv) == 5:
        make(sys.argv[2], int(sys.argv[3]), int(sys.argv[4]))
    elif sys.argv[1:2] == ["judge"] and len(sys.argv) == 4:
        sys.exit(judge(sys.argv[2], sys.argv[3]))
    else:
        sys.exit(__doc__)
