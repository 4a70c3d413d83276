"""Writes recordings of contacts that dial, and the loop rows that they have to give: a second program, which shares no
code with mfloop.

    recordings.py bits FOLDER SEED COUNT      COUNT files of eight wires: NUMBER.bin, NUMBER.rows
    recordings.py sound FOLDER SEED COUNT     COUNT files of one wire: NUMBER.raw (16 bits, 48 kHz), NUMBER.rows

Wire W is line W. Each change of a contact is followed by bounces that are over within 4.9 ms; the rows are those of the
contact without them, each end of a run rounded to a ms. A tick is 0.1 ms.
"""
import os
import random
import struct
import sys

TICKS_OF_A_MS = 10
SOUND_RATE = 48_000
AMPLITUDE = 20_000
MOST_BOUNCE_TICKS = 49
NUMBERS = ["0", "411", "2345678", "2340000", "2349199", "611", "41"]


def pulses(digit):
    return 10 if digit == "0" else int(digit)


def call(chance):
    """Returns the runs of a line that calls once or twice: closed or not, and ticks."""
    runs = [(False, chance.randint(300, 15_000))]
    for _ in range(chance.randint(1, 2)):
        runs.append((True, chance.randint(3_000, 12_000)))
        for digit in chance.choice(NUMBERS):
            for _ in range(pulses(digit)):
                runs.append((False, chance.randint(580, 640)))
                runs.append((True, chance.randint(360, 420)))
            runs[-1] = (True, chance.randint(4_000, 9_000))
        runs.append((False, chance.randint(3_500, 9_000)))
    return runs


def bounced(chance, runs):
    """Returns the runs with bounces at the beginning of each but the first."""
    recorded = [runs[0]]
    for closed, ticks in runs[1:]:
        left = MOST_BOUNCE_TICKS
        for _ in range(chance.randint(0, 4)):
            holds, leaves = chance.randint(1, 15), chance.randint(1, 15)
            if holds + leaves <= left:
                recorded += [(closed, holds), (not closed, leaves)]
                left -= holds + leaves
        recorded.append((closed, ticks - (MOST_BOUNCE_TICKS - left)))
    return recorded


def rows(line, runs):
    """Returns the rows of a line: the ends of its runs are rounded, a half up, and then subtracted."""
    text, tick, ms = "", 0, 0
    for closed, ticks in runs:
        tick += ticks
        end = (tick + TICKS_OF_A_MS // 2) // TICKS_OF_A_MS
        text += f"{line},{'M' if closed else 'B'},{end - ms}\n"
        ms = end
    return text


def samples(runs):
    """Returns a level for each tick."""
    return [closed for closed, ticks in runs for _ in range(ticks)]


def to_length(runs, ticks):
    """Returns the runs with a last one that ends at this tick."""
    closed, last = runs[-1]
    return runs[:-1] + [(closed, last + ticks - sum(run[1] for run in runs))]


def write_bits(path, chance):
    calls = [call(chance) for _ in range(8)]
    ticks = max(sum(run[1] for run in runs) for runs in calls)
    calls = [to_length(runs, ticks) for runs in calls]
    wires = [samples(bounced(chance, runs)) for runs in calls]
    with open(path + ".bin", "wb") as out:
        out.write(bytes(sum(level << wire for wire, level in enumerate(levels)) for levels in zip(*wires)))
    with open(path + ".rows", "w") as out:
        out.write("line,state,ms\n" + "".join(rows(line, runs) for line, runs in enumerate(calls)))


def write_sound(path, chance):
    runs = call(chance)
    with open(path + ".raw", "wb") as out:
        at = 0
        for closed, ticks in bounced(chance, runs):
            begin, at = at, at + ticks
            count = at * SOUND_RATE // 10_000 - begin * SOUND_RATE // 10_000
            out.write(struct.pack("<h", AMPLITUDE if closed else -AMPLITUDE) * count)
    with open(path + ".rows", "w") as out:
        out.write("line,state,ms\n" + rows(1, runs))


def main():
    kind, folder, seed, count = sys.argv[1], sys.argv[2], int(sys.argv[3]), int(sys.argv[4])
    for number in range(count):
        chance = random.Random(f"{kind} {seed} {number}")
        path = os.path.join(folder, str(number))
        if kind == "bits":
            write_bits(path, chance)
        else:
            write_sound(path, chance)


main()
