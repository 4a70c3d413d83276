"""A line that dials in real time, and the trunk that sounds meanwhile. `trunk` calls it.

usage: trunk.py MFLIVE SECONDS
"""
import random
import subprocess
import sys
import threading
import time
from array import array

from delay import memory_of

SEED = 1
TICK, PER_MS, LEAD = 20, 8, 200  # ms, samples, ms
BREAK, MAKE, PAUSE, HANG_UP = 60, 40, 600, 1200  # ms
MOST_LATE, MOST_KB = 0.05, 3000  # s, KB
TABLE = '[[route]]\ncode = "234"\ntrunk = 17\ndelete = 3\nprefix = "56"\n---\nline,state,ms\n'


def runs_of(dice):
    """The runs of a call of 234 and four digits, and how many of the first of them complete the number."""
    runs = [("M", 500)]
    for digit in [2, 3, 4] + [dice.randint(1, 9) for _ in range(4)]:
        for pulse in range(digit):
            runs += [("B", BREAK), ("M", MAKE if pulse < digit - 1 else PAUSE)]
    return runs


def rows(seconds):
    """Rows of 20 ms of the line 7, a call after the other."""
    dice, made = random.Random(SEED), []
    while len(made) * TICK < seconds * 1000:
        runs = runs_of(dice) + [("M", 20 * dice.randint(0, 100)), ("B", HANG_UP + 20 * dice.randint(0, 150))]
        made += [state for state, ms in runs for _ in range(ms // TICK)]
    return made[: seconds * 1000 // TICK]


def completed(mflive, text):
    """The ms at which each entry is completed, as mflive tells it."""
    import json

    said = subprocess.run([mflive, "--json"], input=text, capture_output=True, text=True, check=True).stdout
    return [it["at_ms"] for it in map(json.loads, said.splitlines()) if it.get("outcome") == "KEYED"]


class Reader(threading.Thread):
    """The samples of a stream, and the moments in which they came: the number of samples then, and the moment."""

    def __init__(self, stream):
        super().__init__()
        self.stream, self.samples, self.moments = stream, bytearray(), []

    def run(self):
        while block := self.stream.read1(65536):
            self.samples += block
            self.moments.append((len(self.samples) // 2, time.monotonic()))


def play(states, process, reader):
    """Hands each row over in the moment in which it ends. Returns that moment, and how many times the samples were not
    those of the rows before the next one."""
    began, wrong = time.monotonic(), 0
    for n, state in enumerate(states, 1):
        time.sleep(max(0.0, began + n * TICK / 1000 - time.monotonic()))
        wanted = (n - 1) * TICK * PER_MS
        wrong += len(reader.samples) // 2 != wanted
        process.stdin.write(f"7,{state},{TICK}\n".encode())
        process.stdin.flush()
    return began, wrong


def lateness(began, at_ms, reader):
    """How long after the row that completes a number its first sample other than 0 was in reach."""
    samples = array("h", bytes(reader.samples))
    first = next((n for n in range(at_ms * PER_MS, len(samples)) if samples[n]), None)
    if first is None:
        return None
    came = next(moment for count, moment in reader.moments if count > first)
    return first, came - (began + at_ms / 1000)


def main(mflive, seconds):
    states = rows(seconds)
    text = TABLE + "".join(f"7,{state},{TICK}\n" for state in states)
    ends = completed(mflive, text)
    process = subprocess.Popen([mflive, "--sound", "7", "--lead", str(LEAD)], stdin=subprocess.PIPE, stdout=subprocess.PIPE)
    reader = Reader(process.stdout)
    reader.start()
    process.stdin.write(TABLE.encode())
    began, wrong = play(states, process, reader)
    time.sleep(0.2)
    count, kilobytes = len(reader.samples) // 2, memory_of(process)
    process.stdin.close()
    reader.join()
    if process.wait() != 0:
        sys.exit("trunk: mflive fails")
    late = [lateness(began, at_ms, reader) for at_ms in ends if (at_ms + LEAD + TICK) <= seconds * 1000]
    places = [first - (at_ms + LEAD) * PER_MS for (first, _), at_ms in zip(late, ends)]
    worst = max(moment for _, moment in late) - (LEAD + TICK) / 1000
    print(f"trunk: {len(states)} rows in real time, {count} samples, {len(late)} keyings in {kilobytes} KB of memory; "
          f"KP begins at most {max(places)} samples after the lead, and is in reach {1000 * worst:.1f} ms late at most; "
          f"{wrong} rows came while samples of the one before it were missing")
    if count != len(states) * TICK * PER_MS or not late or set(places) != {1} or worst > MOST_LATE or kilobytes >= MOST_KB:
        sys.exit("trunk: that is not as it should be")


if __name__ == "__main__":
    main(sys.argv[1], int(sys.argv[2]))
