"""Turns of a dial in real time, and how late the line of each digit is. `delay` calls it.

usage: delay.py MFBENCH SECONDS

The samples are bits at 20 kHz: a set bit is a closed loop. A sample is handed over at the moment in which it ends, or
later, never before.
"""
import random
import re
import subprocess
import sys
import threading
import time

SEED = 1
RATE = 20000  # samples a second
LONGEST_BLOCK = 200  # samples: 10 ms
PAUSE = 180  # ms: the standard limit of DEFINITIONS
MOST_DELAY = 0.35  # s
MOST_EARLY = 0.001  # s: a pause is reckoned in ms, and each of its ends is rounded to one
MOST_KB = 3000
CLOSED, OPEN = b"\1", b"\0"


def turns(random_, seconds):
    """The samples of turns until so many seconds are over, and of each its pulses and the sample of its pause."""
    contact, dialled = bytearray(CLOSED * RATE), []
    while True:
        pulses, speed, share = random_.randint(1, 10), random_.uniform(8, 12), random_.uniform(0.55, 0.70)
        turn = bytearray()
        for _ in range(pulses):
            period = RATE / speed * random_.uniform(0.99, 1.01)
            turn += OPEN * round(period * share) + CLOSED * round(period * (1 - share))
        ended = len(contact) + len(turn.rstrip(CLOSED))
        turn += CLOSED * round(RATE * random_.uniform(0.4, 3))
        if len(contact) + len(turn) > seconds * RATE:
            return bytes(contact + CLOSED * (seconds * RATE - len(contact))), dialled
        contact += turn
        dialled.append((pulses, ended + PAUSE * RATE // 1000))


def memory_of(process):
    """The most memory that a process was in, in KB."""
    with open(f"/proc/{process.pid}/status") as status:
        return int(re.search(r"VmHWM:\s*(\d+) kB", status.read())[1])


class Reader(threading.Thread):
    """The lines of a stream, each with the moment in which it came."""

    def __init__(self, stream):
        super().__init__()
        self.stream, self.lines = stream, []

    def run(self):
        for line in self.stream:
            self.lines.append((time.monotonic(), line.decode()))


def play(random_, contact, stream):
    """Hands the samples over in real time; returns when it began, and by how much a block was late at most."""
    began, place, late = time.monotonic(), 0, 0
    while place < len(contact):
        block = contact[place:place + random_.randint(1, LONGEST_BLOCK)]
        place += len(block)
        due = began + place / RATE
        while (now := time.monotonic()) < due:
            time.sleep(due - now)
        late = max(late, now - due)
        try:
            stream.write(block)
        except BrokenPipeError:
            sys.exit(f"delay: the program ended after {place / RATE:.1f} s")
    return began, late


def faults_of(dialled, lines, began):
    """What is wrong with the lines of the digits; prints how late they were."""
    told = [(at - began, line.split()) for at, line in lines if re.match(r"0001 +[0-9x-] ", line)]
    faults = [f"{len(told)} digits in place of {len(dialled)}"] if len(told) != len(dialled) else []
    delays = []
    for number, ((pulses, paused), (at, words)) in enumerate(zip(dialled, told), 1):
        delays.append(at - paused / RATE)
        if words[1:3] != [str(pulses % 10), str(pulses)]:
            faults.append(f"digit {number} is told as {words[1:3]}, of {pulses} pulses")
        if not -MOST_EARLY <= delays[-1] <= MOST_DELAY:
            faults.append(f"the line of digit {number} comes {delays[-1]:.3f} s after its pause")
    if delays:
        delays.sort()
        print(f"{len(told)} digits: their lines came {delays[len(delays) // 2]:.3f} s after the pause in the middle,"
              f" {delays[-1]:.3f} s at most, {delays[0]:.3f} s at least")
    return faults


def main(mfbench, seconds):
    """Plays, judges and returns the status."""
    random_ = random.Random(SEED)
    contact, dialled = turns(random_, seconds)
    process = subprocess.Popen(
        [mfbench, "--format", "bits", "--rate", str(RATE), "--wire", "1=0"],
        bufsize=0, stdin=subprocess.PIPE, stdout=subprocess.PIPE,
    )
    reader = Reader(process.stdout)
    reader.start()
    began, late = play(random_, contact, process.stdin)
    memory = memory_of(process)
    process.stdin.close()
    reader.join()
    status = process.wait()
    faults = faults_of(dialled, reader.lines, began)
    print(f"blocks were handed over up to {late:.3f} s late; {memory} KB of memory")
    if status:
        faults.append(f"status {status}")
    if not dialled:
        faults.append("nothing was dialled")
    if memory > MOST_KB:
        faults.append(f"it is in over {MOST_KB} KB of memory")
    for fault in faults:
        print(f"delay: {fault}", file=sys.stderr)
    return 1 if faults else 0


if __name__ == "__main__":
    if len(sys.argv) != 3:
        sys.exit(__doc__)
    sys.exit(main(sys.argv[1], int(sys.argv[2])))
