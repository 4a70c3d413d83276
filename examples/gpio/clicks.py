"""The sound of rows: the clicks of a dial, as a sound card hears the contact of a loop.

usage: mfdial CALLS | clicks.py [LINE] > CLICKS.wav

The rows are those of `mfdial` or of `mftandem --rows`, of LINE or else of the only line. The sound has 8,000 samples a
second of 16 bits. A close is a spike up and a break one down, which die away as through a high-pass of 5 Hz, since no
sound card passes a steady level.
"""
import math
import sys
import wave
from array import array

sys.dont_write_bytecode = True  # no folder beside what is installed
from outpulse import RowsError, rows_of

RATE = 8000
PEAK = 12000
CORNER_HZ = 5
# On hook before the first row and after the last one, so that no click is cut.
QUIET = [(0, 200)]


def sound(rows):
    """The samples of rows."""
    keeps = math.exp(-2 * math.pi * CORNER_HZ / RATE)
    last, value = 0, 0.0
    for level, ms in rows:
        value += PEAK * (level - last)
        last = level
        for _ in range(ms * RATE // 1000):
            yield round(value)
            value *= keeps


def main(words: list) -> int:
    """Does what the words ask."""
    if len(words) > 1 or not all(word.isdecimal() for word in words):
        print(__doc__, file=sys.stderr)
        return 2
    try:
        rows = rows_of(sys.stdin, int(words[0]) if words else None)
        samples = array("h", sound([*QUIET, *rows, *QUIET]))
    except (RowsError, UnicodeDecodeError) as fault:
        print(f"clicks.py: {fault}", file=sys.stderr)
        return 1
    if sys.byteorder == "big":
        samples.byteswap()
    with wave.open(sys.stdout.buffer, "wb") as clicks:
        clicks.setparams((1, 2, RATE, len(samples), "NONE", ""))
        clicks.writeframes(samples.tobytes())
    return 0


if __name__ == "__main__":
    sys.exit(main(sys.argv[1:]))
