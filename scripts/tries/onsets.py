"""usage: scripts/tries/onsets.py LEAD OBJECTS [LINE] < SAMPLES

Makes the sound of the entries of OBJECTS, as mflive --json tells them, or of those of a line: each keying at its time, by
sines of its own, after LEAD ms, and at the standard times else. SAMPLES, which mftone --timed --format s16 has written,
have to be the same to the sample. It prints the lines that tell which entries the next one cuts. scripts/tries/sound
calls it.
"""
import json
import struct
import sys
from math import pi, sin

PAIRS = {"1": (700, 900), "2": (700, 1100), "3": (900, 1100), "4": (700, 1300), "5": (900, 1300), "6": (1100, 1300),
         "7": (700, 1500), "8": (900, 1500), "9": (1100, 1500), "0": (1300, 1500), "KP": (1100, 1700), "ST": (1500, 1700)}


def keyed(lead, keys):
    """The samples of a keying."""
    sound = [0] * (8 * lead)
    for key in keys:
        for n in range(8 * (100 if key == "KP" else 68)):
            sound.append(sum(round(10_000 * sin(2 * pi * hz * n / 8_000)) for hz in PAIRS[key]))
        sound += [0] * (8 * 68)
    return sound


lead = int(sys.argv[1])
with open(sys.argv[2]) as file:
    entries = [it for it in map(json.loads, file) if it.get("outcome") == "KEYED"]
wanted = []
before = None
for it in entries:
    if len(sys.argv) > 3 and it["line"] != int(sys.argv[3]):
        continue
    at = 8 * it["at_ms"]
    if len(wanted) > at:
        print(f"mftone: entry {before['entry']} of line {before['line']} is cut at {it['at_ms']} ms"
              f" by entry {it['entry']} of line {it['line']}")
    before = it
    wanted = wanted[:at] + [0] * (at - len(wanted)) + keyed(lead, it["keys"])
got = sys.stdin.buffer.read()
if len(got) != 2 * len(wanted):
    sys.exit(f"onsets.py: {len(got) // 2} samples in place of {len(wanted)}")
for place, (sample, other) in enumerate(zip(wanted, struct.unpack(f"<{len(wanted)}h", got))):
    if sample != other:
        sys.exit(f"onsets.py: sample {place} is {other} in place of {sample}")
