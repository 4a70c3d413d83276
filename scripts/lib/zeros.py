"""A recording of a dial that is adjusted, as examples/two_zeros.vcd: python3 -I scripts/lib/zeros.py

The dial turns for 0, ten pulses, with breaks of 66 ms and makes of 42 ms; and, with its governor faster, once more, with
breaks of 61 ms and makes of 39 ms. Each time that the contact closes it bounces: it opens once for up to 0.9 ms.
"""
# A tick is 10 microseconds: pulses of each turn with the times of break and make, and of the bounces one after another.
MS = 100
TURNS = [(66 * MS, 42 * MS, (90, 40, 30)), (61 * MS, 39 * MS, (70, 50, 20))]

print("$timescale 10 us $end\n$var wire 1 d dial $end\n$enddefinitions $end\n#0 1d")
at = 1000 * MS
for broken, made, bounces in TURNS:
    for pulse in range(10):
        bounce = bounces[pulse % len(bounces)]
        closed = at + broken
        print(f"#{at} 0d\n#{closed} 1d\n#{closed + 30} 0d\n#{closed + 30 + bounce} 1d")
        at = closed + made
    at += 2000 * MS
print(f"#{at} 1d")
