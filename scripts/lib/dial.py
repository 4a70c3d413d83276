"""Edges of a dial that gets faster, by a seed: python3 -I scripts/lib/dial.py DIGITS SEED

Each edge is a text line of its time in seconds and the level from then on. The dial goes from 9.6 to 11.4 pulses a
second, and breaks for 58.5 to 63.5 % of the time. Every fortieth digit has a break of 140 ms, which spoils it.
"""
import random
import sys


def main(digits, seed):
    """Prints the edges."""
    random_ = random.Random(seed)
    at = 400_000
    print("0.000000,1")

    def edge(micros, level):
        nonlocal at
        at += micros
        print(f"{at // 1_000_000}.{at % 1_000_000:06},{level}")

    for index in range(digits):
        speed = 9.6 + 1.8 * index / digits + random_.uniform(-0.2, 0.2)
        share = random_.uniform(0.585, 0.635)
        for pulse in range(random_.randint(1, 10)):
            broken = 140_000 if index % 40 == 17 and pulse == 1 else int(1_000_000 / speed * share)
            edge(0 if pulse == 0 else int(1_000_000 / speed) - int(1_000_000 / speed * share), 0)
            edge(broken, 1)
        at += random_.randint(600_000, 900_000)
    edge(0, 1)


if __name__ == "__main__":
    main(int(sys.argv[1]), int(sys.argv[2]))
