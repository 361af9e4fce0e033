"""Writes model.bin and question.bin of a heavy question into the present folder: 471 states with two choices of eight
branches each (63,122 bytes), both bounds 256, and targets just beyond what two rows bring: settle makes all twelve
pricings, looks at every pair of rows and every share, and leaves the docket open.
"""
import os
import random
import struct
import sys

sys.path.insert(0, os.path.join(os.path.dirname(os.path.abspath(__file__)), "..", "outside"))
from files import encode

STATES, CHOICES, BRANCHES, DIVISOR, BOUND = 471, 2, 8, 10000, 256
TARGETS = 5761608024, -5656423586


def choice(rng):
    cuts = sorted(rng.sample(range(1, DIVISOR), BRANCHES - 1))
    weights = [b - a for a, b in zip([0] + cuts, cuts + [DIVISOR])]
    tilt = rng.randint(-900, 900)
    return [(w, rng.randrange(STATES), [rng.randint(-100, 100) + tilt, rng.randint(-100, 100) - tilt]) for w in weights]


def main():
    rng = random.Random(7)
    table = [[choice(rng) for _ in range(CHOICES)] for _ in range(STATES)]
    with open("model.bin", "wb") as out:
        out.write(encode(0, DIVISOR, 2, table))
    with open("question.bin", "wb") as out:
        out.write(struct.pack("<BHqBHq", 0, BOUND, TARGETS[0], 1, BOUND, TARGETS[1]))


if __name__ == "__main__":
    main()
