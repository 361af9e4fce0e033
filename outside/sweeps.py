"""Sweeps of random models, with the values that plain value iteration gives, made without any of the crates.

    python3 outside/sweeps.py        from the repository's root

writes crates/sweep_cases/data/cases.bin and crates/sweep_cases/stdout. A case is a model file (its length
in two bytes, little-endian, then its bytes), the number of objectives (one byte), and for each objective
its column (one byte), its bound and its weight (two bytes each). The line of a case has the ceiling and
the four parts of the first state at step 0, and then those of the last state at steps 0 and 1.
The cases come from a fixed seed, so that every run writes the same bytes.
"""
import random
import struct

from files import encode

GRAINS = 65536


def ceiling(total, divisor):
    return -((-total) // divisor)


def sweep(table, objectives, weights):
    """The rows at steps 0 and 1: for each state a ceiling and four parts, in grains, by exact integers."""
    first, divisor, columns, states = table
    last = max(bound for _, bound in objectives)
    zero = (0, (0, 0, 0, 0))
    following = [zero] * len(states)
    rows = following
    for step in range(last - 1, -1, -1):
        following = rows
        rows = [row(choices, following, step, divisor, objectives, weights) for choices in states]
    return rows, following


def row(choices, following, step, divisor, objectives, weights):
    def earned(branch, i):
        column, bound = objectives[i]
        return branch[2][column] if step < bound else 0

    best = None
    for branches in choices:
        total = sum(b[0] * (GRAINS * sum(w * earned(b, i) for i, w in enumerate(weights)) + following[b[1]][0]) for b in branches)
        value = ceiling(total, divisor)
        if best is None or value > best[0]:
            best = (value, branches)
    parts = []
    for i in range(4):
        if i < len(objectives):
            total = sum(b[0] * (GRAINS * earned(b, i) + following[b[1]][1][i]) for b in best[1])
            parts.append(total // divisor)
        else:
            parts.append(0)
    return best[0], tuple(parts)


def random_table(rng):
    count, columns = rng.randint(1, 6), rng.randint(1, 4)
    divisor = rng.choice([1, 2, 3, 7, 10, 100, 10000])
    rewards = rng.choice([[0, 1], [-1, 0, 1], list(range(-5, 6)), [-1000, 1000], list(range(-1000, 1001))])
    states = []
    for _ in range(count):
        choices = []
        for _ in range(rng.randint(1, 4)):
            parts = rng.randint(1, min(4, divisor))
            cuts = sorted(rng.sample(range(1, divisor), parts - 1))
            shares = [b - a for a, b in zip([0] + cuts, cuts + [divisor])]
            choices.append([(w, rng.randrange(count), [rng.choice(rewards) for _ in range(columns)]) for w in shares])
        if rng.random() < 0.4:
            choices.append(list(reversed(choices[0])))  # the same choice once more: a tie
        states.append(choices)
    return rng.randrange(count), divisor, columns, states


def cases():
    rng = random.Random(20261118)
    for _ in range(240):
        table = random_table(rng)
        bounds = rng.choice([[1], [1, 2], [1, 2, 3, 5, 8], [1, 17, 64], [256, 1, 128]])
        objectives = [(rng.randrange(table[2]), rng.choice(bounds)) for _ in range(rng.randint(1, 4))]
        weights = [rng.choice([0, 1, 2, 500, 1000, rng.randint(0, 1000)]) for _ in objectives]
        yield table, objectives, weights


def line(values):
    return " ".join(str(v) for v in (values[0],) + values[1])


def main():
    data, lines = b"", ""
    for table, objectives, weights in cases():
        file = encode(*table)
        data += struct.pack("<H", len(file)) + file + bytes([len(objectives)])
        for (column, bound), weight in zip(objectives, weights):
            data += struct.pack("<BHH", column, bound, weight)
        rows, following = sweep(table, objectives, weights)
        lines += "%s | %s | %s\n" % (line(rows[table[0]]), line(rows[-1]), line(following[-1]))
    with open("crates/sweep_cases/data/cases.bin", "wb") as out:
        out.write(data)
    with open("crates/sweep_cases/stdout", "w") as out:
        out.write(lines)


if __name__ == "__main__":
    main()
