"""Model files with what the check must say of each, made without any of the crates.

    python3 outside/files.py        from the repository's root

writes crates/file_cases/data/cases.bin and crates/file_cases/stdout. A case is a name (its length in
one byte, then its bytes) and a file (its length in four bytes, little-endian, then its bytes).
The random cases come from a fixed seed, so that every run writes the same bytes.
"""
import random
import struct

MAX = {"states": 512, "divisor": 10000, "columns": 4, "choices": 8, "branches": 8, "reward": 1000}


def encode(first, divisor, columns, states):
    blocks = []
    for choices in states:
        block = b""
        for branches in choices:
            block += bytes([len(branches)])
            for weight, following, rewards in branches:
                block += struct.pack("<HH", weight, following) + b"".join(struct.pack("<h", r) for r in rewards)
        blocks.append(block)
    out = struct.pack("<HHHBB", len(states), first, divisor, columns, 0)
    offset = 8 + 4 * len(states)
    for block in blocks:
        out += struct.pack("<HH", offset, len(block))
        offset += len(block)
    return out + b"".join(blocks)


class Refused(Exception):
    pass


def word(file, at):
    return file[at] | file[at + 1] << 8


def reward(file, at):
    value = word(file, at)
    return value - 65536 if value >= 32768 else value


def examine(file):
    if not 8 <= len(file) <= 65535:
        raise Refused(1, 0)
    states, first, divisor, columns = word(file, 0), word(file, 2), word(file, 4), file[6]
    for fits, place in (
        (1 <= states <= MAX["states"], 0),
        (first < states, 2),
        (1 <= divisor <= MAX["divisor"], 4),
        (1 <= columns <= MAX["columns"], 6),
        (file[7] == 0, 7),
    ):
        if not fits:
            raise Refused(2, place)
    if len(file) < 8 + 4 * states:
        raise Refused(3, 8)
    expected = 8 + 4 * states
    for s in range(states):
        at = 8 + 4 * s
        offset, size = word(file, at), word(file, at + 2)
        last = s == states - 1
        if offset != expected or size == 0 or offset + size > len(file) or (last and offset + size != len(file)):
            raise Refused(3, at)
        expected = offset + size
    for s in range(states):
        at = word(file, 8 + 4 * s)
        end = at + word(file, 10 + 4 * s)
        count = 0
        while at < end:
            at = examine_choice(file, at, end, count, states, divisor, columns)
            count += 1


def examine_choice(file, at, end, before, states, divisor, columns):
    start, branches = at, file[at]
    if before == MAX["choices"] or not 1 <= branches <= MAX["branches"]:
        raise Refused(4, at)
    at += 1
    total = 0
    for _ in range(branches):
        for field in range(2 + columns):
            if at + 2 > end:
                raise Refused(4, end)
            if field == 0:
                fits = 1 <= word(file, at) <= divisor
                total += word(file, at)
            elif field == 1:
                fits = word(file, at) < states
            else:
                fits = -MAX["reward"] <= reward(file, at) <= MAX["reward"]
            if not fits:
                raise Refused(4, at)
            at += 2
    if total != divisor:
        raise Refused(5, start)
    return at


def verdict(file):
    try:
        examine(file)
        return "ok"
    except Refused as refused:
        return "file %d %d" % refused.args


def put(file, at, value, size=2):
    return file[:at] + value.to_bytes(size, "little") + file[at + size:]


def loop(weight=1, columns=1, following=0, value=0):
    return (weight, following, [value] * columns)


def even(parts, divisor):
    return [divisor // parts] * (parts - 1) + [divisor - divisor // parts * (parts - 1)]


def edges():
    """Both edges of each limit, and each kind of cut."""
    two = encode(0, 1, 2, [[[(1, 1, [4, 0])], [(1, 1, [0, 4])]], [[(1, 1, [0, 0])]]])
    assert len(two) == 43
    one = encode(0, 1, 1, [[[loop()]]])
    yield "two states", two
    yield "blank", one
    yield "empty", b""
    for size in (1, 7, 8, 9, 11, 12, 15, 16, 17, 42):
        yield "first %d bytes" % size, two[:size]
    yield "a byte more", two + b"\0"
    # the header
    for states in (0, 1, 2, 512, 513, 65535):
        yield "header says %d states" % states, put(two, 0, states)
    for states in (511, 512, 513):
        yield "%d states" % states, encode(0, 1, 1, [[[loop()]]] * states)
    for first in (0, 1, 2, 65535):
        yield "first state %d of 2" % first, put(two, 2, first)
    for divisor in (0, 1, 9999, 10000, 10001, 65535):
        yield "divisor %d" % divisor, encode(0, divisor, 1, [[[loop(max(divisor, 1))]]])
    for columns in (0, 1, 2, 3, 4, 5, 255):
        yield "%d columns" % columns, encode(0, 1, columns, [[[loop(1, columns)]]])
    for zero in (0, 1, 255):
        yield "byte 7 is %d" % zero, put(two, 7, zero, 1)
    # the pairs
    for offset in (15, 16, 17):
        yield "first offset %d" % offset, put(two, 8, offset)
    for offset in (33, 34, 35):
        yield "second offset %d" % offset, put(two, 12, offset)
    for size in (0, 1, 17, 18, 19, 27, 28, 65535):
        yield "first length %d" % size, put(two, 10, size)
    for size in (0, 1, 8, 9, 10, 65535):
        yield "second length %d" % size, put(two, 14, size)
    yield "offset and length past 65,535", put(put(two, 12, 65535), 14, 65535)
    yield "first pair ends past 65,535", put(put(two, 8, 16), 10, 65530)
    # the choices
    for count in (0, 1, 2, 7, 8, 9, 255):
        yield "count byte %d" % count, put(one, 12, count, 1)
    for count in (7, 8, 9):
        yield "%d branches" % count, encode(0, 100, 1, [[[loop(w) for w in even(count, 100)]]])
    for count in (7, 8, 9):
        yield "%d choices" % count, encode(0, 1, 1, [[[loop()]] * count])
    for weight in (0, 1, 2, 3, 4, 65535):
        yield "weight %d of 3" % weight, encode(0, 3, 1, [[[loop(weight), loop(2)]]])
    for following in (0, 1, 2, 65535):
        yield "next state %d of 2" % following, put(two, 19, following)
    for value in (-32768, -1001, -1000, -1, 0, 1, 999, 1000, 1001, 32767):
        yield "reward %d" % value, encode(0, 1, 1, [[[loop(value=value)]]])
        yield "last reward %d" % value, encode(0, 1, 4, [[[(1, 0, [0, 0, 0, value])]]])
    for extra in (-1, 0, 1):
        yield "weights short by %d" % extra, encode(0, 10, 1, [[[loop(4), loop(6 - extra)]]])
    yield "wrong sum before a wrong field of the next choice", encode(0, 2, 1, [[[loop(1)], [loop(0)]]])
    yield "wrong field after a wrong weight", encode(0, 2, 1, [[[(1, 0, [0]), (3, 9, [0])]]])
    yield "wrong field of the second state", encode(0, 1, 1, [[[loop()]], [[loop(following=2)]]])
    # a block that ends within a choice: after the count, within a field, between its two bytes
    for cut in range(1, 8):
        full = encode(0, 1, 1, [[[loop()], [loop()]]])
        yield "second choice cut after %d bytes" % (7 - cut), put(full[: len(full) - cut], 10, 14 - cut)
    for cut in range(1, 7):
        yield "only choice cut by %d bytes" % cut, put(one[: len(one) - cut], 10, 7 - cut)
    yield "wrong field before a cut", put(put(one[:-1], 10, 6), 13, 2)
    # the largest files: 65,535 bytes, and one more
    yield "65,535 bytes", largest(65535)
    yield "65,536 bytes", largest(65535) + b"\0"


def largest(size):
    """A file of exactly this size: 512 states, one column, as many branches as fit."""
    left = size - 8 - 4 * 512
    choices = next(c for c in range(512, 4097) if (left - c) % 6 == 0 and (left - c) // 6 <= 8 * c)
    short = 8 * choices - (left - choices) // 6
    states = [[] for _ in range(512)]
    for k in range(choices):
        s = k % 512
        weights = even(7 if k < short else 8, 1000)
        states[s].append([loop(w, following=(s * 7 + k + n) % 512, value=n - 3) for n, w in enumerate(weights)])
    file = encode(3, 1000, 1, states)
    assert len(file) == size
    return file


def random_file(rng):
    count, divisor, columns = rng.randint(1, 5), rng.choice([1, 2, 3, 100, 10000]), rng.randint(1, 4)
    states = []
    for _ in range(count):
        choices = []
        for _ in range(rng.choice([1, 2, 3, 8, 9] if rng.random() < 0.3 else [1, 2, 3])):
            parts = rng.randint(1, min(8, divisor))
            cuts = sorted(rng.sample(range(1, divisor), parts - 1))
            weights = [b - a for a, b in zip([0] + cuts, cuts + [divisor])]
            choices.append([(w, rng.randrange(count), [rng.choice([0, -1000, 1000, rng.randint(-1000, 1000)]) for _ in range(columns)]) for w in weights])
        states.append(choices)
    return encode(rng.randrange(count), divisor, columns, states)


def damaged(rng, file):
    kind = rng.random()
    if kind < 0.6 and file:
        at = rng.randrange(len(file))
        value = rng.choice([0, 1, 2, 8, 9, 255, (file[at] + 1) % 256, (file[at] - 1) % 256])
        return put(file, at, value, 1)
    if kind < 0.75:
        return file[: rng.randrange(len(file) + 1)]
    if kind < 0.85:
        return file + bytes([rng.randrange(4)])
    states = word(file, 0) if len(file) >= 2 else 0
    if 1 <= states <= 5 and len(file) >= 8 + 4 * states:
        at = 10 + 4 * (states - 1)
        size = word(file, at)
        cut = rng.randint(1, 6)
        if cut < size and cut < len(file) - at - 2:
            return put(file[: len(file) - cut], at, size - cut)
    return file


def cases():
    yield from edges()
    rng = random.Random(20261117)
    for n in range(600):
        file = random_file(rng)
        for _ in range(rng.choice([0, 1, 1, 1, 2])):
            file = damaged(rng, file)
        yield "random %d" % n, file


def main():
    data, lines = b"", ""
    for name, file in cases():
        data += bytes([len(name)]) + name.encode() + struct.pack("<I", len(file)) + file
        lines += "%s: %s\n" % (name, verdict(file))
    with open("crates/file_cases/data/cases.bin", "wb") as out:
        out.write(data)
    with open("crates/file_cases/stdout", "w") as out:
        out.write(lines)


if __name__ == "__main__":
    main()
