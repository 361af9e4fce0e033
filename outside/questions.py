"""Whole questions: model bytes, question bytes, the rows and print bytes lent, and the lines that must be printed, made
without any of the crates.

    python3 outside/questions.py        from the repository's root

writes crates/assess_cases/data/cases.bin and crates/assess_cases/stdout. A case is its name (its length in one byte,
then its letters), the model (its length in four bytes, then its bytes), the question (its length in four bytes, then its
bytes), the number of working rows and that of print bytes (two bytes each), all numbers little-endian.
The hundred cases of outside/given.bin come first; they and their lines were made by another program. Then come named
cases, and random ones from a fixed seed.
"""
import random
import struct

from dockets import COIN, TWO_STATES, Docket, Draft, Refused, words
from files import encode, verdict
from sweeps import random_table, sweep

LENT, PRINT = 1024, 64
MOST = 2 ** 40


def ask(*objectives):
    return b"".join(struct.pack("<BHq", *o) for o in objectives)


def answer(table, file, question, lent=LENT, room=PRINT):
    """The lines that an assessment prints. The table is that of the file, or None where the file is refused."""
    checked = verdict(file)
    if checked != "ok":
        return "fault 0 %s\n" % checked
    if len(question) != 22:
        return "fault 0 question 16 %d\n" % len(question)
    if room < 64:
        return "fault 0 question 17 %d\n" % room
    draft = Draft(table)
    for i in range(2):
        try:
            draft.add(*struct.unpack("<BHq", question[11 * i: 11 * i + 11]))
        except Refused as fault:
            return "fault %d %s\n" % (11 * i, fault)
    docket = Docket(draft)
    try:
        docket.settle(lent)
    except Refused as fault:
        return "fault 0 %s\n" % fault
    return listing(docket)


def listing(docket):
    kind = docket.verdict[0]
    lines = [kind]
    if kind == "achieved":
        lines += [words((share,) + ws) for share, (ws, _) in zip(docket.verdict[1], docket.rows) if share > 0]
    elif kind == "refuted":
        lines += [words(docket.verdict[1]), words(docket.verdict[2:])]
    return "".join(line + "\n" for line in lines)


EVEN = ask((0, 1, 131072), (1, 1, 131072))
TWO_FILE = encode(*TWO_STATES)


def named():
    def two(name, question, lent=LENT, room=PRINT, file=TWO_FILE):
        return name, TWO_STATES, file, question, lent, room

    yield two("even targets", EVEN)
    yield two("a grain too much", ask((0, 1, 131073), (1, 1, 131072)))
    yield two("all for the first", ask((0, 1, 262144), (1, 1, 0)))
    yield two("all for the second", ask((0, 1, 0), (1, 1, 262144)))
    yield two("the first beyond reach", ask((0, 1, 262145), (1, 1, -MOST)))
    yield two("the second beyond reach", ask((0, 1, -MOST), (1, 1, 262145)))
    yield two("twice the same column", ask((0, 1, 100), (0, 2, 100)))
    yield two("highest bounds and lowest targets", ask((0, 256, -MOST), (1, 256, -MOST)))
    yield two("highest targets", ask((0, 256, MOST), (1, 256, MOST)))
    for size in (0, 1, 11, 21, 23, 44):
        yield two("question of %d bytes" % size, (EVEN * 2)[:size])
    for room in (0, 1, 63, 64, 65, 255):
        yield two("%d print bytes" % room, EVEN, room=room)
    for lent in (0, 3, 4, 5):
        yield two("%d working rows" % lent, EVEN, lent=lent)
    wrong = [("column 2", (2, 1, 0)), ("column 255", (255, 1, 0)), ("bound 0", (0, 0, 0)), ("bound 257", (0, 257, 0)),
             ("bound 65535", (0, 65535, 0)), ("target above", (0, 1, MOST + 1)), ("target below", (0, 1, -MOST - 1)),
             ("least target", (0, 1, -2 ** 63)), ("greatest target", (0, 1, 2 ** 63 - 1))]
    for what, objective in wrong:
        yield two("first objective, %s" % what, ask(objective, (1, 1, 0)))
        yield two("second objective, %s" % what, ask((1, 1, 0), objective))
    yield two("both objectives wrong", ask((0, 0, 0), (9, 0, 0)))
    yield two("file before question", b"", file=TWO_FILE[:42])
    yield two("length before print bytes", EVEN[:21], room=63)
    yield two("print bytes before objectives", ask((0, 0, 0), (1, 1, 0)), room=63)
    yield two("objectives before rows", ask((0, 1, 0), (1, 0, 0)), lent=3)
    yield two("no file", EVEN, file=b"")
    for at, value in ((0, 0), (2, 2), (4, 0), (6, 5), (7, 1), (8, 15), (10, 17), (16, 0), (17, 2), (19, 9), (21, 255)):
        file = TWO_FILE[:at] + bytes([value]) + TWO_FILE[at + 1:]
        yield two("byte %d is %d" % (at, value), EVEN, file=file)
    for target in (21844, 21845, 21846, 21847):
        yield "coin at %d" % target, COIN, encode(*COIN), ask((0, 1, target), (0, 2, 0)), LENT, PRINT


def near(rng, table):
    """A question whose targets lie near what two pricings reach."""
    columns = table[2]
    bounds = rng.choice([[1], [1, 2], [1, 2, 3, 8], [5, 17]])
    aspects = [(rng.randrange(columns), rng.choice(bounds)) for _ in range(2)]
    a, b = [sweep(table, aspects, (w, 1000 - w))[0][table[0]][1] for w in (rng.randint(0, 1000), rng.randint(0, 1000))]
    mix = rng.choice([0, 0, 500, 1000, rng.randint(0, 1000)])
    margin = rng.choice([0, 0, 0, 1, -1, 2, 64, -64, 65536])
    targets = [(mix * x + (1000 - mix) * y) // 1000 + margin for x, y in zip(a, b)]
    return ask(*[(c, k, t) for (c, k), t in zip(aspects, targets)])


def cases():
    yield from named()
    rng = random.Random(20261119)
    for number in range(100):
        table = random_table(rng)
        yield "random %d" % number, table, encode(*table), near(rng, table), LENT, PRINT


def given():
    """The cases of the other program: their bytes, and the lines that it printed."""
    with open("outside/given.bin", "rb") as data:
        left = data.read()

    def part(size):
        nonlocal left
        taken, left = left[:size], left[size:]
        return taken

    while left:
        name, model, question, lines = [part(struct.unpack("<I", part(4))[0]) for _ in range(4)]
        yield name.decode(), model, question, lines.decode()


def main():
    data, lines = b"", ""

    def put(name, file, question, lent, room, printed):
        nonlocal data, lines
        data += bytes([len(name)]) + name.encode() + struct.pack("<I", len(file)) + file
        data += struct.pack("<I", len(question)) + question + struct.pack("<HH", lent, room)
        lines += "%s:\n%s" % (name, printed)

    for name, file, question, printed in given():
        put(name, file, question, LENT, PRINT, printed)
    for name, table, file, question, lent, room in cases():
        put(name, file, question, lent, room, answer(table, file, question, lent, room))
    with open("crates/assess_cases/data/cases.bin", "wb") as out:
        out.write(data)
    with open("crates/assess_cases/stdout", "w") as out:
        out.write(lines)


if __name__ == "__main__":
    main()
