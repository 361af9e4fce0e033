"""Dockets over small models: lists of calls, and what each call answers and leaves, made without any of the crates.

    python3 outside/dockets.py        from the repository's root

writes crates/docket_cases/data/calls.txt and crates/docket_cases/stdout. The calls are text, a call to a line:

    case NAME HEX              a draft over the model file with these bytes
    add COLUMN BOUND TARGET
    pose
    price LENT WEIGHT...       LENT working rows are lent
    mix SHARE...
    retarget TARGET...
    clear
    settle LENT
    end

For each call from `add` on, the answer or the fault is written, and after `pose` also what the docket then shows: its
verdict, targets and rows, and the first working row. The working rows hold 7 at first, in each case.
The named cases are written out below; the others come from a fixed seed.
"""
import random

from files import encode
from sweeps import random_table, sweep

MOST = 2 ** 40
WORK = 1024


class Refused(Exception):
    pass


class Draft:
    def __init__(self, table):
        self.table, self.objectives = table, []

    def add(self, column, bound, target):
        held = len(self.objectives)
        if held == 4:
            raise Refused("draft 9 4")
        if column >= self.table[2] or not 1 <= bound <= 256 or abs(target) > MOST:
            raise Refused("draft 8 %d" % held)
        self.objectives.append((column, bound, target))
        return "objective %d" % held


class Docket:
    def __init__(self, draft):
        self.table = draft.table
        self.aspects = [(c, k) for c, k, _ in draft.objectives]
        self.targets = [t for _, _, t in draft.objectives]
        self.rows, self.verdict = [], ("open",)
        self.work = [(7, (7, 7, 7, 7))] * WORK

    def check_lent(self, lent):
        if lent < 2 * len(self.table[3]):
            raise Refused("docket 11 %d" % lent)

    def price(self, lent, *weights):
        if len(weights) != len(self.targets):
            raise Refused("docket 10 %d" % len(weights))
        for i, w in enumerate(weights):
            if w > 1000:
                raise Refused("docket 10 %d" % i)
        if not any(weights):
            raise Refused("docket 10 0")
        self.check_lent(lent)
        known = [ws for ws, _ in self.rows]
        if len(known) == 16 and weights not in known:
            raise Refused("docket 12 16")
        number, ceiling, total, point = self.priced(weights)
        return "row %d ceiling %d target sum %d point %s" % (number, ceiling, total, words(point))

    def priced(self, weights):
        here, following = sweep(self.table, self.aspects, weights)
        count = len(here)
        self.work[: 2 * count] = here + following
        ceiling, point = here[self.table[0]]
        total = sum(w * t for w, t in zip(weights, self.targets))
        known = [ws for ws, _ in self.rows]
        if weights not in known:
            self.rows.append((weights, point))
            known.append(weights)
        if self.verdict[0] == "open" and ceiling < total:
            self.verdict = ("refuted", weights, ceiling, total)
        return known.index(weights), ceiling, total, point

    def brought(self, shares):
        return all(
            sum(s * point[i] for s, (_, point) in zip(shares, self.rows)) >= sum(shares) * target
            for i, target in enumerate(self.targets)
        )

    def mix(self, *shares):
        if len(shares) != len(self.rows):
            raise Refused("docket 13 %d" % len(shares))
        if not 1 <= sum(shares) <= 1000:
            raise Refused("docket 13 0")
        met = self.brought(shares)
        if met and self.verdict[0] == "open":
            self.verdict = ("achieved", shares)
        return "yes" if met else "no"

    def retarget(self, *targets):
        if len(targets) != len(self.targets):
            raise Refused("docket 14 %d" % len(targets))
        for i, t in enumerate(targets):
            if abs(t) > MOST:
                raise Refused("docket 14 %d" % i)
        self.targets, self.verdict = list(targets), ("open",)
        return "done"

    def clear(self):
        self.rows, self.verdict = [], ("open",)
        return "done"

    def settle(self, lent):
        self.check_lent(lent)
        if len(self.targets) != 2:
            raise Refused("docket 15 %d" % len(self.targets))
        self.clear()
        self.priced((0, 1000))
        if self.verdict[0] == "open":
            self.priced((1000, 0))
        lo, hi = 0, 1000
        while hi - lo > 1 and self.verdict[0] == "open":
            a = (lo + hi) // 2
            if self.priced((a, 1000 - a))[3][0] >= self.targets[0]:
                hi = a
            else:
                lo = a
        if self.verdict[0] == "open":
            self.search()
        return self.verdict[0]

    def search(self):
        count = len(self.rows)
        for r in range(count):
            for s in range(r + 1, count):
                for a in range(1001):
                    shares = tuple(a if j == r else 1000 - a if j == s else 0 for j in range(count))
                    if self.brought(shares):
                        self.verdict = ("achieved", shares)
                        return

    def shown(self):
        kind = self.verdict[0]
        if kind == "achieved":
            kind += " " + words(self.verdict[1])
        elif kind == "refuted":
            kind += " %s at %d below %d" % (words(self.verdict[1]), self.verdict[2], self.verdict[3])
        rows = "".join(" | %s : %s" % (words(ws), words(point)) for ws, point in self.rows)
        work = "%d %s" % (self.work[0][0], words(self.work[0][1]))
        return "  %s; targets%s; rows%s; work %s" % (kind, "".join(" %d" % t for t in self.targets), rows, work)


def words(numbers):
    return " ".join(str(n) for n in numbers)


def run(table, calls):
    """The lines that the calls give."""
    holder, lines = Draft(table), []
    for call in calls:
        name, *numbers = call.split()
        if name == "pose":
            holder, answer = Docket(holder), "posed"
        else:
            try:
                answer = getattr(holder, name)(*[int(n) for n in numbers])
            except Refused as fault:
                answer = "fault %s" % fault
        lines.append("%s -> %s" % (call, answer))
        if isinstance(holder, Docket):
            lines.append(holder.shown())
    return lines


TWO_STATES = (0, 1, 2, [[[(1, 1, [4, 0])], [(1, 1, [0, 4])]], [[(1, 1, [0, 0])]]])
COIN = (0, 3, 1, [[[(1, 0, [1]), (2, 0, [0])]]])
LOSING = (0, 3, 1, [[[(1, 0, [-1]), (2, 0, [0])]]])
BLANK = (0, 1, 1, [[[(1, 0, [0])]]])
EVEN = ["add 0 1 131072", "add 1 1 131072", "pose"]


def full(count):
    return ["price 4 %d %d" % (1000 - i, i) for i in range(count)]


NAMED = [
    ("even_targets", TWO_STATES, EVEN + ["price 4 1 1", "price 4 0 1", "mix 1 1"]),
    ("a_grain_too_much", TWO_STATES, ["add 0 1 131073", "add 1 1 131072", "pose", "price 4 1 1"]),
    ("coin_refuted", COIN, ["add 0 1 21847", "pose", "price 2 1", "mix 1"]),
    ("coin_open", COIN, ["add 0 1 21846", "pose", "price 2 1", "mix 1"]),
    ("coin_achieved", COIN, ["add 0 1 21845", "pose", "price 2 1", "mix 1"]),
    ("coin_twice", COIN, ["add 0 2 0", "pose", "price 2 1"]),
    ("coin_losing", LOSING, ["add 0 1 -21846", "pose", "price 2 1", "mix 1000"]),
    ("edges_of_an_objective", COIN, ["add 0 256 %d" % MOST, "add 0 257 0", "add 0 0 0", "add 0 1 %d" % (MOST + 1),
     "add 0 1 %d" % -MOST, "add 0 1 %d" % (-MOST - 1), "add 1 1 0", "add 0 1 0", "pose"]),
    ("a_fifth_objective", COIN, ["add 0 1 %d" % i for i in range(4)] + ["add 0 1 4", "add 9 0 0", "pose"]),
    ("weights", TWO_STATES, EVEN + ["price 4", "price 4 1", "price 4 1 1 1", "price 4 1001 1", "price 4 0 1001",
     "price 4 1001 1001", "price 4 0 0", "price 0 1001 0", "price 3 0 0", "price 4 1000 0", "price 3 1001"]),
    ("working_rows", TWO_STATES, EVEN + ["price 3 1 1", "price 0 1 1", "settle 3", "price 4 1 1", "price 5 1 0"]),
    ("full_table", TWO_STATES, EVEN + full(16) + ["price 4 1 1", "price 3 1 1", "price 4 1 1001", "price 4 1000 0",
     "price 4 985 15", "mix" + " 0" * 15 + " 1", "mix" + " 0" * 16, "settle 4"]),
    ("shares", TWO_STATES, EVEN + ["mix", "mix 1", "price 4 1 0", "price 4 0 1", "mix 1", "mix 1 1 1", "mix 0 0",
     "mix 1000 1", "mix 501 500", "mix 65535 65535", "mix 1 0", "mix 500 500"]),
    ("new_targets", TWO_STATES, EVEN + ["retarget 1", "retarget", "retarget 1 2 3", "retarget %d 0" % (MOST + 1),
     "retarget 0 %d" % (-MOST - 1), "retarget %d %d" % (MOST + 1, MOST + 1), "retarget %d %d" % (MOST, -MOST)]),
    ("retarget_keeps_rows", TWO_STATES, EVEN + ["price 4 1 1", "price 4 0 1", "mix 1 1", "retarget 131073 131072",
     "mix 1 1", "price 4 1 1", "retarget 262144 0", "mix 1 0"]),
    ("clear_keeps_targets", TWO_STATES, EVEN + ["price 4 1 1", "clear", "mix 1", "price 4 0 1", "clear", "clear"]),
    ("a_verdict_stands", TWO_STATES, ["add 0 1 262145", "add 1 1 0", "pose", "price 4 1 0", "price 4 0 1", "mix 1 0",
     "mix 0 1", "price 4 1 1", "retarget 0 0", "mix 1 0 0", "price 4 1000 1", "mix 0 1 0 0"]),
    ("settle_achieved", TWO_STATES, EVEN + ["settle 4", "mix 0 1", "price 4 1 1", "settle 4"]),
    ("settle_refuted", TWO_STATES, ["add 0 1 131073", "add 1 1 131072", "pose", "settle 4", "price 4 1 1", "settle 4"]),
    ("settle_at_one_end", TWO_STATES, ["add 0 1 0", "add 1 1 262145", "pose", "settle 4"]),
    ("settle_at_the_other", TWO_STATES, ["add 0 1 262145", "add 1 1 0", "pose", "settle 4"]),
    ("settle_one", COIN, ["add 0 1 0", "pose", "settle 2", "settle 1"]),
    ("settle_three", TWO_STATES, EVEN[:2] + ["add 0 2 0", "pose", "settle 4", "settle 3"]),
    ("no_objectives", BLANK, ["pose", "price 2", "price 0", "price 2 1", "mix", "mix 1", "retarget", "retarget 0", "clear",
     "settle 2", "settle 1"]),
    ("open_at_an_edge", COIN, ["add 0 1 21846", "add 0 2 0", "pose", "settle 2", "mix 1000" + " 0" * 11, "clear"]),
]


def random_calls(rng, table):
    columns, rows = table[2], 2 * len(table[3])
    bounds = rng.choice([[1], [1, 2], [1, 2, 3, 8]])
    count = rng.choice([1, 2, 2, 2, 2, 3, 4])
    aspects = [(rng.randrange(columns), rng.choice(bounds)) for _ in range(count)]
    weights = lambda: tuple(rng.choice([0, 1, 1000, rng.randint(0, 1000)]) for _ in aspects)
    reached = [sweep(table, aspects, w)[0][table[0]][1] for w in (weights(), weights())]

    def targets():
        a, b = rng.choice(reached), rng.choice(reached)
        return [((x + y) // 2 if rng.random() < 0.5 else min(x, y)) + rng.choice([0, 0, 0, 1, -1, 65536]) for x, y in zip(a, b)][:count]

    calls = ["add %d %d %d" % (c, k, t) for (c, k), t in zip(aspects, targets())] + ["pose"]
    priced = 0
    for _ in range(rng.randint(3, 8)):
        kind = rng.random()
        if kind < 0.45:
            lent = rng.choice([rows, rows, rows + 1, rows - 1])
            calls.append("price %d %s" % (lent, words(weights())))
            priced += 1
        elif kind < 0.75:
            calls.append("mix %s" % words(rng.choice([0, 1, 500, rng.randint(0, 400)]) for _ in range(priced)))
        elif kind < 0.87:
            calls.append("retarget %s" % words(targets()))
        elif kind < 0.9:
            calls.append("clear")
            priced = 0
        else:
            calls.append("settle %d" % rows)
    return [c.strip() for c in calls]


def cases():
    yield from NAMED
    rng = random.Random(20261118)
    for number in range(120):
        table = random_table(rng)
        yield "random_%d" % number, table, random_calls(rng, table)


def main():
    calls, lines = "", ""
    for name, table, made in cases():
        calls += "case %s %s\n%s\nend\n" % (name, encode(*table).hex(), "\n".join(made))
        lines += "case %s\n%s\n" % (name, "\n".join(run(table, made)))
    with open("crates/docket_cases/data/calls.txt", "w") as out:
        out.write(calls)
    with open("crates/docket_cases/stdout", "w") as out:
        out.write(lines)


if __name__ == "__main__":
    main()
