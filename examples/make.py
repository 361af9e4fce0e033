"""Writes the model and question files of the examples.

    python3 make.py        in this folder
"""
import struct

GRAINS = 65536


def model(first, divisor, columns, states):
    """The bytes of a model file. A state is a list of choices, a choice a list of (weight, next state, rewards)."""
    blocks = []
    for choices in states:
        block = b""
        for branches in choices:
            block += bytes([len(branches)])
            for weight, following, rewards in branches:
                block += struct.pack("<HH%dh" % columns, weight, following, *rewards)
        blocks.append(block)
    file = struct.pack("<HHHBB", len(states), first, divisor, columns, 0)
    offset = 8 + 4 * len(states)
    for block in blocks:
        file += struct.pack("<HH", offset, len(block))
        offset += len(block)
    return file + b"".join(blocks)


def question(*objectives):
    """The bytes of a question. An objective is (column, bound, target in grains)."""
    return b"".join(struct.pack("<BHq", *objective) for objective in objectives)


def counter_box(limit, chance):
    """A lock that counts wrong tries: columns openings and exposure, which is counted downwards."""
    wait = [(100, 0, [0, 0])]
    states = [[[(chance, 0, [1, -n]), (100 - chance, n + 1, [0, -n])], wait] for n in range(limit)]
    return model(0, 100, 2, states + [[[(100, 0, [0, -5])]]])


def write(folder, file, asked):
    with open(folder + "/model.bin", "wb") as out:
        out.write(file)
    with open(folder + "/question.bin", "wb") as out:
        out.write(asked)


TWO_STATES = model(0, 1, 2, [[[(1, 1, [4, 0])], [(1, 1, [0, 4])]], [[(1, 1, [0, 0])]]])
BOX = counter_box(3, 30)

write("two_states", TWO_STATES, question((0, 1, 2 * GRAINS), (1, 1, 2 * GRAINS)))
write("box_achieved", BOX, question((0, 8, 3 * GRAINS // 2), (1, 8, -GRAINS // 2)))
write("box_refuted", BOX, question((0, 8, 2 * GRAINS), (1, 8, -2 * GRAINS)))
write("box_open", BOX, question((0, 8, 140831), (1, 8, -10 * GRAINS)))
