"""Makes rust/tests/topologies.txt: page sets by their five topology inputs, as model.py answers them.

Each is the shipped page set with s, nc, lps, mt and t in the entries where building reads them. A line has the five in decimal, then B.0 and B.1, EAX
to EDX in hexadecimal, where the set is accepted, or r with the refusal's number and its s. The accepted ones come first: they are every topology of
document 02, P14, in its order. Then come refused ones: all that differ from a listed one by little, and more drawn by chance.
"""
from functools import cache
import random
import struct
import sys

import model
from model_topologies import topologies
from pagesets import MILAN
import replayed

DRAWN = 3000


@cache
def place(leaf):
    """The offset of the first entry of a leaf in the shipped set."""
    return next(at for _, at in model.entry_places(MILAN) if struct.unpack_from('<I', MILAN, at) == (leaf,))


def with_inputs(s, nc, lps, mt, t):
    """The shipped set with the five inputs (document 01, "Corners of snp.rs") and no other change."""
    data = bytearray(MILAN)

    def put(leaf, register, shift, width, value):
        at = place(leaf) + 24 + 4 * register
        old, = struct.unpack_from('<I', data, at)
        field = (1 << width) - 1 << shift
        struct.pack_into('<I', data, at, old & ~field | value << shift)
    put(0x80000008, model.ECX, 12, 4, s)
    put(0x80000008, model.ECX, 0, 8, nc)
    put(1, model.EBX, 16, 8, lps)
    put(1, model.EDX, 28, 1, mt)
    put(0x8000001E, model.EBX, 8, 8, t)
    return bytes(data)


def beside(s, nc, lps, mt, t):
    """Inputs that differ in one field by one, in mt, or in t by more."""
    for inputs in ((s - 1, nc, lps, mt, t), (s + 1, nc, lps, mt, t), (s, nc - 1, lps, mt, t), (s, nc + 1, lps, mt, t), (s, nc, lps - 1, mt, t),
                   (s, nc, lps + 1, mt, t), (s, nc, lps, 1 - mt, t), (s, nc, lps, mt, t + 1), (s, nc, lps, mt, 128 + t), (s, nc, lps, mt, 255 - t)):
        if all(0 <= value < most for value, most in zip(inputs, (8, 256, 256, 2, 256))):
            yield inputs


def drawn():
    """By chance, and such that a field is often that of another listed one, or at an end."""
    chance = random.Random(14)
    ends = 0, 1, 2, 127, 128, 254, 255
    for _ in range(DRAWN):
        nc = chance.choice((chance.randrange(256), *ends))
        s = chance.randrange(8)
        lps = chance.choice(((nc + 1) % 256, 2 ** s, chance.randrange(256), *ends))
        yield s, nc, lps, chance.randrange(2), chance.choice((0, 1, 2, chance.randrange(256)))


@cache
def cases():
    """(inputs, answer) for the listed ones and then the others."""
    listed = topologies()
    members = set(listed)
    others = dict.fromkeys(inputs for group in (*(beside(*inputs) for inputs in listed), drawn()) for inputs in group if inputs not in members)
    return [(inputs, model.build(with_inputs(*inputs), False)) for inputs in (*listed, *others)]


def line(inputs, answer):
    if answer[0] == 'refusal':
        return ' '.join(map(str, (*inputs, 'r', answer[1], answer[4])))
    registers = (*answer[1][0xB, 0], *answer[1][0xB, 1])
    return ' '.join([*map(str, inputs), *(f'{register:x}' for register in registers)])


def main(arguments):
    made = cases()
    kinds = ('listed' if answer[0] == 'table' else answer[1] for _, answer in made)
    return replayed.main(arguments, 'topologies', 'topologies', [line(*case) for case in made], kinds, ['listed', 6, 7, 8])


if __name__ == '__main__':
    sys.exit(main(sys.argv[1:]))
