"""Makes rust/tests/carry.txt: images of tables, and bytes that are none, carried from one edition of the AVX rule to another, as model_carry.py
answers.

A line `i EDITS` makes the bytes of those before, the first of none. The other lines ask of the bytes made last, FROM TO XCR0 XSS in hexadecimal, and
the answer stands after a bar: `none` where they are no image, r with a refusal's number, or the edits that make the carried image of them.
"""
from itertools import product
import random
import sys

import model
from model_carry import NO_IMAGE, ROWS, carry_image
from pagesets import MILAN, STATE, changed, minimal, rich, spread, without
import replayed
from replayed import edits
from vectors_document_01 import Damage

ALL = 0xFFFFFFFF
EXTENDED = 0x80000001
ONE_TO_TWO = 1, 2, 1, 0
# those of the two editions first
PAIRS = sorted(product(model.EDITIONS, repeat=2), key=lambda pair: (max(pair) > 2, (1, 2) != pair, pair == (2, 1)))
# (leaf, bit of ECX): the bits that editions clear, and those beside F16C, XOP and FMA4
CLEARED = (*model.CLEARED_LATER,)
BESIDE = (1, 28), (1, 30), (1, 11), (1, 16), (EXTENDED, 10), (EXTENDED, 12), (EXTENDED, 15), (EXTENDED, 17), (EXTENDED, 29)


def image(rows):
    return model.image(('table', rows, None))


def one_row(leaf, subleaf=None, registers=(1, 2, 3, 4)):
    return image({(leaf, subleaf): registers})


def by_rows(rows):
    """The bytes of each row, in order."""
    return [one_row(*key, rows[key]) for key in sorted(rows, key=model.by_leaf)]


def least(xfem=1, d1=(0, 0, 0, 0)):
    """A table built otherwise: the rows that carrying reads."""
    return {(1, None): (0, 0, ALL, 0), (STATE, 0): (xfem, 0, 0, 0), (STATE, 1): d1, (EXTENDED, None): (0, 0, ALL, 0)}


def fullest(xfem):
    """Every row that a table can have, every bit of it set but for D.0.EAX; the sizes are small, so that 14 is far."""
    rows = {key: (ALL,) * 4 for key in ROWS}
    rows |= {(STATE, subleaf): (subleaf, ALL, ALL, ALL) for subleaf in range(2, 64)}
    return changed(rows, STATE, 0, eax=xfem)


# The groups: (bytes, (from, to, XCR0, XSS))

def built():
    """Tables that building makes, under either edition, carried to either."""
    sets = [spread(changed(rich(), STATE, 0, eax=xfem)) for xfem in (0, 3, 7, 0xE3, 0xE7)]
    sets += [spread(minimal()), spread(changed(minimal(), 1, ecx=ALL)), MILAN]
    for data, choice, edition in product(sets, (False, True), model.EDITIONS):
        table = model.build(data, choice, edition)
        xfem = table[1][STATE, 0][model.EAX]
        for (old, new), xcr0, xss in product(PAIRS, (1, xfem), (0, 0x800)):
            yield model.image(table), (old, new, xcr0, xss)


def single_bits():
    """Each of the three bits, and each beside them, alone set and alone clear, without the state and with it."""
    for (leaf, bit), xfem in product(CLEARED + BESIDE, (1, 3, 5, ALL & ~4, ALL)):
        for ecx in 1 << bit, ALL & ~(1 << bit):
            rows = changed(changed(changed(least(xfem), 1, ecx=0), EXTENDED, ecx=0), leaf, ecx=ecx)
            for editions in (1, 2), (1, 1), (2, 2):
                yield image(rows), (*editions, 1, 0)
    for xfem in 1, 4, 5, 0xFB, 0xFF, ALL & ~4, ALL:
        for editions in (1, 2), (1, 1), (2, 2):
            yield image(fullest(xfem)), (*editions, 1, 0)


def absent():
    """Rows that carrying reads or changes, left out one by one and together; rows that it does not ask for."""
    rows = least(3, (0xA, 0, 0x800, 0))
    read = list(rows)
    for number in range(16):
        some = {key: rows[key] for place, key in enumerate(read) if number >> place & 1}
        for question in ONE_TO_TWO, (1, 2, 3, 0x800), (1, 1, 1, 0), (2, 2, 1, 0x800), (2, 1, 1, 0), (1, 2, 0, 0):
            yield image(some), question
    # a component whose subleaf is absent has no bytes
    for xfem in 7, 3:
        yield image(least(xfem, (2, 0, 0, 0))), (1, 2, xfem, 0)
    for key in ROWS:
        yield image(without(fullest(1), *key)), ONE_TO_TWO


def orders():
    """15 before 16, 13 and 14; 16 before 13 and 14; 13 before 14; and none of them before "no image". """
    sizes = {(STATE, 2): (ALL, 0, 0, 0)}
    rows = {**least(7, (0xA, 0, 0x800, 0)), **sizes}
    for old, new in product((0, *model.EDITIONS, model.NO_EDITION, 255, 256, 257, 258, 0x10001, 0x80000001, 0x80000002, ALL), repeat=2):
        # 1 and 3 are lawful states, 0 is beyond (13), 5 too large (14), 8 both
        for xcr0 in (1, 0, 5) if max(old, new) > model.NO_EDITION else (1, 3, 0, 5, 13):
            yield image(rows), (old, new, xcr0, 0)
    for old, new in product((0, 1, 2, ALL), repeat=2):
        for xcr0 in 0, 1, 5:
            yield b'', (old, new, xcr0, 0)
            yield image(rows) + b'\0', (old, new, xcr0, 0)


def beyond():
    """13: bit 0 of XCR0, bits beyond the table's own D.0.EAX, bits of XSS beyond its own D.1.ECX, which both bits of D.1.EAX give; within one edition
    too."""
    for xfem in 0, 1, 2, 3, 7, 0xFE, 0xE7, ALL, ALL & ~1, 1 << 31 | 1:
        for xcr0 in 0, 1, 2, 3, 5, 6, 7, 9, 0xE7, 1 << 31 | 1, ALL, 1 << 32 | 1, 1 << 33 | 7, 1 << 63 | 1, 2 ** 64 - 1:
            for editions in (1, 2), (1, 1), (2, 2):
                yield image(least(xfem)), (*editions, xcr0, 0)
    for eax, ecx in product((0, 1, 2, 8, 0xA, 0xB, 0xF5, ALL & ~2, ALL & ~8, ALL), (0, 1, 0x800, 0x1800, ALL)):
        for xss in 0, 1, 0x800, 0x1000, 0x1800, 0x801, 1 << 31, ALL, 1 << 32, 1 << 43, 1 << 63 | 0x800:
            yield image(least(3, (eax, 0, ecx, 0))), (1, 2 if xss & 0x800 else 1, 1, xss)


def large():
    """14: FFFFFFFFh itself is a size, one more is not; raised starts count; a bit of XCR0 and XSS counts once; only with bit 1 or 3 of D.1.EAX."""
    for eax, size in product((0, 1, 2, 4, 8, 0xA, ALL), (ALL - 577, ALL - 576, ALL - 575, ALL)):
        for ecx in 0, 1, 2, ALL & ~2:
            rows = {**least(7, (eax, ALL, ALL, ALL)), (STATE, 2): (size, 0, 0, 0), (STATE, 3): (0, 0, ecx, 0), (STATE, 11): (1, 0, 0, 0)}
            for xcr0, xss in ((5, 0), (5, 8), (1, 4), (5, 4), (5, 0x800), (1, 0)):
                yield image(rows), (1, 1 + (ecx > 1), xcr0, xss)
    every = {(STATE, subleaf): (ALL, ALL, ALL, ALL) for subleaf in range(2, 64)}
    for xcr0, xss in (1, 0), (ALL, 0), (1, ALL), (ALL, ALL), (ALL & ~4, 0), (3, 3):
        yield image({**least(ALL, (ALL, 0, ALL, 0)), **every}), (1, 2, xcr0, xss)
        yield image({**least(ALL, (0, 0, ALL, 0)), **every}), (2, 2, xcr0, xss)


def cut():
    """A small image at every length, and a built one about every row's end: where a row ends, what stands before it is an image."""
    small = image(least(1, (2, 0, 0, 0)))
    for length in range(len(small) + 1):
        yield small[:length], ONE_TO_TWO
    rows, end = by_rows(model.build(MILAN, False)[1]), 0
    whole = b''.join(rows)
    for row in rows:
        end += len(row)
        for length in end - 1, end, end + 1:
            yield whole[:length], ONE_TO_TWO
    for more in b'\0', b'\1', b'\2', b'\xFF', bytes(21), b'\1' + bytes(20), b'\2' + bytes(20), b'\2' + bytes(24), one_row(0), one_row(0x80000020):
        for data in whole, image(fullest(1)), b'':
            yield data + more, ONE_TO_TWO


def misplaced():
    """Rows out of order, twice, and by their numbers as signed ones."""
    rows = by_rows(fullest(1))
    for place in range(len(rows) - 1):
        yield b''.join(rows[place:place + 2]), ONE_TO_TWO
        yield b''.join(rows[place:place + 2][::-1]), ONE_TO_TWO
        yield rows[place] * 2, ONE_TO_TWO
    yield b''.join(rows[::-1]), ONE_TO_TWO
    yield b''.join(rows[:2] + rows[1:]), ONE_TO_TWO
    yield b''.join(rows + rows[-1:]), ONE_TO_TWO
    yield one_row(0x80000000) + one_row(EXTENDED) + image(least()), ONE_TO_TWO


def strangers():
    """Leaves and subleaves that no table has, alone and at their place in the order, also with a byte of their number wrong; tags that are not the
    leaf's."""
    for leaf in (2, 4, 6, 7, 0xA, 0xC, 0xE, 0xF, 0x10, 0x100, 0x101, 0x10001, 0x1000001, 0x40000000, 0x80000009, 0x8000001B, 0x80000020, 0x81000001,
                 ALL):
        if (leaf, None) in ROWS:
            continue
        yield one_row(leaf), ONE_TO_TWO
        yield image({**least(), (leaf, None): (0, 0, 0, 0)}), ONE_TO_TWO
    for leaf, subleaf in ((0, 0), (1, 0), (5, 0), (7, 1), (7, 0x100), (7, ALL), (0xB, 2), (0xB, 0x1000000), (STATE, 64), (STATE, 65), (STATE, 0x100),
                          (STATE, 0x10001), (STATE, ALL), (0x10D, 0), (0x40000000, 0), (0x80000000, 0), (0x8000001D, 4), (0x8000001D, 0x80000000)):
        yield one_row(leaf, subleaf), ONE_TO_TWO
        yield image({(0, None): (0, 0, 0, 0), (leaf, subleaf): (0, 0, 0, 0), (0x8000001F, None): (0, 0, 0, 0)}), ONE_TO_TWO
    for leaf, subleaf in ROWS:
        data = one_row(leaf, subleaf)
        yield data, ONE_TO_TWO
        # the other tag on as many bytes as it wants, and on the same; tags that are none
        yield one_row(leaf, 0 if subleaf is None else None), ONE_TO_TWO
        for kind in 2 if subleaf is None else 1, 0, 3, 0x80, 0xFF:
            yield bytes([kind]) + data[1:], ONE_TO_TWO


def broken():
    """One byte of an image replaced."""
    whole = image(least(1, (2, 0, 0, 0)))
    for at, byte in product(range(len(whole)), (0, 1, 2, 0xFF)):
        yield whole[:at] + bytes([byte]) + whole[at + 1:], ONE_TO_TWO


def at_random():
    """Tables built otherwise, of rows at random; damaged page sets under edition 1."""
    draw, damage = random.Random(31), Damage(32)
    for _ in range(50):
        often = draw.choice((.3, .7, .95, 1))
        rows = {key: tuple(draw.getrandbits(32) for _ in range(4)) for key in ROWS if draw.random() < often}
        sizes = {subleaf: draw.getrandbits(draw.choice((8, 27, 32))) for subleaf in draw.sample(range(2, 32), 9)}
        rows |= {(STATE, subleaf): (size, 0, draw.getrandbits(2), 0) for subleaf, size in sizes.items()}
        xfem, ecx = (rows.get((STATE, subleaf), (0, 0, 0, 0))[register] for subleaf, register in ((0, 0), (1, 2)))
        for _ in range(8):
            xcr0, xss = xfem & draw.getrandbits(32) | 1, draw.choice((0, ecx & draw.getrandbits(32)))
            yield image(rows), (*draw.choice(((1, 2), (1, 2), (1, 1), (2, 2), (2, 1))), xcr0, xss)
    for number in range(120):
        table = model.build(damage.damage((MILAN, spread(changed(rich(), STATE, 0, eax=3)), spread(minimal()))[number % 3]), False)
        if table[0] == 'table':
            yield model.image(table), (1, 2, draw.choice((1, 3, 7)), draw.choice((0, 0x800)))


GROUPS = (built, single_bits, absent, orders, beyond, large, cut, misplaced, strangers, broken, at_random)


# The file

def questions():
    """Each once, those of the same bytes together."""
    asked = {}
    for data, question in (one for group in GROUPS for one in group()):
        asked.setdefault(data, {})[question] = None
    return asked


def told(data, question):
    """(kind, words) of the answer."""
    answer, after = carry_image(data, *question)
    if answer == NO_IMAGE:
        return 'none', 'none'
    if answer[0] == 'refusal':
        return answer[1], f'r {answer[1]}'
    return 'same' if after == data else 'changed', edits(data, after)


def lines():
    """(the kind of the answer, or None where nothing is asked, the line)."""
    last = b''
    for data, asked in questions().items():
        if data != last:
            yield None, f'i {edits(last, data)}'
            last = data
        for question in asked:
            kind, words = told(data, question)
            yield kind, ' '.join([*(f'{number:x}' for number in question), '|', words])


def main(words):
    kinds, made = zip(*lines())
    kinds = [kind for kind in kinds if kind is not None]
    return replayed.main(words, 'carry', 'carried images', made, kinds, ['none', 13, 14, 15, 16, 'same', 'changed'])


if __name__ == '__main__':
    sys.exit(main(sys.argv[1:]))
