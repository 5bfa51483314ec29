"""The vectors of document 02, P7: the AVX rule in its two editions, and numbers that are none.

Quotations in a group's comment are document 02's.
"""
from itertools import product
import struct

import model
from pagesets import MILAN, PAGE_SIZE, STATE, changed, minimal, page, rich, spread, with_byte, with_topology, without
from vector import build, lookup, write
from vectors_document_01 import Damage, stated

ALL = 0xFFFFFFFF
EXTENDED = 0x80000001
# (leaf, bit of ECX): the bits that editions clear, and those beside F16C, XOP and FMA4, of which the masks keep 28 and 30, and 10
CLEARED = (*model.CLEARED_LATER,)
BESIDE = (1, 28), (1, 30), (EXTENDED, 10), (EXTENDED, 12), (EXTENDED, 15), (EXTENDED, 17)


def state_and_edition():
    """ "Edition 1 is document 01's rule. Edition 2 also clears .. when XFEM lacks bit 2": every bit reported, each XFEM, whole images. """
    for xfem, edition in product((0, 3, 4, 7, 0xE3, 0x63, 0xC7, 0xE7), model.EDITIONS):
        data = spread(stated(xfem, (0xB, 0x1800), rich()))
        name = f'D.0.EAX {xfem:X}h, edition {edition}'
        yield build(name, data, edition=edition)
        for leaf, subleaf in (1, None), (7, 0), (EXTENDED, None):
            yield lookup(name, data, leaf, subleaf, edition=edition)
        yield write(name, data, 732, edition=edition)
        yield write(name, data, 732, True, edition)


def with_legacy_state(data):
    """The set with 3 in D.0.EAX, on page 1."""
    at = next(at for at in range(PAGE_SIZE + 16, 2 * PAGE_SIZE, 48) if struct.unpack_from('<II', data, at) == (STATE, 0)) + 24
    return data[:at] + struct.pack('<I', 3) + data[at + 4:]


def other_sets():
    """The shipped set, which reports F16C alone of the three, as it is and with legacy state alone, and the least set."""
    for name, data in ('EPYC', MILAN), ('EPYC, XFEM 3', with_legacy_state(MILAN)), ('least', spread(minimal())):
        for edition in model.EDITIONS:
            yield write(f'{name}, edition {edition}', data, 732, edition=edition)


def single_bits():
    """Each bit that an edition clears, and each beside them, alone set in the least rows and alone clear in the fullest, without the state and with it."""
    for (leaf, bit), xfem, edition in product(CLEARED + BESIDE, (3, 7), model.EDITIONS):
        state = changed(stated(xfem), STATE, 2, eax=256, ebx=576)
        alone, other = changed(state, leaf, ecx=1 << bit), changed(stated(xfem, rows=rich()), leaf, ecx=ALL & ~(1 << bit))
        for name, rows in ('set', alone), ('clear', other):
            yield lookup(f'{leaf:X}h.ECX bit {bit} alone {name}, XFEM {xfem}, edition {edition}', spread(rows), leaf, edition=edition)


def unknown_editions():
    """ "15 an edition other than 1 or 2, before 1", of which a byte alone would be 1 or 2, and each end; nothing is found or written. """
    for edition in 0, model.NO_EDITION, model.NO_EDITION + 1, 255, 256, 257, 258, 65537, 0x01000001, 0x02000000, 0x80000001, 0x80000002, ALL - 1, ALL:
        name = f'edition {edition:X}h'
        for secure_avic in False, True:
            yield build(name, MILAN, secure_avic, edition)
        yield build(f'{name}, no pages', b'', edition=edition)
        yield lookup(name, MILAN, 1, enforce=False, edition=edition)
        yield lookup(name, MILAN, STATE, 2, edition=edition)
        for room in 0, 657 - 1, 657, 732:
            yield write(name, MILAN, room, edition=edition)


def before_every_refusal():
    """15 before 1 to 8 and 17: each set under editions that are none, and under edition 2."""
    rows = rich()
    refused = {
        '1, no pages': b'',
        '1': spread(rows)[:-1],
        '2': page([], 65) + page([]),
        '3': spread(without(rows, 0x8000001E)),
        '3, D.12': spread(without(rows, STATE, 12)),
        '4': spread(changed(rows, 0x80000008, ebx=0)),
        '5': spread(changed(rows, STATE, 2, eax=ALL, ebx=1)),
        '6': spread(with_topology(rows, 7, 127, 128, 0, 0)),
        '7': spread(with_topology(rows, 7, 128, 128, 1, 0)),
        '8': spread(with_topology(rows, 7, 127, 128, 1, 2)),
        '17': with_byte(spread(rows), 1, 2, 41, 1),
    }
    for (number, data), edition in product(refused.items(), (ALL, 0, model.NO_EDITION, 2)):
        yield build(f'refusal {number}, edition {edition:X}h', data, edition=edition)
        yield write(f'refusal {number}, edition {edition:X}h', data, 40, edition=edition)


def damaged_sets():
    """ "Nothing else": sets without AVX state, damaged, under edition 2."""
    damage = Damage(7)
    good = [spread(stated(xfem, (0xB, 0x1800), rich())) for xfem in (3, 0xE3, 7)]
    for number in range(30):
        data = damage.damage(good[number % 3])
        yield write(f'damaged set {number}', data, 732, number % 2 == 1, 2)


GROUPS = (state_and_edition, other_sets, single_bits, unknown_editions, before_every_refusal, damaged_sets)
