"""A model of document 02, P8: a running table taken from one edition of the AVX rule to another, and a table read back from its image.

Quotations in the comments are document 02's; answers have model.py's form, and ('no image',) is no numbered refusal.
"""
import struct

import model
from model import EAX, ECX, STATE
from model_guest import check_processor, register, with_registers
from model_masks import KEPT

NO_IMAGE = ('no image',)
# what a row of a table can be of, in order: document 01, the kept leaves and the two that are made here
ROWS = dict.fromkeys(sorted([(0, None), (0x80000000, None), *KEPT[False]], key=model.by_leaf))


def first_row(data):
    """The leaf and subleaf, the registers and the length of the row that bytes begin with, or None. Document 01, "Image and lookup": "byte 1, then
    leaf, EAX, EBX, ECX, EDX (4 bytes each, little-endian) for a row without subleaf; byte 2, leaf, subleaf and the four for one with". """
    if data[0] == 1 and len(data) >= 21:
        leaf, *registers = struct.unpack_from('<5I', data, 1)
        return (leaf, None), tuple(registers), 21
    if data[0] == 2 and len(data) >= 25:
        leaf, subleaf, *registers = struct.unpack_from('<6I', data, 1)
        return (leaf, subleaf), tuple(registers), 25
    return None


def read_image(data):
    """The rows of a table's image, none for no bytes; None where the bytes are no image. P1: "Rows of the image shall ascend by leaf as an unsigned
    number, then by subleaf." """
    rows, below = {}, (-1, 0)
    while data:
        row = first_row(data)
        if row is None or row[0] not in ROWS or model.by_leaf(row[0]) <= below:
            return None
        key, registers, length = row
        rows[key], below, data = registers, model.by_leaf(key), data[length:]
    return rows


def check_editions(old, new):
    """ "16 from edition 2 back to 1, after 15 for either edition" """
    for edition in old, new:
        model.check_edition(edition)
    if old > new:
        raise model.Refusal(16)


def clear_bits(rows, cleared):
    """ "the same three bits cleared where its own D.0.EAX lacks bit 2, and nothing else changed, absent rows reading as zeros": those of P7 """
    rows = dict(rows)
    if not register(rows, STATE, 0, EAX) & model.YMM:
        for leaf, bits in cleared:
            with_registers(rows, leaf, None, ecx=register(rows, leaf, None, ECX) & ~bits)
    return rows


def carry(table, old, new, xcr0, xss):
    """The table, under edition `old`, taken to edition `new` with a processor's XCR0 and XSS, or the refusal; a refused table has no row."""
    rows = {} if table[0] == 'refusal' else table[1]
    try:
        check_editions(old, new)
        # "before 13 and 14, which P3's rules give on the handed table's own rows"
        check_processor(rows, xcr0, xss)
    except model.Refusal as refusal:
        return refusal.answer
    # "Carrying any table within one edition, where it isn't refused, changes nothing."
    return 'table', clear_bits(rows, model.bits_between(old, new)), table[2]


def carry_image(data, old, new, xcr0, xss):
    """(('carried',), the refusal or ('no image',), the lent bytes afterwards): a table handed over as its image, in place."""
    rows = read_image(data)
    if rows is None:
        return NO_IMAGE, bytes(data)
    answer = carry(('table', rows, None), old, new, xcr0, xss)
    return (answer, bytes(data)) if answer[0] == 'refusal' else (('carried',), model.image(answer))
