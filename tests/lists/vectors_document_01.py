"""The vectors of document 01: page sets, and what is asked of each, in groups.

Quotations and titles in a group's comment are document 01's.
"""
from itertools import product
import random
import struct

import model
from model_masks import KEPT
from pagesets import MILAN, PAGE_SIZE, STATE, changed, minimal, page, pages, rich, split, spread, with_topology, without
from vector import build, lookup, write

ALL = 0xFFFFFFFF
REQUIRED = model.COMMON_REQUIRED_LEAVES + model.SNP_REQUIRED_LEAVES
EMPTY = bytes(PAGE_SIZE)


def image_size(data):
    return len(model.image(model.build(data, False)))


def stated(xfem, d1=(0, 0), rows=None):
    """Rows with D.0.EAX, D.1.EAX and D.1.ECX as given."""
    return changed(changed(rows or minimal(), STATE, 0, eax=xfem), STATE, 1, eax=d1[0], ecx=d1[1])


def marked_rows():
    """ "Rows to prove": T1 to T10 on the least and the fullest rows, X1, X2, X3 with both figures, C1. """
    marked = [(0, 0, 0, 0, 0), (0, 0, 2, 0, 0), (0, 2, 3, 1, 0), (0, 255, 0, 1, 0), (7, 127, 128, 1, 1),
              (7, 128, 128, 1, 0), (7, 127, 128, 0, 0), (8, 0, 0, 0, 1), (15, 0, 0, 0, 0), (0, 0, 1, 1, 1)]
    for number, inputs in enumerate(marked, 1):
        data = spread(with_topology(minimal(), *inputs))
        yield build(f'T{number}', data)
        yield lookup(f'T{number}', data, 0xB, 1)
        yield build(f'T{number}, all bits', spread(with_topology(rich(), *inputs)))
    for name, xfem, eax, ebx in ('X1', 3, 0, 0), ('X2', 7, 256, 576), ('X3', 7, ALL, 1), ('X3', 7, ALL, 0):
        data = spread(changed(stated(xfem), STATE, 2, eax=eax, ebx=ebx))
        yield build(f'{name}, EBX {ebx}', data)
        yield lookup(f'{name}, EBX {ebx}', data, STATE, 0)
    data = spread(changed(stated(0, (2, 0x1800)), STATE, 11, eax=16))
    yield build('C1', data)
    yield lookup('C1', data, STATE, 1)
    yield lookup('C1', data, STATE, 11)


def shipped_set():
    """The page set of an EPYC 7713: the whole table and leaves that it has not, secure AVIC off and on."""
    for secure_avic in False, True:
        yield build('EPYC', MILAN, secure_avic)
        yield write('EPYC', MILAN, image_size(MILAN), secure_avic)
    for leaf, subleaf in model.build(MILAN, False)[1]:
        yield lookup('EPYC', MILAN, leaf, subleaf)
    yield lookup('EPYC, secure AVIC', MILAN, 0x8000001F, secure_avic=True)
    absent = [(2, None), (4, 0), (6, None), (7, 1), (7, ALL), (0xB, 2), (STATE, 3), (STATE, 5), (STATE, 63),
              (STATE, 64), (0x40000000, None), (0x80000009, None), (0x8000001D, 4), (0x80000020, None), (ALL, None)]
    for leaf, subleaf in absent:
        yield lookup('EPYC', MILAN, leaf, subleaf, enforce=False)


def masks():
    """ "Each kept register is joined with its mask by and": all bits reported, and all bytes that are not read set. """
    for fill, secure_avic in product((0, 0xFF), (False, True)):
        data = spread(rich(), fill)
        yield write(f'all bits, unread bytes {fill:X}h', data, image_size(data), secure_avic)
    # "Kept": the numbers beside the kept ones are filtered, and so are entries for rows that are made
    beside = [(0, 0), (2, 0), (4, 0), (6, 0), (7, 1), (8, 0), (0xA, 0), (0xB, 2), (0xC, 0), (0xE, 0),
              (0x80000000, 0), (0x80000009, 0), (0x80000018, 0), (0x8000001B, 0), (0x8000001C, 0), (0x8000001D, 4),
              (0x80000020, 0), (ALL, 0)]
    first, second = split(minimal())
    strange = [(leaf, subleaf, ALL, ALL, ALL, ALL) for leaf, subleaf in beside if (leaf, None) not in KEPT[False]]
    states = [(STATE, subleaf, ALL, ALL, ALL, ALL) for subleaf in (2, 63, 64, ALL)]
    yield write('filtered leaves', pages(strange + first, states + second), 582)


def lengths():
    """ "An empty or uneven length": refusal 1. A single page is never accepted; 16 pages are. """
    data = spread(minimal())
    data += bytes(65537 - len(data))
    for length in 0, 1, 4095, 4096, 4097, 8191, 8192, 8193, 65535, 65536, 65537:
        yield build(f'length {length}', data[:length])
    for length in 0, 4095, 65536, 65537:
        yield write(f'length {length}', data[:length], 600)


def counts():
    """ "A count above 64": refusal 2, on any page, before refusal 3. Entries from the count on are not read. """
    first, second = split(minimal())
    filler = [(0x40000000 + number, 0, ALL, ALL, ALL, ALL) for number in range(64)]
    full = (filler + first)[-64:]
    for name, groups in ('full page 0', (full, second)), ('full page 1', (first, (filler + second)[-64:])):
        yield build(name, pages(*groups))
    for count in 0, 64, 65, ALL:
        yield build(f'count {count:X}h on page 0', page(full, count) + page(second))
        yield build(f'count {count:X}h on page 1', page(first) + page(second, count))
        yield build(f'count {count:X}h on page 15', spread(minimal()) + EMPTY * 13 + page([], count))
    for count in 0x100, 0x10000, 0x1000000:
        yield build(f'count {count:X}h on page 0', page(full, count) + page(second))
    yield build('count 65 and a missing leaf', page(first[1:]) + page(second, 65))
    yield build('last entry of page 0 not counted', page(first, len(first) - 1) + page(second))
    yield build('last entry of page 1 not counted', page(first) + page(second, len(second) - 1))


def required_leaves():
    """ "in list order; no such row": refusal 3, each leaf missing alone, and with all that follow it. """
    for number, key in enumerate(REQUIRED):
        yield build(f'required {number} missing', spread(without(minimal(), *key)))
    for number in range(len(REQUIRED)):
        rows = {key: minimal()[key] for key in REQUIRED[:number]}
        yield build(f'required {number} and later missing', spread(rows))


def needed_subleaves():
    """ "Each combined bit from 2 up needs its subleaf", and the lowest missing one is named. """
    rows = rich()
    for subleaf in 2, 5, 6, 7, 11, 12:
        yield build(f'D.{subleaf} missing', spread(without(rich(), STATE, subleaf)))
    for subleaf in 12, 11, 7, 6, 5, 2:
        rows = without(rows, STATE, subleaf)
        yield build(f'D.{subleaf} and later missing', spread(rows))
    yield build('D.9 missing, whose bit is masked', spread(without(rich(), STATE, 9)))
    yield build('D.2 without its bit', spread(changed(minimal(), STATE, 2, eax=256, ebx=576)))


def order_of_checks():
    """ "Where each check stands": of two checks that fail, the first answers. """
    unflushed = changed(rich(), 0x80000008, ebx=ALL & ~8)
    large = changed(rich(), STATE, 5, eax=ALL, ebx=1)
    yield build('INVLPGB clear', spread(changed(minimal(), 0x80000008, ebx=0)))
    yield build('INVLPGB clear, all other bits', spread(unflushed))
    yield build('INVLPGB clear, a leaf missing', spread(without(unflushed, 0x8000001E)))
    yield build('INVLPGB clear, D.2 missing', spread(without(unflushed, STATE, 2)))
    yield build('INVLPGB clear, a sum too large', spread(changed(unflushed, STATE, 5, eax=ALL, ebx=1)))
    yield build('INVLPGB clear, t 2', spread(with_topology(unflushed, 7, 127, 128, 1, 2)))
    yield build('D.12 missing, a sum too large', spread(without(large, STATE, 12)))
    yield build('a sum too large, t 2', spread(with_topology(large, 7, 127, 128, 1, 2)))
    yield build('D.2 missing, mt 0', spread(without(with_topology(rich(), 7, 127, 128, 0, 1), STATE, 2)))
    yield build('mt 0 and t 2', spread(with_topology(rich(), 7, 127, 128, 0, 2)))


def save_area():
    """ "EAX + EBX over subleaves from 2 up in XFEM, not in XSS"; refusal 5 for a sum above 4,294,967,295. """
    for subleaf, (eax, ebx) in product((2, 7), ((ALL, 0), (ALL, 1), (1, ALL), (ALL, ALL), (0x80000000, 0x80000000))):
        data = spread(changed(rich(), STATE, subleaf, eax=eax, ebx=ebx))
        yield build(f'D.{subleaf}, EAX {eax:X}h, EBX {ebx:X}h', data)
    for subleaf in 11, 12:
        data = spread(changed(rich(), STATE, subleaf, eax=ALL, ebx=ALL))
        yield build(f'D.{subleaf} large, in XSS alone', data)
        yield lookup(f'D.{subleaf} large, in XSS alone', data, STATE, 0)
    for eax, ebx in (0, 575), (0, 576), (1, 576), (2689, 0):
        data = spread(changed(rich(), STATE, 6, eax=eax, ebx=ebx))
        yield lookup(f'D.6, EAX {eax}, EBX {ebx}', data, STATE, 0)
    data = spread(changed(stated(3), STATE, 2, eax=ALL, ebx=1))
    yield lookup('D.2 large, without its bit', data, STATE, 0)


def topology_refusals():
    """ "Corners of snp.rs", topology: 6, 7 and 8, and their neighbours that are accepted, for several s; nc = 255. """
    inputs = [(0, 1, 0, 0, 0), (0, 0, 1, 0, 0), (0, 0, 255, 0, 0), (0, 255, 0, 0, 0), (0, 0, 0, 0, 1), (0, 0, 1, 1, 0),
              (0, 0, 0, 1, 0), (0, 0, 2, 1, 0), (0, 1, 2, 1, 1), (0, 254, 255, 1, 1), (0, 255, 255, 1, 0),
              (0, 255, 1, 1, 0), (0, 1, 2, 1, 2)]
    for s in 1, 3, 7:
        v = 2 ** s
        inputs += [(s, v - 1, v, 1, 1), (s, v, v, 1, 0), (s, 255, v, 1, 0), (s, v - 1, v - 1, 1, 0),
                   (s, v - 1, v + 1, 1, 0), (s, v - 1, v, 0, 0), (s, v, v, 0, 0), (s, v - 1, v, 1, 2),
                   (s, v - 1, v, 1, 255)]
    inputs += [(8, 255, 0, 0, 0), (8, 255, 255, 1, 1), (8, 0, 0, 0, 2)]
    for s, nc, lps, mt, t in inputs:
        yield build(f's {s}, nc {nc}, lps {lps}, mt {mt}, t {t}', spread(with_topology(minimal(), s, nc, lps, mt, t)))


def topology_rows():
    """ "B.0 becomes .. B.1 becomes EAX the shift, EBX v": every s, some v without s, and both t. """
    for s in range(1, 16):
        lps = min(2 ** s, 128)
        yield lookup(f's {s}', spread(with_topology(minimal(), s, 0, lps, 1, 0)), 0xB, 1)
    for v in 2, 4, 5, 127, 255:
        yield lookup(f's 0, v {v}', spread(with_topology(minimal(), 0, v - 1, v, 1, 0)), 0xB, 1)
    for s, t in product((1, 8), (0, 1)):
        yield lookup(f's {s}, t {t}', spread(with_topology(minimal(), s, 0, 2, 1, t)), 0xB, 0)


def empty_pages():
    """ "Empty pages are passed over, also first, last and several running." """
    first, second = split(minimal())
    sets = {
        'first': pages([], second + first),
        'first, rows on page 2': pages([], second, first),
        'last': pages(first, second, []),
        'in the middle, leaf Dh after it': pages(first, [], second),
        'in the middle': pages(first[:9], second, [], first[9:]),
        'several running': pages([], second, [], [], [], first, [], []),
        'rows on page 15': pages([], second, *[[]] * 13, first),
        'all': pages([], []),
        'only one': EMPTY,
        'entries that are not counted': page(first, 0) + page(second) + page(first[::-1]),
    }
    for name, data in sets.items():
        yield build(f'empty pages {name}', data)


def state_pages():
    """ "A Dh entry counts only on page 1; on page 0, 2 and later it is skipped." """
    first, second = split(stated(7))
    wrong = [(STATE, subleaf, 0xE7, ALL, ALL, ALL) for subleaf in range(3)]
    part = [(STATE, 2, 256, 576, 0, 0)]
    sets = {
        'page 0 alone': pages(first + second + part, []),
        'page 1': pages(first, second + part),
        'page 2 alone': pages(first, [], second + part),
        'page 0 too': pages(wrong + first, second + part),
        'page 2 too': pages(first, second + part, wrong),
        'D.2 on page 0': pages(first + part, second),
        'D.2 on page 2': pages(first, second, part),
        'all on page 1': pages([], first + second + part),
    }
    for name, data in sets.items():
        yield build(f'leaf Dh on {name}', data)
        yield lookup(f'leaf Dh on {name}', data, STATE, 0)


def duplicates():
    """ "The first counted, kept entry of a leaf and subleaf wins", without subleaves "for any ECX_IN". """
    first, second = split(rich())
    twice = [(1, 0, None), (1, 1, None), (1, ALL, None), (7, 0, 0), (0x80000006, 7, None), (0x8000001D, 3, 3)]
    for leaf, ecx_in, subleaf in twice:
        other = [(leaf, ecx_in, 0x12345678, 0x12805678, 0x12345678, 0x12345678)]
        for name, groups in (('first', (other + first, second)), ('last', (first + other, second)),
                             ('on page 1', (first, other + second))):
            yield lookup(f'a second entry {name}, ECX_IN {ecx_in:X}h', pages(*groups), leaf, subleaf)
    for other in (STATE, 0, 3, 0, 0, 0), (STATE, 2, 0, 4000, 0, 0), (STATE, 1, 0, 0, 0, 0):
        yield build(f'a second D.{other[1]} first', pages(first, [other] + second))
        yield build(f'a second D.{other[1]} last', pages(first, second + [other]))
    yield build('two that are not counted', page([(1, 0, 0, 0, 0, 0)], 0) + page(second) + page(first))


def extended_state():
    """ "Corners of mod.rs": XFEM, XSS and what is cleared without their bits. """
    for xfem in 0, 4, 7, 0x23, 0x63, 0xE3, 0x67, 0xA7, 0xC7, 0xE7:
        data = spread(stated(xfem, (0xB, 0x1800), rich()))
        yield build(f'D.0.EAX {xfem:X}h', data)
        for leaf, subleaf in (1, None), (7, 0):
            yield lookup(f'D.0.EAX {xfem:X}h', data, leaf, subleaf)
    both = [(0xA, ecx) for ecx in (0x800, 0x1000, 0, ALL)]
    for eax, ecx in both + [(eax, 0x1800) for eax in (2, 8, 1, 0)]:
        data = spread(stated(0xE7, (eax, ecx), rich()))
        yield build(f'D.1.EAX {eax:X}h, ECX {ecx:X}h', data)
        for leaf, subleaf in (7, 0), (STATE, 1):
            yield lookup(f'D.1.EAX {eax:X}h, ECX {ecx:X}h', data, leaf, subleaf)
    for bit in 11, 12:
        data = spread(without(stated(3, (0xA, 1 << bit), rich()), STATE, bit))
        yield build(f'XSS with bit {bit} alone, D.{bit} missing', data)


def dependencies():
    """ "80000008h.EBX: bit 29 (BTC_NO) is set .. Without 8000001Fh.EAX bit 9" and the like. """
    for ebx in 8, 1 << 12 | 8, 0xC008, 0xD008, ALL & ~(1 << 12), ALL & ~(1 << 29):
        yield lookup(f'80000008h.EBX {ebx:X}h', spread(changed(rich(), 0x80000008, ebx=ebx)), 0x80000008)
    for eax in 0, 1 << 9, ALL & ~(1 << 9):
        data = spread(changed(rich(), 0x8000001F, eax=eax))
        for leaf, subleaf in (0x80000001, None), (7, 0), (0x8000001F, None):
            yield lookup(f'8000001Fh.EAX {eax:X}h', data, leaf, subleaf)
    yield lookup('1.ECX 0', spread(changed(rich(), 1, ecx=0)), 1)
    for secure_avic in False, True:
        yield lookup('secure AVIC', spread(rich()), 0x8000001F, secure_avic=secure_avic)


def lent_buffers():
    """ "lent buffer shorter than the image": 9. "Bytes beyond it stay." A refused write leaves every lent byte. """
    for name, data in ('least', spread(minimal())), ('EPYC', MILAN), ('all bits', spread(rich())):
        exact = image_size(data)
        for room in 0, 1, exact - 1, exact, exact + 1, 1024:
            yield write(name, data, room)
    rows = minimal()
    refused = {
        1: spread(rows)[:-1],
        2: page([], 65) + page([]),
        3: spread(without(rows, STATE, 1)),
        4: spread(changed(rows, 0x80000008, ebx=0)),
        5: spread(changed(stated(7), STATE, 2, eax=ALL, ebx=1)),
        6: spread(with_topology(rows, 7, 127, 128, 0, 0)),
        7: spread(with_topology(rows, 7, 128, 128, 1, 0)),
        8: spread(with_topology(rows, 8, 0, 0, 0, 2)),
    }
    for number, data in refused.items():
        yield write(f'refusal {number}', data, 600)
        yield lookup(f'refusal {number}', data, 1)


def lookups():
    """ "Lookup answers as `leaf_result_ref`, enforcing or not; in a refused table it finds nothing." """
    asked = [(0, None), (1, None), (1, 0), (1, 7), (7, None), (7, 0), (7, 1), (0xB, None), (0xB, 1), (STATE, None),
             (STATE, 2), (STATE, 5), (0x80000000, None), (0x80000000, 0), (0x8000001D, 3), (0x8000001D, 4), (2, None),
             (2, 0)]
    for (leaf, subleaf), enforce in product(asked, (False, True)):
        yield lookup('enforced' if enforce else 'not enforced', MILAN, leaf, subleaf, enforce)
    refused = spread(without(minimal(), 0x8000001E))
    for leaf, subleaf in (0, None), (1, None), (7, 0), (STATE, 0), (0x80000000, None):
        yield lookup('refused table', refused, leaf, subleaf, enforce=False)


class Damage:
    """Random changes to a good page set, drawn by `random()` alone, whose sequence Python keeps for a given seed."""

    def __init__(self, seed):
        self.draw = random.Random(seed).random

    def below(self, most):
        return int(self.draw() * most)

    def entry(self, data):
        """The offset of some entry of the first two pages."""
        return self.below(2) * PAGE_SIZE + 16 + 48 * self.below(struct.unpack_from('<I', data)[0] or 1)

    def damage(self, data):
        data, at, kind = bytearray(data), self.entry(data), self.below(6)
        if kind == 0:
            data[at + self.below(8)] ^= 1 << self.below(8)
        elif kind < 3:
            data[at + 24 + self.below(16)] ^= 1 << self.below(8)
        elif kind == 3:
            data[at + 24:at + 40] = bytes(self.below(256) for _ in range(16))
        elif kind == 4:
            data[self.below(2) * PAGE_SIZE] = self.below(66)
        else:
            other = self.entry(data)
            data[at:at + 48], data[other:other + 48] = data[other:other + 48], data[at:at + 48]
        return bytes(data)


def damaged_sets():
    """All of document 01: good sets with one to three random changes."""
    damage = Damage(1)
    good = spread(minimal()), MILAN, spread(rich())
    for number in range(48):
        data = good[number % 3]
        for _ in range(1 + damage.below(3)):
            data = damage.damage(data)
        yield write(f'damaged set {number}', data, 732, secure_avic=number % 2 == 1)


GROUPS = (marked_rows, shipped_set, masks, lengths, counts, required_leaves, needed_subleaves, order_of_checks, save_area, topology_refusals,
          topology_rows, empty_pages, state_pages, duplicates, extended_state, dependencies, lent_buffers, lookups, damaged_sets)
