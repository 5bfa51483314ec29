"""Tests of model.py on the reserved bytes of an entry: document 02, P10, refusal 17."""
from itertools import product
import struct
import unittest

import model
from pagesets import MILAN, PAGE_SIZE, STATE, minimal, page, pages, rich, split, spread, with_byte, without

RESERVED = range(40, 48)
WRONG_LENGTH = ('refusal', 1, 0, None, 0)
WRONG_COUNT = ('refusal', 2, 0, None, 0)
FIRST, SECOND = split(rich())


def unclean(leaf):
    return ('refusal', 17, leaf, None, 0)


def build(data):
    return model.build(data, False)


def filled(data, start, end, value=0xFF):
    return data[:start] + bytes([value]) * (end - start) + data[end:]


class WhichBytes(unittest.TestCase):
    """ "the eight reserved bytes": those at 40 of document 01's "Page bytes"; "XCR0_IN and XSS_IN remain unread." """

    def test_each_byte_and_bit(self):
        data = spread(rich())
        for offset, bit in product(RESERVED, range(8)):
            self.assertEqual(build(with_byte(data, 0, 0, offset, 1 << bit)), unclean(1))

    def test_neighbours(self):
        data = spread(rich())
        answers = [build(with_byte(data, 0, 2, offset, 0x55)) for offset in range(48)]
        self.assertEqual([offset for offset, answer in enumerate(answers) if answer[:2] == ('refusal', 17)], list(RESERVED))
        # the byte at 39 is the highest of EDX, which 80000002h shows whole; the one at 48 is the next entry's
        brand = next(position for position, entry in enumerate(FIRST) if entry[0] == 0x80000002)
        self.assertEqual(build(with_byte(data, 0, brand, 39, 0x55))[1][0x80000002, None][3], 0x55FFFFFF)
        self.assertEqual(build(with_byte(data, 0, 0, 48, 0x55)), ('refusal', 3, FIRST[1][0], None, 0))

    def test_unread(self):
        data, wanted = spread(rich()), build(spread(rich()))
        for number, entries in enumerate((FIRST, SECOND)):
            start = number * PAGE_SIZE
            self.assertEqual(build(filled(data, start + 4, start + 16)), wanted)
            self.assertEqual(build(filled(data, start + 16 + 48 * len(entries), start + PAGE_SIZE)), wanted)
            for position in range(len(entries)):
                at = start + 16 + 48 * position
                self.assertEqual(build(filled(data, at + 8, at + 24)), wanted)


class WhichEntries(unittest.TestCase):
    """ "in an entry below its page's count": every one, whether or not it counts or is kept. "unused entries aren't tested". """

    def test_every_entry(self):
        data = spread(rich())
        for number, entries in enumerate((FIRST, SECOND)):
            for position, offset in product(range(len(entries)), RESERVED):
                self.assertEqual(build(with_byte(data, number, position, offset, 1)), unclean(entries[position][0]))

    def test_count(self):
        full = (FIRST + [(0x40000000 + number, 0, 1, 2, 3, 4) for number in range(64)])[:64]
        for count in range(len(FIRST), 65):
            data = page(full, count) + page(SECOND)
            self.assertEqual(build(with_byte(data, 0, count - 1, 47, 1)), unclean(full[count - 1][0]))
            self.assertEqual(build(with_byte(data, 0, count, 40, 1)), build(data))
        empty = spread(rich()) + page([])
        self.assertEqual(build(with_byte(empty, 2, 0, 40, 1)), build(empty))

    def test_filtered_and_skipped(self):
        for groups, number in (([[(0x40000000, 7, 1, 2, 3, 4)] + FIRST, SECOND], 0), ([[(7, 1, 1, 2, 3, 4)] + FIRST, SECOND], 0),
                               ([[(STATE, 0, 1, 2, 3, 4)] + FIRST, SECOND], 0), ([FIRST, SECOND, [(STATE, 0, 1, 2, 3, 4)]], 2),
                               ([FIRST, SECOND, [(1, 0, 1, 2, 3, 4)]], 2), ([FIRST, [(STATE, 64, 1, 2, 3, 4)] + SECOND], 1),
                               ([[(0xFFFFFFFF, 0xFFFFFFFF, 1, 2, 3, 4)] + FIRST, SECOND], 0)):
            data = pages(*groups)
            self.assertEqual(build(data)[0], 'table')
            self.assertEqual(build(with_byte(data, number, 0, 43, 1)), unclean(groups[number][0][0]))


class Order(unittest.TestCase):
    """ "first in page and entry order, after 2 and before 3". """

    def test_first(self):
        places = [(0, 0), (0, 5), (0, len(FIRST) - 1), (1, 0), (1, len(SECOND) - 1)]
        for one, other in product(range(len(places)), repeat=2):
            data = with_byte(with_byte(spread(rich()), *places[one], 47, 1), *places[other], 40, 0xFF)
            number, position = places[min(one, other)]
            self.assertEqual(build(data), unclean((FIRST, SECOND)[number][position][0]))

    def test_after_1_and_2(self):
        data = with_byte(spread(rich()), 0, 0, 40, 1)
        for later in page([], count=65), page([]) * 3 + page([], count=0xFFFFFFFF):
            self.assertEqual(build(data + later), WRONG_COUNT)
        self.assertEqual(build(data + b'\0'), WRONG_LENGTH)
        self.assertEqual(build(data + page([])), unclean(1))

    def test_before_3_to_8(self):
        for rows in ({}, without(rich(), 1), without(rich(), STATE, 2), {**rich(), (0x80000008, None): (0, 0, 0, 0)},
                     {**rich(), (STATE, 2): (0xFFFFFFFF, 1, 0, 0)}, {**rich(), (0x8000001E, None): (0, 0xFF00, 0, 0)}):
            data = spread(rows) + page([(0x40000001, 0, 0, 0, 0, 0)])
            self.assertIn(build(data)[1], (3, 4, 5, 8))
            self.assertEqual(build(with_byte(data, 2, 0, 44, 1)), unclean(0x40000001))


class Elsewhere(unittest.TestCase):
    """17 is building's, so whatever starts from pages gives it."""

    def test_write_and_output(self):
        data = with_byte(MILAN, 1, 0, 40, 0x80)
        for room in 0, 732 - 1, 732:
            self.assertEqual(model.write(data, False, bytes(room)), (unclean(STATE), bytes(room)))
        self.assertEqual(model.output(data), struct.pack('<BBIIB', 3, 17, STATE, 0xFFFFFFFF, 0))
        self.assertIsNone(model.lookup(build(data), 1, None, False))

    def test_compare(self):
        """ "the pages of P9 and of servers A and B must be clean". """
        clean, other = spread(minimal()), with_byte(spread(minimal()), 1, 1, 40, 1)
        self.assertEqual(model.compare(other, clean, False), ('refused A', *unclean(STATE)[1:]))
        self.assertEqual(model.compare(clean, other, False), ('unlawful B', *unclean(STATE)[1:]))
        self.assertEqual(model.compare(clean, clean, False), ('rises',))


if __name__ == '__main__':
    unittest.main()
