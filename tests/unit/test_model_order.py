"""Tests of model.py: document 02, P1, the order of the image's rows."""
import random
import struct
import unittest

import model
from pagesets import MILAN, minimal, pages, rich, split, spread


# the 26 rows of every accepted table, written down in rising order
LOW = [(0, None), (1, None), (5, None), (7, 0), (0xB, 0), (0xB, 1), (0xD, 0), (0xD, 1)]
HIGH = [(0x80000000 + leaf, None) for leaf in (0, 1, 2, 3, 4, 5, 6, 7, 8, 0xA, 0x19, 0x1A)]
HIGH += [(0x8000001D, 0), (0x8000001D, 1), (0x8000001D, 2), (0x8000001D, 3), (0x8000001E, None), (0x8000001F, None)]


def keys(data):
    """The rows of an image, in the order in which they stand."""
    found = []
    while data:
        leaf, subleaf = struct.unpack_from('<II', data, 1)
        found.append((leaf, subleaf if data[0] == 2 else None))
        data = data[21 + 4 * (data[0] - 1):]
    return found


class RisingOrder(unittest.TestCase):
    def test_rows_by_hand(self):
        for source, states in (spread(minimal()), []), (MILAN, [2, 11, 12]), (spread(rich()), [2, 5, 6, 7, 11, 12]):
            wanted = LOW + [(0xD, subleaf) for subleaf in states] + HIGH
            self.assertEqual(keys(model.image(model.build(source, False))), wanted)

    def test_equal_tables_have_equal_images(self):
        """ "equal tables now mean equal images": the order of the entries does not reach the image. """
        draw = random.Random(1)
        main, state = split(rich())
        wanted = model.build(spread(rich()), False)
        for _ in range(20):
            draw.shuffle(main)
            draw.shuffle(state)
            answer = model.build(pages(main, state), False)
            self.assertEqual(answer, wanted)
            self.assertEqual(model.image(answer), model.image(wanted))


if __name__ == '__main__':
    unittest.main()
