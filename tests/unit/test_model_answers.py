"""Tests of model.py: lookup, the image, writing and the program's output."""
import struct
import unittest

import model
from pagesets import MILAN, STATE, minimal, pages, rich, split, spread, with_topology, without


def refusal(number, leaf=0, subleaf=None, s=0):
    return ('refusal', number, leaf, subleaf, s)


class Answers(unittest.TestCase):
    """Document 01, "Image and lookup"."""

    def test_lookup(self):
        table = model.build(spread(rich()), False)
        one, state = table[1][1, None], table[1][STATE, 12]
        for leaf, subleaf, enforce, wanted in ((1, None, True, one), (1, None, False, one), (1, 9, False, one),
                                               (1, 0, True, None), (STATE, 12, True, state), (STATE, 12, False, state),
                                               (STATE, None, True, None), (STATE, None, False, None),
                                               (STATE, 9, False, None), (6, None, False, None), (7, 1, False, None)):
            self.assertEqual(model.lookup(table, leaf, subleaf, enforce), wanted)
        self.assertIsNone(model.lookup(refusal(4), 0, None, False))

    def test_image(self):
        for source, length in (MILAN, 657), (spread(minimal()), 582), (spread(rich()), 732):
            answer = model.build(source, False)
            data, rows, keys = model.image(answer), {}, []
            self.assertEqual(len(data), length)
            while data:
                size = {1: 21, 2: 25}[data[0]]
                leaf, *rest = struct.unpack_from(f'<{size // 4}I', data, 1)
                keys.append((leaf, None if data[0] == 1 else rest[0]))
                rows[keys[-1]], data = tuple(rest[-4:]), data[size:]
            self.assertEqual(rows, answer[1])
            self.assertEqual(keys, sorted(keys, key=lambda key: (key[0], key[1] or 0)))

    def test_image_does_not_rest_on_the_order_of_entries(self):
        main, state = split(rich())
        self.assertEqual(model.output(pages(main[::-1], state[::-1])), model.output(pages(main, state)))

    def test_write(self):
        image = model.image(model.build(MILAN, False))
        for lent in len(image), len(image) + 1, 1000:
            buffer = bytes(range(256)) * 4
            self.assertEqual(model.write(MILAN, False, buffer[:lent]), (('written', len(image)), image + buffer[len(image):lent]))
        for lent in 0, 1, len(image) - 1:
            self.assertEqual(model.write(MILAN, False, b'x' * lent), (refusal(9), b'x' * lent))
        self.assertEqual(model.write(MILAN[:4096], False, b''), (refusal(3, STATE, 0), b''))
        self.assertEqual(model.write(b'', True, b'xy'), (refusal(1), b'xy'))

    def test_output(self):
        self.assertEqual(model.output(MILAN), model.image(model.build(MILAN, False)))
        for data, wanted in ((b'', '03 01 00000000 ffffffff 00'), (MILAN[:4096], '03 03 0d000000 00000000 00'),
                             (spread(without(minimal(), 0x8000001F)), '03 03 1f000080 ffffffff 00'),
                             (spread(with_topology(minimal(), 5, 0, 0, 0, 0)), '03 07 00000000 ffffffff 05')):
            self.assertEqual(model.output(data), bytes.fromhex(wanted))
        self.assertEqual(model.output(MILAN + bytes(57344)), model.output(MILAN))
        self.assertEqual(model.output(bytes(65537)), b'\x04')


if __name__ == '__main__':
    unittest.main()
