"""Tests of model.py: document 02, P5, three processors need two bits."""
import unittest

import model
import rust_list
from pagesets import minimal, spread, with_topology

FILL = b'\xA5'


def legacy(v):
    """The answer to v processors, v from 1 to 255, by the legacy method."""
    return model.build(spread(with_topology(minimal(), 0, v - 1, v, 1, 0)), False)


class Shift(unittest.TestCase):
    # the last v of each shift, by hand
    LAST = {0: 1, 1: 2, 2: 4, 3: 8, 4: 16, 5: 32, 6: 64, 7: 128, 8: 256}

    def test_every_legacy_count(self):
        for v in range(1, 256):
            wanted = min(k for k, last in self.LAST.items() if v <= last)
            self.assertEqual(legacy(v)[1][0xB, 1], (wanted, v, 0x201, 0))

    def test_powers_of_two_stay(self):
        for s in range(16):
            self.assertEqual((model.shift(2 ** s), model.rust_shift(2 ** s)), (s, s))

    def test_t3(self):
        self.assertEqual(legacy(3)[1][0xB, 1][:2], (2, 3))

    def test_wide_enough(self):
        """Every processor's number from 0 up fits into that many bits, and not into fewer."""
        for v in range(1, 32769):
            k = model.shift(v)
            self.assertTrue((v - 1) >> k == 0 and (k == 0 or (v - 1) >> (k - 1) != 0))

    def test_rust_is_lower_exactly_where_v_is_no_power_of_two(self):
        for v in range(1, 256):
            answer = legacy(v)
            old = model.rust_answer(answer)
            self.assertEqual(old[1][0xB, 1][model.EAX] + (v not in self.LAST.values()), answer[1][0xB, 1][model.EAX])
            self.assertEqual({**old[1], (0xB, 1): None}, {**answer[1], (0xB, 1): None})
        self.assertEqual(model.rust_answer(('refusal', 7, 0, None, 3)), ('refusal', 7, 0, None, 3))


class TheRust(unittest.TestCase):
    """The images of differential/list.txt, which the Rust gave with its own figure."""

    def test_list(self):
        lower = set()
        for vector, secure_avic, line in rust_list.listed():
            answer = model.build(vector.pages, secure_avic)
            if not line.startswith('w') or answer[0] == 'refusal':
                continue
            given = line.split()[-1]
            room = len(given) // 2
            by_rust = model.rust_answer(answer)
            image = model.image(by_rust)
            if len(image) > room:
                continue
            self.assertEqual((image + FILL * (room - len(image))).hex(), given)
            v = answer[1][0xB, 1][model.EBX]
            self.assertEqual(by_rust[1][0xB, 1] != answer[1][0xB, 1], v & (v - 1) != 0)
            if by_rust[1][0xB, 1] != answer[1][0xB, 1]:
                lower.add(v)
        self.assertGreater(len(lower), 10)


if __name__ == '__main__':
    unittest.main()
