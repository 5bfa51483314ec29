"""Tests of make_comparisons.py: its pairs tell a wrong reading of bit 28 of 1.EDX from the right one."""
import unittest
from unittest import mock

import make_comparisons
import model

PAIRS = make_comparisons.pairs_of(make_comparisons.bit_28)


def answers():
    return [model.compare(*pair) for pair in PAIRS]


def bit_of(data):
    return make_comparisons.word(data, make_comparisons.find(1) + 24 + 4 * model.EDX) >> 28 & 1


def wrong_by(readings):
    """The bit in A and in B of each pair that a wrong reading lets pass."""
    return {(bit_of(a), bit_of(b)) for (a, b, *_), right, wrong in zip(PAIRS, answers(), readings) if right != wrong == ('rises',)}


class Bit28(unittest.TestCase):
    def test_it_alone_decides(self):
        for (a, b, *_), answer in zip(PAIRS, answers()):
            self.assertEqual(answer, ('rises',) if bit_of(a) == bit_of(b) else ('differs', 1, None, model.EDX))

    def test_taken_for_a_feature(self):
        with mock.patch.dict(model.NO_FEATURE, clear=True):
            readings = answers()
        self.assertEqual(wrong_by(readings), {(0, 1)})

    def test_not_compared(self):
        right = model.register_rises

        def free(key, register, a, b):
            kept = ~(1 << 28) if (key, register) == ((1, None), model.EDX) else ~0
            return right(key, register, a & kept, b & kept)
        with mock.patch.object(model, 'register_rises', free):
            readings = answers()
        self.assertEqual(wrong_by(readings), {(0, 1), (1, 0)})


if __name__ == '__main__':
    unittest.main()
