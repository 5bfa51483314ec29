"""Tests of model_topologies.py: document 02, P14, every lawful topology up to size seven."""
import unittest

from make_topologies import cases
from model_topologies import accepted, list_bytes, topologies, write

LIST = topologies()


def by_hand():
    """Document 01's words for s = 0 to 7, kind by kind, written out from the values that they allow, in no order."""
    for lps in 0, 1:
        yield 0, 0, lps, 0, 0
    for processors in range(1, 256):
        for t in range(min(2, processors)):
            yield 0, processors - 1, processors, 1, t
    for s in range(1, 8):
        for nc in range(2 ** s):
            for t in 0, 1:
                yield s, nc, 2 ** s, 1, t


# Wrong readings, each of an input: whether it would be accepted

def wrapped(s, nc, lps, mt, t):
    """nc + 1 in eight bits: "With s = 1 to 7 the unchecked Rust would accept it." """
    return accepted(s, 0 if s > 0 and nc == 255 else nc, lps, mt, t)


def cores_are_nc(s, nc, lps, mt, t):
    """nc at most v, for nc + 1."""
    return s > 0 and nc == lps == 2 ** s and mt == 1 and t < 2 or accepted(s, nc, lps, mt, t)


def threads_below(s, nc, lps, mt, t):
    """t + 1 below v: t = 1 is left out where v is 2."""
    return accepted(s, nc, lps, mt, t) and not (t == 1 and lps == 2)


def threads_free(s, nc, lps, mt, t):
    """t = 1 also with one processor."""
    return accepted(s, nc, lps, mt, 0 if t == 1 else t)


def mt_unasked(s, nc, lps, mt, t):
    return accepted(s, nc, lps, 1 if s > 0 else mt, t)


def lps_unasked(s, nc, lps, mt, t):
    return accepted(s, nc, 2 ** s if s > 0 else lps, mt, t)


def one_processor_exactly(s, nc, lps, mt, t):
    """lps must be 1 where mt is 0."""
    return accepted(s, nc, lps, mt, t) and (s, mt, lps) != (0, 0, 0)


def lps_free_alone(s, nc, lps, mt, t):
    """lps at most 2 where mt is 0."""
    return accepted(s, nc, min(lps, 1) if (s, mt, lps) == (0, 0, 2) else lps, mt, t)


WRONG = wrapped, cores_are_nc, threads_below, threads_free, mt_unasked, lps_unasked, one_processor_exactly, lps_free_alone


class Topologies(unittest.TestCase):
    def test_counts(self):
        self.assertEqual((len(LIST), len([i for i in LIST if i[0] == 0]), len([i for i in LIST if i[0] > 0])), (1019, 511, 508))

    def test_in_order_and_none_twice(self):
        self.assertTrue(all(a < b for a, b in zip(LIST, LIST[1:])))

    def test_the_values_that_the_words_allow(self):
        self.assertEqual(LIST, sorted(by_hand()))

    def test_marked_rows(self):
        for inputs, listed in (((0, 0, 0, 0, 0), True), ((0, 0, 2, 0, 0), False), ((0, 2, 3, 1, 0), True), ((0, 255, 0, 1, 0), False),
                               ((7, 127, 128, 1, 1), True), ((7, 128, 128, 1, 0), False), ((7, 127, 128, 0, 0), False), ((0, 0, 1, 1, 1), False)):
            self.assertEqual(inputs in LIST, listed, inputs)

    def test_ends(self):
        self.assertEqual(LIST[:4], [(0, 0, 0, 0, 0), (0, 0, 1, 0, 0), (0, 0, 1, 1, 0), (0, 1, 2, 1, 0)])
        self.assertEqual(LIST[510:512], [(0, 254, 255, 1, 1), (1, 0, 2, 1, 0)])
        self.assertEqual(LIST[-1], (7, 127, 128, 1, 1))

    def test_writing(self):
        data = list_bytes()
        self.assertEqual((len(data), data[:10]), (5095, bytes([0, 0, 0, 0, 0, 0, 0, 1, 0, 0])))
        for room in 0, 1, 5090, 5094:
            self.assertEqual(write(b'\xA5' * room), (('refusal', 9, 0, None, 0), b'\xA5' * room))
        for room in 5095, 5096, 6000:
            self.assertEqual(write(b'\xA5' * room), (('written', 5095), data + b'\xA5' * (room - 5095)))

    def test_the_list_of_cases_tells_wrong_readings(self):
        asked = [(inputs, answer[0] == 'table') for inputs, answer in cases()]
        for wrong in WRONG:
            self.assertTrue(any(wrong(*inputs) != right for inputs, right in asked), wrong.__name__)


if __name__ == '__main__':
    unittest.main()
