"""Tests of vectors_editions.py: its vectors tell wrong readings of document 02, P7, from the right one."""
import unittest
from unittest import mock

import model
import vectors_editions

RIGHT_CLEARS, RIGHT_CHECK = model.clear_by_state, model.check_edition


def lines():
    return [vector.line for group in vectors_editions.GROUPS for vector in group()]


LINES = lines()


def kept(leaf, bit):
    """Edition 2 with one of the three bits as edition 1 has it."""
    def clears(rows, xfem, xss, edition):
        old = rows[leaf, None][model.ECX] & 1 << bit
        RIGHT_CLEARS(rows, xfem, xss, edition)
        rows[leaf, None][model.ECX] |= old
    return clears


def gated(state):
    """Edition 2 with its three bits by another state than bit 2."""
    def clears(rows, xfem, xss, edition):
        RIGHT_CLEARS(rows, xfem, xss, 1 if edition == 2 else edition)
        if edition == 2 and xfem & state != state:
            rows[1, None][model.ECX] &= ~model.F16C
            rows[0x80000001, None][model.ECX] &= ~(model.XOP | model.FMA4)
    return clears


def beyond(leaf, register, bit):
    """Edition 2 that clears a bit more."""
    def clears(rows, xfem, xss, edition):
        RIGHT_CLEARS(rows, xfem, xss, edition)
        if edition == 2 and not xfem & model.YMM:
            rows[leaf, None][register] &= ~(1 << bit)
    return clears


class WrongReadings(unittest.TestCase):
    def differ(self, **readings):
        with mock.patch.multiple(model, **readings):
            return sum(old != new for old, new in zip(LINES, lines(), strict=True))

    def test_right(self):
        self.assertEqual(self.differ(clear_by_state=RIGHT_CLEARS, check_edition=RIGHT_CHECK), 0)
        self.assertEqual(self.differ(clear_by_state=gated(model.YMM)), 0)

    def test_clears(self):
        wrong = [lambda rows, xfem, xss, edition, always=always: RIGHT_CLEARS(rows, xfem, xss, always) for always in (1, 2)]
        wrong += [kept(1, 29), kept(0x80000001, 11), kept(0x80000001, 16)]
        wrong += [gated(state) for state in (model.AVX512, model.YMM | model.AVX512, 1 << 63)]
        wrong += [beyond(1, model.ECX, 30), beyond(0x80000001, model.ECX, 10), beyond(0x80000001, model.EDX, 11), beyond(0x80000001, model.EDX, 16),
                  beyond(1, model.EDX, 24), beyond(0x80000001, model.ECX, 22)]
        for number, clears in enumerate(wrong):
            self.assertGreater(self.differ(clear_by_state=clears), 0, number)

    def test_numbers(self):
        """An edition cut to its low byte or half, 0 taken for 1, everything above the last taken for it."""
        def taken(edition):
            return lambda given: RIGHT_CHECK(edition(given))
        for number, edition in enumerate((lambda e: e & 0xFF, lambda e: e & 0xFFFF, lambda e: e or 1, lambda e: min(e, max(model.EDITIONS)), lambda e: e & ~(1 << 31))):
            self.assertGreater(self.differ(check_edition=taken(edition)), 0, number)

    def test_order(self):
        """15 after the length, the counts, and the required leaves."""
        def after(step):
            right = getattr(model, step)

            def late(*arguments):
                answer = right(*arguments)
                RIGHT_CHECK(self.edition)
                return answer
            return late

        def noted(edition):
            self.edition = edition
        for step in 'page_counts', 'first_rows', 'check_required', 'finish_state', 'topology':
            self.assertGreater(self.differ(check_edition=noted, **{step: after(step)}), 0, step)


if __name__ == '__main__':
    unittest.main()
