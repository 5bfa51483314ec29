"""Tests of model.py on page bytes: lengths, counts, the order of entries, leaf Dh and empty pages."""
import unittest

import model
from pagesets import STATE, changed, entries, minimal, page, pages, rich, split, spread

MISSING_STATE = ('refusal', 3, STATE, 0, 0)
MISSING_FIRST = ('refusal', 3, 1, None, 0)
WRONG_LENGTH = ('refusal', 1, 0, None, 0)
WRONG_COUNT = ('refusal', 2, 0, None, 0)


def build(data):
    return model.build(data, False)


class Lengths(unittest.TestCase):
    """Document 01, "Corners of snp.rs": refusal 1."""

    def test_uneven(self):
        whole = spread(rich())
        for length in 0, 1, 4095, 4097, 8191:
            self.assertEqual(build(whole[:length]), WRONG_LENGTH)
        self.assertEqual(build(whole + b'\0'), WRONG_LENGTH)
        self.assertEqual(build(whole[:4096]), MISSING_STATE)

    def test_length_before_counts(self):
        self.assertEqual(build(page([], count=65) + b'\0'), WRONG_LENGTH)


class Counts(unittest.TestCase):
    """Document 01, "Corners of snp.rs": refusal 2 and which entries are read."""

    def test_above_64(self):
        for count in 65, 0x100, 0x10000, 0x1000000, 0xFFFFFFFF:
            for data in (page([], count=count), spread(rich()) + page([], count=count),
                         page([], count=count) + spread(rich())):
                self.assertEqual(build(data), WRONG_COUNT)

    def test_64(self):
        main, state = split(rich())
        filler = [(0x40000000, number, 1, 2, 3, 4) for number in range(64)]
        last = filler[:64 - len(main)] + main
        self.assertEqual(build(pages(last, state)), build(spread(rich())))
        self.assertEqual(build(page(last, count=63) + page(state)), ('refusal', 3, 0x8000001D, 3, 0))

    def test_0(self):
        main, state = split(rich())
        self.assertEqual(build(page(main, count=0) + page(state)), MISSING_FIRST)
        self.assertEqual(build(page(main) + page(state, count=0)), MISSING_STATE)
        self.assertEqual(build(pages([])), MISSING_FIRST)


class Order(unittest.TestCase):
    """Document 01, "Corners of mod.rs": "The first counted, kept entry of a leaf and subleaf wins." """

    def test_first_wins(self):
        main, state = split(rich())
        other = [(leaf, ecx_in, 1, 2, 3, 4) for leaf, ecx_in, *_ in main + state]
        first = build(pages(main, state))
        self.assertEqual(build(pages(main, state + other[:40], other)), first)
        self.assertEqual(build(pages(main + main[::-1], state + state[::-1])), first)
        twice = pages([(5, 0, 9, 9, 9, 9)] + main, [(STATE, 2, 7, 7, 7, 7)] + state)
        self.assertEqual(build(twice)[1][5, None], (9, 9, 9, 9))
        self.assertEqual(build(twice)[1][STATE, 2], (7, 7, 7, 7))

    def test_any_ecx_in_without_subleaves(self):
        main, state = split(minimal())
        answer = build(pages([(5, 0xFFFFFFFF, 9, 9, 9, 9)] + main, state))
        self.assertEqual(answer[1][5, None], (9, 9, 9, 9))

    def test_filtered(self):
        main, state = split(rich())
        spare = [(leaf, 0, 1, 2, 3, 4) for leaf in (0, 2, 4, 6, 0x40000000, 0x80000000, 0x80000009)]
        spare += [(7, 1, 1, 2, 3, 4), (0xB, 2, 1, 2, 3, 4), (0x8000001D, 4, 1, 2, 3, 4), (7, 1 << 31, 1, 2, 3, 4)]
        beyond = [(STATE, subleaf, 1, 2, 3, 4) for subleaf in (64, 66, 1 << 31)]
        self.assertEqual(build(pages(spare + main, beyond + state)), build(pages(main, state)))

    def test_unread_bytes(self):
        self.assertEqual(build(spread(rich(), fill=0xA5)), build(spread(rich())))


class StatePages(unittest.TestCase):
    """Document 01, "Corners of snp.rs": a Dh entry counts only on page 1, and a single page is never accepted."""

    def test_pages_0_1_2(self):
        main, state = split(rich())
        wanted = build(pages(main, state))
        self.assertEqual(wanted[0], 'table')
        for groups, answer in (([main + state, []], MISSING_STATE), ([state, main], MISSING_STATE),
                               ([main, [], state], MISSING_STATE), ([[], main, state], MISSING_STATE),
                               ([[], main + state], wanted), ([[], state, main], wanted),
                               ([main, state[:1], state[1:]], ('refusal', 3, STATE, 1, 0))):
            self.assertEqual(build(pages(*groups)), answer)

    def test_other_pages_do_not_win(self):
        main, state = split(rich())
        other = [(leaf, ecx_in, 1, 2, 3, 4) for leaf, ecx_in, *_ in state]
        self.assertEqual(build(pages(other + main, state, other)), build(pages(main, state)))

    def test_single_page(self):
        for rows in minimal(), rich(), changed(rich(), STATE, 63):
            self.assertEqual(build(pages(entries(rows))), MISSING_STATE)
        for data in bytes(4096), b'\x40' + bytes(4095), page([(STATE, 0, 7, 0, 0, 0)] * 64):
            self.assertEqual(build(data), MISSING_FIRST)


class EmptyPages(unittest.TestCase):
    """Document 01, "Corners of snp.rs": "Empty pages are passed over, also first, last and several running." """

    def test_places(self):
        main, state = split(rich())
        wanted = build(pages(main, state))
        for groups in ([[], main + state], [main, state, []], [main, state, [], [], []], [[], state, [], [], main],
                       [main[:9], state, [], main[9:]], [[], state + main[:9], [], [], main[9:], [], []]):
            self.assertEqual(build(pages(*groups)), wanted)

    def test_only_empty_pages(self):
        for number in 1, 2, 16:
            self.assertEqual(build(pages(*[[]] * number)), MISSING_FIRST)


if __name__ == '__main__':
    unittest.main()
