"""Tests of vectors_reserved.py: its vectors tell wrong readings of document 02, P10, from the right one; and so do those of the comparison."""
import struct
import unittest
from unittest import mock

import make_comparisons
import model
from model import PAGE_SIZE, STATE, Refusal, entry_places, page_counts
from model_masks import KEPT
import vectors_reserved

RIGHT = model.check_reserved


def lines():
    return [vector.line for group in vectors_reserved.GROUPS for vector in group()]


LINES = lines()
# pairs whose A is accepted, so that B decides
PAIRS = make_comparisons.pairs_of(make_comparisons.reserved, make_comparisons.reserved_order)
PAIRS = [pair for pair in PAIRS if model.build(pair[0], pair[2])[0] == 'table']
ANSWERS = [model.compare(*pair) for pair in PAIRS]


def leaf_at(pages, at):
    return struct.unpack_from('<I', pages, at)[0]


def tested(offsets=range(40, 48), entries=lambda pages, number, at: True, order=list, named=lambda pages, at: (leaf_at(pages, at),)):
    """A reading: which bytes of an entry, which entries, in which order, and what is named."""
    def check(pages):
        for number, at in order(entry_places(pages)):
            if entries(pages, number, at) and any(pages[at + offset] for offset in offsets if at + offset < len(pages)):
                raise Refusal(17, *named(pages, at))
    return check


def with_unused(pages):
    """The entry at the count tested too."""
    RIGHT(pages)
    for number, count in enumerate(page_counts(pages)):
        at = number * PAGE_SIZE + 16 + 48 * count
        if count < 64 and any(pages[at + 40:at + 48]):
            raise Refusal(17, leaf_at(pages, at))


def after_the_count(pages):
    RIGHT(pages)
    for start in range(0, len(pages), PAGE_SIZE):
        if any(pages[start + 4:start + 16]):
            raise Refusal(17, leaf_at(pages, start + 16))


def kept(pages, _, at):
    leaf, subleaf = struct.unpack_from('<II', pages, at)
    return (leaf, None) in KEPT[False] or (leaf, subleaf) in KEPT[False]


def first_of_its_leaf(pages, number, at):
    return next(other for _, other in entry_places(pages) if pages[other:other + 8] == pages[at:at + 8]) == at


WRONG = {
    'no byte': tested(()),
    **{f'not byte {offset}': tested([other for other in range(40, 48) if other != offset]) for offset in range(40, 48)},
    'EDX too': tested(range(39, 48)),
    'XSS_IN too': tested([16, *range(40, 48)]),
    'XCR0_IN too': tested([8, *range(40, 48)]),
    'the next entry too': tested(range(40, 49)),
    'the entry at the count too': with_unused,
    'bytes after the count too': after_the_count,
    'page 0 alone': tested(entries=lambda pages, number, at: number == 0),
    'the first two pages alone': tested(entries=lambda pages, number, at: number < 2),
    'kept entries alone': tested(entries=kept),
    'no Dh but on page 1': tested(entries=lambda pages, number, at: leaf_at(pages, at) != STATE or number == 1),
    'first entries alone': tested(entries=first_of_its_leaf),
    'the last named': tested(order=lambda places: reversed(list(places))),
    'page 1 first': tested(order=lambda places: sorted(places, key=lambda place: (place[0] != 1, place))),
    'by position': tested(order=lambda places: sorted(places, key=lambda place: (place[1] % PAGE_SIZE, place))),
    'no leaf named': tested(named=lambda pages, at: (0,)),
    'the subleaf named': tested(named=lambda pages, at: struct.unpack_from('<II', pages, at)),
    'kept leaves named alone': tested(named=lambda pages, at: (leaf_at(pages, at) if kept(pages, 0, at) else 0,)),
}


class WrongReadings(unittest.TestCase):
    def differ(self, **readings):
        with mock.patch.multiple(model, **readings):
            return sum(old != new for old, new in zip(LINES, lines(), strict=True))

    def test_right(self):
        self.assertEqual(self.differ(check_reserved=tested()), 0)

    def test_bytes_entries_and_names(self):
        for name, check in WRONG.items():
            self.assertGreater(self.differ(check_reserved=check), 0, name)

    def test_before_2(self):
        """17 as soon as its page is read, before a later page's count."""
        def counts(pages):
            if len(pages) and len(pages) % PAGE_SIZE == 0:
                for start in range(0, len(pages), PAGE_SIZE):
                    one = pages[start:start + PAGE_SIZE]
                    if leaf_at(one, 0) > 64:
                        break
                    for at in range(16, 16 + 48 * leaf_at(one, 0), 48):
                        if any(one[at + 40:at + 48]):
                            raise Refusal(17, leaf_at(one, at))
            return page_counts(pages)
        self.assertGreater(self.differ(page_counts=counts), 0)

    def test_after_3(self):
        """17 after the required leaves, and after all that building refuses."""
        for step in 'check_required', 'finish_state', 'topology':
            self.assertGreater(self.differ(check_reserved=self.noted, **{step: self.late(getattr(model, step))}), 0, step)

    def noted(self, pages):
        page_counts(pages)
        self.pages = pages

    def late(self, step):
        def then(*arguments):
            answer = step(*arguments)
            RIGHT(self.pages)
            return answer
        return then


class Comparisons(unittest.TestCase):
    """The pairs of make_comparisons.py, where B's 17 is the comparison's own."""

    def differ(self, check):
        with mock.patch.object(model, 'check_reserved', check):
            return sum(old != model.compare(*pair) for old, pair in zip(ANSWERS, PAIRS))

    def test_right(self):
        self.assertEqual(self.differ(tested()), 0)

    def test_wrong(self):
        # the sets have two pages
        for name in WRONG.keys() - {'the first two pages alone'}:
            self.assertGreater(self.differ(WRONG[name]), 0, name)


if __name__ == '__main__':
    unittest.main()
