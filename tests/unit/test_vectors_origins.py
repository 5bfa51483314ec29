"""Tests of vectors_origins.py: its vectors tell wrong readings of document 02, P11, from the right one."""
import struct
import unittest
from unittest import mock

import model
from model import PAGE_SIZE, STATE
import model_origins
from model_origins import MADE, kept_key
import vectors_origins

RIGHT_FIRST, RIGHT_LOOKUP, RIGHT_ENTRY = model_origins.first_entries, model_origins.lookup, model_origins.first_entry


def lines():
    return [vector.line for group in vectors_origins.GROUPS for vector in group()]


LINES = lines()


def entries(pages):
    """(page, entry, leaf, subleaf) below the counts."""
    for page, count in enumerate(model.page_counts(pages)):
        for entry in range(count):
            yield page, entry, *struct.unpack_from('<II', pages, page * PAGE_SIZE + 16 + 48 * entry)


def reading(counts=lambda page, leaf: leaf != STATE or page == 1, key=kept_key, place=lambda pages, page, entry: (page, entry), order=list):
    """A reading: which entries count, which row each is for, how its place is told, and which order gives the first."""
    def first(pages):
        model.check_reserved(pages)
        found = {}
        for page, entry, leaf, subleaf in order(entries(pages)):
            if counts(page, leaf):
                found.setdefault(key(leaf, subleaf), place(pages, page, entry))
        found.pop(None, None)
        # a row that this reading misses is at the first entry of all
        return {**dict.fromkeys(RIGHT_FIRST(pages), (0, 0)), **found}
    return first


def before(pages, page, entry, test=lambda other, leaf, subleaf: True):
    """How many entries stand before one, of those that pass a test."""
    return sum(test(other, leaf, subleaf) for other, position, leaf, subleaf in entries(pages) if (other, position) < (page, entry))


def among_kept(pages, page, entry):
    """The position among the kept entries of the page."""
    return page, before(pages, page, entry, lambda other, leaf, subleaf: other == page and kept_key(leaf, subleaf) is not None)


def plain(leaf, subleaf):
    """The row of an entry, of a leaf without subleaves for ECX_IN 0 alone."""
    return None if (leaf, None) in model_origins.KEYS and subleaf != 0 else kept_key(leaf, subleaf)


WRONG = {
    'the last wins': reading(order=lambda places: reversed(list(places))),
    'leaf Dh on any page': reading(counts=lambda page, leaf: True),
    'leaf Dh not on page 0': reading(counts=lambda page, leaf: leaf != STATE or page != 0),
    'leaf Dh not on page 2': reading(counts=lambda page, leaf: leaf != STATE or page < 2),
    'pages from 1': reading(place=lambda pages, page, entry: (page + 1, entry)),
    'entries from 1': reading(place=lambda pages, page, entry: (page, entry + 1)),
    'entries of all pages in a row': reading(place=lambda pages, page, entry: (page, before(pages, page, entry))),
    'kept entries alone have a position': reading(place=among_kept),
    'empty pages have no number': reading(place=lambda pages, page, entry: (sum(count > 0 for count in model.page_counts(pages)[:page]), entry)),
    'the offset of the entry': reading(place=lambda pages, page, entry: (page, 16 + 48 * entry)),
    'the entry after it': reading(place=lambda pages, page, entry: (page, min(entry + 1, 63))),
    'page 0 for leaf Dh': reading(place=lambda pages, page, entry: (0, entry) if page == 1 else (page, entry)),
    'leaves without subleaves under ECX_IN 0': reading(key=plain),
    'subleaves are one': reading(key=lambda leaf, subleaf: kept_key(leaf, 0)),
}


class WrongReadings(unittest.TestCase):
    def differ(self, **readings):
        with mock.patch.multiple(model_origins, **readings):
            return sum(old != new for old, new in zip(LINES, lines(), strict=True))

    def test_right(self):
        self.assertEqual(self.differ(first_entries=reading()), 0)

    def test_first_entries(self):
        for name, first in WRONG.items():
            self.assertGreater(self.differ(first_entries=first), 0, name)

    def test_made_here(self):
        def first(pages):
            return {**dict.fromkeys(MADE, (0, 0)), **RIGHT_FIRST(pages)}
        for row in MADE:
            less = tuple(other for other in MADE if other != row)
            self.assertGreater(self.differ(MADE=less, first_entries=first), 0, row)
        for row in (1, None), (7, 0), (STATE, 0), (0x8000001F, None):
            self.assertGreater(self.differ(MADE=(*MADE, row)), 0, row)

    def test_absent_rows(self):
        """An origin where there is no row: of a dropped subleaf, in a refused table, of a leaf found under no such subleaf."""
        def lookup(pages, answer, leaf, subleaf, enforce):
            right = RIGHT_LOOKUP(pages, answer, leaf, subleaf, enforce)
            if right is not None or answer == ('refusal', 15, 0, None, 0):
                return right
            try:
                return RIGHT_FIRST(pages).get(kept_key(leaf, subleaf))
            except model.Refusal:
                return None
        self.assertGreater(self.differ(lookup=lookup), 10)

    def test_first_entry_of_accepted_tables_alone(self):
        def first(pages, leaf, subleaf):
            answer = model.build(pages, False)
            return answer if answer[0] == 'refusal' else RIGHT_ENTRY(pages, leaf, subleaf)
        self.assertGreater(self.differ(first_entry=first), 10)

    def test_first_entry_of_rows_alone(self):
        """Nothing for B.0 and B.1, or for a subleaf that the table drops."""
        def but_made(pages, leaf, subleaf):
            right = RIGHT_ENTRY(pages, leaf, subleaf)
            return ('found', None) if (leaf, subleaf) in MADE and right[0] == 'found' else right

        def but_dropped(pages, leaf, subleaf):
            answer, right = model.build(pages, False), RIGHT_ENTRY(pages, leaf, subleaf)
            return ('found', None) if answer[0] == 'table' and right[0] == 'found' and kept_key(leaf, subleaf) not in answer[1] else right
        for wrong in but_made, but_dropped:
            self.assertGreater(self.differ(first_entry=wrong), 0)

    def test_first_entry_of_any_leaf(self):
        """Leaves 0 and 80000000h, and others that no table keeps."""
        def first(pages, leaf, subleaf):
            right = RIGHT_ENTRY(pages, leaf, subleaf)
            if right != ('found', None):
                return right
            return 'found', next(((page, entry) for page, entry, *found in entries(pages) if found == [leaf, subleaf]), None)
        self.assertGreater(self.differ(first_entry=first), 10)


if __name__ == '__main__':
    unittest.main()
