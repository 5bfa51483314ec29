"""Tests of model_origins.py: document 02, P11, where a row came from. Quotations are document 02's."""
import struct
import unittest

import model
from model import PAGE_SIZE, STATE
from model_carry import carry
from model_guest import guest
from model_kvm import kvm_list, read_list
from model_origins import MADE_HERE, first_entry, lookup, origins
from pagesets import MILAN, changed, minimal, page, pages, rich, split, spread, with_byte, with_topology, without

MADE = {(0, None), (0x80000000, None), (0xB, 0), (0xB, 1)}
FIRST, SECOND = split(rich())


def of(data, secure_avic=False, edition=1):
    return origins(data, model.build(data, secure_avic, edition))


def bytes_of(data, origin):
    """EAX_IN, ECX_IN and the results at a position, cut from the bytes by document 01's offsets."""
    number, entry = origin
    at = PAGE_SIZE * number + 16 + 48 * entry
    return struct.unpack_from('<II', data, at) + struct.unpack_from('<4I', data, at + 24)


class EveryRow(unittest.TestCase):
    """ "Each row shall hold its page and entry, or "made here" for 0, 80000000h, B.0 and B.1; an absent row holds neither." """

    def test_by_hand(self):
        # page 0 has leaves 5, 1 and a filtered one, then the rest; page 1 D.1 and D.0
        rows = minimal()
        named = [(5, None), (1, None)]
        rest = [key for key in rows if key[0] != STATE and key not in named]
        written = [(leaf, subleaf or 0, *rows[leaf, subleaf]) for leaf, subleaf in named]
        written += [(0x40000000, 0, 9, 9, 9, 9)] + [(leaf, subleaf or 0, *rows[leaf, subleaf]) for leaf, subleaf in rest]
        state = [(STATE, subleaf, *rows[STATE, subleaf]) for subleaf in (1, 0)]
        expected = {(5, None): (0, 0), (1, None): (0, 1), (STATE, 1): (1, 0), (STATE, 0): (1, 1)}
        expected |= {key: (0, 3 + number) for number, key in enumerate(rest)}
        expected |= dict.fromkeys(MADE, MADE_HERE)
        self.assertEqual(of(pages(written, state)), expected)

    def test_the_entry_has_the_rows_leaf(self):
        for data in MILAN, spread(rich()), pages([], SECOND, [], FIRST), pages(FIRST[::-1], SECOND[::-1]):
            held = of(data)
            self.assertEqual(held.keys(), model.build(data, False)[1].keys())
            self.assertEqual({row for row, origin in held.items() if origin == MADE_HERE}, MADE)
            for (leaf, subleaf), origin in held.items():
                if origin != MADE_HERE:
                    found = bytes_of(data, origin)
                    self.assertEqual(found[0], leaf)
                    self.assertTrue(subleaf is None or found[1] == subleaf)

    def test_rows_that_no_rule_changes(self):
        """Their registers are those of the entry, as masked."""
        held, rows = of(MILAN), model.build(MILAN, False)[1]
        for row in (5, None), (STATE, 2), (0x80000002, None), (0x8000001D, 3):
            masked = tuple(value & mask for value, mask in zip(bytes_of(MILAN, held[row])[2:], model.KEPT[False][row]))
            self.assertEqual(rows[row], masked)

    def test_made_here_though_an_entry_is_there(self):
        entries = [(leaf, subleaf or 0, 1, 2, 3, 4) for leaf, subleaf in MADE]
        for data in pages(entries + FIRST, SECOND), pages(FIRST, SECOND + entries):
            self.assertTrue(all(of(data)[row] == MADE_HERE for row in MADE))
        self.assertTrue(all(of(spread(with_topology(minimal(), 0, 2, 3, 1, 0)))[row] == MADE_HERE for row in MADE))

    def test_absent(self):
        self.assertEqual(len(of(spread(minimal()))), 26)
        # a subleaf that is dropped has an entry and no row
        data = spread(changed(minimal(), STATE, 2, eax=256, ebx=576))
        self.assertNotIn((STATE, 2), of(data))
        self.assertEqual(first_entry(data, STATE, 2), ('found', (1, 2)))
        for refused in b'', page([], 65), spread(without(rich(), 1)), with_byte(MILAN, 0, 0, 40, 1), spread(changed(rich(), 0x80000008, ebx=0)):
            self.assertEqual(of(refused), {})
        self.assertEqual(of(MILAN, edition=model.NO_EDITION), {})


class WhichEntry(unittest.TestCase):
    """The first that counts."""

    def test_duplicates(self):
        again = [(5, 3, 1, 2, 3, 4)]
        at = [entry[0] for entry in FIRST].index(5)
        for groups, place in ((again + FIRST, SECOND), (0, 0)), ((FIRST + again, SECOND), (0, at)), ((FIRST, again + SECOND), (0, at)), (
                ([], again + SECOND, FIRST), (1, 0)), (([], SECOND, FIRST, again), (2, at)):
            self.assertEqual(of(pages(*groups))[5, None], place)

    def test_leaf_Dh(self):
        wrong = [(STATE, subleaf, 7, 7, 7, 7) for subleaf in range(3)]
        rows = [entry[:2] for entry in SECOND]
        for groups, shift in ((wrong + FIRST, SECOND), 0), ((FIRST, SECOND, wrong), 0), ((FIRST[:4], FIRST[4:6] + SECOND, FIRST[6:] + wrong), 2):
            held = of(pages(*groups))
            for subleaf in 0, 1, 2, 5, 12:
                self.assertEqual(held[STATE, subleaf], (1, rows.index((STATE, subleaf)) + shift))

    def test_empty_pages(self):
        for number in range(1, 6):
            held = of(pages([], SECOND, *[[]] * number, FIRST))
            self.assertEqual(held[1, None], (2 + number, 0))
            self.assertEqual(held[STATE, 0][0], 1)

    def test_last_entry_of_a_page(self):
        filler = [(0x40000000, 0, 1, 2, 3, 4)] * 64
        held = of(pages((filler + FIRST)[-64:], (filler + SECOND)[-64:]))
        self.assertEqual(held[FIRST[-1][0], None if FIRST[-1][0] != 0x8000001D else FIRST[-1][1]], (0, 63))
        self.assertEqual(held[STATE, SECOND[-1][1]], (1, 63))


class Lookup(unittest.TestCase):
    def test_the_row_that_is_found(self):
        answer = model.build(MILAN, False)
        one = origins(MILAN, answer)[1, None]
        for subleaf, enforce, wanted in (None, True, one), (None, False, one), (7, False, one), (7, True, None):
            self.assertEqual(lookup(MILAN, answer, 1, subleaf, enforce), wanted)
        for row in answer[1]:
            self.assertEqual(lookup(MILAN, answer, *row, True), origins(MILAN, answer)[row])
        for leaf, subleaf in (2, None), (STATE, None), (STATE, 5), (7, 1), (0x40000000, 0):
            self.assertIsNone(lookup(MILAN, answer, leaf, subleaf, False))

    def test_guest(self):
        """A guest's row has the origin of the paravisor's."""
        plain, seen = model.build(MILAN, False), guest(MILAN, False, 5, 7, 0x800, True)
        self.assertNotEqual(plain, seen)
        self.assertEqual(origins(MILAN, seen), origins(MILAN, plain))


class Elsewhere(unittest.TestCase):
    def test_import(self):
        """ "After import .. the origin is that of the pages last read". """
        answer = model.build(MILAN, False)
        _, again = read_list(kvm_list(answer), bytes(8192))
        self.assertEqual(model.build(again, False), answer)
        rows = sorted(answer[1], key=model.by_leaf)
        others, states = [row for row in rows if row[0] != STATE], [row for row in rows if row[0] == STATE]
        expected = {row: (number, entry) for number, group in enumerate((others, states)) for entry, row in enumerate(group)}
        self.assertEqual(of(again), expected | dict.fromkeys(MADE, MADE_HERE))
        self.assertNotEqual(of(again), of(MILAN))

    def test_carried(self):
        """ "or carried over unchanged". """
        data = spread(changed(rich(), STATE, 0, eax=3))
        old = model.build(data, False, 1)
        new = carry(old, 1, 2, 3, 0x800)
        self.assertNotEqual(old, new)
        self.assertEqual(new, model.build(data, False, 2))
        self.assertEqual(origins(data, new), origins(data, old))

    def test_no_choice_moves_a_row(self):
        for secure_avic, edition in (True, 1), (False, 2), (True, 2):
            self.assertEqual(of(spread(rich()), secure_avic, edition), of(spread(rich())))


class FirstEntry(unittest.TestCase):
    """What is named where two servers differ: whether or not a table is given."""

    def test_refusals(self):
        data = with_byte(MILAN, 1, 0, 40, 1)
        for wrong, wanted in (b'', (1, 0)), (MILAN[1:], (1, 0)), (data + b'\0', (1, 0)), (data + page([], 65), (2, 0)), (data, (17, STATE)):
            for leaf in 1, 0x40000000:
                self.assertEqual(first_entry(wrong, leaf, 0), ('refusal', wanted[0], wanted[1], None, 0))

    def test_whether_or_not_a_table_is_given(self):
        data = pages([(5, 0, 0, 0, 0, 0), (1, 0, 0, 0, 0, 0)])
        self.assertEqual(model.build(data, False)[0], 'refusal')
        self.assertEqual([first_entry(data, leaf, 0) for leaf in (1, 5, 7)], [('found', (0, 1)), ('found', (0, 0)), ('found', None)])

    def test_subleaves(self):
        leaves = [(leaf, subleaf) for leaf in (1, 7, 0xB, 0x8000001D, 0, 0x80000000) for subleaf in (1, 0, 4)]
        data = pages([(*leaf, 0, 0, 0, 0) for leaf in leaves], [(STATE, 64, 0, 0, 0, 0)])
        asked = {(1, 0): 0, (1, 4): 0, (1, 9): 0, (7, 0): 4, (7, 1): None, (7, 4): None, (0xB, 1): 6, (0xB, 0): 7, (0xB, 4): None,
                 (0x8000001D, 0): 10, (0x8000001D, 1): 9, (0x8000001D, 4): None, (0, 0): None, (0x80000000, 0): None, (STATE, 64): None,
                 (STATE, 0): None}
        for (leaf, subleaf), entry in asked.items():
            self.assertEqual(first_entry(data, leaf, subleaf), ('found', None if entry is None else (0, entry)), (leaf, subleaf))


if __name__ == '__main__':
    unittest.main()
