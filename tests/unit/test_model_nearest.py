"""Tests of model_nearest.py and of the list that make_nearest.py makes: document 02, P13, the nearest bit that matters."""
import unittest

import make_nearest
import model
from make_nearest import ALL, DEFINITION, FILTERED, SIZES, ordered
from model import EAX, EBX, ECX, EDX
from model_nearest import flips, nearest
from pagesets import MILAN, STATE, changed, minimal, page, pages, rich, spread, with_byte, with_topology, without

NOTHING = ('refusal', 20, 0, None, 0)


def refusal(number, leaf=0):
    return ('refusal', number, leaf, None, 0)


def bit(number, entry, register, place):
    return ('bit', number, entry, register, place)


class Flips(unittest.TestCase):
    def test_order_and_bytes(self):
        data = page([FILTERED]) + page([]) + page([FILTERED, FILTERED])
        all_flips = [*flips(data)]
        self.assertEqual(len(all_flips), 3 * 128)
        self.assertEqual([flip for flip, _, _ in all_flips], sorted(flip for flip, _, _ in all_flips))
        # "EAX 24, EBX 28, ECX 32, EDX 36", little-endian, of entries of 48 bytes from 16
        self.assertEqual(all_flips[0], (bit(0, 0, EAX, 0), 40, 1))
        self.assertEqual(all_flips[127], (bit(0, 0, EDX, 31), 55, 0x80))
        self.assertEqual(all_flips[128 + 32 + 9], (bit(2, 0, EBX, 9), 8192 + 16 + 28 + 1, 2))
        self.assertEqual(all_flips[-1], (bit(2, 1, EDX, 31), 8192 + 16 + 48 + 39, 0x80))

    def test_below_the_counts_alone(self):
        entry = page([FILTERED])[16:64]
        self.assertEqual([*flips(page([])[:16] + entry + page([])[64:])], [])


class Answers(unittest.TestCase):
    def test_not_lawful(self):
        unclean = with_byte(page([FILTERED]), 0, 0, 40, 1)
        self.assertEqual(nearest(b'', False, model.NO_EDITION), refusal(15))
        self.assertEqual(nearest(b'', False), refusal(1))
        self.assertEqual(nearest(page([], 65) + unclean, False), refusal(2))
        self.assertEqual(nearest(unclean, False), refusal(17, 0x40000000))

    def test_accepted(self):
        # 1.EAX is all in the table
        self.assertEqual(nearest(ordered(minimal(), (1, None)), False), bit(1, 0, EAX, 0))
        # the shipped set begins with leaf 0, which is made here
        self.assertEqual(nearest(MILAN, False), bit(0, 1, EAX, 0))
        # D.0.EAX: bits 0 and 1 are set anyway; with bit 2 the missing D.2 is needed
        self.assertEqual(nearest(ordered(minimal(), (STATE, 0)), False), bit(1, 0, EAX, 2))
        self.assertEqual(nearest(ordered(minimal(), (0x8000001A, None)), False), bit(1, 0, EAX, 0))
        # B.0 and B.1 are made here: none of their 256 bits decides
        self.assertEqual(nearest(ordered(minimal(), (0xB, 0), (0xB, 1), (1, None)), False), bit(1, 2, EAX, 0))
        # D.9 is not in the mask and dropped
        self.assertEqual(nearest(ordered(rich(), (STATE, 9), (5, None)), False), bit(1, 1, EAX, 0))

    def test_secure_avic_and_edition(self):
        rows = {key: (0, 0, 0, 0) for key in minimal()}
        rows = changed(changed(rows, SIZES, ebx=8), 0x8000001F, eax=0)
        last = {edition: nearest(ordered(changed(rows, 1, ecx=1 << 29), (1, None)), False, edition) for edition in (1, 2)}
        self.assertEqual(set(last.values()), {bit(1, 0, EAX, 0)})
        # F16C decides under edition 1 alone where there is no YMM state: under 2 it is cleared
        data = ordered(changed(rows, 1, ecx=1 << 29), (1, None))
        f16c = next((at, mask) for flip, at, mask in flips(data) if flip == bit(1, 0, ECX, 29))
        flipped = data[:f16c[0]] + bytes([data[f16c[0]] ^ f16c[1]]) + data[f16c[0] + 1:]
        self.assertNotEqual(model.build(data, False, 1), model.build(flipped, False, 1))
        self.assertEqual(model.build(data, False, 2), model.build(flipped, False, 2))

    def test_refused(self):
        # 4: INVLPGB
        self.assertEqual(nearest(spread(changed(minimal(), SIZES, ebx=0)), False), bit(0, 9, EBX, 3))
        # 3 for D.5: its bit of D.0.EAX, of which bit 2 comes before and changes nothing
        self.assertEqual(nearest(ordered(without(rich(), STATE, 5), (STATE, 0)), False), bit(1, 0, EAX, 5))
        # 5: EAX FFFFFFFFh with EBX 1 is too large by one: any bit of EAX
        self.assertEqual(nearest(ordered(changed(rich(), STATE, 2, eax=ALL, ebx=1), (STATE, 2)), False), bit(1, 0, EAX, 0))
        # 6: with s = 1 the flag of 1.EDX bit 28
        self.assertEqual(nearest(ordered(with_topology(rich(), 1, 1, 2, 0, 0), (1, None)), False), bit(1, 0, EBX, 16))
        # 8: t is 2, and bit 9 of 8000001Eh.EBX makes it 0
        self.assertEqual(nearest(ordered(with_topology(rich(), 3, 7, 8, 1, 2), (DEFINITION, None)), False), bit(1, 0, EBX, 9))

    def test_nothing_decides(self):
        for data in page([]), page([FILTERED]), spread(without(minimal(), 1)), spread(without(rich(), STATE, 1)):
            self.assertEqual(model.build(data, False)[1], 3)
            self.assertEqual(nearest(data, False), NOTHING)
        # Dh off page 1 does not count: D.0 is missing
        self.assertEqual(nearest(pages([(STATE, 0, 7, 0, 0, 0)]), False), NOTHING)

    def test_20_is_a_leaf_of_the_lists(self):
        """ "20 no flip changes anything": where building gives 3 for a leaf of the two lists, since else INVLPGB's bit decides."""
        lists = model.COMMON_REQUIRED_LEAVES + model.SNP_REQUIRED_LEAVES
        for data, found in make_nearest.questions().items():
            for choice, edition in found:
                built = model.build(data, choice, edition)
                if built[:2] == ('refusal', 3) and built[2:4] in lists and len([*flips(data)]) <= 256:
                    self.assertEqual(nearest(data, choice, edition), NOTHING)


class Misreadings(unittest.TestCase):
    """The list tells wrong readings from the right one."""

    @classmethod
    def setUpClass(cls):
        cls.sets = [(data, question) for data, found in make_nearest.questions().items() for question in found][::9]
        cls.right = [nearest(data, *question) for data, question in cls.sets]

    def differs(self, reading):
        """A reading is a function of the pages, the choices and the right answer."""
        return any(reading(data, *question, right) != right for (data, question), right in zip(self.sets, self.right))

    def test_3_for_20(self):
        self.assertTrue(self.differs(lambda data, choice, edition, right: model.build(data, choice, edition) if right == NOTHING else right))

    def test_bits_from_1(self):
        self.assertTrue(self.differs(lambda data, choice, edition, right: (*right[:-1], right[-1] + 1) if right[0] == 'bit' else right))

    def test_a_bit_of_the_table(self):
        """The first bit of a table's first row, in place of an entry's."""
        self.assertTrue(self.differs(lambda data, choice, edition, right: bit(0, 0, EAX, 0) if right[0] == 'bit' else right))

    def test_only_accepted_pages(self):
        def refused(data, choice, edition, right):
            answer = model.build(data, choice, edition)
            return answer if answer[0] == 'refusal' else right
        self.assertTrue(self.differs(refused))

    def test_the_last(self):
        def last(data, choice, edition, right):
            if right[0] != 'bit':
                return right
            before, found, lent = model.build(data, choice, edition), None, bytearray(data)
            # the last entry is enough to tell it from the first
            for flip, at, mask in [*flips(data)][-128:]:
                lent[at] ^= mask
                found = flip if model.build(lent, choice, edition) != before else found
                lent[at] ^= mask
            return found or right
        self.assertTrue(self.differs(last))


if __name__ == '__main__':
    unittest.main()
