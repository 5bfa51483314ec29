"""Tests of model_table.py on cases worked out by hand, by include/snp_cpuid.h and documents 01 and 02."""
import struct
import unittest

import make_table
import model
import model_carry
import model_table as kept
from model_table import EMPTY, PLACES
from pagesets import MILAN, STATE, changed, minimal, rich, spread

ALL = 0xFFFFFFFF


def place(leaf, subleaf=None):
    return PLACES.index((leaf, subleaf))


def memory(rows, origins=None, more=()):
    """Memory with these rows, of origin 1 or as given; `more` has registers of places without a row."""
    registers, numbers = kept.memory_of(rows, {**dict.fromkeys(rows, 1), **(origins or {})})
    registers = list(registers)
    for (leaf, subleaf, register), value in dict(more).items():
        registers[4 * place(leaf, subleaf) + register] = value
    return tuple(registers), numbers


class Memory(unittest.TestCase):
    def test_places_rise(self):
        self.assertEqual(len(PLACES), 88)
        self.assertEqual([PLACES[0], PLACES[1], PLACES[3], PLACES[6], PLACES[69], PLACES[70], PLACES[-1]],
                         [(0, None), (1, None), (7, 0), (STATE, 0), (STATE, 63), (0x80000000, None), (0x8000001F, None)])

    def test_the_struct_in_bytes(self):
        memory = tuple(range(4 * len(PLACES))), tuple(range(1000, 1000 + len(PLACES)))
        data = kept.to_bytes(memory)
        self.assertEqual((len(data), struct.unpack_from('<I', data, 4)), (2112, (1,)))
        self.assertEqual(struct.unpack_from('<Q', data, 16 * len(PLACES)), (1000,))
        self.assertEqual(kept.from_bytes(data), memory)

    def test_a_row_is_there_where_it_has_an_origin(self):
        one = memory({(1, None): (1, 2, 3, 4)}, more={(5, None, 0): 9})
        self.assertEqual(kept.rows(one), {(1, None): (1, 2, 3, 4)})
        self.assertEqual(kept.rows((one[0], (0,) * len(PLACES))), {})
        self.assertEqual(len(kept.rows((one[0], (ALL,) * len(PLACES)))), len(PLACES))

    def test_the_mask_is_read_from_the_registers(self):
        rows = {(STATE, 0): (7, 0, 0, 0), (STATE, 1): (0xA, 0, 0x1800, 0)}
        self.assertEqual(kept.counts(memory(rows)), (2, 0x1807))
        self.assertEqual(kept.counts((memory(rows)[0], EMPTY[1])), (0, 0x1807))
        for eax in 0, 2, 8:
            self.assertEqual(kept.counts(memory({**rows, (STATE, 1): (eax, 0, 0x1800, 0)})), (2, 7))


class Origins(unittest.TestCase):
    def test_told(self):
        told = {1: (1, 0, 0), 2: (2, 0, 0), 3: (3, 0, 0), 4: (2, 0, 0), 5: (2, 0, 1), 67: (2, 0, 63), 68: (2, 1, 0), 4 + 64 * 7 + 9: (2, 7, 9)}
        self.assertEqual({number: kept.told_origin(number) for number in told}, told)
        self.assertEqual(kept.told_origin(2 ** 64 - 1), (2, 2 ** 58 - 1, 59))

    def test_built(self):
        answer, built = kept.build(MILAN, False, 1)
        self.assertEqual(kept.rows(built), answer[1])
        for key in (0, None), (0x80000000, None), (0xB, 0), (0xB, 1):
            self.assertEqual(built[1][place(*key)], 1)
        # D.0 and D.1 are the first entries of page 1
        self.assertEqual([built[1][place(STATE, subleaf)] for subleaf in (0, 1, 3)], [68, 69, 0])
        self.assertEqual(kept.find(built, STATE, 1, True)[1], (2, 1, 1))

    def test_read(self):
        image = model.image(model.build(MILAN, False))
        is_image, read = kept.read(image)
        self.assertTrue(is_image)
        self.assertEqual((read[0], set(read[1])), (kept.build(MILAN, False, 1)[1][0], {0, 3}))
        self.assertEqual(kept.find(read, 0, None, True)[1], (3, 0, 0))
        self.assertEqual(kept.image(read), image)

    def test_nothing_is_left_of_a_refusal(self):
        self.assertEqual(kept.build(MILAN, False, 3), (('refusal', 15, 0, None, 0), EMPTY))
        self.assertEqual(kept.read(b'\0'), (False, EMPTY))
        self.assertEqual(kept.read(b''), (True, EMPTY))
        self.assertEqual(kept.pool(MILAN, [8192], False, 1), ((('refusal', 18, 0, None, 0), 0), EMPTY))

    def test_a_pool_has_the_first_servers(self):
        moved = spread(dict(reversed(model.first_rows(MILAN, False).items())))
        _, pooled = kept.pool(MILAN + moved, [8192, len(moved)], False, 1)
        self.assertEqual(pooled[1], kept.build(MILAN, False, 1)[1][1])
        _, pooled = kept.pool(moved + MILAN, [len(moved), 8192], False, 1)
        self.assertNotEqual(pooled[1], kept.build(MILAN, False, 1)[1][1])


class Questions(unittest.TestCase):
    def test_find_is_the_lookup(self):
        answer, built = kept.build(MILAN, False, 1)
        for leaf, subleaf in (*PLACES, (7, None), (1, 5), (STATE, 64), (2, 0)):
            for enforce in False, True:
                found = kept.find(built, leaf, subleaf, enforce)
                self.assertEqual(found and found[0], model.lookup(answer, leaf, subleaf, enforce))

    def test_a_state_is_read_from_registers_without_a_row(self):
        """Neither row is there, and yet XCR0 7 is given and has D.2's bytes."""
        words = {(STATE, 0, 0): 7, (STATE, 1, 0): 2, (STATE, 2, 0): 256, (STATE, 2, 1): 600}
        bare = memory({}, more=words)
        self.assertEqual(kept.state(bare, 7, 0), 576 + 256)
        self.assertEqual(kept.guest(bare, 5, 7, 0, True), bare)
        self.assertIsNone(kept.guest_find(bare, 5, 7, 0, True, STATE, 0, True))
        there = memory({(STATE, 0): (7, 0, 0, 0)}, more=words)
        self.assertEqual(kept.guest_find(there, 5, 7, 0, True, STATE, 0, True)[0], (7, 856, 0, 0))
        # carrying reads zeros there
        self.assertEqual(kept.carried(bare, 1, 2, 1, 0), (13, bare))

    def test_a_save_area_past_32_bits(self):
        large = memory({(STATE, 0): (7, 0, 0, 0), (STATE, 2): (ALL, 1, 0, 0)})
        self.assertEqual(kept.guest_find(large, 5, 7, 0, True, STATE, 0, True)[0], (7, ALL, 0, 0))
        self.assertEqual(kept.guest_find(large, 5, 3, 0, True, STATE, 0, True)[0], (7, 576, 0, 0))

    def test_13_and_14(self):
        one = memory({(STATE, 0): (7, 0, 0, 0), (STATE, 1): (2, 0, 0x1800, 0), (STATE, 2): (ALL - 575, 0, 0, 0)})
        for xcr0, xss, number in (0, 0, 13), (6, 0, 13), (9, 0, 13), (1, 0x800, 13), (5, 0, 14):
            with self.assertRaises(model.Refusal) as refused:
                kept.state(one, xcr0, xss)
            self.assertEqual(refused.exception.answer[1], number)
        self.assertEqual(kept.state(one, 3, 0), 576)

    def test_a_kept_size_is_d1_ebx_alone(self):
        _, built = kept.build(MILAN, False, 1)
        size = kept.state(built, 7, 0x800)
        for key in PLACES:
            same = kept.guest_find(built, 5, 7, 0x800, True, *key, True)
            self.assertEqual(kept.guest_find_kept(built, 5, 7, True, size, *key, True), same)
            if key != (STATE, 1):
                self.assertEqual(kept.guest_find_kept(built, 5, 7, True, size + 1, *key, True), same)
        self.assertEqual(kept.guest_find_kept(built, 5, 7, True, 99, STATE, 1, True)[0][1], 99)

    def test_a_table_with_every_row(self):
        every = memory({key: (1, 2, 3, 4) for key in PLACES})
        self.assertEqual((len(kept.image(every)), len(kept.kvm(every))), (2132, 3528))
        self.assertEqual(model_carry.read_image(kept.image(every)), kept.rows(every))

    def test_carried(self):
        bare = spread(changed(rich(), STATE, 0, eax=3))
        number, carried = kept.carried(kept.build(bare, False, 1)[1], 1, 2, 3, 0)
        self.assertEqual((number, carried), (0, kept.build(bare, False, 2)[1]))
        self.assertEqual(kept.carried(carried, 2, 1, 3, 0), (16, carried))


class Compared(unittest.TestCase):
    def setUp(self):
        _, self.table = kept.build(MILAN, False, 1)

    def with_bit(self, leaf, subleaf, register, bit):
        at = 4 * place(leaf, subleaf) + register
        return make_table.with_word(self.table, at, self.table[0][at] ^ 1 << bit)

    def test_equal_ones(self):
        self.assertEqual(kept.compare(self.table, self.table), (0, None, None))
        self.assertEqual(kept.compare(EMPTY, EMPTY), (0, None, None))

    def test_origins_do_not_count(self):
        self.assertEqual(kept.compare(self.table, (self.table[0], tuple(3 * (origin != 0) for origin in self.table[1]))), (0, None, None))

    def test_a_feature_may_come_and_not_go(self):
        more = self.with_bit(7, 0, 2, 15)
        self.assertEqual(kept.compare(self.table, more), (0, None, None))
        self.assertEqual(kept.compare(more, self.table), (2, (7, 0), 2))

    def test_bit_28_of_leaf_1_is_equal(self):
        other = self.with_bit(1, None, 3, 28)
        self.assertEqual((kept.compare(self.table, other), kept.compare(other, self.table)), ((2, (1, None), 3),) * 2)

    def test_all_else_is_equal(self):
        for leaf, subleaf, register in (0, None, 0), (0xB, 1, 1), (STATE, 0, 1), (0x80000008, None, 2):
            self.assertEqual(kept.compare(self.table, self.with_bit(leaf, subleaf, register, 4)), (2, (leaf, subleaf), register))

    def test_the_save_area_may_grow(self):
        larger = self.with_bit(STATE, 0, 2, 31)
        self.assertEqual((kept.compare(self.table, larger), kept.compare(larger, self.table)), ((0, None, None), (2, (STATE, 0), 2)))

    def test_rows_more_and_fewer(self):
        self.assertEqual(kept.compare(self.table, EMPTY), (1, (0, None), None))
        self.assertEqual(kept.compare(EMPTY, self.table), (3, (0, None), None))
        fewer = kept.build(spread(changed(rich(), STATE, 0, eax=7)), False, 1)[1]
        more = kept.build(spread(changed(rich(), STATE, 0, eax=0xE7)), False, 1)[1]
        self.assertEqual(kept.compare(fewer, more), (0, None, None))
        self.assertEqual(kept.compare(make_table.with_origin(self.table, place(STATE, 2), 0), self.table), (3, (STATE, 2), None))

    def test_only_subleaves_of_further_bits_from_2_up(self):
        for subleaf in 0, 1, 2, 3:
            further = memory({(STATE, subleaf): (0, 0, 0, 0)}, more={(STATE, 0, 0): 0xF})
            self.assertEqual(kept.compare(EMPTY, further), (0, None, None) if subleaf > 1 else (3, (STATE, subleaf), None))

    def test_a_mask_without_rows(self):
        self.assertEqual(kept.compare(memory({}, more={(STATE, 0, 0): 4}), EMPTY), (4, None, None))


class Made(unittest.TestCase):
    def test_the_pages_functions_and_the_tables_agree(self):
        for data in MILAN, spread(rich()), spread(minimal()):
            answer, built = kept.build(data, False, 1)
            self.assertEqual(kept.table(built), answer)


if __name__ == '__main__':
    unittest.main()
