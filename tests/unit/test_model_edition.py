"""Tests of the models: document 02, P7, edition 2 of the AVX rule."""
from itertools import product
import unittest

import model
from model import EBX, ECX
from model_guest import guest
from model_kvm import read_list, write_list
from model_lines import read_line, write_line
from model_masks import KEPT, bits
from pagesets import MILAN, STATE, changed, minimal, page, rich, spread, with_byte, with_topology, without
from vectors_document_01 import Damage

ALL = 0xFFFFFFFF
NONE = 0, model.NO_EDITION, model.NO_EDITION + 1, 255, 256, 257, 258, 65537, 1 << 31, ALL - 1, ALL
# (leaf, bit of ECX) of F16C, XOP and FMA4
BITS = (1, 29), (0x80000001, 11), (0x80000001, 16)


def refusal(number, leaf=0, subleaf=None, s=0):
    return ('refusal', number, leaf, subleaf, s)


def ecx(answer, leaf):
    return answer[1][leaf, None][ECX]


def stated(rows, xfem):
    return changed(rows, STATE, 0, eax=xfem)


def without_bits(answer):
    """The answer with the three bits cleared."""
    cleared = {(leaf, None): sum(1 << bit for other, bit in BITS if other == leaf) for leaf in (1, 0x80000001)}
    rows = {key: tuple(value & ~(cleared.get(key, 0) if at == ECX else 0) for at, value in enumerate(row)) for key, row in answer[1].items()}
    return answer[0], rows, answer[2]


class Clears(unittest.TestCase):
    """ "Edition 2 also clears 1.ECX bit 29 and 80000001h.ECX bits 11 (XOP) and 16 (FMA4) when XFEM lacks bit 2." """

    def test_names(self):
        """The public database has these names there, and the masks keep them."""
        self.assertEqual(bits(1, None, 'ECX', 'f16c'), model.F16C)
        self.assertEqual((bits(0x80000001, None, 'ECX', 'xop'), bits(0x80000001, None, 'ECX', 'fma4')), (model.XOP, model.FMA4))
        for choice, (leaf, bit) in product((False, True), BITS):
            self.assertTrue(KEPT[choice][leaf, None][ECX] >> bit & 1)

    def test_figures_by_hand(self):
        """1.ECX and 80000001h.ECX of the fullest rows; document 01's clears are 10001000h, and bit 31 is set."""
        for xfem, edition, one, extended in ((7, 1, 0xFEDA3203, 0x410DF3), (7, 2, 0xFEDA3203, 0x410DF3), (0xE7, 2, 0xFEDA3203, 0x410DF3),
                                             (3, 1, 0xEEDA2203, 0x410DF3), (3, 2, 0xCEDA2203, 0x4005F3), (0, 2, 0xCEDA2203, 0x4005F3),
                                             (0xE3, 1, 0xEEDA2203, 0x410DF3), (0xE3, 2, 0xCEDA2203, 0x4005F3)):
            answer = model.build(spread(stated(rich(), xfem)), False, edition)
            self.assertEqual((ecx(answer, 1), ecx(answer, 0x80000001)), (one, extended))

    def test_nothing_else(self):
        """Of every D.0.EAX: edition 2 is edition 1 where bit 2 is there, else edition 1 without the three bits."""
        for xfem, rows, choice in product(range(256), (minimal, rich), (False, True)):
            if rows is minimal and xfem & 0xE4:
                continue
            data = spread(stated(rows(), xfem))
            first, second = (model.build(data, choice, edition) for edition in (1, 2))
            self.assertEqual(second, first if xfem & 4 else without_bits(first))

    def test_each_bit_alone(self):
        for (leaf, bit), xfem, edition in product(BITS, (3, 7), (1, 2)):
            rows = changed(stated(changed(minimal(), STATE, 2, eax=256, ebx=576), xfem), leaf, ecx=1 << bit)
            answer = model.build(spread(rows), False, edition)
            self.assertEqual(ecx(answer, leaf) >> bit & 1, int(xfem == 7 or edition == 1))
            # the least rows have none of the others
            self.assertEqual(ecx(answer, 1) & ~(1 << 29), 1 << 31)
            self.assertEqual(ecx(answer, 0x80000001) & ~(1 << 11 | 1 << 16), 0)

    def test_bits_beside_stay(self):
        """Every other bit of the two registers that edition 1 leaves."""
        for leaf, bit in product((1, 0x80000001), range(32)):
            if (leaf, bit) not in BITS:
                rows = changed(stated(minimal(), 3), leaf, ecx=1 << bit)
                self.assertEqual(*(model.build(spread(rows), False, edition) for edition in (1, 2)))

    def test_not_by_xss(self):
        """The combined mask without XFEM's bit 2, whatever else it has."""
        for eax, xss in product((0, 2, 8, 0xA, 0xB), (0, 0x800, 0x1000, 0x1800)):
            answer = model.build(spread(changed(stated(rich(), 0xE3), STATE, 1, eax=eax, ecx=xss)), False, 2)
            self.assertEqual(ecx(answer, 1) >> 29 & 1, 0)

    def test_edition_1_is_what_no_edition_is(self):
        damage = Damage(21)
        for number in range(200):
            data = damage.damage((MILAN, spread(rich()), spread(stated(rich(), 3)))[number % 3])
            self.assertEqual(model.build(data, False, 1), model.build(data, False))

    def test_program_keeps_edition_1(self):
        data = spread(stated(rich(), 3))
        self.assertEqual(model.output(data), model.image(model.build(data, False, 1)))
        self.assertNotEqual(model.output(data), model.image(model.build(data, False, 2)))


class Unknown(unittest.TestCase):
    """ "15 an edition other than 1 or 2, before 1" """

    # a page set for each other refusal, and an accepted one
    SETS = (b'', MILAN[1:], page([], 65) * 2, MILAN[:4096], spread(without(rich(), STATE, 7)), spread(changed(rich(), 0x80000008, ebx=0)),
            spread(changed(rich(), STATE, 2, eax=ALL)), spread(with_topology(rich(), 7, 127, 128, 0, 0)),
            spread(with_topology(rich(), 7, 128, 128, 1, 0)), spread(with_topology(rich(), 7, 127, 128, 1, 2)), with_byte(MILAN, 1, 0, 47, 1), MILAN)

    def test_before_every_other(self):
        told = set()
        for data in self.SETS:
            for edition in 1, 2:
                answer = model.build(data, False, edition)
                told.add(answer[1] if answer[0] == 'refusal' else 0)
            for edition, choice in product(NONE, (False, True)):
                self.assertEqual(model.build(data, choice, edition), refusal(15))
                self.assertEqual(model.write(data, choice, b'x', edition), (refusal(15), b'x'))
                self.assertEqual(write_list(data, choice, b'x', edition), (refusal(15), b'x'))
                self.assertEqual(guest(data, choice, 0, 0, ALL, False, edition), refusal(15))
        self.assertEqual(told, {*range(9), 17})

    def test_a_lookup_finds_nothing(self):
        self.assertIsNone(model.lookup(model.build(MILAN, False, model.NO_EDITION), 1, None, False))

    def test_comparison(self):
        """A bad edition refuses A itself, whatever B is."""
        for a, b in product((b'', MILAN), (b'', MILAN, page([], 65))):
            self.assertEqual(model.compare(a, b, False, 0), ('refused A', 15, 0, None, 0))

    def test_line(self):
        self.assertEqual(write_line(15, 0, None, 0, b'x' * 4), (('written', 3), b'15\nx'))
        self.assertEqual(read_line(b'15\n'), refusal(15))
        for leaf, subleaf, s in (1, None, 0), (0, 0, 0), (0, None, 1):
            self.assertEqual(write_line(15, leaf, subleaf, s, bytes(9))[0], ('no such line',))


class Above(unittest.TestCase):
    """What stands on building, under edition 2."""

    def test_guest(self):
        """The processor's bits of leaf 1 do not bring the three back, nor do the clears touch OSXSAVE."""
        data = spread(stated(rich(), 3))
        seen = guest(data, False, 0xAB, 1, 0, True, 2)
        self.assertEqual((seen[1][1, None][EBX] >> 24, ecx(seen, 1), ecx(seen, 0x80000001)), (0xAB, 0xCEDA2203, 0x4005F3))
        self.assertEqual(guest(data, False, 0xAB, 5, 0, True, 2), refusal(13))
        # XCR0 without AVX on a table that has it: the table's XFEM decides
        seen = guest(spread(rich()), False, 0, 1, 0, False, 2)
        self.assertEqual(ecx(seen, 1) >> 29 & 1, 1)

    def test_list_for_kvm(self):
        """ "Exporting, importing and building again is meant under one edition." """
        for rows, xfem, choice in product((minimal(), rich()), (3, 0xE3, 7, 0xE7), (False, True)):
            if rows == minimal() and xfem != 3:
                continue
            data = spread(stated(rows, xfem))
            wanted = model.build(data, choice, 2)
            answer, written = write_list(data, choice, b'\xA5' * 2000, 2)
            _, back = read_list(written[:answer[1]], bytes(8192))
            self.assertEqual(model.build(back, choice, 2), wanted)

    def test_comparison_is_of_entries(self):
        """A's F16C, which its own table does not show, must still be B's; and a B with the state shows what A's table hides."""
        a = stated(rich(), 3)
        self.assertEqual(model.compare(spread(a), spread(rich()), False, 2), ('rises',))
        for leaf, bit in BITS:
            less = changed(a, leaf, ecx=ALL & ~(1 << bit))
            self.assertEqual(model.compare(spread(a), spread(less), False, 2), ('differs', leaf, None, ECX))
            self.assertEqual(model.compare(spread(less), spread(a), False, 2), ('rises',))

    def test_rise_at_random(self):
        """Demand 3 under either edition, "in one argument": what rises by its entries rises in its table."""
        good, found = [spread(stated(rich(), xfem)) for xfem in (3, 7, 0xE3, 0xE7)] + [MILAN, spread(minimal())], 0
        damage = Damage(22)
        for number in range(600):
            a = good[number % 6] if number % 4 else damage.damage(good[number % 6])
            b = damage.damage(a)
            edition = 1 + number % 2
            if model.compare(a, b, False, edition) != ('rises',) or model.build(b, False, edition)[0] == 'refusal':
                continue
            old, new = model.build(a, False, edition)[1], model.build(b, False, edition)[1]
            for key, at in ((key, at) for key, registers in model.FEATURES.items() for at in registers):
                self.assertEqual(old[key][at] & ~new[key][at], 0)
            found += 1
        self.assertGreater(found, 100)


if __name__ == '__main__':
    unittest.main()
