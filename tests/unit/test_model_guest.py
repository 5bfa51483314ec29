"""Tests of model_guest.py: document 02, P3, what one processor's guest sees."""
from itertools import product
import random
import struct
import unittest

import model
from model_guest import guest, guest_of
from pagesets import MILAN, STATE, changed, minimal, page, rich, spread, with_byte, with_topology, without
from vectors_document_01 import Damage

EAX, EBX, ECX, EDX = range(4)
ALL = 0xFFFFFFFF


def refusal(number, leaf=0, subleaf=None, s=0):
    return ('refusal', number, leaf, subleaf, s)


def seen(rows, apic=0, xcr0=1, xss=0, osxsave=False, secure_avic=False):
    return guest(spread(rows), secure_avic, apic, xcr0, xss, osxsave)


def reported(leaf, subleaf, number):
    """One register of the shipped set, as its bytes have it."""
    for start in range(0, len(MILAN), 4096):
        for at in range(start + 16, start + 16 + 48 * struct.unpack_from('<I', MILAN, start)[0], 48):
            if struct.unpack_from('<II', MILAN, at) == (leaf, subleaf):
                return struct.unpack_from('<I', MILAN, at + 24 + 4 * number)[0]
    return None


def sizes(answer):
    return answer[1][STATE, 0][EBX], answer[1][STATE, 1][EBX]


class RealFigures(unittest.TestCase):
    def test_milan(self):
        """The processor itself reported both sizes for XCR0 7 and XSS 800h."""
        self.assertEqual((reported(STATE, 0, EBX), reported(STATE, 1, EBX)), (0x340, 0x350))
        self.assertEqual(sizes(guest(MILAN, False, 0, 7, 0x800, True)), (0x340, 0x350))

    def test_milan_by_hand(self):
        """Milan: 256 bytes of YMM at 576, CET 16 and 24 without alignment."""
        for xcr0, xss, wanted in (1, 0, (576, 576)), (3, 0, (576, 576)), (7, 0, (832, 832)), (3, 0x800, (576, 592)), \
                (7, 0x1000, (832, 856)), (7, 0x1800, (832, 872)), (5, 0, (832, 832)):
            self.assertEqual(sizes(guest(MILAN, False, 0, xcr0, xss, True)), wanted)


class Places(unittest.TestCase):
    def test_number(self):
        for apic in 0, 1, 0xFF, 0x100, 0x12345678, ALL:
            rows = seen(rich(), apic)[1]
            self.assertEqual(rows[1, None][EBX], 0x00FFFFFF & ~(0xFF << 16) | 128 << 16 | apic % 256 * 2 ** 24)
            self.assertEqual([rows[0xB, subleaf][EDX] for subleaf in (0, 1)], [apic, apic])

    def test_osxsave(self):
        for ecx, on in product((0, 1 << 26, 1 << 27, 3 << 26, ALL), (False, True)):
            shown = seen(changed(minimal(), 1, ecx=ecx), osxsave=on)[1][1, None][ECX]
            self.assertEqual(shown >> 27 & 1, int(on and ecx in (1 << 26, 3 << 26, ALL)))
            self.assertEqual(shown >> 26 & 1, int(ecx in (1 << 26, 3 << 26, ALL)))

    def test_nothing_else_differs(self):
        free = {(1, None): {EBX, ECX}, (0xB, 0): {EDX}, (0xB, 1): {EDX}, (STATE, 0): {EBX}, (STATE, 1): {EBX}}
        for rows, xcr0, xss in (minimal(), 3, 0), (rich(), 0xE7, 0x1800), (rich(), 1, 0):
            table, answer = model.build(spread(rows), True), seen(rows, ALL, xcr0, xss, True, True)
            self.assertEqual((answer[0], answer[2], answer[1].keys()), ('table', table[2], table[1].keys()))
            for key, registers in table[1].items():
                moved = {i for i in range(4) if answer[1][key][i] != registers[i]}
                self.assertLessEqual(moved, free.get(key, set()))
            self.assertEqual(answer[1][1, None][EBX] & 0x00FFFFFF, table[1][1, None][EBX] & 0x00FFFFFF)
            self.assertEqual(answer[1][1, None][ECX] & ~(1 << 27), table[1][1, None][ECX] & ~(1 << 27))

    def test_lookup(self):
        answer = guest(MILAN, False, 9, 7, 0, True)
        self.assertEqual(model.lookup(answer, 0xB, 1, True), (7, 128, 0x201, 9))
        self.assertEqual(model.lookup(answer, STATE, 0, False), (7, 832, 832, 0))
        self.assertIsNone(model.lookup(guest(MILAN, False, 9, 2, 0, True), 0xB, 1, True))


class Sizes(unittest.TestCase):
    def test_rich_by_hand(self):
        """YMM 256 at 576, 64 at 832, 512 at 896, 1024 at 1408; compacted in a row, without gaps."""
        for xcr0, xss, wanted in (0xE7, 0x1800, (2432, 576 + 256 + 64 + 512 + 1024 + 16 + 24)), (0x21, 0, (896, 640)), \
                (0x81, 0x1000, (2432, 576 + 1024 + 24)), (0x41, 0x800, (1408, 576 + 512 + 16)):
            self.assertEqual(sizes(seen(rich(), 0, xcr0, xss)), wanted)

    def test_alignment(self):
        """D.11 of 16 bytes, then D.12: its start 592 is raised to 640 where its own ECX bit 1 is set, and for no other bit or row."""
        for ecx11, ecx12, wanted in (1, 1, 616), (1, 3, 664), (3, 1, 616), (3, 3, 664), (1, ALL, 664), (1, ALL ^ 2, 616):
            rows = changed(changed(rich(), STATE, 11, ecx=ecx11), STATE, 12, ecx=ecx12)
            self.assertEqual(sizes(seen(rows, 0, 1, 0x1800))[1], wanted)
        # a start that is a multiple already stays
        self.assertEqual(sizes(seen(changed(rich(), STATE, 11, ecx=3), 0, 1, 0x800))[1], 592)
        # the start, not the end, is raised
        self.assertEqual(sizes(seen(changed(rich(), STATE, 12, ecx=3), 0, 1, 0x1000))[1], 600)

    def test_neither_bit(self):
        for eax, size in (0, 0), (1, 0), (2, 832), (8, 832), (3, 832), (0xA, 832), (4, 0):
            rows = changed(rich(), STATE, 1, eax=eax)
            self.assertEqual(sizes(seen(rows, 0, 7)), (832, size))

    def test_compacted_size_of_a_table_at_random(self):
        """Against starts by a division instead of a remainder, one state at a time."""
        draw = random.Random(3)
        for _ in range(300):
            rows = rich()
            for subleaf in 2, 5, 6, 7, 11, 12:
                rows = changed(rows, STATE, subleaf, eax=draw.randrange(5000), ecx=draw.randrange(8))
            xcr0, xss = 1 | 0xE6 & draw.randrange(256), 0x1800 & draw.randrange(0x2000)
            end = 576
            for subleaf in 2, 5, 6, 7, 11, 12:
                if (xcr0 + xss) // 2 ** subleaf % 2:
                    eax, _, ecx, _ = rows[STATE, subleaf]
                    start = (end + 63) // 64 * 64 if ecx in (2, 3, 6, 7) else end
                    end = start + eax
            self.assertEqual(sizes(seen(rows, 0, xcr0, xss))[1], end)


class Refusals(unittest.TestCase):
    def test_13(self):
        for xcr0, xss in (0, 0), (2, 0), (6, 0), (9, 0), (1 << 32 | 1, 0), (1 << 63 | 1, 0), (0x801, 0), (0x201, 0), \
                (1, 1), (1, 4), (1, 0x2000), (1, 1 << 32), (1, 1 << 63 | 0x800), (ALL, 0):
            self.assertEqual(seen(rich(), 0, xcr0, xss), refusal(13))
        self.assertEqual(seen(minimal(), 0, 7, 0), refusal(13))
        self.assertEqual(seen(minimal(), 0, 1, 0x800), refusal(13))
        self.assertEqual(seen(changed(rich(), STATE, 1, eax=3), 0, 1, 0x800), refusal(13))
        self.assertEqual(seen(rich(), 0, 0xE7, 0x1800)[0], 'table')

    def test_14(self):
        """FFFFFFFFh itself is a size, one more is not."""
        rows = changed(changed(rich(), STATE, 2, eax=0, ebx=0), STATE, 11, eax=ALL - 576)
        self.assertEqual(sizes(seen(rows, 0, 1, 0x800)), (576, ALL))
        self.assertEqual(seen(rows, 0, 1, 0x1800), refusal(14))
        self.assertEqual(seen(changed(rows, STATE, 11, eax=ALL - 575), 0, 1, 0x800), refusal(14))
        # 576 + FFFFFDBFh is FFFFFFFFh, raised to 2^32 by a state of no bytes
        empty = changed(rows, STATE, 12, eax=0, ecx=0)
        self.assertEqual(sizes(seen(empty, 0, 1, 0x1800)), (576, ALL))
        self.assertEqual(seen(changed(empty, STATE, 12, ecx=2), 0, 1, 0x1800), refusal(14))

    def test_14_needs_bit_1_or_3(self):
        rows = changed(rich(), STATE, 2, eax=ALL, ebx=0)
        for eax, wanted in (0, (ALL, 0)), (5, (ALL, 0)), (2, None), (8, None):
            answer = seen(changed(rows, STATE, 1, eax=eax), 0, 7)
            self.assertEqual(answer if wanted is None else sizes(answer), wanted or refusal(14))
        self.assertEqual(seen(rows, 0, 7 | 1 << 40), refusal(13))
        self.assertEqual(sizes(seen(rows, 0, 3)), (576, 576))

    def test_building_s_refusals_first(self):
        for source, wanted in (b'', refusal(1)), (page([], 65), refusal(2)), (MILAN[:4096], refusal(3, STATE, 0)), \
                (spread(without(rich(), STATE, 7)), refusal(3, STATE, 7)), \
                (spread(with_topology(minimal(), 5, 0, 0, 0, 0)), refusal(7, s=5)), (with_byte(MILAN, 1, 0, 40, 1), refusal(17, STATE)):
            self.assertEqual(guest(source, False, 0, 0, ALL, False), wanted)

    def test_of_a_table(self):
        self.assertEqual(guest_of(refusal(4), 0, 1, 0, False), refusal(4))
        self.assertEqual(guest_of(model.build(MILAN, True), 5, 7, 0x800, True), guest(MILAN, True, 5, 7, 0x800, True))

    def test_of_a_table_built_otherwise(self):
        """Its own rows decide: its XSS is D.1.ECX only with both bits of D.1.EAX, its mask says nothing, and absent rows read as zeros."""
        for eax, wanted in (0xA, 'table'), (2, 'refusal'), (8, 'refusal'), (0, 'refusal'):
            rows = {(STATE, 0): (7, 1, 2, 3), (STATE, 1): (eax, 1, 0x800, 3)}
            answer = guest_of(('table', rows, 0), 5, 7, 0x800, True)
            self.assertEqual(answer[0], wanted)
            if wanted == 'table':
                self.assertEqual(answer[1], {(STATE, 0): (7, 576, 2, 3), (STATE, 1): (eax, 576, 0x800, 3)})
            else:
                self.assertEqual(answer, refusal(13))
        self.assertEqual(guest_of(('table', {(STATE, 1): (0xA, 0, 0, 0)}, ALL), 5, 1, 0, True), refusal(13))


class Rise(unittest.TestCase):
    """ "The rise from server A to server B is wanted for guest answers .. too, except that where A's D.1.EBX is 0 for want of both bits, B's may be
    any size or refused by 14." """

    def rises(self, a, b, xcr0, xss):
        old, new = guest(a, False, 3, xcr0, xss, True), guest(b, False, 3, xcr0, xss, True)
        if old[0] == 'refusal' or model.build(b, False)[0] == 'refusal':
            return False
        if new[0] == 'refusal':
            self.assertEqual((new[1], old[1][STATE, 1][EBX]), (14, 0))
            return False
        for key, registers in old[1].items():
            for number, (one, other) in enumerate(zip(registers, new[1][key])):
                if key == (STATE, 0) and number == ECX:
                    self.assertLessEqual(one, other)
                elif key == (STATE, 1) and number == EBX and one == 0:
                    pass
                elif number in model.FEATURES.get(key, ()):
                    self.assertEqual(one & ~other, 0)
                else:
                    self.assertEqual(one, other)
        return True

    def test_at_random(self):
        """Pairs of which the comparison says that A rises to B."""
        damage, found = Damage(5), 0
        good = spread(minimal()), MILAN, spread(rich())
        for number in range(500):
            a = damage.damage(good[number % 3])
            b = damage.damage(a)
            if model.compare(a, b, False) == ('rises',):
                found += self.rises(a, b, (1, 3, 7, 0xE7)[number % 4], (0, 0x800, 0x1800)[number % 5 % 3])
        self.assertGreater(found, 30)


if __name__ == '__main__':
    unittest.main()
