"""Tests of model_carry.py: document 02, P8, moving a live guest to edition 2."""
from itertools import product
import random
import struct
import unittest

import model
from model import EAX, EBX, ECX
from model_carry import NO_IMAGE, ROWS, carry, carry_image, read_image
from model_guest import guest_of
from pagesets import MILAN, STATE, changed, minimal, rich, spread, without
from vectors_document_01 import Damage

ALL = 0xFFFFFFFF
EXTENDED = 0x80000001
BITS = {(1, None): 1 << 29, (EXTENDED, None): 1 << 11 | 1 << 16}
EDITIONS = 0, *model.EDITIONS, model.NO_EDITION, 257, 258, 1 << 31, ALL


def refusal(number):
    return ('refusal', number, 0, None, 0)


def image(rows):
    return model.image(('table', rows, None))


def stated(rows, xfem):
    return changed(rows, STATE, 0, eax=xfem)


def otherwise(draw, often=.7, xfem=None):
    """A table built otherwise."""
    rows = {key: tuple(draw.getrandbits(32) for _ in range(4)) for key in ROWS if draw.random() < often}
    return 'table', rows if xfem is None else stated(rows, xfem), draw.getrandbits(64)


def by_place(data):
    """The reader a second time: from row to row of all that a table can have, each taken where the bytes go on with its head."""
    rows = {}
    for leaf, subleaf in ROWS:
        head = struct.pack('<BI', 1, leaf) if subleaf is None else struct.pack('<BII', 2, leaf, subleaf)
        if data.startswith(head) and len(data) >= len(head) + 16:
            rows[leaf, subleaf] = struct.unpack_from('<4I', data, len(head))
            data = data[len(head) + 16:]
    return None if data else rows


class Reading(unittest.TestCase):
    def test_by_hand(self):
        data = bytes.fromhex('01 01000000 04030201 08070605 0c0b0a09 100f0e0d 02 0d000000 0c000000 01000000 00000000 00000080 ffffffff')
        self.assertEqual(read_image(data), {(1, None): (0x01020304, 0x05060708, 0x090A0B0C, 0x0D0E0F10), (STATE, 12): (1, 0, 1 << 31, ALL)})
        self.assertEqual(read_image(b''), {})

    def test_rows_that_there_can_be(self):
        self.assertEqual(len(ROWS), 88)
        self.assertEqual(len(read_image(image({key: (0, 0, 0, 0) for key in ROWS}))), 88)

    def test_back(self):
        draw = random.Random(1)
        built = model.build(MILAN, False), model.build(spread(rich()), True, 2)
        for table in *built, *(otherwise(draw, often) for often in (0, .1, .5, .9, 1)):
            self.assertEqual(read_image(model.image(table)), table[1])

    def test_no_image(self):
        one, other = image({(1, None): (1, 2, 3, 4)}), image({(STATE, 1): (1, 2, 3, 4)})
        self.assertEqual(len(read_image(one + other)), 2)
        strange = [image({key: (0, 0, 0, 0)}) for key in ((2, None), (7, 1), (STATE, 64), (1, 0), (STATE, None))]
        wrong_tags = [bytes([tag]) + row[1:] for row in (one, other) for tag in (0, 1, 2, 3) if tag != row[0]]
        for data in *strange, *wrong_tags, one[:-1], one + b'\0', one + b'\1', one + one, other + one, bytes(1), bytes(21):
            self.assertIsNone(read_image(data))
        for old, new, xcr0 in product(EDITIONS, EDITIONS, (0, 1)):
            self.assertEqual(carry_image(one + b'\0', old, new, xcr0, 0), (NO_IMAGE, one + b'\0'))

    def test_against_a_second_reader(self):
        """Images cut, run together, out of order, and with bytes replaced, put in and taken out; what is read is written back as it was."""
        draw, found = random.Random(2), 0
        for _ in range(2000):
            data = bytearray(model.image(otherwise(draw, draw.choice((.02, .05, .2)))))
            for _ in range(draw.randrange(3)):
                at, byte = draw.randrange(len(data) + 1), bytes([draw.choice((0, 1, 2, 7, 13, 128))])
                data[at:at + draw.choice((0, 1, 1, 21, 25))] = draw.choice((b'', b'', byte, data[:25], data[-21:]))
            rows = read_image(bytes(data))
            self.assertEqual(rows, by_place(bytes(data)))
            if rows is not None:
                found += 1
                self.assertEqual(image(rows), data)
        self.assertTrue(500 < found < 1500, found)


class Built(unittest.TestCase):
    """ "The new table must equal what edition 2 would have made of the original pages, and the guest's two save sizes stay what they were." """

    def carried(self, data, choice, xcr0, xss):
        """Whether the table of the pages, which are accepted, is carried."""
        first, second = (model.build(data, choice, edition) for edition in (1, 2))
        answer = carry(first, 1, 2, xcr0, xss)
        old = guest_of(first, 5, xcr0, xss, True)
        if answer[0] == 'refusal':
            self.assertEqual(answer, old)
            return False
        self.assertEqual(answer, second)
        self.assertEqual(carry_image(model.image(first), 1, 2, xcr0, xss), (('carried',), model.image(second)))
        new = guest_of(answer, 5, xcr0, xss, True)
        for subleaf in 0, 1:
            self.assertEqual(old[1][STATE, subleaf][EBX], new[1][STATE, subleaf][EBX])
        return True

    def test_every_state(self):
        for number, choice, xss in product(range(64), (False, True), (0, 0x800)):
            xfem = number & 7 | (number & 0x38) << 2
            self.assertTrue(self.carried(spread(stated(rich(), xfem)), choice, 1 | xfem, xss))
        self.assertTrue(self.carried(spread(minimal()), False, 3, 0))

    def test_shipped_set(self):
        self.assertTrue(self.carried(MILAN, False, 7, 0x1800))
        self.assertFalse(self.carried(MILAN, False, 0xE7, 0))

    def test_at_random(self):
        damage, found = Damage(41), 0
        for number in range(400):
            data = damage.damage((MILAN, spread(stated(rich(), 3)), spread(minimal()), spread(rich()))[number % 4])
            if model.build(data, False)[0] == 'table':
                found += self.carried(data, False, (1, 3, 7)[number % 3], (0, 0x800)[number % 5 % 2])
        self.assertGreater(found, 100)

    def test_a_refused_table(self):
        """It has no row, so 13 after 15 and 16."""
        table = model.build(b'', False)
        for old, new in product(EDITIONS, repeat=2):
            for xcr0 in 0, 1, ALL:
                known = {old, new} <= {*model.EDITIONS}
                self.assertEqual(carry(table, old, new, xcr0, 0), refusal(15 if not known else 16 if old > new else 13))


class Otherwise(unittest.TestCase):
    def test_within_one_edition(self):
        """ "Carrying any table within one edition, where it isn't refused, changes nothing." """
        draw, found = random.Random(3), 0
        for number in range(400):
            table = otherwise(draw, (.5, 1)[number % 2], draw.getrandbits(32) | 1)
            answer = carry(table, 1 + number % 2, 1 + number % 2, 1, 0)
            self.assertIn(answer, (table, refusal(14)))
            found += answer == table
        self.assertGreater(found, 300)

    def test_three_bits_and_nothing_else(self):
        """ "gets the same three bits cleared where its own D.0.EAX lacks bit 2, and nothing else changed" """
        draw = random.Random(4)
        for number in range(400):
            table = otherwise(draw, (.5, 1)[number % 2], draw.getrandbits(32) | 1)
            answer = carry(table, 1, 2, 1, 0)
            self.assertEqual((answer[0], answer[2], answer[1].keys()), ('table', table[2], table[1].keys()))
            for key, registers in table[1].items():
                cleared = 0 if table[1][STATE, 0][EAX] >> 2 & 1 else BITS.get(key, 0)
                self.assertEqual(answer[1][key], tuple(value & ~cleared if at == ECX else value for at, value in enumerate(registers)))

    def test_the_mask_says_nothing(self):
        """Its own D.0.EAX decides, and neither the mask nor the processor's XCR0, XSS, or the table's."""
        for mask, xss in product((0, 3, 7, ALL), (0, 4)):
            rows = {(1, None): (0, 0, ALL, 0), (STATE, 0): (3, 0, 0, 0), (STATE, 1): (0xA, 0, 4, 0)}
            self.assertEqual(carry(('table', rows, mask), 1, 2, 1, xss), ('table', changed(rows, 1, ecx=ALL & ~(1 << 29)), mask))
            kept = stated(rows, 7)
            self.assertEqual(carry(('table', kept, mask), 1, 2, 1, xss), ('table', kept, mask))

    def test_absent_rows(self):
        """ "absent rows reading as zeros": they stay absent."""
        rows = {(1, None): (0, 0, ALL, 0), (STATE, 0): (1, 0, 0, 0), (STATE, 1): (0xA, 0, 0x800, 0), (EXTENDED, None): (0, 0, ALL, 0)}
        cleared = {key: tuple(value & ~(BITS.get(key, 0) if at == ECX else 0) for at, value in enumerate(row)) for key, row in rows.items()}
        for gone in (1, None), (EXTENDED, None), (STATE, 1):
            self.assertEqual(carry(('table', without(rows, *gone), 0), 1, 2, 1, 0), ('table', without(cleared, *gone), 0))
        self.assertEqual(carry(('table', rows, 0), 1, 2, 1, 0x800), ('table', cleared, 0))
        self.assertEqual(carry(('table', without(rows, STATE, 1), 0), 1, 2, 1, 0x800), refusal(13))
        self.assertEqual(carry(('table', without(rows, STATE, 0), 0), 1, 2, 1, 0), refusal(13))
        # a component without its row has no bytes
        self.assertEqual(carry(('table', stated(rows, 7), 0), 1, 2, 7, 0x800), ('table', stated(rows, 7), 0))


class Refusals(unittest.TestCase):
    ROWS = {(STATE, 0): (7, 0, 0, 0), (STATE, 1): (2, 0, 0, 0), (STATE, 2): (ALL, 0, 0, 0)}

    def test_order(self):
        """ "16 from edition 2 back to 1, after 15 for either edition and before 13 and 14" """
        for old, new, (xcr0, number) in product(EDITIONS, EDITIONS, ((1, None), (0, 13), (8, 13), (5, 14), (13, 13))):
            known = old in model.EDITIONS and new in model.EDITIONS
            number = 15 if not known else 16 if new in range(1, old) else number
            answer = carry(('table', self.ROWS, 0), old, new, xcr0, 0)
            self.assertEqual(answer, ('table', self.ROWS, 0) if number is None else refusal(number))
            wanted = ('carried',) if number is None else refusal(number)
            self.assertEqual(carry_image(image(self.ROWS), old, new, xcr0, 0), (wanted, image(self.ROWS)))

    def test_as_a_guest(self):
        """ "13 and 14, which P3's rules give on the handed table's own rows": as its guest is refused. """
        draw, told = random.Random(5), set()
        for number in range(600):
            table = otherwise(draw, .9, draw.getrandbits(32) | 1)
            xfem, one = table[1][STATE, 0][EAX], table[1].get((STATE, 1), (0, 0, 0, 0))
            xcr0 = draw.choice((1, xfem, xfem & 0x1F, draw.getrandbits(64)))
            xss = draw.choice((0, one[ECX], one[ECX] & draw.getrandbits(32)))
            answer, seen = carry(table, 1, 1 + number % 2, xcr0, xss), guest_of(table, 0, xcr0, xss, False)
            self.assertEqual(answer if answer[0] == 'refusal' else None, seen if seen[0] == 'refusal' else None)
            told.add(answer[1] if answer[0] == 'refusal' else 0)
        self.assertEqual(told, {0, 13, 14})


if __name__ == '__main__':
    unittest.main()
