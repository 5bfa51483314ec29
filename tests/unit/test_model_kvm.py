"""Tests of model_kvm.py: document 02, P2, lists for and from KVM."""
import unittest

import model
from model_kvm import read_list, write_list
from pagesets import MILAN, STATE, changed, entries, minimal, page, pages, rich, spread, with_byte, with_topology, without
from vectors_document_01 import Damage

GOOD = spread(minimal()), MILAN, spread(rich())
ROOM = b'\xA5' * 8192


def refusal(number, leaf=0, subleaf=None, s=0):
    return ('refusal', number, leaf, subleaf, s)


def words(*numbers):
    return b''.join(number.to_bytes(4, 'little') for number in numbers)


def listing(rows, zero=0, count=None):
    """A list from (function, index, flags, EAX, EBX, ECX, EDX, three padding words), or from less, which zeros follow."""
    return words(len(rows) if count is None else count, zero) + b''.join(words(*row, *[0] * (10 - len(row))) for row in rows)


class Export(unittest.TestCase):
    def test_by_hand(self):
        """The first three rows, the first with a subleaf and the last of the least table."""
        answer, data = write_list(spread(minimal()), False, bytes(1048))
        self.assertEqual(answer, ('written', 1048))
        vendor = (0x68747541, 0x444D4163, 0x69746E65)
        wanted = words(26, 0) + words(0, 0, 0, 0xD, *vendor, 0, 0, 0) + words(1, 0, 0, 0, 0, 1 << 31, 0, 0, 0, 0)
        wanted += words(5, *[0] * 9) + words(7, 0, 1, *[0] * 7) + words(0xB, 0, 1, 0, 1, 0x100, 0, 0, 0, 0)
        wanted += words(0xB, 1, 1, 0, 1, 0x201, 0, 0, 0, 0) + words(STATE, 0, 1, 3, 0, 576, 0, 0, 0, 0)
        self.assertEqual(data[:len(wanted)], wanted)
        self.assertEqual(data[-40:], words(0x8000001F, *[0] * 9))

    def test_rows_are_the_image_s(self):
        for source in GOOD:
            image = model.image(model.build(source, True))
            data = write_list(source, True, bytes(2000))[1][8:]
            while image:
                with_subleaf = image[0] == 2
                index = image[5:9] if with_subleaf else bytes(4)
                registers = image[9:25] if with_subleaf else image[5:21]
                self.assertEqual(data[:40], image[1:5] + index + bytes([with_subleaf, 0, 0, 0]) + registers + bytes(12))
                data, image = data[40:], image[25 if with_subleaf else 21:]

    def test_lent_bytes(self):
        for source, size in zip(GOOD, (1048, 1168, 1288)):
            whole = write_list(source, False, bytes(size))[1]
            for lent in size, size + 1, 2000:
                self.assertEqual(write_list(source, False, b'x' * lent), (('written', size), whole + b'x' * (lent - size)))
            for lent in 0, 1, 7, 8, size - 1:
                self.assertEqual(write_list(source, False, b'x' * lent), (refusal(9), b'x' * lent))

    def test_building_s_refusals_first(self):
        for source, wanted in (b'', refusal(1)), (page([], 65), refusal(2)), (MILAN[:4096], refusal(3, STATE, 0)), \
                (spread(with_topology(minimal(), 5, 0, 0, 0, 0)), refusal(7, s=5)), (with_byte(MILAN, 1, 0, 40, 1), refusal(17, STATE)):
            for buffer in b'', b'y' * 2000:
                self.assertEqual(write_list(source, False, buffer), (wanted, buffer))

    def test_secure_avic(self):
        for choice in False, True:
            last = write_list(spread(rich()), choice, bytes(1288))[1][-40:]
            self.assertEqual(last[12:16], words(0x27F | choice << 26))


class Import(unittest.TestCase):
    def test_by_hand(self):
        rows = [(STATE, 1, 1, 1, 2, 3, 4), (5, 9, 0, 5, 6, 7, 8), (STATE, 0, 0, 9, 10, 11, 12), (7, 0xFFFFFFFF, 1, 13, 14, 15, 16)]
        wanted = page([(5, 9, 5, 6, 7, 8), (7, 0xFFFFFFFF, 13, 14, 15, 16)]) + page([(STATE, 1, 1, 2, 3, 4), (STATE, 0, 9, 10, 11, 12)])
        self.assertEqual(read_list(listing(rows), ROOM), (('read', 8192), wanted))
        self.assertEqual(read_list(listing(rows), ROOM + b'abc'), (('read', 8192), wanted + b'abc'))
        self.assertEqual(read_list(words(0, 0), ROOM), (('read', 8192), bytes(8192)))

    def test_10(self):
        good = listing([(1,), (2,)])
        for data in b'', bytes(7), good[:-1], good + b'\0', good[:48], listing([(1,)], count=0), listing([(1,)], count=2), \
                listing([], count=0x66666666), listing([], count=0xFFFFFFFF):
            for room in ROOM, b'':
                self.assertEqual(read_list(data, room), (refusal(10), room))

    def test_10_takes_the_product_whole(self):
        """40 × count passes 32 bits for a count of 66666667h, and 40 × 66666667h mod 2^32 is 24."""
        self.assertEqual(40 * 0x66666667 % 2 ** 32, 24)
        self.assertEqual(read_list(words(0x66666667, 0) + bytes(24), ROOM), (refusal(10), ROOM))

    def test_12(self):
        many = [(1,)] * 65
        for data in listing([], zero=1), listing([(1,)], zero=1 << 31), listing([(1, 0, 2)]), listing([(1, 0, 1 << 31)]), \
                listing([(1, 0, 3)]), *(listing([(1,), (1, *[0] * at, 1), (1,)]) for at in (6, 7, 8)), \
                listing(many + [(1, 0, 1, 0, 0, 0, 0, 0, 0, 1 << 24)]), listing(many, zero=1):
            for room in ROOM, b'':
                self.assertEqual(read_list(data, room), (refusal(12), room))
        self.assertEqual(read_list(listing([(1, 0, 1), (1, 0, 0)]), ROOM)[0], ('read', 8192))

    def test_10_before_12(self):
        self.assertEqual(read_list(listing([(1, 0, 2)], zero=1) + b'\0', ROOM), (refusal(10), ROOM))

    def test_11(self):
        for rows in [(1,)] * 65, [(STATE,)] * 65, [(STATE,)] * 64 + [(2,)] * 65, [(STATE,)] * 65 + [(2,)] * 64:
            for room in ROOM, b'', ROOM[1:]:
                self.assertEqual(read_list(listing(rows), room), (refusal(11), room))
        answer, data = read_list(listing([(STATE,), (1,)] * 64), ROOM)
        self.assertEqual((answer, data[0], data[4096]), (('read', 8192), 64, 64))

    def test_pages_are_clean(self):
        """ "all other bytes 0", whatever was lent: no list gives pages that document 02, P10, refuses by 17. """
        for rows in [(STATE,), (1,)] * 64, [(0xFFFFFFFF, 0xFFFFFFFF, 1, *[0xFFFFFFFF] * 4)] * 64, []:
            _, data = read_list(listing(rows), ROOM)
            model.check_reserved(data)
            self.assertEqual({data[at + 40:at + 48] for _, at in model.entry_places(data)}, {bytes(8)} if rows else set())

    def test_9(self):
        for room in b'', b'z', ROOM[1:]:
            self.assertEqual(read_list(listing([(1,)]), room), (refusal(9), room))


class Again(unittest.TestCase):
    """ "exporting, importing and building again with the same secure-AVIC choice returns the same table and combined mask" """

    def again(self, source, choice):
        wanted = model.build(source, choice)
        if wanted[0] == 'refusal':
            return False
        answer, data = write_list(source, choice, b'\xA5' * 2000)
        answer, back = read_list(data[:answer[1]], b'\xA5' * 9000)
        self.assertEqual((answer, back[8192:]), (('read', 8192), b'\xA5' * 808))
        self.assertEqual(model.build(back[:8192], choice), wanted)
        return True

    def test_again(self):
        sets = [*GOOD, *(spread(changed(rich(), STATE, 0, eax=xfem)) for xfem in range(0, 256, 4))]
        sets += [spread(changed(rich(), STATE, 1, eax=eax, ecx=ecx)) for eax in range(16) for ecx in (0, 0x800, 0x1000, 0x1800)]
        sets += [pages([], entries(without(rich(), STATE, 9)))]
        for choice in False, True:
            self.assertTrue(all(self.again(source, choice) for source in sets))

    def test_again_at_random(self):
        damage, accepted = Damage(2), 0
        for number in range(600):
            source = damage.damage(damage.damage(GOOD[number % 3]))
            accepted += self.again(source, number % 2 == 1)
        self.assertGreater(accepted, 200)


if __name__ == '__main__':
    unittest.main()
