"""Tests of model_pool.py: document 02, P12, one table for a pool of servers. Quotations are document 02's."""
from functools import reduce
from itertools import permutations, product
from operator import and_
import random
import unittest

import model
from model import EAX, EBX, ECX, EDX, FEATURES
import model_origins
from model_pool import lookup_origin, origins, pool
from pagesets import MILAN, STATE, changed, minimal, page, pages, rich, split, spread, with_byte, with_topology, without

ALL = 0xFFFFFFFF
NAMES = 'eax ebx ecx edx'.split()
NO_DETAILS = 0, None, 0


def of_sets(*sets, secure_avic=False, edition=1):
    return pool(b''.join(sets), [len(data) for data in sets], secure_avic, edition)


def of_rows(*servers, **choices):
    return of_sets(*(spread(rows) for rows in servers), **choices)


def refusal(number, server=0, details=NO_DETAILS):
    return ('refusal', number, *details), server


PLACES = [(key, register) for key, registers in FEATURES.items() for register in registers]


def bits(table):
    """The feature registers, bit 28 of 1.EDX, which all have alike or none, among them, and the combined mask: one number."""
    return reduce(lambda number, place: number << 32 | table[1][place[0]][place[1]], PLACES, table[2])


def state(*subleaves):
    """Rows whose D.0.EAX has these bits, and D.1 the two of CET, with the entries of rich()."""
    rows = changed(rich(), STATE, 0, eax=sum(1 << subleaf for subleaf in subleaves))
    return {key: row for key, row in rows.items() if key[0] != STATE or key[1] in (0, 1, 11, 12, *subleaves)}


class Sets(unittest.TestCase):
    """ "18 fewer than 2 or more than 16 sets, or lengths that don't sum to the slice, first" """

    def test_how_many(self):
        for count in range(19):
            answer, server = of_sets(*[MILAN] * count)
            self.assertEqual((answer[1] if answer[0] == 'refusal' else 0, server), (0 if 2 <= count <= 16 else 18, 0), count)

    def test_sums(self):
        data, length = MILAN * 2, len(MILAN)
        for lengths in [length, length - 1], [length, length + 1], [length], [length] * 3, [2 * length, 1], [0], []:
            self.assertEqual(pool(data, lengths, False), refusal(18), lengths)
        # sums that are the slice's only modulo 2^32 or 2^64
        for word in 2 ** 32, 2 ** 64:
            for lengths in [length, word + length], [word - 1, 2 * length + 1], [word // 2, word // 2 + 2 * length], [word - length, 3 * length]:
                self.assertEqual(pool(data, lengths, False), refusal(18), lengths)
        self.assertEqual(pool(data, [length, length], False)[0], model.build(MILAN, False))

    def test_where_a_set_ends(self):
        """The lengths say it: of one page alone there is no leaf Dh, and the next set begins with the second page."""
        self.assertEqual(pool(MILAN * 2, [4096, 3 * 4096], False), refusal(3, 0, (STATE, 0, 0)))
        self.assertEqual(pool(MILAN * 2, [3 * 4096, 4096], False), refusal(3, 1, (1, None, 0)))
        # a set and what follows it: the second set is longer, and its own
        self.assertEqual(of_sets(MILAN, MILAN + bytes(4096))[0], model.build(MILAN, False))

    def test_empty_sets(self):
        self.assertEqual(pool(b'', [], False), refusal(18))
        self.assertEqual(pool(b'', [0], False), refusal(18))
        for count in 2, 16:
            self.assertEqual(pool(b'', [0] * count, False), refusal(1, 0))
        self.assertEqual(pool(b'', [0] * 17, False), refusal(18))
        self.assertEqual(of_sets(MILAN, b'', MILAN), refusal(1, 1))
        self.assertEqual(of_sets(MILAN, MILAN, b''), refusal(1, 2))


class Order(unittest.TestCase):
    """ "18 .. first; then any server's own refusal in server order; then 19" """

    def test_a_servers_own(self):
        other = changed(rich(), 5, eax=0)
        no_invlpgb = changed(rich(), 0x80000008, ebx=0)
        unit = with_topology(rich(), 7, 127, 128, 1, 9)
        unlike = with_topology(rich(), 7, 127, 128, 0, 1)
        self.assertEqual(of_rows(rich(), other), refusal(19))
        self.assertEqual(of_rows(rich(), other, no_invlpgb), refusal(4, 2))
        self.assertEqual(of_rows(rich(), other, unit, no_invlpgb), refusal(8, 2))
        self.assertEqual(of_rows(no_invlpgb, unit), refusal(4, 0))
        # with what it names
        self.assertEqual(of_rows(rich(), without(rich(), 0x8000001D, 2), unlike), refusal(3, 1, (0x8000001D, 2, 0)))
        self.assertEqual(of_rows(rich(), unlike), refusal(6, 1, (0, None, 7)))
        self.assertEqual(of_sets(spread(rich()), with_byte(spread(rich()), 0, 0, 40, 1)), refusal(17, 1, (1, None, 0)))

    def test_18_and_15_first(self):
        wrong = b'\x41' + MILAN[1:]
        self.assertEqual(of_sets(wrong, edition=model.NO_EDITION), refusal(18))
        self.assertEqual(of_sets(wrong, wrong, edition=model.NO_EDITION), refusal(15))
        self.assertEqual(of_sets(MILAN, b'', edition=0), refusal(15))
        self.assertEqual(of_rows(rich(), changed(rich(), 5, eax=0), edition=ALL), refusal(15))


class Alike(unittest.TestCase):
    """ "19 where rows that all tables have, B.0 and B.1 apart, differ elsewhere than in feature registers or D.0.ECX, by masked entry" """

    def both(self, *servers, **choices):
        """The refusal's number or 0, the same in either order."""
        numbers = [answer[1] if answer[0] == 'refusal' else 0 for answer, _ in (of_rows(*order, **choices) for order in permutations(servers))]
        self.assertEqual(len(set(numbers)), 1)
        return numbers[0]

    def test_every_register(self):
        """One bit of every register of every row that a table keeps: 19 where the row's register is no feature register and keeps the bit."""
        base = state(2, 5, 6, 7)
        kept = model.KEPT[False]
        topology_inputs = {(1, None, EBX): 0xFF << 16, (0x80000008, None, ECX): 0xF0FF, (0x8000001E, None, EBX): 0xFF << 8}
        for key in base:
            for register, mask in enumerate(kept[key]):
                bits = mask & ~topology_inputs.get((*key, register), 0)
                for bit in {bits.bit_length() - 1, (bits & -bits).bit_length() - 1} - {-1}:
                    other = changed(base, *key, **{NAMES[register]: base[key][register] ^ 1 << bit})
                    alike = register in FEATURES.get(key, ()) or key[0] == 0xB or (*key, register) == (STATE, 0, ECX)
                    # without INVLPGB or a size that can be added there is no table
                    number = self.both(base, other)
                    if model.build(spread(other), False)[0] == 'table':
                        self.assertEqual(number, 0 if alike else 19, (key, register, bit))

    def test_bit_28(self):
        """It is no feature: with and without it both servers are accepted where s is above 7."""
        one, none = (with_topology(minimal(), 8, 0, 0, mt, 0) for mt in (1, 0))
        self.assertEqual(self.both(one, none), 19)
        self.assertEqual([self.both(rows, rows) for rows in (one, none)], [0, 0])
        self.assertEqual(self.both(one, changed(one, 1, edx=ALL)), 0)

    def test_masked(self):
        """Bits that no table keeps, and bits 0 and 1 of D.0.EAX."""
        self.assertEqual(self.both(minimal(), changed(minimal(), 0x80000019, ecx=ALL, edx=ALL)), 0)
        self.assertEqual(self.both(minimal(), changed(minimal(), 1, eax=0xF000C000)), 0)
        self.assertEqual(self.both(minimal(), changed(minimal(), 1, eax=1)), 19)
        self.assertEqual(self.both(minimal(), changed(minimal(), STATE, 0, eax=3)), 0)
        # the choice adds a bit to a feature register
        self.assertEqual(self.both(minimal(), changed(minimal(), 0x8000001F, eax=1 << 26), secure_avic=True), 0)

    def test_free(self):
        self.assertEqual(self.both(rich(), changed(rich(), STATE, 0, ecx=0)), 0)
        self.assertEqual(self.both(rich(), changed(rich(), STATE, 0, ebx=0)), 19)
        for subleaf in 0, 1:
            self.assertEqual(self.both(rich(), changed(rich(), 0xB, subleaf, eax=1, ebx=2, ecx=3, edx=4)), 0)

    def test_rows_that_all_tables_have(self):
        less, size = state(2), changed(state(2, 5, 6, 7), STATE, 6, edx=1)
        self.assertEqual(self.both(state(2, 5, 6, 7), size), 19)
        self.assertEqual(self.both(less, size), 0)
        # entries of D.9, which no table has; entries of D.6, where one table has not the row
        self.assertEqual(self.both(rich(), changed(rich(), STATE, 9, eax=7)), 0)
        self.assertEqual(self.both(rich(), changed(changed(rich(), STATE, 6, eax=7), STATE, 0, eax=7)), 0)
        # two differ in a row that the first has not
        self.assertEqual(of_rows(less, size, state(2, 5, 6, 7))[0][0], 'table')

    def test_lifted_by_a_third_server(self):
        """A server more may lift a 19, so that a row or bit is "added" to nothing: there was no table."""
        one, other, third = state(2, 5, 6, 7), changed(state(2, 5, 6, 7), STATE, 7, eax=1000), state(2)
        self.assertEqual(of_rows(one, other), refusal(19))
        for servers in permutations((one, other, third)):
            answer, _ = of_rows(*servers)
            self.assertEqual(answer, model.build(spread(third), False))


class Tables(unittest.TestCase):
    def test_by_hand(self):
        """Without FMA on one, without MOVBE and the CET states on another."""
        no_fma = changed(rich(), 1, ecx=ALL & ~(1 << 12))
        poor = changed(changed(rich(), 1, ecx=ALL & ~(1 << 22)), STATE, 1, eax=0xD)
        answer, server = of_rows(rich(), no_fma, poor)
        whole = model.build(spread(rich()), False)
        self.assertEqual((answer[0], server, whole[2], answer[2]), ('table', 0, 0x18E7, 0xE7))
        self.assertEqual(whole[1].keys() - answer[1].keys(), {(STATE, 11), (STATE, 12)})
        self.assertEqual(answer[1].keys() - whole[1].keys(), set())
        different = {(key, register): (whole[1][key][register], answer[1][key][register])
                     for key in answer[1] for register in range(4) if whole[1][key][register] != answer[1][key][register]}
        self.assertEqual(different, {
            # FMA and MOVBE; CET_SS; XSAVEC, and what XSS had
            ((1, None), ECX): (0xFEDA3203, 0xFE9A2203), ((7, 0), ECX): (0x1A405FE6, 0x1A405F66),
            ((STATE, 1), EAX): (0xB, 9), ((STATE, 1), ECX): (0x1800, 0)})

    def test_the_save_area_is_that_of_the_state_that_is_left(self):
        answer, _ = of_rows(state(2, 5, 6, 7), state(2))
        self.assertEqual((answer[1][STATE, 0][ECX], answer[2]), (832, 0x1807))

    def test_features_that_hang_on_others(self):
        """Each server has one of two: XSAVEC and XSAVES; IBPB and IBRS; TSC_AUX and RDTSCP; F16C and the YMM state, under edition 2."""
        one, other = changed(rich(), STATE, 1, eax=2), changed(rich(), STATE, 1, eax=8)
        self.assertEqual([of_rows(*servers)[0][2] for servers in ((one, one), (one, other), (rich(), other))], [0xE7] * 3)
        one, other = changed(rich(), 0x80000008, ebx=1 << 3 | 1 << 12), changed(rich(), 0x80000008, ebx=1 << 3 | 3 << 14)
        self.assertEqual(of_rows(one, other)[0][1][0x80000008, None][EBX], 1 << 3 | 1 << 29)
        one, other = changed(rich(), 0x8000001F, eax=0), changed(rich(), 0x80000001, edx=0)
        self.assertEqual(of_rows(one, other)[0][1][0x80000001, None][EDX], 0)
        one, other = changed(rich(), STATE, 0, eax=3), changed(rich(), 1, ecx=1 << 29)
        for edition, ecx in (1, 1 << 31 | 1 << 29), (2, 1 << 31):
            self.assertEqual(of_rows(one, other, edition=edition)[0][1][1, None][ECX], ecx)

    def test_secure_avic(self):
        off = changed(rich(), 0x8000001F, eax=ALL & ~(1 << 26))
        for servers, choice, bit in ((rich(), rich()), True, 1), ((rich(), rich()), False, 0), ((rich(), off), True, 0), ((off, rich()), True, 0):
            self.assertEqual(of_rows(*servers, secure_avic=choice)[0][1][0x8000001F, None][EAX] >> 26 & 1, bit)

    def test_origins_are_the_firsts(self):
        """ "keeps all else from the first, origins included" """
        main, dh = split(rich())
        late = pages([], dh, main)
        reverse = pages(main[::-1], dh[::-1])
        less = spread(without(without(changed(changed(rich(), STATE, 1, ecx=0), 1, ecx=0), STATE, 11), STATE, 12))
        # leaf 1 and D.0 by hand
        by_hand = {spread(rich()): ((0, 0), (1, 0)), late: ((2, 0), (1, 0)), reverse: ((0, len(main) - 1), (1, len(dh) - 1)), less: ((0, 0), (1, 0))}
        for servers in permutations(by_hand):
            data, lengths = b''.join(servers), [len(one) for one in servers]
            answer, _ = pool(data, lengths, False)
            held = origins(data, lengths, answer)
            own = model_origins.origins(servers[0], model.build(servers[0], False))
            self.assertEqual(held, {key: own[key] for key in answer[1]})
            self.assertEqual(lookup_origin(data, lengths, answer, 1, 9, False), own[1, None])
            self.assertEqual((held[1, None], held[STATE, 0]), by_hand[servers[0]])
            self.assertIsNone(lookup_origin(data, lengths, answer, STATE, 11, False))
        self.assertEqual(origins(b'', [], of_sets()[0]), {})


class Pools:
    """Pools at random: servers with the same figures, whose feature bits and states differ; some besides in another register or a subleaf's size."""

    def __init__(self, seed):
        self.draw = random.Random(seed)

    def features(self, rows, rarely):
        """Bits taken away, one in 2^rarely; bit 28 of 1.EDX is no feature, and without INVLPGB there is no table."""
        for key, registers in FEATURES.items():
            for register in registers if key[0] != STATE else ():
                lost = reduce(and_, (self.draw.getrandbits(32) for _ in range(rarely)))
                if (key, register) == ((1, None), EDX):
                    lost &= ~(1 << 28)
                if key == (0x80000008, None) and self.draw.random() < .95:
                    lost &= ~(1 << 3)
                rows = changed(rows, *key, **{NAMES[register]: rows[key][register] & ~lost})
        return rows

    def server(self):
        draw = self.draw
        rows = self.features(rich(), draw.choice((1, 3, 6, 9)))
        xfem = sum(1 << bit for bit in (2, 5, 6, 7) if draw.random() < .8)
        xss = sum(1 << bit for bit in (11, 12) if draw.random() < .8)
        rows = changed(changed(rows, STATE, 0, eax=xfem, ecx=draw.getrandbits(12)), STATE, 1, eax=draw.choice((0xB, 0xB, 0xF, 9, 2)), ecx=xss)
        for subleaf in (2, 5, 6, 7, 9, 11, 12):
            if draw.random() < (.01 if (xfem | xss) >> subleaf & 1 else .3):
                rows = without(rows, STATE, subleaf)
        if draw.random() < .1:
            rows = changed(rows, STATE, draw.choice((5, 6, 7)), eax=draw.choice((0, 1, 64)))
        if draw.random() < .02:
            key = draw.choice([key for key in rows if key[0] != STATE])
            rows = changed(rows, *key, **{draw.choice(NAMES): draw.getrandbits(32)})
        return self.laid_out(rows)

    def laid_out(self, rows):
        main, dh = split(rows)
        self.draw.shuffle(main)
        self.draw.shuffle(dh)
        return self.draw.choice((pages(main, dh), pages([], dh, main), pages(main[:9], dh + main[9:]), page(main) + page(dh, fill=0x5A)))

    def pools(self, many):
        """(sets, secure AVIC, edition)."""
        for _ in range(many):
            yield [self.server() for _ in range(self.draw.randrange(2, 7))], self.draw.random() < .5, self.draw.choice((1, 2))


class Properties(unittest.TestCase):
    """What P12 says of every pool, on pools at random."""

    @classmethod
    def setUpClass(cls):
        cls.seen = [(sets, choices, of_sets(*sets, secure_avic=choices[0], edition=choices[1]), [model.build(data, *choices) for data in sets])
                    for sets, *choices in Pools(12).pools(300)]
        cls.accepted = [(sets, choices, answer[0], tables) for sets, choices, answer, tables in cls.seen if answer[0][0] == 'table']

    def test_every_answer_comes(self):
        numbers = {answer[0][1] if answer[0][0] == 'refusal' else 0 for _, _, answer, _ in self.seen}
        self.assertTrue({0, 3, 4, 19} <= numbers, numbers)
        self.assertGreater(len(self.accepted), 80)

    def test_refused(self):
        """A server's own, the first; else 19, or the table: the join of accepted servers is never refused by building."""
        for _, _, (answer, server), tables in self.seen:
            own = [(table, number) for number, table in enumerate(tables) if table[0] == 'refusal']
            self.assertEqual((answer, server) if own else ('own', 0), own[0] if own else ('own', 0))
            self.assertTrue(own or answer[0] == 'table' or (answer, server) == refusal(19))

    def test_and_of_the_tables(self):
        """ "On feature registers and combined mask it equals the and of the servers' tables" """
        for _, _, answer, tables in self.accepted:
            self.assertEqual(bits(answer), reduce(and_, map(bits, tables)))

    def test_rows_that_all_have(self):
        """ "its leaf Dh subleaves are those that all have"; all other rows every table has. """
        for _, _, answer, tables in self.accepted:
            self.assertEqual(set(answer[1]), set.intersection(*(set(table[1]) for table in tables)))

    def test_all_else_is_the_firsts(self):
        for _, _, answer, tables in self.accepted:
            for key, registers in answer[1].items():
                for register, value in enumerate(registers):
                    if (key, register) not in [*PLACES, ((STATE, 0), ECX)]:
                        self.assertEqual(value, tables[0][1][key][register], (key, register))

    def test_greatest(self):
        """ "a table whose feature bits and mask lie within every server's has none beyond the pool's": of all servers' tables, and all pools'. """
        found = {bits(table) for _, _, answer, tables in self.accepted for table in (answer, *tables)}
        met = 0
        for _, _, answer, tables in self.accepted:
            pooled, servers = bits(answer), [*map(bits, tables)]
            for candidate in found:
                if all(candidate & ~server == 0 for server in servers):
                    met += 1
                    self.assertEqual(candidate & ~pooled, 0)
        self.assertGreater(met, 2 * len(self.accepted))

    def test_one_server_more(self):
        """ "Joining one server more, where that isn't refused, never adds a feature bit or a row." """
        met, more = 0, Pools(13)
        for sets, choices, answer, _ in self.accepted:
            place = more.draw.randrange(1, len(sets) + 1)
            larger, _ = of_sets(*sets[:place], more.server(), *sets[place:], secure_avic=choices[0], edition=choices[1])
            if larger[0] == 'table':
                met += 1
                self.assertLessEqual(set(larger[1]), set(answer[1]))
                self.assertEqual(bits(larger) & ~bits(answer), 0)
        self.assertGreater(met, 50)

    def test_order_of_the_others(self):
        """The first server's rows are named; the order of the others tells nothing, and of an accepted pool's table no order does."""
        for sets, choices, answer, _ in self.accepted[:20]:
            for order in (sets[::-1], sets[1:] + sets[:1], [sets[0], *sets[:0:-1]]):
                self.assertEqual(of_sets(*order, secure_avic=choices[0], edition=choices[1])[0], answer)

    def test_a_pool_of_one_server_twice(self):
        for data, choice, edition in product((MILAN, spread(rich()), spread(minimal())), (False, True), (1, 2)):
            for count in 2, 16:
                self.assertEqual(of_sets(*[data] * count, secure_avic=choice, edition=edition), (model.build(data, choice, edition), 0))


if __name__ == '__main__':
    unittest.main()
