"""Tests of make_pool.py: its list tells wrong readings of document 02, P12, from the right one."""
from functools import cache, reduce
from itertools import accumulate
import unittest
from unittest import mock

import make_pool
import model
from model import EAX, EBX, ECX, EDX, STATE
import model_pool
from model_pool import check_alike, equal_bits, joined, lookup_origin, page_sets, pool

ALL = 0xFFFFFFFF
QUESTIONS = [*make_pool.questions()]
LOOKUPS = [(one, rest) for one, (letter, *rest) in QUESTIONS if letter == 'l']
# some of every group first, so that a wrong reading is soon told
STEP = 41
POOLS = [one for start in range(STEP) for one, question in QUESTIONS[start::STEP] if question == ('b',)]


def answers(reading=pool):
    """The answers to the list's questions for whole pools."""
    return (reading(b''.join(sets), *rest) for sets, *rest in POOLS)


def setUpModule():
    """The readings speak of pools: what single servers give is the same in all of them, and is asked once."""
    first_rows = model.first_rows
    built, entries = cache(model.build), cache(lambda *server: [(key, tuple(row)) for key, row in first_rows(*server).items()])
    for name, known in ('build', built), ('first_rows', lambda *server: {key: list(row) for key, row in entries(*server)}):
        patched = mock.patch.object(model, name, known)
        patched.start()
        unittest.addModuleCleanup(patched.stop)
    RIGHT.extend(answers())


# the answers by the model as it is
RIGHT = []
# registers that must be equal, and feature registers, of which one is read wrongly
EQUAL = ((1, None), EAX), ((STATE, 0), EBX), ((STATE, 1), EBX), ((0x8000001D, 3), ECX)
FEATURES = ((1, None), ECX), ((STATE, 0), EAX), ((STATE, 1), ECX), ((0x8000001F, None), EAX)


class WrongReadings(unittest.TestCase):
    def told(self, name, *readings):
        for number, reading in enumerate(readings):
            with mock.patch.object(model_pool, name, reading):
                self.assertTrue(any(old != new for old, new in zip(RIGHT, answers())), (name, number))

    def test_right(self):
        """The same in other words: joined one by one; a bit must be equal where demand 3 does not let it rise."""
        def by_rises(key, register):
            return sum(1 << bit for bit in range(32) if not model.register_rises(key, register, 0, 1 << bit))
        with mock.patch.object(model_pool, 'joined', lambda entries: reduce(lambda pooled, other: joined([pooled, other]), entries)):
            with mock.patch.object(model_pool, 'equal_bits', cache(by_rises)):
                self.assertTrue(all(old == new for old, new in zip(RIGHT, answers())))

    def test_sets(self):
        """Other bounds; sums of 32 or 64 bits, short or long ones let pass; all sets as long as the first."""
        def sets(fewest=2, most=16, wrong=lambda total, length: total != length, cut=None):
            def reading(pages, lengths):
                if not fewest <= len(lengths) <= most or wrong(sum(lengths), len(pages)):
                    raise model.Refusal(18)
                lengths = [lengths[0]] * len(lengths) if cut else lengths
                return [pages[max(0, end - length):end] for length, end in zip(lengths, accumulate(lengths))]
            return reading
        self.told('page_sets', sets(fewest=1), sets(fewest=3), sets(most=15), sets(most=17), sets(cut=True))
        self.told('page_sets', *(sets(wrong=lambda total, length, bits=bits: (total - length) % (1 << bits)) for bits in (8, 16, 32, 63, 64)))
        self.told('page_sets', sets(wrong=lambda total, length: total > length), sets(wrong=lambda total, length: total < length))

    def test_equal_bits(self):
        """Registers asked that are free, features asked, and registers that are not asked."""
        def but(change):
            return lambda key, register: change(key, register, equal_bits(key, register))
        self.told('equal_bits', but(lambda key, register, bits: 0 if (*key, register) == (1, None, EDX) else bits))
        self.told('equal_bits', but(lambda key, register, bits: ALL if (*key, register) == (STATE, 0, ECX) else bits))
        self.told('equal_bits', but(lambda key, register, bits: 0 if key[0] == STATE and key[1] > 1 else bits))
        for place in EQUAL:
            self.told('equal_bits', but(lambda key, register, bits, place=place: 0 if (key, register) == place else bits))
        for place in FEATURES:
            self.told('equal_bits', but(lambda key, register, bits, place=place: ALL if (key, register) == place else bits))

    def test_rows_that_are_compared(self):
        """B.0 and B.1; the first's rows or any table's; only neighbours, the first two, or all but the first."""
        with mock.patch.object(model_pool, 'APART', set()):
            self.assertTrue(any(old != new for old, new in zip(RIGHT, answers())))

        def some(rows):
            def reading(entries, tables):
                every = {key: [0] * 4 for key in model.KEPT[False]}
                check_alike([{**every, **one} for one in entries], [('table', rows(tables))] * len(tables))
            return reading
        self.told('check_alike', some(lambda tables: tables[0][1]), some(lambda tables: set().union(*(table[1] for table in tables))))
        self.told('check_alike', some(lambda tables: {key for key in tables[0][1] if key[0] != STATE or key[1] < 2}))
        self.told('check_alike', lambda entries, tables: check_alike(entries[:2], tables[:2]), lambda entries, tables: None)
        self.told('check_alike', lambda entries, tables: check_alike(entries[1:], tables[1:]))
        self.told('check_alike', lambda entries, tables: [check_alike(entries[k:k + 2], tables[k:k + 2]) for k in range(len(entries) - 1)])

    def test_join(self):
        """By or; not at all; the last's; one server left out; one feature register left out."""
        self.told('joined', lambda entries: joined(entries[:1]), lambda entries: joined(entries[-1:]), lambda entries: joined(entries[:2]))
        self.told('joined', lambda entries: joined(entries[:1] + entries[2:]), lambda entries: joined(entries[:-1]))

        def by_or(entries):
            rows = joined(entries)
            for key, registers in model.FEATURES.items():
                for register in registers:
                    for one in entries:
                        rows[key][register] |= one[key][register]
            return rows
        self.told('joined', by_or)
        for place in FEATURES:
            def but(entries, place=place):
                rows, (key, register) = joined(entries), place
                rows[key][register] = entries[0][key][register]
                return rows
            self.told('joined', but)

    def test_order(self):
        """The last server's refusal; 15 before 18; 19 before a server's own; the wrong server named."""
        def readings(answer):
            self.assertTrue(any(old != new for old, new in zip(RIGHT, answers(answer))))

        def last(pages, lengths, *choices):
            answer, server = pool(pages, lengths, *choices)
            if answer[0] == 'table' or answer[1] in (15, 18, 19):
                return answer, server
            found = [model.build(data, *choices) for data in page_sets(pages, lengths)]
            return next((table, number) for number, table in reversed([*enumerate(found)]) if table[0] == 'refusal')

        def edition_first(pages, lengths, secure_avic, edition):
            answer = pool(pages, lengths, secure_avic, edition)
            return (('refusal', 15, 0, None, 0), 0) if edition not in (1, 2) else answer

        def unnamed(*question):
            return pool(*question)[0], 0

        def named_from_1(*question):
            answer, server = pool(*question)
            return answer, server + (answer[0] == 'refusal')

        def alike_first(pages, lengths, *choices):
            answer, server = pool(pages, lengths, *choices)
            if answer[0] == 'refusal' and answer[1] not in (15, 18, 19):
                sets = [data for data in page_sets(pages, lengths) if model.build(data, *choices)[0] == 'table']
                if len(sets) > 1 and pool(b''.join(sets), [len(data) for data in sets], *choices)[0][:2] == ('refusal', 19):
                    return ('refusal', 19, 0, None, 0), 0
            return answer, server
        for reading in last, edition_first, unnamed, named_from_1, alike_first:
            readings(reading)

    def test_origins(self):
        """Of the last server, or of none."""
        def found(reading=lambda pages, lengths: (pages, lengths)):
            for (sets, lengths, *choices), rest in LOOKUPS:
                pages, lengths = b''.join(sets), list(lengths)
                answer = pool(pages, lengths, *choices)[0]
                yield lookup_origin(*reading(pages, lengths), answer, *rest) if answer[0] == 'table' else None

        def last_first(pages, lengths):
            *others, last = page_sets(pages, lengths)
            return b''.join([last, *others]), [lengths[-1], *lengths[:-1]]
        self.assertTrue(any(old != new for old, new in zip(found(), found(last_first))))


if __name__ == '__main__':
    unittest.main()
