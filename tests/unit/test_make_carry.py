"""Tests of make_carry.py: its list tells wrong readings of document 02, P8, from the right one."""
from contextlib import ExitStack
import unittest
from unittest import mock

import make_carry
import model
import model_carry
from model_carry import ROWS, check_editions, check_processor, clear_bits, first_row, read_image, register
from pagesets import STATE, changed

BYTES = make_carry.questions()
MASKS = {1: model.F16C, 0x80000001: model.XOP | model.FMA4}
KNOWN = {*model.EDITIONS}


def answers():
    return (model_carry.carry_image(data, *question) for data, asked in BYTES.items() for question in asked)


RIGHT = [*answers()]


def clears(masks, gate=lambda rows: not register(rows, STATE, 0, model.EAX) & model.YMM, register_name='ecx'):
    """From 1 to 2, other bits, another register or another state than P8's."""
    def clear(rows, cleared):
        if cleared != [*MASKS.items()]:
            return clear_bits(rows, cleared)
        number = ['eax', 'ebx', 'ecx', 'edx'].index(register_name)
        for leaf, bits in masks.items():
            if (leaf, None) in rows and gate(rows):
                rows = changed(rows, leaf, **{register_name: register(rows, leaf, None, number) & ~bits})
        return rows
    return clear


def editions(unknown, back):
    def check(old, new):
        if unknown(old, new):
            raise model.Refusal(15)
        if back(old, new):
            raise model.Refusal(16)
    return check


def none(old, new):
    return not {old, new} <= KNOWN


def reader(allowed=lambda key: key in ROWS, follows=lambda key, below: key > below, left_over=False, first=first_row):
    """A reader with other tests."""
    def read(data):
        rows, below = {}, (-1, 0)
        while data:
            row = first(data)
            if row is None or not allowed(row[0]) or not follows(model.by_leaf(row[0]), below):
                return rows if left_over else None
            rows[row[0]], below, data = row[1], model.by_leaf(row[0]), data[row[2]:]
        return rows
    return read


class WrongReadings(unittest.TestCase):
    def differ(self, **readings):
        with ExitStack() as patched:
            for name, reading in readings.items():
                patched.enter_context(mock.patch.object(model_carry, name, reading))
            return any(old != new for old, new in zip(RIGHT, answers()))

    def told(self, name, readings):
        for number, reading in enumerate(readings):
            self.assertTrue(self.differ(**{name: reading}), (name, number))

    def test_right(self):
        self.assertFalse(self.differ(clear_bits=clears(MASKS), check_editions=editions(none, lambda old, new: new in range(1, old))))
        self.assertFalse(self.differ(read_image=reader()))

    def test_bits(self):
        """A bit less, a bit more or beside, another register, another state."""
        f16c, others = MASKS.values()
        wrong = [{}, {1: f16c}, {0x80000001: others}, {1: f16c, 0x80000001: model.XOP}, {1: f16c, 0x80000001: model.FMA4}]
        wrong += [{1: others, 0x80000001: f16c}]
        wrong += [{leaf: bits | (1 << bit if leaf == more else 0) for leaf, bits in MASKS.items()} for more, bit in make_carry.BESIDE]
        self.told('clear_bits', [clears(masks) for masks in wrong])
        self.told('clear_bits', [clears(MASKS, register_name=name) for name in ('eax', 'ebx', 'edx')])

        def gate(key, number, bit):
            return lambda rows: not register(rows, *key, number) >> bit & 1
        gates = [gate((STATE, 0), number, bit) for number, bit in ((model.EAX, 1), (model.EAX, 3), (model.EAX, 0), (model.ECX, 2), (model.EBX, 2))]
        gates += [lambda rows: True, lambda rows: (STATE, 2) not in rows, lambda rows: (STATE, 0) in rows and rows[STATE, 0][model.EAX] & 0xE4 == 0]
        self.told('clear_bits', [clears(MASKS, one) for one in gates])

    def test_a_row_that_was_absent(self):
        def made(rows, cleared):
            return clear_bits({**({(1, None): (0, 0, 0, 0), (0x80000001, None): (0, 0, 0, 0)} if cleared else {}), **rows}, cleared)
        self.assertTrue(self.differ(clear_bits=made))

    def test_editions(self):
        """15 for one side alone, 16 before it or for any smaller number, editions cut to a byte or taken for others."""
        def back(old, new):
            return old > new
        wrong = [editions(lambda old, new: old not in KNOWN, back), editions(lambda old, new: new not in KNOWN, back)]
        wrong += [editions(lambda old, new: not {old, new} & KNOWN, back), editions(none, lambda old, new: False)]
        wrong += [editions(none, lambda old, new: old < new), editions(none, lambda old, new: old != new), editions(none, lambda old, new: new == 1)]
        wrong += [lambda old, new, cut=cut: check_editions(old & cut, new & cut) for cut in (0xFF, 0xFFFF, 0x7FFFFFFF)]
        wrong += [lambda old, new: check_editions(old or 1, new or 1), lambda old, new: check_editions(min(old, max(KNOWN)), min(new, max(KNOWN)))]

        def first_16(old, new):
            if old > new:
                raise model.Refusal(16)
            check_editions(old, new)
        self.told('check_editions', [*wrong, first_16])

    def test_processor(self):
        """13 or 14 not given, or before 16 or 15; by what all tables have; XSS by one bit of D.1.EAX; XCR0 and XSS cut to 32 bits."""
        def patched(change):
            return lambda rows, xcr0, xss: check_processor(*change(rows, xcr0, xss))
        wrong = [lambda rows, xcr0, xss: None, patched(lambda rows, xcr0, xss: (rows, xcr0 & 0xFFFFFFFF, xss))]
        wrong += [patched(lambda rows, xcr0, xss: (rows, xcr0, xss & 0xFFFFFFFF)), patched(lambda rows, xcr0, xss: (rows, xcr0 | 1, xss))]
        wrong += [patched(lambda rows, xcr0, xss: (changed(rows, STATE, 0, eax=register(rows, STATE, 0, 0) | 3), xcr0, xss))]
        wrong += [patched(lambda rows, xcr0, xss: ({**rows, (STATE, 2): (0, 0, 0, 0)}, xcr0, xss))]
        for bit in model.XSAVEC, model.XSAVES:
            wrong.append(patched(lambda rows, xcr0, xss, bit=bit: (changed(rows, STATE, 1, eax=register(rows, STATE, 1, 0) | bit), xcr0, xss)))
        wrong.append(patched(lambda rows, xcr0, xss: (changed(rows, STATE, 1, ecx=register(rows, STATE, 1, 2) & 0x1800), xcr0, xss)))
        self.told('check_processor', wrong)

        def early(old, new):
            check_processor(self.rows, *self.state)
            check_editions(old, new)
        right = model_carry.carry

        def noted(table, old, new, *state):
            self.rows, self.state = table[1], state
            return right(table, old, new, *state)
        self.assertTrue(self.differ(check_editions=early, carry=noted))

    def test_only_from_1_to_2(self):
        """13 and 14 passed over within one edition; the bits cleared within edition 2 too."""
        right = model_carry.carry

        def unasked(table, old, new, xcr0, xss):
            return right(table, old, new, xcr0, xss) if old != new or old not in KNOWN else table

        def always(table, old, new, xcr0, xss):
            answer = right(table, old, new, xcr0, xss)
            return answer if answer[0] == 'refusal' or new == 1 else ('table', clear_bits(answer[1], MASKS.items()), None)
        self.told('carry', [unasked, always])

    def test_images(self):
        """Leaves, subleaves, order, what is left over, and tags."""
        def any_tag(data):
            return first_row(bytes([1 if data[0] != 2 else 2]) + data[1:])

        def by_leaf_alone(data):
            key = next((key for key in ROWS if data[1:5] == key[0].to_bytes(4, 'little')), (0, None))
            return first_row(bytes([1 if key[1] is None else 2]) + data[1:])
        wrong = [reader(allowed=lambda key: True), reader(allowed=lambda key: key in ROWS or key[0] in (7, 0xB, STATE) and key[1] is not None)]
        wrong += [reader(allowed=lambda key, gone=gone: key in ROWS and key != gone) for gone in ROWS]
        wrong += [reader(allowed=lambda key: key in ROWS or key == (STATE, 64)), reader(allowed=lambda key: key in ROWS or key[0] == 2)]
        wrong += [reader(follows=lambda key, below: True), reader(follows=lambda key, below: key >= below), reader(left_over=True)]
        wrong += [reader(follows=lambda key, below: below == (-1, 0) or (key[0] ^ 1 << 31, key[1]) > (below[0] ^ 1 << 31, below[1]))]
        wrong += [reader(first=any_tag), reader(first=by_leaf_alone), lambda data: read_image(data) or None]
        right = [(data, read_image(data)) for data in BYTES]
        for number, read in enumerate(wrong):
            self.assertTrue(any(read(data) != rows for data, rows in right), number)

    def test_bytes_stay(self):
        """Bytes rewritten where the answer is a refusal."""
        right = model_carry.carry_image

        def rewritten(data, *question):
            answer, after = right(data, *question)
            return answer, model.image(('table', clear_bits(read_image(data), MASKS.items()), None)) if answer[0] == 'refusal' else after
        self.assertTrue(self.differ(carry_image=rewritten))


if __name__ == '__main__':
    unittest.main()
