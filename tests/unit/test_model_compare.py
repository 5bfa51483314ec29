"""Tests of model.py: the comparison of two servers, document 01, "Feature registers of demand 3"."""
import unittest

import model
from pagesets import STATE, changed, minimal, rich, spread, with_topology, without

ALL = 0xFFFFFFFF
NAMES = 'eax ebx ecx edx'.split()


def compared(a, b, secure_avic=False):
    return model.compare(spread(a), spread(b), secure_avic)


class Comparisons(unittest.TestCase):
    def test_order(self):
        """A's refusal, B's length, B's counts, then places by leaf and subleaf and registers in order."""
        self.assertEqual(model.compare(b'', b'', False), ('refused A', 1, 0, None, 0))
        self.assertEqual(model.compare(spread(minimal()), b'', False), ('unlawful B', 1, 0, None, 0))
        damaged = b'\x41' + spread(minimal())[1:]
        self.assertEqual(model.compare(spread(minimal()), damaged, False), ('unlawful B', 2, 0, None, 0))
        self.assertEqual(model.compare(spread(minimal()), damaged[:-1], False), ('unlawful B', 1, 0, None, 0))
        fewer = without(without(rich(), 7, 0), 1)
        self.assertEqual(compared(rich(), fewer), ('no entry', 1, None))
        other = changed(changed(rich(), 0x80000002, edx=0), 0x80000002, ecx=0)
        self.assertEqual(compared(rich(), other), ('differs', 0x80000002, None, model.ECX))

    def test_features(self):
        """Bits may come, in the feature registers; none may go. 1.EDX bit 28 must stay."""
        base = with_topology({**rich(), **{key: (0,) * 4 for key in model.FEATURES if key[0] != STATE}}, 0, 0, 0, 0, 0)
        base = changed(base, 0x80000008, ebx=1 << 3)
        for (leaf, subleaf), registers in model.FEATURES.items():
            if leaf == STATE:
                continue
            for register in registers:
                value = ALL & ~(1 << 28) if (leaf, register) == (1, model.EDX) else ALL
                more = changed(base, leaf, subleaf, **{NAMES[register]: value})
                self.assertEqual(compared(base, more), ('rises',))
                self.assertEqual(compared(more, base), ('differs', leaf, subleaf, register))
        self.assertEqual(compared(base, changed(base, 1, edx=1 << 28)), ('differs', 1, None, model.EDX))

    def test_freed(self):
        """D.0.ECX and all of B.0 and B.1; D.0.EAX bits 0 and 1, which are set in both."""
        for leaf, subleaf, change in (STATE, 0, {'ecx': 7}), (0xB, 0, {'eax': 7}), (0xB, 1, {'edx': 7}), (STATE, 0, {'eax': 0xE4}):
            self.assertEqual(compared(rich(), changed(rich(), leaf, subleaf, **change)), ('rises',))
        self.assertEqual(compared(rich(), without(rich(), 0xB, 1)), ('no entry', 0xB, 1))

    def test_dropped(self):
        """A D subleaf that A's mask does not have is no row of A's table."""
        self.assertEqual(compared(rich(), without(rich(), STATE, 9)), ('rises',))
        self.assertEqual(compared(rich(), without(rich(), STATE, 12)), ('no entry', STATE, 12))

    def test_secure_avic(self):
        """The choice decides whether 8000001Fh.EAX bit 26 is compared."""
        off = changed(rich(), 0x8000001F, eax=ALL & ~(1 << 26))
        self.assertEqual(compared(rich(), off), ('rises',))
        self.assertEqual(compared(rich(), off, True), ('differs', 0x8000001F, None, model.EAX))


if __name__ == '__main__':
    unittest.main()
