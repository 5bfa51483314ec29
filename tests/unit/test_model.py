"""Tests of model.py: the marked rows of document 01, its check masks, each rule and the refusals in order."""
from itertools import product
import unittest

import model
from model_masks import KEPT, bits
from pagesets import MILAN, STATE, changed, minimal, rich, spread, with_topology, without

EAX, EBX, ECX, EDX = range(4)
ALL = 0xFFFFFFFF


def refusal(number, leaf=0, subleaf=None, s=0):
    return ('refusal', number, leaf, subleaf, s)


def built(rows, secure_avic=False):
    return model.build(spread(rows), secure_avic)


def row(answer, leaf, subleaf=None):
    return answer[1][leaf, subleaf]


class MarkedRows(unittest.TestCase):
    """Document 01, "Rows to prove"."""

    # (s, nc, lps, mt, t): B.1's EAX and EBX, or the refusal
    TOPOLOGY = {
        'T1': ((0, 0, 0, 0, 0), (0, 1)),
        'T2': ((0, 0, 2, 0, 0), refusal(6)),
        'T3': ((0, 2, 3, 1, 0), (2, 3)),  # document 02, P5: "T3 now has EAX 2"
        'T4': ((0, 255, 0, 1, 0), refusal(7)),
        'T5': ((7, 127, 128, 1, 1), (7, 128)),
        'T6': ((7, 128, 128, 1, 0), refusal(7, s=7)),
        'T7': ((7, 127, 128, 0, 0), refusal(6, s=7)),
        'T8': ((8, 0, 0, 0, 1), (8, 256)),
        'T9': ((15, 0, 0, 0, 0), (15, 32768)),
        'T10': ((0, 0, 1, 1, 1), refusal(8)),
    }

    def test_topology_rows(self):
        for name, (inputs, wanted) in self.TOPOLOGY.items():
            for rows in minimal(), rich():
                with self.subTest(name):
                    answer = built(with_topology(rows, *inputs))
                    if wanted[0] == 'refusal':
                        self.assertEqual(answer, wanted)
                        continue
                    self.assertEqual(row(answer, 0xB, 1), (*wanted, 0x201, 0))
                    self.assertEqual(row(answer, 0xB, 0), (1, 2, 0x100, 0) if inputs[4] else (0, 1, 0x100, 0))

    def test_x1(self):
        self.assertEqual(row(built(changed(minimal(), STATE, 0, eax=3)), STATE, 0)[ECX], 576)

    def test_x2_x3(self):
        rows = changed(minimal(), STATE, 0, eax=7)
        for eax, ebx, wanted in (256, 576, 832), (ALL, 0, ALL):
            self.assertEqual(row(built(changed(rows, STATE, 2, eax=eax, ebx=ebx)), STATE, 0)[ECX], wanted)
        self.assertEqual(built(changed(rows, STATE, 2, eax=ALL, ebx=1)), refusal(5))

    def test_c1(self):
        answer = built(changed(changed(minimal(), STATE, 1, eax=2, ecx=0x1800), STATE, 11))
        self.assertEqual(row(answer, STATE, 1), (2, 0, 0, 0))
        self.assertNotIn((STATE, 11), answer[1])
        self.assertEqual((len(answer[1]), answer[2]), (26, 3))


class Masks(unittest.TestCase):
    """Document 01, "Corners of masking.rs"."""

    def test_check_masks(self):
        kept = KEPT[False]
        self.assertEqual(kept[1, None][ECX:], (0x7EDA3203, 0x178BFBFF))
        self.assertEqual(kept[STATE, 0][EAX], 0xE7)
        self.assertEqual((kept[STATE, 1][EAX], kept[STATE, 1][ECX]), (0xB, 0x1800))

    # the masks that are not all ones, as numbers
    PARTIAL = {
        (1, None): (0x0FFF3FFF, ALL, 0x7EDA3203, 0x178BFBFF),
        (7, 0): (ALL, 0xF1BF27A9, 0x1A405FE6, 0x00804110),
        (STATE, 0): (0xE7, ALL, ALL, 0),
        (STATE, 1): (0xB, ALL, 0x1800, 0),
        (0x80000001, None): (0x0FFF3FFF, 0xF000FFFF, 0x00410DF3, 0xEFD3FBFF),
        (0x80000008, None): (0xFFFF, 0x3112D21F, 0xF0FF, ALL),
        (0x8000000A, None): (0xFF, 0, 0, 0),
        (0x80000019, None): (ALL, ALL, 0, 0),
        (0x8000001A, None): (0x7, 0, 0, 0),
        (0x8000001E, None): (ALL, ALL, ALL, 0),
        (0x8000001F, None): (0x27F, 0xFFFF, ALL, ALL),
    }

    def test_kept_places(self):
        # with the two rows that are made here
        self.assertEqual(len(KEPT[False]) + 2, 88)
        for key, masks in KEPT[False].items():
            self.assertEqual(masks, self.PARTIAL.get(key, (ALL,) * 4))
        for key, masks in KEPT[True].items():
            extra = 1 << 26 if key == (0x8000001F, None) else 0
            self.assertEqual(masks, (KEPT[False][key][EAX] | extra, *KEPT[False][key][EBX:]))

    def test_cleared_bits_are_those_that_mod_rs_names(self):
        self.assertEqual(bits(1, None, 'ECX', 'avx fma'), 0x10001000)
        self.assertEqual(bits(7, 0, 'EBX', 'avx2'), 0x20)
        self.assertEqual(bits(7, 0, 'ECX', 'vaes gfni vpclmulqdq'), 0x700)
        self.assertEqual(bits(7, 0, 'EBX', 'avx512f avx512dq avx512ifma avx512cd avx512bw avx512vl'), 0xD0230000)
        self.assertEqual(
            bits(7, 0, 'ECX', 'avx512vbmi avx512_vbmi2 avx512_vnni avx512_bitalg avx512_vpopcntdq'), 0x5842)
        self.assertEqual(bits(7, 0, 'EDX', 'avx512_vp2intersect avx512_fp16'), 0x800100)

    def test_every_register_is_masked(self):
        # the rows of rich() whose last value is neither changed nor made: all ones come out as the mask
        answer = built(rich(), True)
        for key in ((5, None), (7, 0), (0x80000001, None), (0x8000000A, None), (0x80000019, None),
                    (0x8000001A, None), (0x8000001D, 3), (0x8000001F, None)):
            self.assertEqual(answer[1][key], KEPT[True][key])
        self.assertEqual(row(answer, 1)[ECX], 0xFEDA3203)
        self.assertEqual(row(answer, STATE, 0), (0xE7, ALL, 2432, 0))


class Accepted(unittest.TestCase):
    """Document 01, "Corners of mod.rs"."""

    def test_rows(self):
        for pages, mask, count in (MILAN, 0x1807, 29), (spread(minimal()), 3, 26), (spread(rich()), 0x18E7, 32):
            kind, rows, combined = model.build(pages, False)
            self.assertEqual((kind, combined, len(rows)), ('table', mask, count))
            self.assertEqual(len(rows), 26 + len(model.components(combined)))
            self.assertEqual(sum(subleaf is None for _, subleaf in rows), 17)
            vendor = (0x68747541, 0x444D4163, 0x69746E65)
            self.assertEqual(rows[0, None], (0xD, *vendor))
            self.assertEqual(rows[0x80000000, None], (0x8000001F, *vendor))

    def test_milan(self):
        answer = model.build(MILAN, False)
        self.assertEqual(row(answer, 7, 0), (0, 0x219C07A9, 0x684, 0x10))
        self.assertEqual(row(answer, STATE, 0), (7, 0x340, 832, 0))
        self.assertEqual(row(answer, 0xB, 1), (7, 128, 0x201, 0))
        self.assertEqual(row(answer, 0x80000001)[EDX], 0x27D3FBFF)
        self.assertEqual(row(answer, 0x8000001F)[EAX], 0x3F)

    def test_states_without_their_bit_are_dropped(self):
        rows = minimal()
        for subleaf in range(2, 64):
            rows = changed(rows, STATE, subleaf, eax=subleaf)
        self.assertEqual(set(built(rows)[1]), set(minimal()) | {(0, None), (0x80000000, None)})
        needed = {(STATE, subleaf) for subleaf in (2, 5, 6, 7)}
        self.assertEqual(set(built(changed(rows, STATE, 0, eax=ALL))[1]) - set(built(rows)[1]), needed)

    def test_area_ignores_states_of_xss(self):
        answer = built(changed(rich(), STATE, 11, eax=ALL, ebx=ALL))
        self.assertEqual(row(answer, STATE, 0)[ECX], 2432)

    def test_area_takes_the_largest(self):
        answer = built(changed(rich(), STATE, 5, eax=10000, ebx=20000))
        self.assertEqual(row(answer, STATE, 0)[ECX], 30000)

    def test_cet_needs_both_states(self):
        for ecx, cet in (0x800, 0), (0x1000, 0), (0x1800, 1), (0, 0):
            answer = built(changed(rich(), STATE, 1, ecx=ecx))
            self.assertEqual(row(answer, 7, 0)[ECX] >> 7 & 1, cet)
            self.assertEqual((answer[2], row(answer, STATE, 1)[ECX]), (0xE7 | ecx, ecx))

    def test_xss_needs_xsavec_and_xsaves(self):
        for eax, mask in (0b0010, 0xE7), (0b1000, 0xE7), (0b0101, 0xE7), (0b1010, 0x18E7):
            self.assertEqual(built(changed(rich(), STATE, 1, eax=eax))[2], mask)

    def test_avx_clears(self):
        ymm, avx512 = (0x10001000, 0x20, 0x700, 0), (0, 0xD0230000, 0x5842, 0x800100)
        full = built(rich())
        for xfem, cleared in ((0xE7, []), (0xC7, [avx512]), (0xA7, [avx512]), (0x67, [avx512]), (0x7, [avx512]),
                              (0xE3, [ymm, avx512]), (0x3, [ymm, avx512]), (0x0, [ymm, avx512])):
            answer = built(changed(rich(), STATE, 0, eax=xfem))
            one, seven = sum(c[0] for c in cleared), [sum(c[i] for c in cleared) for i in (1, 2, 3)]
            self.assertEqual(row(answer, 1)[ECX], row(full, 1)[ECX] & ~one)
            self.assertEqual(row(answer, 7, 0)[EBX:], tuple(a & ~b for a, b in zip(row(full, 7, 0)[EBX:], seven)))
            self.assertEqual(row(answer, 0x80000001), row(full, 0x80000001))

    def test_speculation_bits(self):
        for reported, wanted in ((0xC008, 0x20000008), (0x1008, 0x20001008), (0xD008, 0x2000D008)):
            self.assertEqual(row(built(changed(minimal(), 0x80000008, ebx=reported)), 0x80000008)[EBX], wanted)

    def test_tsc_aux(self):
        answer = built(changed(rich(), 0x8000001F, eax=0xFFFFFDFF))
        self.assertEqual(row(answer, 0x80000001)[EDX], KEPT[False][0x80000001, None][EDX] & ~(1 << 27))
        self.assertEqual(row(answer, 7, 0)[ECX], KEPT[False][7, 0][ECX] & ~(1 << 22))

    def test_secure_avic(self):
        self.assertEqual([row(built(rich(), choice), 0x8000001F)[EAX] for choice in (False, True)], [0x27F, 0x400027F])


class Refusals(unittest.TestCase):
    """Document 01, "Where each check stands"; 1 and 2 are in test_model_pages.py."""

    def test_required_leaves_in_list_order(self):
        required = model.COMMON_REQUIRED_LEAVES + model.SNP_REQUIRED_LEAVES
        self.assertEqual(len(required), 24)
        self.assertEqual(set(required), {key for key in KEPT[False] if key[0] != STATE or key[1] < 2})
        rows = changed(minimal(), 0x80000008, ebx=0)  # INVLPGB comes after every leaf
        for key in reversed(required):
            rows = without(rows, *key)
            self.assertEqual(built(rows), refusal(3, *key))
            self.assertEqual(built(without(minimal(), *key)), refusal(3, *key))

    def test_invlpgb_before_states(self):
        rows = changed(rich(), 0x80000008, ebx=0xFFFFFFF7)
        self.assertEqual(built(rows), refusal(4))
        self.assertEqual(built(without(rows, STATE, 2)), refusal(4))

    def test_states_ascending_before_area_and_topology(self):
        rows = with_topology(changed(rich(), STATE, 2, eax=ALL, ebx=1), 0, 0, 0, 1, 0)
        for subleaf in 12, 11, 7, 6, 5:
            rows = without(rows, STATE, subleaf)
            self.assertEqual(built(rows), refusal(3, STATE, subleaf))
        self.assertEqual(built(without(rows, STATE, 2)), refusal(3, STATE, 2))

    def test_area_before_topology(self):
        rows = with_topology(changed(rich(), STATE, 7, eax=1, ebx=ALL), 0, 0, 0, 1, 0)
        self.assertEqual(built(rows), refusal(5))

    def test_topology(self):
        for inputs, number in (((1, 255, 2, 1, 0), 7), ((7, 255, 128, 1, 0), 7), ((3, 0, 7, 1, 0), 7),
                               ((3, 0, 7, 0, 0), 7), ((3, 7, 8, 0, 9), 6), ((0, 1, 0, 0, 0), 6),
                               ((0, 254, 254, 1, 0), 7)):
            self.assertEqual(built(with_topology(rich(), *inputs)), refusal(number, s=inputs[0]))
        for inputs in (0, 0, 0, 0, 1), (7, 127, 128, 1, 2), (15, 255, 255, 1, 255):
            self.assertEqual(built(with_topology(rich(), *inputs)), refusal(8))
        self.assertEqual(row(built(with_topology(rich(), 0, 254, 255, 1, 1)), 0xB, 1)[:2], (8, 255))

    def test_number_of_lawful_topologies(self):
        # document 02, P14: 511 for s = 0 and 508 for s = 1 to 7
        def lawful(*inputs):
            try:
                return len(model.topology(*inputs)) == 2
            except model.Refusal:
                return False
        rest = list(product(range(256), range(256), (0, 1), (0, 1)))
        self.assertEqual(sum(lawful(0, *inputs) for inputs in rest), 511)
        self.assertEqual(sum(lawful(s, *inputs) for s in range(1, 8) for inputs in rest), 508)


if __name__ == '__main__':
    unittest.main()
