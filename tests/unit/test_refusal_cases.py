"""Tests of refusal_cases.py on a copy of the files that it writes: a further refusal needs its lines in the list, and --write."""
from contextlib import redirect_stdout
from io import StringIO
from pathlib import Path
import shutil
import tempfile
import unittest

import refusal_cases

FURTHER = '\n21 GuestGone{}\n    means the guest is gone\n    says no guest asks any more\n{}    explains\n        No guest.\n'
WITH = {'': '', ' leaf': '    with D\n', ' leaf subleaf': '    with D, D 1\n', ' s': '    with 7\n', ' subleaf': '    with 1\n'}
CONDITIONS = 'crates/refusals/specs/Conditions.antt'
NUMBERS, REFUSAL = 'crates/table/src/numbers.rt', 'crates/table/specs/Refusal.antt'


class Cases(unittest.TestCase):
    def setUp(self):
        folder = tempfile.TemporaryDirectory()
        self.addCleanup(folder.cleanup)
        self.root = Path(folder.name)
        for path in 'include/refusals.txt', 'crates/topology/src/lib.rt', *refusal_cases.made(refusal_cases.ROOT)[0]:
            (self.root / path).parent.mkdir(parents=True, exist_ok=True)
            shutil.copy(refusal_cases.ROOT / path, self.root / path)

    def asked(self, word):
        with redirect_stdout(StringIO()) as said:
            return refusal_cases.main([word], self.root), said.getvalue()

    def add(self, details=''):
        with (self.root / 'include/refusals.txt').open('a') as file:
            file.write(FURTHER.format(details, WITH[details]))

    def has(self, path, *lines):
        text = (self.root / path).read_text()
        for line in lines:
            self.assertEqual(text.count(f'{line}\n'), 1, f'{path}: {line}')

    def test_the_repository_is_as_made(self):
        self.assertEqual(self.asked('--check')[0], 0)

    def test_a_further_refusal(self):
        self.add()
        status, said = self.asked('--check')
        self.assertEqual((status, said.count('is not as made')), (1, 15))
        self.assertEqual(self.asked('--write')[0], 0)
        self.assertEqual(self.asked('--check')[0], 0)
        self.has('crates/table/src/lib.rt', '    NothingDecides,\n    GuestGone,')
        self.has(NUMBERS, '        Refusal::GuestGone => with_s(21, 0),')
        self.has(REFUSAL, 'details GuestGone = alone 21', '    ∷ GuestGone\n    ∷ [])')
        self.has('crates/table/specs/RefusalLaws.antt', 'refusal_told GuestGone = refl')
        self.has('crates/lines/src/bytes/names.rt', 'const NUMBERS: usize = 22;', '    NOTHING, // 21')
        self.has('crates/lines/specs/NumbersInUse.antt', '    nothing ∷  -- 21')
        self.has('crates/answers/specs/Told.antt', '  told_21 : RefusalTold GuestGone 21 0 0 0 0')
        self.has('crates/answers/specs/ToldProof.antt', 'refusal_in GuestGone = told_21', 'refusal_back told_21 = refl')
        self.assertIn('told_20, told_21}\n', (self.root / 'crates/answers/specs/ToldProof.antt').read_text())
        self.has('crates/nearest_exactly/specs/NearestExactly.antt', 'GivenFor c s GuestGone = ⊥')
        self.has('crates/nearest_exactly/proofs/NearestExactlyProof.antt', '  refusal_given GuestGone f = absurd f')
        # what has a line of its own is left alone
        text = (self.root / 'crates/nearest_exactly/specs/NearestExactly.antt').read_text()
        self.assertEqual((text.count('GivenFor c s NothingDecides'), text.count('GivenFor c s UnknownEdition')), (1, 1))

    def test_what_it_names(self):
        for details, arm, told, row in (
                (' leaf', 'Refusal::GuestGone(leaf) => at_leaf(21, leaf.0, None)',
                 '(l : CpuidFunction) → RefusalTold (GuestGone l) 21 l.0 0 0 0',
                 'GuestGone (function d.leaf)'),
                (' leaf subleaf', 'Refusal::GuestGone(leaf, subleaf) => at_leaf(21, leaf.0, subleaf)',
                 '(l : CpuidFunction) → RefusalTold (GuestGone l None) 21 l.0 0 0 0', 'GuestGone (function d.leaf) d.subleaf'),
                (' s', 'Refusal::GuestGone(s) => with_s(21, s)', '(s : ℕ) → RefusalTold (GuestGone s) 21 0 0 0 s', 'GuestGone d.s')):
            with self.subTest(details):
                self.setUp()
                self.add(details)
                self.assertEqual(self.asked('--write')[0], 0)
                self.has(NUMBERS, f'        {arm},')
                self.has('crates/answers/specs/Told.antt', f'  told_21 : {told}')
                self.has(REFUSAL, f'    ∷ {row}')

    def further_check(self, fault, details=''):
        """A check of building after that of the length, which gives the further refusal."""
        self.add(details)
        path = self.root / CONDITIONS
        text = path.read_text().replace('  edition length_of_pages page_counts ', '  edition length_of_pages guest page_counts ')
        path.write_text(text.replace('Fault chosen s page_counts r', f'Fault chosen s guest r = {fault}\nFault chosen s page_counts r'))

    def test_a_further_check_of_building(self):
        self.further_check('GuestFault (f s) × (r ≡ GuestGone)')
        self.assertEqual((self.asked('--write')[0], self.asked('--check')[0]), (0, 0))
        self.has(CONDITIONS, 'rank length_of_pages = 1\nrank guest = 2\nrank page_counts = 3', 'rank threads_per_unit = 11')
        settled, exactly, lined = (f'crates/refusals/specs/{name}.antt' for name in ('StagesSettled', 'ExactlyProof', 'LinedProof'))
        self.has(settled, '    ∷ length_of_pages\n    ∷ guest\n    ∷ page_counts', 'check_count = 12', 'check_rank guest = (lit< tt, refl)')
        self.has(exactly, 'building_number n = ltb n 9 || (eqb n 15 || (eqb n 17 || eqb n 21))', 'fault_number chosen s guest r f = rw f.1')
        self.has(lined, 'fault_small chosen s h guest r f = rw f.1 (alone_small GuestGone refl refl (omega arith))')
        pool = 'crates/pool_laws/specs/PoolExactlyProof.antt'
        self.has(pool, '      by_check guest g = let e = g.1 in impossible (cc)')
        for path in settled, exactly, lined, pool:
            self.assertIn('{edition, length_of_pages, guest, page_counts, ', (self.root / path).read_text())
        self.assertIn('UnknownEdition, GuestGone}\n', (self.root / lined).read_text())

    def test_a_check_whose_refusal_names_something_has_a_clause_by_hand(self):
        self.further_check('(p : ℕ) × GuestFault s p × (r ≡ GuestGone (leaf_at s p))', ' leaf')
        self.assertEqual(self.asked('--check'), (1, 'crates/refusals/specs/LinedProof.antt wants a clause of fault_small for guest\n'))
        path = self.root / 'crates/refusals/specs/LinedProof.antt'
        own = 'fault_small chosen s h guest r f =\n    guest_small s h f\n'
        path.write_text(path.read_text().replace('fault_small chosen s h page_counts', f'{own}fault_small chosen s h page_counts'))
        self.assertEqual((self.asked('--write')[0], path.read_text().count(own)), (0, 1))
        self.has('crates/refusals/specs/ExactlyProof.antt', 'fault_number chosen s guest r f = rw f.2')

    def test_a_check_without_a_refusal_is_told(self):
        self.further_check('GuestFault s')
        self.assertEqual(self.asked('--check'), (1, 'crates/refusals/specs/Conditions.antt: Fault names no refusal for guest\n'))

    def test_what_has_no_case_is_told(self):
        self.add(' subleaf')
        self.assertEqual(self.asked('--check'), (1, 'include/refusals.txt: 21 names subleaf, which no case does\n'))

    def test_numbers_that_do_not_count(self):
        path = self.root / 'include/refusals.txt'
        path.write_text(path.read_text().replace('20 NothingDecides', '22 NothingDecides'))
        self.assertEqual(self.asked('--check'), (1, 'include/refusals.txt does not count from 1 on\n'))

    def test_other_words(self):
        self.assertEqual(self.asked('--help')[0], 2)


if __name__ == '__main__':
    unittest.main()
