"""Tests of kinds.py on a copy of the files that it reads: a further feature register needs --write alone."""
from contextlib import redirect_stdout
from io import StringIO
from pathlib import Path
import shutil
import tempfile
import unittest

import kept_leaves
import kinds

READ = kept_leaves.FUNCTIONS, kept_leaves.KEPT, kept_leaves.KINDS, kept_leaves.LEAVES, kept_leaves.PLACES, kinds.CODE, kinds.PROOF, kinds.HEADER
ROW = '    ∷ leaf (function 0x8000001A) 0 feature other other other\n'


class Kinds(unittest.TestCase):
    def setUp(self):
        folder = tempfile.TemporaryDirectory()
        self.addCleanup(folder.cleanup)
        self.root = Path(folder.name)
        for path in READ:
            (self.root / path).parent.mkdir(parents=True, exist_ok=True)
            shutil.copy(kinds.ROOT / path, self.root / path)

    def asked(self, word):
        with redirect_stdout(StringIO()) as said:
            return kinds.main([word], self.root), said.getvalue()

    def add(self, row):
        path = self.root / kept_leaves.KINDS
        text = path.read_text()
        self.assertIn(ROW, text)
        path.write_text(text.replace(ROW, ROW + f'    ∷ {row}\n'))

    def text(self, path):
        return (self.root / path).read_text()

    def test_the_repository_is_as_made(self):
        self.assertEqual(self.asked('--check')[0], 0)

    def test_the_places_are_those_of_the_code(self):
        known, named = kept_leaves.places(self.root), kept_leaves.names(self.root)
        self.assertEqual((known[3], known[70], known[-1]), ((7, 0), (0x80000000, None), (0x8000001F, None)))
        self.assertEqual((named[3], named[78], named[len(known) - 1]), ('EXTENDED_FEATURES', 'EXTENDED_ADDRESS_SPACE_SIZES', 'EXTENDED_SEV_FEATURES'))
        self.assertEqual([known[at].written() for at in (1, 6, 69, 78)], ['1', 'D.0', 'D.63', '80000008h'])
        self.assertEqual(known[-3].written(), '8000001Dh.3')

    def test_a_further_place(self):
        self.add('leaf (function 0x8000000A) 0 other other other feature')
        status, said = self.asked('--check')
        self.assertEqual((status, said.count('is not as made')), (1, 3))
        self.assertEqual(self.asked('--write')[0], 0)
        self.assertEqual(self.asked('--check')[0], 0)
        self.assertIn('EXTENDED_SVM_VERSION_AND_FEATURES => masks(0, 0, 0, ALL, ALL, ALL, ALL, 0),\n', self.text(kinds.CODE))
        proof = self.text(kinds.PROOF)
        self.assertIn(f'78 ∷ 79 ∷ 81 ∷ {len(kept_leaves.places(self.root)) - 1} ∷ []', proof)
        self.assertEqual((proof.count('returns-in-79'), proof.count(' c = search rules\n'), proof.count('      ne_eqb _ ')), (3, 14, 13))
        self.assertIn('returns-in-79 c = rw (c.masks-in-79.ensures, c.in-79.is)\n', proof)
        self.assertIn('8000000Ah.EDX', self.text(kinds.HEADER))

    def test_what_has_no_arm_is_told(self):
        for row, why in ('leaf (function 0x9) 0 other other other feature', 'is no place of'), \
                ('leaf (function 0xD) 5 other other other feature', 'has no name for place 11, D.5'), \
                ('leaf (function 0x5) 0 other other other odd', 'odd is no kind that has masks'):
            with self.subTest(row):
                self.setUp()
                self.add(row)
                status, said = self.asked('--check')
                self.assertEqual(status, 1)
                self.assertIn(why, said)

    def test_other_words(self):
        self.assertEqual(self.asked('--help')[0], 2)


if __name__ == '__main__':
    unittest.main()
