"""Tests of figures.py on a copy of the files of its list: a changed number of the source needs --write alone, and a lost place is told."""
from contextlib import redirect_stdout
from io import StringIO
from pathlib import Path
import re
import shutil
import tempfile
import unittest

from edition_rows import EDITION, NAMES
import figures

VERSION, EXTENDED = f'{NAMES}/VersionAndFeaturesEcx.antt', f'{NAMES}/ExtendedVersionAndFeaturesEcx.antt'

SOURCES = EDITION, VERSION, EXTENDED, 'crates/pool/src/sets.rt', 'crates/x86defs/specs/Functions.antt', figures.MASK, figures.IMAGE


class Figures(unittest.TestCase):
    def setUp(self):
        folder = tempfile.TemporaryDirectory()
        self.addCleanup(folder.cleanup)
        self.root = Path(folder.name)
        for path in {*SOURCES, figures.LIST, *(file for file, _ in figures.listed(figures.ROOT))}:
            (self.root / path).parent.mkdir(parents=True, exist_ok=True)
            shutil.copy(figures.ROOT / path, self.root / path)

    def asked(self, word):
        with redirect_stdout(StringIO()) as said:
            return figures.main([word], self.root), said.getvalue()

    def edit(self, path, old, new):
        text = (self.root / path).read_text()
        self.assertIn(old, text)
        (self.root / path).write_text(text.replace(old, new))

    def text(self, path):
        return (self.root / path).read_text()

    def test_the_repository_is_as_made(self):
        self.assertEqual(self.asked('--check')[0], 0)

    def test_a_pool_of_32(self):
        self.edit('crates/pool/src/sets.rt', 'MOST_SETS: usize = 16;', 'MOST_SETS: usize = 32;')
        status, said = self.asked('--check')
        self.assertEqual(status, 1)
        self.assertIn('README.md has another figure', said)
        self.assertEqual(self.asked('--write')[0], 0)
        self.assertEqual(self.asked('--check')[0], 0)
        self.assertIn('the tables of 2 to 32 servers', self.text('README.md'))
        self.assertIn('#define SNP_CPUID_MOST_SERVERS 32\n', self.text('include/snp_cpuid.h'))

    def test_a_place_more(self):
        old = figures.figures(figures.ROOT)['places']
        new, row = old + 1, '    ∷ kept ProcessorTopologyDefinition whole'
        self.edit('crates/masking/specs/Kept.antt', row, f'    ∷ kept CacheTopologyDefinition whole all_ones\n{row}')
        for path in 'memory/specs/Memory', 'theorems/specs/Page', 'theorems/specs/Document01':
            (self.root / f'crates/{path}.antt').parent.mkdir(parents=True, exist_ok=True)
            (self.root / f'crates/{path}.antt').write_text(f'-- {old} rows\nw = replicate {4 * old} 0x{old} .{old} 1{old}\n')
        self.assertEqual(self.asked('--write')[0], 0)
        for path in 'memory/specs/Memory', 'theorems/specs/Page':
            self.assertEqual(self.text(f'crates/{path}.antt'), f'-- {new} rows\nw = replicate {4 * new} 0x{old} .{old} 1{old}\n')
        self.assertIn(f'-- {old} rows\n', self.text('crates/theorems/specs/Document01.antt'))
        self.assertIn(f'PLACES: usize = {new};', self.text('crates/masking/src/lib.rt'))
        self.assertIn(f'REGISTERS: usize = {4 * new};', self.text('crates/memory/src/lib.rt'))
        header = self.text('include/snp_cpuid.h')
        for line in f'memory: {24 * new:,} bytes', f'uint32_t registers[{4 * new}];', f'uint64_t origins[{new}];', f'_ANY_KVM_BYTES {8 + 40 * new}':
            self.assertIn(line, header)

    def test_a_third_edition(self):
        text = self.text(EDITION)
        (self.root / EDITION).write_text(re.sub('^further_editions = .*', 'further_editions = bits f16c xop_and_fma4 ∷ bits pop_cnt 0 ∷ []', text, flags=re.M))
        self.edit(EDITION, 'abbrev bits : ', 'pop_cnt = mask_of Version.position (Version.VersionAndFeaturesEcx.pop_cnt ∷ [])\n\nabbrev bits : ')
        self.assertEqual(self.asked('--write')[0], 0)
        self.assertEqual(self.asked('--check')[0], 0)
        self.assertIn('it has editions 1, 2 and 3\n', self.text('include/refusals.txt'))
        self.assertIn('is neither 1, 2 nor 3\n', self.text('include/refusals.txt'))
        self.assertIn('editions 1, 2 and 3, of which 1 is', self.text('include/refusals.txt'))
        self.assertIn('const EDITIONS: u32 = 3;', self.text('crates/table/src/edition.rt'))
        self.assertIn('XOP and FMA4 (80000001h.ECX bits 11 and 16); 3: POPCNT (1.ECX bit 23)\n', self.text('include/snp_cpuid.h'))
        self.assertIn('usually 1; 2 hides F16C, XOP, FMA4; 3 also POPCNT without YMM state', self.text('rust/src/bin/snp-cpuid/building.rs'))
        self.assertIn('needs --edition 1, --edition 2 or --edition 3\n', self.text('docs/COMMAND.md'))
        self.assertIn('from a later edition of the AVX rule back to an earlier one\n', self.text('include/refusals.txt'))
        self.assertIn('answer (under_edition 4) []', self.text('crates/theorems/specs/EditionTheorems.antt'))

    def test_a_lost_place_is_told(self):
        self.edit('README.md', 'the tables of 2 to 16 servers', 'the tables of some servers')
        for word in '--check', '--write':
            status, said = self.asked(word)
            self.assertEqual((status, said), (1, 'README.md does not have: the tables of 2 to {servers} servers\n'))

    def test_unknown_figures_and_lines_without_one(self):
        text = self.text(figures.LIST)
        for line, why in ('    {sets} page sets', 'sets is no figure'), ('    page sets', 'names no figure'):
            (self.root / figures.LIST).write_text(f'{text}\nREADME.md\n{line}\n')
            status, said = self.asked('--check')
            self.assertEqual(status, 1)
            self.assertIn(why, said)
            self.assertEqual(self.asked('--write')[0], 1)

    def test_a_source_without_the_number(self):
        self.edit('crates/pool/src/sets.rt', 'MOST_SETS', 'MANY_SETS')
        self.assertEqual(self.asked('--check'), (1, 'crates/pool/src/sets.rt has no MOST_SETS\n'))

    def test_other_words(self):
        self.assertEqual(self.asked('--help')[0], 2)


if __name__ == '__main__':
    unittest.main()
