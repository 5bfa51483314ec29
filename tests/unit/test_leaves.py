"""Tests of leaves.py on a copy of the files that it writes: a further kept leaf needs --write alone."""
from contextlib import redirect_stdout
from io import StringIO
from pathlib import Path
import shutil
import tempfile
import unittest

import kept_leaves
import leaf_code
import leaves

# the repository's leaves; the further one follows those from 80000019h on
KEPT, NAMED = kept_leaves.places(leaves.ROOT), kept_leaves.names(leaves.ROOT)
ROWS, NEEDED = len(kept_leaves.rows(leaves.ROOT)), len(kept_leaves.required(leaves.ROOT))
AT, MANY = next((first, many) for first, leaf, many, _ in leaves.runs(KEPT) if leaf == 0x80000019)
LEAF, PLACE = 0x80000019 + MANY, AT + MANY
ROW = ROWS - 3
NUMBER = f'abbrev pub AddedLeaf : CpuidFunction\nAddedLeaf = function 0x{LEAF:X}\n'
BEFORE = '    ∷ kept CacheTopologyDefinition '
LAST = '    ∷ whole ProcessorTopologyDefinition\n'
PROOF = 'crates/masking/proofs/place_of/Answers.antt'
RUNS, PLACE_OF, CHECKED = 'crates/masking/src/run.rt', 'crates/masking/src/lib.rt', 'crates/rows/src/checked/required.rt'


class Leaves(unittest.TestCase):
    def setUp(self):
        folder = tempfile.TemporaryDirectory()
        self.addCleanup(folder.cleanup)
        self.root = Path(folder.name)
        for path in kept_leaves.FUNCTIONS, kept_leaves.KEPT, kept_leaves.REQUIRED, *leaves.named(leaves.ROOT)[0], *leaves.made(leaves.ROOT)[0]:
            (self.root / path).parent.mkdir(parents=True, exist_ok=True)
            shutil.copy(leaves.ROOT / path, self.root / path)

    def asked(self, word):
        with redirect_stdout(StringIO()) as said:
            return leaves.main([word], self.root), said.getvalue()

    def edit(self, path, old, new):
        text = (self.root / path).read_text()
        self.assertIn(old, text)
        (self.root / path).write_text(text.replace(old, new, 1))

    def text(self, path):
        return ' '.join((self.root / path).read_text().split())

    def test_the_repository_is_as_made(self):
        self.assertEqual(self.asked('--check')[0], 0)

    def further(self, row, places, needed, run=''):
        self.edit(kept_leaves.FUNCTIONS, 'abbrev pub vendor_ecx', f'{NUMBER}\nabbrev pub vendor_ecx')
        self.edit(kept_leaves.KEPT, BEFORE, f'    ∷ kept AddedLeaf {row} all_ones\n{BEFORE}')
        for name, number in ('CACHE_TOPOLOGY_0', PLACE), ('PROCESSOR_TOPOLOGY_DEFINITION', PLACE + 4):
            self.edit(kept_leaves.PLACES, f'{name}: usize = {number};', f'{name}: usize = {number + places};')
        self.edit(RUNS, 'pub const CACHE_TOPOLOGY', run + 'pub const CACHE_TOPOLOGY')
        self.edit(kept_leaves.REQUIRED, LAST, f'{needed}{LAST}')
        status, said = self.asked('--check')
        self.assertEqual((status, said.count('is not as made')), (1, 2))
        self.assertEqual(self.asked('--write')[0], 0)
        self.assertEqual(self.asked('--check')[0], 0)

    def test_a_leaf_that_lengthens_a_run(self):
        self.further('whole', 1, '    ∷ whole AddedLeaf\n')
        self.assertIn(f'indexed: KEPT_LEAVES[{ROW - MANY}].subleaf, row: {ROW - MANY}, last_row: {ROW}, }};', self.text(RUNS))
        self.assertIn(f'row: {ROWS - 1}, last_row: {ROWS}, }};', self.text(RUNS))
        self.assertIn('leaf::ADDED_LEAF => place::ADDED_LEAF, leaf::CACHE_TOPOLOGY_DEFINITION', self.text(PLACE_OF))
        self.assertIn(f'pub const ADDED_LEAF: u32 = {leaf_code.number(LEAF)}; pub const CACHE_TOPOLOGY_DEFINITION',
                      self.text(kept_leaves.LEAVES))
        self.assertIn(f'pub const ADDED_LEAF: usize = {NAMED[PLACE - 1]} + 1; pub const CACHE_TOPOLOGY_0',
                      self.text(kept_leaves.PLACES))
        self.assertIn('leaf: CpuidFunction(leaf::ADDED_LEAF), eax: ONES, ebx: ONES, ecx: ONES, edx: ONES, subleaf: false, }, KeptLeaf { '
                      'leaf: CpuidFunction(leaf::CACHE_TOPOLOGY_DEFINITION)', self.text('crates/masking/src/masks.rt'))
        self.assertIn(f'[u8; {NEEDED + 1}] = [', self.text(CHECKED))
        self.assertIn('place::ADDED_LEAF as u8, place::PROCESSOR_TOPOLOGY_DEFINITION as u8,', self.text(CHECKED))
        bits = leaf_code.not_kept([*KEPT, kept_leaves.Place(LEAF, None)])
        self.assertEqual(int(leaf_code.not_kept(KEPT)[0].split()[-1][:-1], 16) - int(bits[0].split()[-1][:-1], 16), 1 << 2 * (LEAF & 0x1F) + 1)
        self.assertIn(bits[0], (self.root / 'crates/collect/src/full.rt').read_text())
        self.assertIn(f'old: {bits[0]}new: {bits[1]}', (self.root / 'crates/collect/must-fail/several.edit').read_text())
        self.assertIn('if n <= leaf::ADDED_LEAF {', self.text('crates/lookup/src/lib.rt'))
        for path in 'crates/kvm_export/specs/Flags.antt', 'crates/theorems/specs/ListTheorems.antt':
            self.assertIn(f'replicate 67 1 ++ replicate {11 + MANY} 0 ++ replicate 4 1 ++ replicate 2 0', self.text(path))
            self.assertIn(f'tabulate 64 (λ k. k) ++ replicate {11 + MANY} 0 ++ (0 ∷ 1 ∷ 2 ∷ 3 ∷ [])', self.text(path))
        self.assertIn(f'leaf({leaf_code.number(LEAF)}, [Whole; 4]), subleaves(0x8000_001D,', self.text('rust/src/bin/snp-cpuid/masks.rs'))
        self.assertIn(f'0x8000001D ∷ 0x{LEAF:X} ∷ 0x{LEAF - 1:X}', self.text('crates/masking/specs/PlaceOfLaws.antt'))
        self.assertIn(f'returns-in-{LEAF} c = record {{ value = rw c.in-{LEAF}.is; small = search rules }}', self.text(PROOF))
        runs = f'run({AT}, 0x8000_0019, {MANY + 1}, None), run({PLACE + 1}, 0x8000_001D, 1, Some(4)), run({PLACE + 5}, 0x8000_001E, 2, None),'
        self.assertIn(runs, self.text('rust/src/places.rs'))
        self.assertIn(f'80000019h to {LEAF:X}h, 8000001Dh.0 to .3', self.text('include/snp_cpuid.h').replace(' * ', ' '))
        self.assertIn(f'({leaf_code.number(LEAF)}, 0), (0x8000_001D, 0),', self.text('rust/tests/command/page_sets.rs'))
        self.assertIn(f'; {NEEDED + 1}] = [', self.text('rust/tests/command/page_sets.rs'))
        for path in 'docs/COMMAND.md', 'include/refusals.txt':
            self.assertIn(f'{NEEDED + 1} rows need an entry: leaves 1, 5,', self.text(path))
        for path in 'from_dump', 'from_kvm':
            self.assertIn(f'8000000A, 80000019 to {LEAF:X}, 8000001D.0 to .3', self.text(f'rust/src/bin/snp-cpuid/commands/{path}.rs'))

    def test_a_leaf_with_subleaves(self):
        needed = ''.join(f'    ∷ sub AddedLeaf {subleaf}\n' for subleaf in (0, 1))
        run = 'pub const ADDED: Run = Run {\n    first: place::ADDED_LEAF_0,\n' + '    row: 0,\n' * 5 + '};\n\n'
        self.further('(subleaves 0 1)', 2, needed, run)
        self.assertIn('place::ADDED_LEAF_0 as u8, place::ADDED_LEAF_0 as u8 + 1,', self.text(CHECKED))
        self.assertIn('replicate 4 0 ++ (0 ∷ 1 ∷ []) ++ tabulate 64 (λ k. k) ++ '
                      f'replicate {10 + MANY} 0 ++ (0 ∷ 1 ∷ []) ++ (0 ∷ 1 ∷ 2 ∷ 3 ∷ [])',
                      self.text('crates/kvm_export/specs/Flags.antt'))
        self.assertIn(f'subleaves({leaf_code.number(LEAF)}, 0, 1, [Whole; 4]),', self.text('rust/src/bin/snp-cpuid/masks.rs'))
        self.assertIn('leaf::ADDED_LEAF => subleaf_place(run::ADDED, subleaf),', self.text(PLACE_OF))
        self.assertIn(f'pub subleaf_place-requires-in-{LEAF} :', self.text(PROOF))
        self.assertIn(f'small = c.subleaf_place-in-{LEAF}.ensures.small }}', self.text(PROOF))
        self.assertIn(f'first: place::ADDED_LEAF_0, count: 2, leaf: CpuidFunction(KEPT_LEAVES[{ROW}].leaf.0),', self.text(RUNS))
        runs = f'run({PLACE}, {leaf_code.number(LEAF)}, 1, Some(2)), run({PLACE + 2}, 0x8000_001D, 1, Some(4)),'
        self.assertIn(runs, self.text('rust/src/places.rs'))
        self.assertIn(f'{LEAF - 1:X}, {LEAF:X}.0, {LEAF:X}.1, 8000001D.0 to .3', self.text('docs/COMMAND.md'))

    def test_a_name_without_a_number(self):
        self.edit(kept_leaves.KEPT, BEFORE, f'    ∷ kept Unknown whole all_ones\n{BEFORE}')
        self.assertEqual(self.asked('--check'), (1, f'{kept_leaves.FUNCTIONS} has no number for Unknown of {kept_leaves.KEPT}\n'))

    def test_a_leaf_that_is_not_kept_whole(self):
        self.edit(kept_leaves.FUNCTIONS, 'abbrev pub vendor_ecx', f'{NUMBER}\nabbrev pub vendor_ecx')
        self.edit(kept_leaves.KEPT, BEFORE, f'    ∷ kept AddedLeaf whole added_leaf\n{BEFORE}')
        status, said = self.asked('--write')
        self.assertEqual(status, 1)
        self.assertIn('has no row for ADDED_LEAF at its place', said)

    def test_a_lost_place_is_told(self):
        self.edit('rust/src/places.rs', 'const RUNS', 'const ROWS')
        self.assertEqual(self.asked('--write')[0], 1)

    def test_other_words(self):
        self.assertEqual(self.asked('--help')[0], 2)


if __name__ == '__main__':
    unittest.main()
