"""Tests of named.py on small trees: one where every name is there, and the same tree with one wrong name each."""
from contextlib import redirect_stdout
from io import StringIO
from pathlib import Path
import tempfile
import unittest

import named

TREE = {
    'README.md': '# Words\n\nSee [the laws](docs/LAWS.md#laws-of-bits), [here](#words), tests/run and `bits::has_bit`.\n',
    'CONTRIBUTING.md': '1. crates/bits: `keep_bit` of src/more.rt, then specs/Bits.antt and `has-bit`\n   (BitLaws.antt).\n',
    'CHANGELOG.md': 'Nothing.\n',
    'docs/LAWS.md': '# Laws of `bits`\n\n| rule | stands in | code |\n|---|---|---|\n'
                    '| a bit | bits/specs/Bits `has`, `clear`; BitLaws `has-bit` | `rows::Row::first` |\n'
                    '\ncrates/NAME/must-fail/LABEL.edit and crates/*/src are many files.\n',
    'docs/ARCHITECTURE.md': '    bytes\n      |   bits, rows,      what `BitLaws` says\n'
                            '      +-- rows_and_more   more (over bits, rows)\n      v\n    end\n',
    'docs/CHANGES.md': 'The crate `gone` had gone/specs/Gone.antt; [the laws](LAWS.md) are new.\n',
    'docs/DECISIONS.md': '`not_chosen` would have stood in crates/bits.\n',
    'tests/run': 'true\n',
    'rust/Cargo.toml': '[package]\nname = "rows"\n',
    'rust/src/lib.rs': 'pub fn rows_in_rust() {}\n',
    'crates/bits/src/lib.rt': '// Bits. specs/Bits.antt defines them; crate rows_and_more has no fn bitless.\nmod more;\n'
                              'fn has_bit() {} // `has-bit` says it\n'
                              'let s = no::comment;\n',
    'crates/bits/src/more.rt': 'fn keep_bit() {}\n',
    'crates/bits/specs/Bits.antt': '-- a bit; (`has-bit`, BitLaws.antt)\nabbrev pub has : N\nhas = 1\npub clear : N\n',
    'crates/bits/specs/BitLaws.antt': '-- laws of crates/bits/specs/Bits.antt\n-- `has`\npub has-bit : has\n',
    'crates/bits/must-fail/wrong.edit': '# `has-bit` refuses it\nfile: specs/None.antt\n',
    'crates/rows/src/lib.rt': '// The kinds of specs/Bits.antt of crate bits, and `rows::rows_in_rust`.\npub struct Row {\n    pub first: u32,\n}\n',
    'crates/rows_and_more/src/lib.rt': '// Nothing.\n',
    'crates/examples/must-fail/odd.edit': '# An example is odd.\n',
}


class Trees(unittest.TestCase):
    def read(self, change=None):
        """(status, lines) of the tree, where a change is (file, old, new)."""
        tree = dict(TREE)
        if change:
            file, old, new = change
            self.assertIn(old, tree[file])
            tree[file] = tree[file].replace(old, new)
        with tempfile.TemporaryDirectory() as folder, redirect_stdout(StringIO()) as said:
            for name, text in tree.items():
                path = Path(folder, name)
                path.parent.mkdir(parents=True, exist_ok=True)
                path.write_text(text, encoding='utf-8')
            status = named.main([folder])
        return status, said.getvalue().splitlines()

    def test_all_there(self):
        status, lines = self.read()
        self.assertEqual(status, 0, lines)
        self.assertEqual(len(lines), 1)
        self.assertRegex(lines[0], r'^7 documents and the comments of the crates: [3-9]\d names are there$')

    def refused(self, file, old, new, line, what):
        status, lines = self.read((file, old, new))
        self.assertEqual((status, lines[:-1]), (1, [f'{file}:{line}: {what}']))
        self.assertRegex(lines[-1], r'^7 documents .*: \d+ names are there, 1 are not$')

    def test_links(self):
        self.refused('README.md', 'docs/LAWS.md#laws-of-bits', 'docs/LAW.md', 3, 'there is no docs/LAW.md')
        self.refused('README.md', '#laws-of-bits', '#laws-of-bit', 3, 'docs/LAWS.md has no heading #laws-of-bit')
        self.refused('README.md', '(#words)', '(#word)', 3, 'README.md has no heading #word')
        self.refused('docs/CHANGES.md', '(LAWS.md)', '(docs/LAWS.md)', 1, 'there is no docs/docs/LAWS.md')

    def test_paths(self):
        self.refused('README.md', 'tests/run', 'tests/runs', 3, 'there is no tests/runs')
        self.refused('docs/LAWS.md', 'crates/NAME/must-fail', 'crates/NAME/may-fail', 7, 'there is no crates/NAME/may-fail/LABEL.edit')
        self.refused('docs/LAWS.md', 'crates/*/src', 'crates/*/source', 7, 'there is no crates/*/source')
        self.refused('crates/bits/specs/BitLaws.antt', 'crates/bits/specs/Bits.antt\n-- `has`', 'crates/bit/specs/Bits.antt', 1,
                     'there is no crates/bit/specs/Bits.antt')
        self.refused('docs/LAWS.md', '| a bit | bits/specs/Bits `has`, `clear`; BitLaws `has-bit` ', '| a bit | bit/specs/Bits ', 5,
                     'there is no crates/bit/specs/Bits')

    def test_edits_of_a_crate_named_as_a_top_folder(self):
        self.assertEqual(self.read(('README.md', 'tests/run', 'examples/odd'))[0], 0)
        self.refused('README.md', 'tests/run', 'examples/even', 3, 'there is no examples/even')

    def test_files_of_a_crate(self):
        self.refused('crates/bits/src/lib.rt', 'specs/Bits.antt', 'specs/Bit.antt', 1, 'there is no specs/Bit.antt of bits')
        self.refused('crates/bits/specs/Bits.antt', 'BitLaws.antt', 'BitsLaws.antt', 1, 'there is no specs/BitsLaws.antt of bits')
        self.refused('crates/rows/src/lib.rt', ' of crate bits', '', 1, 'there is no specs/Bits.antt of rows')
        self.refused('CONTRIBUTING.md', 'specs/Bits.antt', 'specs/Bit.antt', 1, 'there is no specs/Bit.antt of bits')
        self.refused('docs/LAWS.md', '; BitLaws', '; BitsLaws', 5, 'there is no crates/bits/specs/BitsLaws.antt')

    def test_items(self):
        self.refused('README.md', 'bits::has_bit', 'bits::has_bits', 3, 'bits::has_bits: crates/bits/src has no has_bits')
        self.refused('README.md', 'bits::has_bit', 'bits::bitless', 3, 'bits::bitless: crates/bits/src has no bitless')
        self.refused('docs/LAWS.md', 'Row::first', 'Row::last', 5, 'rows::Row::last: crates/rows/src has no last')
        self.refused('crates/rows/src/lib.rt', 'rows::rows_in_rust', 'rows::rows_in_c', 1, 'rows::rows_in_c: crates/rows/src has no rows_in_c')

    def test_crates(self):
        self.refused('crates/bits/src/lib.rt', 'rows_and_more', 'rows_and_less', 1, 'there is no crate rows_and_less')
        self.refused('docs/ARCHITECTURE.md', 'bits, rows,', 'bits, row,', 2, 'there is no crate row')
        self.refused('docs/ARCHITECTURE.md', '(over bits, rows)', '(over bit, rows)', 3, 'there is no crate bit')
        self.refused('docs/ARCHITECTURE.md', 'rows_and_more', 'rows_and_less', 3, 'there is no crate rows_and_less')
        self.refused('crates/rows/src/lib.rt', 'The kinds', 'Crate `row` has the kinds', 1, 'there is no crate row')

    def test_names_beside_files(self):
        self.refused('docs/LAWS.md', '`clear`', '`cleared`', 5, 'crates/bits/specs/Bits.antt does not define cleared')
        self.refused('docs/LAWS.md', 'BitLaws `has-bit`', 'BitLaws `clear`', 5, 'crates/bits/specs/BitLaws.antt does not define clear')
        self.refused('crates/bits/specs/BitLaws.antt', '`has`', '`hass`', 1, 'crates/bits/specs/Bits.antt does not define hass')
        self.refused('crates/bits/specs/Bits.antt', '`has-bit`', '`has`', 1, 'crates/bits/specs/BitLaws.antt does not define has')
        self.refused('CONTRIBUTING.md', '`keep_bit`', '`has_bit`', 1, 'crates/bits/src/more.rt does not define has_bit')
        self.refused('CONTRIBUTING.md', '`has-bit`', '`clear`', 2, 'crates/bits/specs/BitLaws.antt does not define clear')

    def test_other_names(self):
        self.refused('crates/bits/src/lib.rt', '`has-bit`', '`had-bit`', 3, 'nothing has the name had-bit')
        self.refused('crates/bits/must-fail/wrong.edit', '`has-bit`', '`had-bit`', 1, 'nothing has the name had-bit')
        for name in 'rows_in_c', '`rows_in_c`', '`hasBit`', '`Rows`':
            self.refused('README.md', 'tests/run and', f'tests/run, {name} and', 3, f'nothing has the name {name.strip("`")}')

    def test_what_is_no_comment(self):
        self.assertEqual(self.read(('crates/bits/src/lib.rt', 'no::comment', 'bits::none'))[0], 0)
        self.assertEqual(self.read(('crates/bits/must-fail/wrong.edit', 'specs/None.antt', 'specs/Nothing.antt'))[0], 0)


if __name__ == '__main__':
    unittest.main()
