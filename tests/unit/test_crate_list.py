"""Tests of crate_list.py on a small repository: the list, the page it is written into, and each reason why there is none."""
import unittest

import crate_list
from tests.unit.small_repository import asked, page_of

LINES = '# the crates\n\n## Words\nbits:\nrows: bits\n\n## Table\ntable: bits rows io\nprogram: bits table\n'
SOURCES = {
    'bits/src/lib.rt': '// Bits, 1 | 0. A number comes in.\nfn bit() {}\n',
    'rows/src/lib.rt': '// Rows of leaf Bh, as B.0 and\n// B.1.\n\n// Another comment.\n',
    'table/src/lib.rt': '// The table.\n',
    'program/src/main.rt': '// The program.\n//\n// How it is called\n',
}
LIST = '''### Words

| crate | what it is | stands on |
|---|---|---|
| [bits](../crates/bits) | Bits, 1 \\| 0. A number comes in | |
| [rows](../crates/rows) | Rows of leaf Bh, as B.0 and B.1 | bits |

### Table

| crate | what it is | stands on |
|---|---|---|
| [table](../crates/table) | The table | rows |
| [program](../crates/program) | The program | table |
'''
PAGE = page_of(crate_list, LIST)


class Lists(unittest.TestCase):
    def ask(self, words, lines=LINES, page=PAGE, **others):
        """(status, what is said, the page then); `others` has the text of a crate's file, or None for no such file."""
        sources = {**SOURCES, **{name.replace('__', '/src/') + '.rt': text for name, text in others.items()}}
        return asked(crate_list, words, page, {'crates.txt': lines, **{f'crates/{name}': text for name, text in sources.items()}})

    def test_printed(self):
        self.assertEqual(self.ask([]), (0, LIST, PAGE))

    def test_as_it_should_be(self):
        self.assertEqual(self.ask(['--check']), (0, '4 crates in the list\n', PAGE))
        # a static library has the row of a library
        self.assertEqual(self.ask(['--check'], lines=LINES.replace('table: bits', 'table staticlib: bits')), (0, '4 crates in the list\n', PAGE))

    def test_written(self):
        for page in PAGE.replace(LIST, ''), PAGE.replace('Bits, 1', 'Bits, 2'), PAGE.replace('| table |', '| rows |'):
            self.assertEqual(self.ask(['--write'], page=page), (0, '4 crates in the list\n', PAGE))

    def test_another_page_is_found(self):
        row = '| [table](../crates/table) | The table | rows |\n'
        for old, new, line in ('Bits, 1', 'Bits, 2', 9), ('### Table', '### Tables', 12), ('| rows |', '| bits, rows |', 16), (row, '', 16):
            page = PAGE.replace(old, new)
            status, said, then = self.ask(['--check'], page=page)
            self.assertEqual((status, then), (1, page))
            self.assertTrue(said.startswith(f'docs/ARCHITECTURE.md:{line} is not as made (tests/gate/crate_list.py --write)'), said)

    def test_a_changed_crate_is_found(self):
        for change in {'table__lib': '// The tables.\n'}, {'lines': LINES.replace('bits rows io', 'bits')}, {'lines': LINES.replace('Words', 'Word')}:
            self.assertEqual(self.ask(['--check'], **change)[0], 1)

    def refused(self, why, **change):
        for word in '--check', '--write':
            status, said, then = self.ask([word], **change)
            self.assertEqual((status, said), (1, why + '\n'))
            self.assertEqual(then, change.get('page', PAGE))

    def test_no_list(self):
        self.refused('rows is in crates/ and not in crates.txt', lines=LINES.replace('rows: bits\n', ''))
        self.refused('more is in crates.txt and not in crates/', lines=LINES + 'more: bits\n')
        self.refused('bits stands above the first heading of crates.txt', lines=LINES.replace('## Words\n', ''))
        self.refused('bits stands above table in crates.txt, and names it', lines=LINES.replace('bits:\n', 'bits: table\n'))
        self.refused('crates/table/src has no lib.rt and no main.rt', table__lib=None)
        for text in 'fn table() {}\n', '\n// The table.\n', '// the table\nfn table() {}\n':
            self.refused('crates/table/src/lib.rt does not open with a sentence in a comment', table__lib=text)

    def test_no_marks(self):
        opens, closes = crate_list.LIST.opens, crate_list.LIST.closes
        why = 'docs/ARCHITECTURE.md does not have the two marks, once and in their order'
        for page in '', PAGE.replace(opens, ''), PAGE + closes, closes + opens:
            self.refused(why, page=page)

    def test_other_words(self):
        self.assertEqual(self.ask(['--list'])[0], 2)


if __name__ == '__main__':
    unittest.main()
