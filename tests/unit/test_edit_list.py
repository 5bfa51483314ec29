"""Tests of edit_list.py on a small repository: the list, the page it is written into, and an edit that does not say what it stands for."""
import unittest

import edit_list
from tests.unit.small_repository import asked, page_of

LINES = '## Words\nbits:\nnames:\n\n## Laws\nlaws: bits\n\n## Table\ntable: bits\n'
CHANGE = 'file: src/lib.rt\nold: 1\nnew: 2\n'
FILES = {
    'table/must-fail/swapped.edit': f'# EAX | EBX are swapped, as B.0\n# and B.1.\n{CHANGE}# not of the list\n',
    'table/must-fail/lost.edit': f'# a row is lost\n{CHANGE}',
    'bits/must-fail/high.edit': f'# A bit is one too high.\n{CHANGE}',
    'names/src/lib.rt': '',
    'laws/src/lib.rt': '',
}
LIST = '''### Words

| edit | what it would let pass |
|---|---|
| [bits/high](../crates/bits/must-fail/high.edit) | A bit is one too high |

### Table

| edit | what it would let pass |
|---|---|
| [table/lost](../crates/table/must-fail/lost.edit) | a row is lost |
| [table/swapped](../crates/table/must-fail/swapped.edit) | EAX \\| EBX are swapped, as B.0 and B.1 |
'''
PAGE = page_of(edit_list, LIST)


class Lists(unittest.TestCase):
    def ask(self, words, page=PAGE, **others):
        """(status, what is said, the page then); `others` has the text of an edit of table."""
        files = {**FILES, **{f'table/must-fail/{name}.edit': text for name, text in others.items()}}
        return asked(edit_list, words, page, {'crates.txt': LINES, **{f'crates/{name}': text for name, text in files.items()}})

    def test_printed(self):
        self.assertEqual(self.ask([]), (0, LIST, PAGE))

    def test_written_and_as_it_should_be(self):
        for words, page in (['--check'], PAGE), (['--write'], PAGE), (['--write'], PAGE.replace(LIST, '')):
            self.assertEqual(self.ask(words, page=page), (0, '3 edits in the list\n', PAGE))

    def test_a_changed_edit_is_found(self):
        for change in {'lost': f'# A row is kept.\n{CHANGE}'}, {'more': f'# One more.\n{CHANGE}'}:
            status, said, then = self.ask(['--check'], **change)
            self.assertEqual((status, then), (1, PAGE))
            self.assertRegex(said, r'^docs/EDITS\.md:1[56] is not as made \(tests/gate/edit_list\.py --write\)')

    def test_an_edit_without_a_comment(self):
        for text in CHANGE, f'#\n{CHANGE}', f'{CHANGE}# A row is lost.\n', '':
            for word in '--check', '--write':
                self.assertEqual(self.ask([word], lost=text), (
                    1, 'crates/table/must-fail/lost.edit does not open with a comment that says what it would let pass\n', PAGE))

    def test_several_edits_in_a_file(self):
        text = f'# lost: A row is lost.\nat: specs/Lost.antt\n{CHANGE}\n# found: A row is\n# found.\nat: specs/Found.antt\n{CHANGE}'
        said = self.ask([], bodies=text)[1]
        for name, words in ('lost', 'A row is lost'), ('found', 'A row is found'):
            self.assertIn(f'| [table/{name}](../crates/table/must-fail/bodies.edit) | {words} |\n', said)


if __name__ == '__main__':
    unittest.main()
