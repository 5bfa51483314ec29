"""Tests of edits_refused.py on logs of each kind, in the compiler's words."""
from contextlib import redirect_stdout
from io import StringIO
from pathlib import Path
from unittest import mock
import os
import tempfile
import unittest

import edits_refused

PLACE = './proofs/clear_unless/Answers.antt:8:13'
GOALS = 'Rattle.bits.proofs.clear_unless.Goals'
END = 'fn bits::clear_unless: not proved\nlogic=not-proved\n'
REPEAT = (f'{PLACE}: error: `clear_unless_spec`: `close` was not admitted (it has holes or undetermined implicits, or was rejected), '
          'so this cannot be checked')

FACTS = (
    '`returns`: give a proof of that as the last argument, `rw L t` (`rw L ?` shows it as a hole\'s goal), or add what is missing to the list',
    '`has_shift_mask`: computed as far as they go, the two types differ only where one has `0` (expected) and the other has `1` (found)',
    '`has_bit`: expected type `bit k n == 1 ≡ true`, but this has type `has k n ≡ true`',
    '`loop_again`: `omega`: the goal does not follow from what it read. All of that holds, and the goal fails, at `c.before`',
    '`returns_2`: `search`: no proof of `places ≤ c.before.loop.place` was found. Every way was tried',
)
NO_FACTS = (
    ('an unknown name', '`has_bit`: `eq_truly` is not in scope; did you mean `eq_true`?'),
    ('an import', 'module `Rattle.bits.specs.Bits` has no `clearing` that can be named from here'),
    ('an import', 'module `Rattle.bits.specs` has no `Bitten` that can be named from here'),
    ('an error outside every declaration', 'this line starts at column 1, at or left of the enclosing block\'s column 1, but the `(` opened at '
     '64:26 is still open'),
    ('a proof that no longer fits', f'`returns_2`: `goal.returns_2`: module `{GOALS}` has no `returns_2` that can be named from here'),
    ('a proof that no longer fits', '`returns`: expected type `goal.add_result`, but this has type `goal.returns`'),
    ('a proof that no longer fits', '`returns`: record `Rattle.bits.proofs.clear_unless.Lts.Start` has no field `if1`'),
    ('a replay that fails', '`has_bit`: `rw`: no occurrence of the path\'s left endpoint in the goal: write the family yourself'),
)


def log(*errors):
    return ''.join(f'{PLACE}: error: {error}\n' for error in errors) + END


class Logs(unittest.TestCase):
    def test_facts(self):
        for fact in FACTS:
            self.assertIsNone(edits_refused.no_fact(log(fact)), fact)

    def test_no_facts(self):
        for why, error in NO_FACTS:
            self.assertEqual(edits_refused.no_fact(log(error)), (why, error))

    def test_lines_below_an_error(self):
        line = '`returns`: as printed, the two types first differ where one has `goal.add_result`'
        below = '\n  (expected), at the start, and the other has `goal.returns` (found)\n  expected type `'
        misfit = log(line + below + 'Rattle.bits.proofs.clear_unless.Goals.add_result`')
        self.assertEqual(edits_refused.no_fact(misfit), ('a proof that no longer fits', line))
        self.assertIsNone(edits_refused.no_fact(log(line + below + 'Path (lts.m17 goal.add_result) (clear x)`')))

    def test_a_field_that_is_missing_in_the_line_below(self):
        line = '`returns`: record `Rattle.bits.proofs.clear_unless.Lts.Start`'
        self.assertEqual(edits_refused.no_fact(log(line + '\n  has no field `clear`')), ('a proof that no longer fits', line))

    def test_the_first_error_decides(self):
        for why, error in NO_FACTS:
            self.assertIsNone(edits_refused.no_fact(log(FACTS[0], error)))
            self.assertEqual(edits_refused.no_fact(log(error, FACTS[0])), (why, error))
            self.assertEqual(edits_refused.no_fact(REPEAT + '\n' + log(error)), (why, error))

    def test_errors_that_only_repeat(self):
        note = 'note: src/lib.rt:32:1: it is not proved that what the function ensures holds when it returns (`returns`)\n'
        self.assertIsNone(edits_refused.no_fact(f'{REPEAT}\n{note}{END}'))
        self.assertEqual(edits_refused.no_fact(f'{REPEAT}\n{END}'), ('no error', ''))
        further = log('2 declarations that depend on `bit_has`, which was rejected, were not checked: none_from, has_and')
        self.assertEqual(edits_refused.no_fact(further), ('no error', ''))
        self.assertEqual(edits_refused.no_fact(''), ('no error', ''))

    def test_functions_without_a_proof_file(self):
        note = 'note: src/lib.rt:{}:1: it is not proved that what the function ensures holds when it returns (`returns`)\n'
        said = 'fn bits::{}: no proof: expected answers in ./proofs/{}/Answers.antt; `search` did not prove `returns`\n'
        text = note.format(3) + said.format('low', 'low') + 'fn bits::mid: proved\n' + note.format(9) + said.format('in::high', 'in/high')
        text += 'fn bits::mid: no proof: it calls `bits::low`, which is not proved\n'
        # the fact of a function whose answers do not fit is not that of the next one
        text += note.format(20) + 'fn bits::odd: not proved\nfn bits::above: no proof: it calls `bits::odd`, which is not proved\n'
        self.assertEqual(edits_refused.unproved(text + END), [('src/lib.rt', 'low'), ('src/lib.rt', 'in::high'), ('src/lib.rt', '')])
        for place in 'src/lib.rt', 'src/lib.rt low', 'src/lib.rt high', 'src/lib.rt in::high':
            self.assertIsNone(edits_refused.no_fact(text + END, edits_refused.within(place)), place)
        for place in 'src/lib.rt mid', 'src/lib.rt lo', 'src/lib.rt n::high', 'src/in.rt high', 'src/in.rt':
            self.assertEqual(edits_refused.no_fact(text + END, edits_refused.within(place)), ('no error', ''), place)

    def test_error_of_the_compiler(self):
        text = 'src/lib.rt:26:26: error[unknown-name]: cannot find value `y` in this scope\n'
        self.assertEqual(edits_refused.no_fact(text)[0], 'an error outside every declaration')


CHANGE = 'file: src/lib.rt\nold: x + ONE\nnew: x + 2\n'
SEVERAL = f'# one_more: One more\n# is added.\nat: proofs/first/Answers.antt\n{CHANGE}\n# low: Two more.\nat: specs/Laws.antt\n{CHANGE}'
REPOSITORY = {
    'crates/bits/must-fail/added.edit': f'# Added twice.\n{CHANGE}old: x - ONE\nnew: x - 2\n',
    'crates/bits/must-fail/several.edit': SEVERAL,
}


def at(place, error):
    return f'./{place}:8:13: error: {error}\n'


class Folder(unittest.TestCase):
    def answer(self, repository=REPOSITORY, **texts):
        """What is said of a small repository, by the logs of its two files of edits."""
        with tempfile.TemporaryDirectory() as folder, redirect_stdout(StringIO()) as said:
            for name, text in {**repository, **{f'target/must-fail/bits/{file}.log': text for file, text in texts.items()}}.items():
                path = Path(folder, name)
                path.parent.mkdir(parents=True, exist_ok=True)
                path.write_text(text, encoding='utf-8')
            status = edits_refused.main([Path(folder, 'target/must-fail')], Path(folder))
        return status, said.getvalue().splitlines()

    FIRST, SECOND = at('proofs/first/Answers.antt', FACTS[0]), at('specs/Laws.antt', FACTS[1])

    def test_every_edit_is_asked_for(self):
        self.assertEqual(self.answer(added=log(FACTS[0]), several=self.FIRST + self.SECOND), (0, ['3 edits refused at a fact']))
        status, lines = self.answer(several=self.FIRST + self.SECOND)
        self.assertEqual((status, lines[-1]), (1, '2 edits refused at a fact, 1 not'))
        self.assertIn('bits/added: not tried: ', lines[0])

    def test_a_wrong_edit_is_named(self):
        status, lines = self.answer(added=log(NO_FACTS[0][1]), several=self.FIRST + self.SECOND)
        self.assertEqual(status, 1)
        self.assertTrue(lines[0].startswith('bits/added: an unknown name: '), lines)

    def test_each_of_several_is_held_to_its_own_file(self):
        for place in 'proofs/second/Answers.antt', 'specs/Laws.antt', 'specs/proofs/first/Answers.antt.antt':
            status, lines = self.answer(added=log(FACTS[0]), several=at(place, FACTS[0]) + self.SECOND)
            self.assertEqual((status, lines[0]), (1, 'bits/one_more: no error: '), place)
        for why, error in NO_FACTS:
            status, lines = self.answer(added=log(FACTS[0]), several=self.SECOND + at('proofs/first/Answers.antt', error) + self.FIRST)
            self.assertEqual((status, lines[0].split(': ')[:2]), (1, ['bits/one_more', why]))

    def test_each_of_several_is_held_to_its_own_declaration(self):
        several = SEVERAL.replace('at: proofs/first/Answers.antt', 'at: specs/Laws.antt returns').replace('at: specs/Laws.antt\n', 'at: specs/Laws.antt low\n')
        repository = {**REPOSITORY, 'crates/bits/must-fail/several.edit': several}

        def said(*errors):
            return self.answer(repository, added=log(FACTS[0]), several=''.join(at('specs/Laws.antt', error) for error in errors))
        returns, low = (f'`{name}`: no proof of `bits` could be found here' for name in ('returns', 'low'))
        self.assertEqual(said(returns, low), (0, ['3 edits refused at a fact']))
        self.assertEqual(said(low)[1], ['bits/one_more: no error: ', '2 edits refused at a fact, 1 not'])
        self.assertEqual(said(returns.replace('returns', 'returns_2'), low)[1][0], 'bits/one_more: no error: ')

    def test_an_edit_that_the_prover_tells_by_a_note(self):
        note = 'note: ./proofs/first/Answers.antt:7:5: it is not proved that the sum fits\n'
        self.assertEqual(self.answer(added=log(FACTS[0]), several=note + self.SECOND), (0, ['3 edits refused at a fact']))

    def test_sections(self):
        with tempfile.TemporaryDirectory() as folder:
            path = Path(folder, 'several.edit')
            path.write_text(SEVERAL, encoding='utf-8')
            self.assertEqual(edits_refused.sections(path), [
                ('one_more', 'One more is added.', 'proofs/first/Answers.antt'), ('low', 'Two more.', 'specs/Laws.antt')])
            path.write_text(SEVERAL.replace('at: proofs/first/Answers.antt', 'at: specs/Laws.antt high').replace('Laws.antt\n', 'Laws.antt low\n'))
            self.assertEqual([place for *_, place in edits_refused.sections(path)], ['specs/Laws.antt high', 'specs/Laws.antt low'])
            for wrong in (SEVERAL.replace('at: specs/Laws.antt\n', ''), SEVERAL.replace('specs/Laws', 'proofs/first/Answers'), SEVERAL.replace('low: ', ''),
                          SEVERAL.replace('at: proofs/first/Answers.antt', 'at: specs/Laws.antt high')):
                path.write_text(wrong, encoding='utf-8')
                self.assertRaises(ValueError, edits_refused.sections, path)


class Tried(unittest.TestCase):
    """Edits that are tried, with answers in the place of the prover's."""
    SOURCE = 'crates/bits/src/lib.rt'

    def setUp(self):
        folder = tempfile.TemporaryDirectory()
        self.addCleanup(folder.cleanup)
        self.root, self.asked, self.status = Path(folder.name), [], 1
        files = {'crates.txt': 'low:\nbits: low\nother:\n', 'KIT-ID': 'a kit\n', self.SOURCE: 'x + ONE, x - ONE\n', 'crates/low/specs/Lib.antt': '',
                 'crates/other/src/lib.rt': '', **REPOSITORY,
                 'crates/bits/must-fail/several.edit': SEVERAL.replace(f'.antt\n{CHANGE}', '.antt\n', 1)}
        for name, text in files.items():
            self.write(name, text)
        for patch in (mock.patch.multiple('own_check', ask=self.ask, kit=lambda: self.root, hold_libraries=lambda root, crate: None),
                      mock.patch.dict(os.environ, XDG_CACHE_HOME=str(self.root / 'cache'))):
            patch.start()
            self.addCleanup(patch.stop)

    def write(self, name, text):
        path = self.root / name
        path.parent.mkdir(parents=True, exist_ok=True)
        path.write_text(text, encoding='utf-8')

    def ask(self, root, verb, crate, texts, *words):
        self.asked.append((verb, crate, texts))
        return self.status, at('proofs/first/Answers.antt', FACTS[0]) + at('specs/Laws.antt', FACTS[1])

    def tried(self):
        """(status, how many times the prover was asked)."""
        self.asked.clear()
        with redirect_stdout(StringIO()):
            status = edits_refused.main([], self.root)
        return status, len(self.asked)

    def test_what_is_asked(self):
        self.assertEqual(self.tried(), (0, 2))
        self.assertIn(('check', 'bits', {'src/lib.rt': 'x + 2, x - 2\n'}), self.asked)
        self.assertTrue((self.root / 'target/must-fail/bits/several.log').is_file())

    def test_an_answer_is_kept_for_the_same_files(self):
        self.assertEqual([self.tried(), self.tried()], [(0, 2), (0, 0)])
        for name, asked in ('crates/other/src/lib.rt', 0), ('crates/low/specs/Lib.antt', 2), (self.SOURCE, 2), ('KIT-ID', 2):
            self.write(name, (self.root / name).read_text() + '\n')
            self.assertEqual(self.tried(), (0, asked), name)

    def test_a_check_that_was_killed_is_tried_again_and_not_kept(self):
        self.status = -9
        self.assertEqual([self.tried(), self.tried()], [(0, 4), (0, 4)])

    def test_an_edit_that_does_not_fit(self):
        """Both edits of this file change one place, of which the first leaves nothing."""
        self.assertRaises(ValueError, edits_refused.edited, SEVERAL, self.root / 'crates/bits')
        self.write(self.SOURCE, 'x + ONE x + ONE\n')
        self.assertEqual(self.tried()[0], 1)


if __name__ == '__main__':
    unittest.main()
