"""Tests of believed.py on a small repository: which lines are counted, the page they are written into, and each reason why there is no list."""
import unittest

import believed
from tests.unit.small_repository import asked, page_of

FILES = {
    believed.THEOREMS: '''-- The theorems.
use mathlib.Core.Path.{◌≡◌}
use Rattle.letter.specs.Paper.{small}
use Rattle.build.specs.Build.{answer}

pub verdict_by_the_letter : 1 ≡ 1  -- in words
verdict_by_the_letter = refl

pub table_by_the_letter : (n : ℕ)
    → answer n ≡ small n
unfolding answer
table_by_the_letter = proof
''',
    believed.RISE: '''-- Demand 3.
use Rattle.build.specs.Build.{answer}
use Rattle.bits.specs.Other
use Rattle.bits.specs.Kinds as K

-- whether
pub record Hypothesis : Type 0 where
  pub accepted : answer 0 ≡ Other.more
  pub low : K.Kind.low ≡ K.Kind.low

abbrev pub Demand3ByTheLetter : Type 0
Demand3ByTheLetter = Hypothesis

abbrev pub unused : ℕ
unused = 7
''',
    'crates/build/specs/Build.antt': 'unfoldable pub answer : ℕ → ℕ\nanswer n = long n\n\nabbrev pub long : ℕ → ℕ\nlong n = n\n',
    believed.PAGE: '''-- The paper.
use Prim.Native.Nat.{ℕ}
use Rattle.bits.specs.Choice.{pick as choose}
use Rattle.bits.specs.Kinds.Kind.{low, high as top}
use Rattle.table.specs.declared.Verdict.TheVariants.{Accepted}

-- "A bit is 1 or 0."
abbrev pub small : ℕ → ℕ
small n = choose true n 0
''',
    'crates/bits/specs/Choice.antt': '''use Rattle.bits.specs.Other.{yes}

abbrev pub pick : Bool → ℕ → ℕ → ℕ
pick true a b = yes a
-- else
pick false a b = both a b

abbrev pub both : ℕ → ℕ → ℕ
both a b = a

abbrev pub unused : ℕ
unused = 7
''',
    'crates/bits/specs/Other.antt': 'unfoldable pub yes : ℕ → ℕ\nyes n = n\n\nabbrev pub more : ℕ\nmore = 1\n',
    'crates/bits/specs/Kinds.antt': 'pub data Kind : Type 0 where\n  low high : Kind\n',
    'crates/table/src/lib.rt': '''// The table.
use bits::Kind;

pub struct Other {
    pub n: u32,
}

// A verdict.
pub enum Verdict {
    Accepted,
    // with why
    Refused(Refusal),
}

pub enum Refusal {
    Length,
}
''',
}
LIST = '''### 21 lines to believe for demand 3, the rise

| file | what is used of it | lines |
|---|---|---|
| [rise/specs/Rise](../crates/rise/specs/Rise.antt) | `Demand3ByTheLetter`, `Hypothesis` | 5 |
| [theorems/specs/Document01](../crates/theorems/specs/Document01.antt) | `table_by_the_letter`, `verdict_by_the_letter` | 3 |
| [letter/specs/Paper](../crates/letter/specs/Paper.antt) | `small` | 2 |
| [bits/specs/Choice](../crates/bits/specs/Choice.antt) | `both`, `pick` | 5 |
| [bits/specs/Kinds](../crates/bits/specs/Kinds.antt) | `Kind` | 2 |
| [bits/specs/Other](../crates/bits/specs/Other.antt) | `more`, `yes` | 4 |

### 24 lines to believe for demands 1 and 2, 10 of them not above

| file | what is used of it | lines |
|---|---|---|
| [theorems/specs/Document01](../crates/theorems/specs/Document01.antt) | the theorems | 6 |
| [letter/specs/Paper](../crates/letter/specs/Paper.antt) | the paper in its own figures | 2 |
| [bits/specs/Choice](../crates/bits/specs/Choice.antt) | `both`, `pick` | 5 |
| [bits/specs/Kinds](../crates/bits/specs/Kinds.antt) | `Kind` | 2 |
| [bits/specs/Other](../crates/bits/specs/Other.antt) | `yes` | 2 |
| [table/src/lib.rt](../crates/table/src/lib.rt) | `Refusal`, `Verdict` | 7 |
'''
PAGE = page_of(believed, LIST)


class Believed(unittest.TestCase):
    def ask(self, words, page=PAGE, **changed):
        """(status, what is said, the page then); `changed` has pairs of old and new text, by file with __ for /."""
        files = dict(FILES)
        for name, (old, new) in changed.items():
            name = next(file for file in files if file.endswith(name.replace('__', '/')))
            self.assertIn(old, files[name])
            files[name] = files[name].replace(old, new)
        return asked(believed, words, page, files)

    def test_printed(self):
        self.assertEqual(self.ask([]), (0, LIST, PAGE))

    def test_as_it_should_be(self):
        self.assertEqual(self.ask(['--check']), (0, '12 files to believe in the list\n', PAGE))

    def test_written(self):
        for page in PAGE.replace(LIST, ''), PAGE.replace('24 lines', '23 lines'):
            self.assertEqual(self.ask(['--write'], page=page), (0, '12 files to believe in the list\n', PAGE))

    def test_comments_and_unused_words_do_not_count(self):
        for file, change in (('specs/Document01.antt', ('-- The', '-- All of the')), ('specs/Choice.antt', ('-- else', '-- otherwise')),
                             ('specs/Choice.antt', ('unused = 7', 'unused = 8')), ('specs/Rise.antt', ('unused = 7', 'unused = 8\nunused = 9')),
                             ('src/lib.rt', ('pub n: u32,', 'pub n: u32,\n    pub m: u32,'))):
            self.assertEqual(self.ask(['--check'], **{file: change})[0], 0)

    def test_a_determined_word_counts_by_its_theorem(self):
        for file, change in (('specs/Build.antt', ('answer n = long n', 'answer n = long n\nanswer m = 0')),
                             ('specs/Document01.antt', ('= proof', '= other'))):
            self.assertEqual(self.ask(['--check'], **{file: change})[0], 0)
        longer = {'specs/Document01.antt': ('    → answer', '    → 1 ≡ 1\n    → answer')}
        self.assertIn('### 22 lines to believe for demand 3', self.ask([], **longer)[1])

    def test_many_words_are_counted(self):
        many = ''.join(f'abbrev pub w{n} : ℕ\nw{n} = {f"w{n + 1}" if n < 12 else 0}\n\n' for n in range(13))
        said = self.ask([], **{'specs/Rise.antt': ('abbrev pub unused', f'{many}abbrev pub unused')})[1]
        self.assertIn('`Demand3ByTheLetter`, `Hypothesis` | 5 |', said)
        said = self.ask([], **{'specs/Rise.antt': ('= Hypothesis\n', f'= Hypothesis w0\n\n{many}')})[1]
        self.assertIn('| 15 words | 31 |', said)

    def test_a_further_line_or_word_is_found(self):
        for file, change in (('specs/Document01.antt', ('refl\n', 'refl\nmore = refl\n')), ('specs/Paper.antt', ('small n', 'small 0 = 0\nsmall n')),
                             ('specs/Other.antt', ('yes n = n', 'yes n = more')), ('specs/Choice.antt', ('both a b = a', 'both a b = unused')),
                             ('src/lib.rt', ('    Length,', '    Length,\n    Count,'))):
            status, said, _ = self.ask(['--check'], **{file: change})
            self.assertEqual(status, 1)
            self.assertIn('is not as made (tests/gate/believed.py --write)', said)

    def test_no_list(self):
        for file, change, why in (('specs/Paper.antt', ('specs.Choice.', 'specs.Choices.'), 'crates/bits/specs/Choices.antt is not there'),
                                  ('specs/Choice.antt', ('pub pick', 'pub picks'), 'crates/bits/specs/Choice.antt does not define pick'),
                                  ('src/lib.rt', ('enum Verdict', 'enum Verdicts'), 'crates/table/src declares no Verdict')):
            self.assertEqual(self.ask(['--check'], **{file: change})[:2], (1, why + '\n'))

    def test_other_words(self):
        self.assertEqual(self.ask(['--list'])[0], 2)


if __name__ == '__main__':
    unittest.main()
