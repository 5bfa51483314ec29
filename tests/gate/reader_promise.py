#!/usr/bin/env python3
"""reader_promise.py: whether what stands above the page reader relies on what the reader promises with each entry, that its reserved bytes are zero.

Beside the crates the promise is taken out of the contract of `pages::reader::take`: it still says that it gives the entry there or the leaf of that
entry, and no longer which. The code stays. The reader must still be proved, and the walk above it, crate collect, must not be, for want of that fact.
"""
from pathlib import Path
import sys
import tempfile

import own_check

ROOT = Path(__file__).resolve().parents[2]

GIVEN = 'read_by b pages.now index'
MISSED = ' ∙ c.take-read.ensures.1 ∙ by_clean {b = c.take-read.ensures.0} _ _ (search rules))'
# crate, file, what stands there once, what takes its place
CHANGES = (
    ('pages', 'src/reader.rt', 'Prelude.{◌≡◌};', 'Prelude.{◌≡◌, Bool};'),
    ('pages', 'src/reader.rt', 'specs.Read.{Readable, read_at};', 'specs.Read.{Readable, read_by};'),
    ('pages', 'src/reader.rt', '    ensures { result ≡ read_at pages.now index }', f'    ensures {{ (b : Bool) × (result ≡ {GIVEN}) }}'),
    ('pages', 'specs/Read.antt', 'unfoldable pub read_at :', 'abbrev pub read_by : Bool → List ℕ → CpuidPageIndex → Result ParsedCpuidEntry CpuidFunction\n'
     "read_by b s i = pick b (Ok (parsed (entry_here s i))) (Err (entry_here s i).leaf)\n\nunfoldable pub read_at :"),
    ('pages', 'specs/ReadLaws.antt', 'clean_here, read_at, given}', 'clean_here, read_at, read_by, given}'),
    ('pages', 'specs/ReadLaws.antt', '-- by each answer of the code\n',
     'pub read_as : (s : List ℕ) (i : CpuidPageIndex) → read_at s i ≡ read_by (clean_here s i) s i\nunfolding read_at\nread_as s i = refl\n\n'
     'pub by_clean : {b : Bool} (s : List ℕ) (i : CpuidPageIndex) → b ≡ clean_here s i → read_by b s i ≡ read_at s i\n'
     'by_clean s i e = ap (λ (c : Bool). read_by c s i) e ∙ sym (read_as s i)\n\n-- by each answer of the code\n'),
    ('pages', 'proofs/reader/take/Answers.antt', 'use mathlib.Core.Path.{sym, ◌∙◌}',
     'use mathlib.Core.Path.{ap}\nuse mathlib.Core.Bool.{true, false}\nuse Rattle.pages.specs.declared.ParsedCpuidEntry.{ParsedCpuidEntry}\n'
     'use Rattle.std.specs.Prelude.{Ok, Err}'),
    ('pages', 'proofs/reader/take/Answers.antt', 'ReadLaws.{readable_within, clean_read, unclean_read}', 'ReadLaws.{readable_within}'),
    ('pages', 'proofs/reader/take/Answers.antt', ' c = clean_read _ _ c.entry_at-entry.ensures (sym c.clean_at.ensures ∙ c.if-clean_at.true)',
     ' c = (true, ap (λ (x : ParsedCpuidEntry). Ok x) c.entry_at-entry.ensures)'),
    ('pages', 'proofs/reader/take/Answers.antt', ' c = unclean_read _ _ c.entry_at-entry.ensures (sym c.clean_at.ensures ∙ c.if-clean_at.false)',
     ' c = (false, ap (λ (x : ParsedCpuidEntry). Err x.leaf) c.entry_at-entry.ensures)'),
    ('collect', 'proofs/collect_into/Answers.antt', 'ReadLaws.{read_entry}', 'ReadLaws.{read_entry, by_clean}'),
    ('collect', 'proofs/collect_into/Answers.antt', '(sym c.in-Ok.is ∙ c.take-read.ensures)', f'(sym c.in-Ok.is{MISSED}'),
    ('collect', 'proofs/collect_into/Answers.antt', '(sym c.in-Err.is ∙ c.take-read.ensures)', f'(sym c.in-Err.is{MISSED}'),
)


def texts(crate):
    """{path: text} of the files of a crate that are changed."""
    found = {}
    for _, path, old, new in (change for change in CHANGES if change[0] == crate):
        text = found.get(path) or (ROOT / 'crates' / crate / path).read_text(encoding='utf-8')
        if text.count(old) != 1:
            sys.exit(f'{crate}/{path}: not once in it: {old}')
        found[path] = text.replace(old, new)
    return found


def main():
    own_check.hold_libraries(ROOT, 'collect')
    with tempfile.TemporaryDirectory() as room:
        pages = Path(room) / 'pages.rlib'
        proved, said = own_check.ask(ROOT, 'build', 'pages', texts('pages'), '--statements', '-o', pages)
        status, walk = own_check.ask(ROOT, 'check', 'collect', texts('collect'), instead={'pages': pages}) if proved == 0 else (proved, '')
    errors = [line for line in walk.split('\n') if 'proofs/collect_into' in line and ': error: ' in line]
    wanted = [line for line in errors if 'no proof of' in line and 'clean_here' in line]
    if proved != 0 or status != 1 or not wanted:
        sys.exit(said[-2000:] + walk[-4000:] + '\nthe walk does not miss the promise, or something else fails')
    print(f'{len(wanted)} facts missed above the reader without its promise, and the reader still proved')


main()
