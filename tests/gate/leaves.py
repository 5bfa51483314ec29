#!/usr/bin/env python3
"""leaves.py: where the kept leaves stand in lists that follow from the table of them, made of `kept_leaves` of crates/masking/specs/Kept.antt.

--write writes them, and --check fails where a file has something else:
  crates/x86defs/src/leaf.rt, masking/src/place.rt    the numbers of the leaves, and a name for the first place of each
  crates/masking/src/masks.rt               a row of the code's table for a leaf that is kept whole
  crates/masking/src/run.rt                 the numbers of each run: its places and its rows of the table
  crates/masking/src/lib.rt, specs, proofs  the arms of `place_of`, its proof, and the leaves that they name
  crates/rows/src/checked/required.rt       the places of the required leaves, of the lists of crates/checks/specs/Required.antt
  crates/collect/src/full.rt, must-fail     the leaves that are not kept, as bits, and the edit that changes them
  crates/lookup/src/lib.rt                  where leaves without subleaves follow each other, the last of them
  crates/kvm_export/specs/Flags.antt, crates/theorems/specs/ListTheorems.antt    the flag and the index of each place
  include/snp_cpuid.h                       the places of a table, in words
  rust/src/places.rs                        the runs of places
  rust/tests/memory.rs, command/page_sets.rs    the places, and the rows that every table needs, for tests
  rust/src/bin/snp-cpuid                    in the help of from-dump and from-kvm, the rows that are read; a line of masks.rs for a leaf that is
                                            kept whole
  differential/compare/src/pages.rs         the required leaves in the order of their lists
  include/refusals.txt, docs/COMMAND.md     what `explain` prints of refusal 3
A new run of the code is written by hand, with any numbers; figures.py --write comes before this. Every place is needed but the two made here and Dh's
subleaves from 2 up: `all_found` of crates/finish/specs/PlaceLaws.antt holds that.
"""
from itertools import groupby
from pathlib import Path
import re
import sys
import textwrap

import leaf_code
from leaf_code import FIRST_STATE, MADE, number
import made_files
from kept_leaves import LEAVES, PLACES, leaf_names, names, places, required, rows as kept_rows
from made_files import replaced
from proved_source import Unlisted

ROOT = Path(__file__).resolve().parents[2]
COMMAND = 'rust/src/bin/snp-cpuid'
STATE = 0xD
# the leaves that `place_of` has as one arm
TOGETHER = range(0x80000001, 0x80000009)


def runs(kept):
    """[(first place, first leaf, leaves, subleaves or None)]: leaves that follow each other without subleaves, or one leaf with its subleaves."""
    found = []
    for leaf, group in groupby(enumerate(kept), lambda each: each[1].leaf):
        rows = list(group)
        first, subleaves = rows[0][0], None if rows[0][1].subleaf is None else len(rows)
        if found and subleaves is None and found[-1][3] is None and found[-1][1] + found[-1][2] == leaf:
            found[-1] = (*found[-1][:2], found[-1][2] + 1, None)
        else:
            found.append((first, leaf, 1, subleaves))
    return found


def code_runs(path, text, root, kept):
    """The runs of the code with their numbers: how many places, the row of the first in the table of kept leaves, and of the last."""
    first = {name: number for number, name in names(root).items()}
    row_of = [row for row, each in enumerate(kept_rows(root)) for _ in each]
    known = {each[0]: each[2] if each[3] is None else each[3] for each in runs(kept)}

    def made(found):
        place = first.get(found[1])
        if place not in known:
            raise Unlisted(f'{path}: no run of the kept leaves begins at {found[1]}')
        count, row = known[place], row_of[place]
        return (f'    first: place::{found[1]},\n    count: {count},\n    leaf: CpuidFunction(KEPT_LEAVES[{row}].leaf.0),\n'
                f'    indexed: KEPT_LEAVES[{row}].subleaf,\n    row: {row},\n    last_row: {row_of[place + count - 1]},\n')
    new, many = re.subn(r'^    first: place::(\w+),\n(?:    .*\n){5}', made, text, flags=re.MULTILINE)
    if many != len(known):
        raise Unlisted(f'{path} has {many} runs, and the kept leaves {len(known)}')
    return new


def known(table, number, path):
    if number not in table:
        raise Unlisted(f'{path} has no name for {number:X}')
    return table[number]


def alone(kept):
    """The leaves that have an arm of their own, with their first place and whether they have subleaves."""
    found = {}
    for number, place in enumerate(kept):
        if place.leaf not in MADE and place.leaf not in TOGETHER:
            found.setdefault(place.leaf, (place.leaf, number, place.subleaf is not None))
    return list(found.values())


def place_of(path, text, root, kept):
    """The arms of `place_of`."""
    leaf, place = leaf_names(root), names(root)
    source = (root / 'crates/masking/src/run.rt').read_text(encoding='utf-8')
    run = {first: name for name, first in re.findall(r'^pub const (\w+): Run = Run \{\n    first: place::(\w+),', source, re.MULTILINE)}
    together = (f'        leaf::{leaf[TOGETHER[0]]}..=leaf::{leaf[TOGETHER[-1]]} => {{\n            place::{leaf[MADE[1]]}'
                f' + (n - leaf::{leaf[MADE[1]]}) as usize\n        }}\n')
    before, after = '', ''
    for number, first, indexed in alone(kept):
        name, own = known(leaf, number, 'crates/x86defs/src/leaf.rt'), known(place, first, 'crates/masking/src/place.rt')
        arm = f'        leaf::{name} => ' + (f'subleaf_place(run::{run.get(own, own)}, subleaf)' if indexed else f'place::{own}') + ',\n'
        before, after = (before + arm, after) if number < TOGETHER[0] else (before, after + arm)
    return replaced(path, text, r'(^    match n \{\n)(?:        .*\n)+?(        _ => PLACES,\n)',
                    lambda old: old[1] + before + together + after + old[2])


def place_of_proof(path, text, kept):
    """The answers for the arms of `place_of` in the order of the code: what the call for a leaf with subleaves requires, and each arm's return."""
    def answer(name, body):
        return f'pub {name} : goal.{name}\nunfolding place_of kept_leaves tabulate\n{name} c = {body}\n\n'
    needs, arms = '', ''
    for leaf, _, indexed in alone(kept):
        if indexed:
            own = f'-in-{leaf}' if needs else ''
            needs += answer(f'subleaf_place-requires{own}', 'search rules')
            body = (f'value = subleaf_run _ _ c.args.subleaf c.in-{leaf}.is c.subleaf_place{own}.ensures.value refl refl; '
                    f'small = c.subleaf_place{own}.ensures.small')
        else:
            body = f'value = rw c.in-{leaf}.is; small = search rules'
        arms += answer(f'returns-in-{leaf}', f'record {{ {body} }}')
    text = replaced(path, text, r'(?:^pub subleaf_place-requires.*\n.*\n.*\n\n)+', needs)
    return replaced(path, text, r'(?:^pub returns-in-\d+ : .*\n.*\n.*\n\n)+', arms)


def last_leaves(path, text, root, kept):
    """Where code asks for leaves up to one of a run, that is the run's last."""
    leaf = leaf_names(root)
    whole = [(first, first + many - 1) for _, first, many, subleaves in runs(kept) if subleaves is None]
    last = {leaf[each]: leaf[end] for first, end in whole for each in range(first, end + 1)}
    return re.sub(r'(?<=<= leaf::)\w+', lambda found: last.get(found[0], found[0]), text)


def words(kept, h='', base='d'):
    """Places in words: 1, 5, 7.0, B.0, B.1, 80000001 to 80000008; `h` stands after a leaf of eight digits."""
    found = []
    for _, leaf, leaves, subleaves in runs(kept):
        names = [f'{each:X}' + (h if each > 0xFF else '') for each in range(leaf, leaf + leaves)]
        if subleaves is not None:
            last = f'{subleaves - 1:{base}}'.upper()
            names = [f'{names[0]}.{each}' for each in range(subleaves)] if subleaves < 3 else [
                f'{names[0]}.0 to .{last}' if leaf > 0xFF else f'{names[0]}.0 to {names[0]}.{last}']
        elif leaves > 2:
            names = [f'{names[0]} to {names[-1]}']
        found += names
    return ', '.join(found[:-1]) + f' and {found[-1]}'


def in_paragraph(path, text, opens, closes, listed, prefix, width):
    """The paragraph with a list between two texts, written anew in lines of this width. No line of it has a quote or is a command."""
    for paragraph in re.finditer(rf'(?:^{re.escape(prefix)}[^\s$"/][^"\n]*\n)+', text, re.MULTILINE):
        lines = ' '.join(line[len(prefix):] for line in paragraph[0].splitlines())
        if opens in lines and closes in lines:
            start = lines.index(opens) + len(opens)
            lines = lines[:start] + listed + lines[lines.index(closes, start):]
            made = textwrap.wrap(lines, width - len(prefix), break_long_words=False, break_on_hyphens=False)
            return text[:paragraph.start()] + ''.join(f'{prefix}{line}\n' for line in made) + text[paragraph.end():]
    raise Unlisted(f'{path} has no paragraph with "{opens} .. {closes}"')


def named(root):
    """{path: its text as it should be} of the names, which the other lists are made with."""
    leaves = leaf_code.named_leaves((root / LEAVES).read_text(encoding='utf-8'), root)
    firsts = [(first, leaf, indexed) for leaf, first, indexed in alone(places(root))]
    text = (root / PLACES).read_text(encoding='utf-8')
    texts = {LEAVES: leaves, PLACES: leaf_code.named_places(PLACES, text, leaf_code.numbered(leaves), firsts)}
    return texts, f'{len(firsts)} leaves with a name'


def made(root):
    """{path: its text as it should be}."""
    kept = places(root)
    read = [place for place in kept if place.leaf not in MADE]
    needed = [place for place in read if place.leaf != STATE or place.subleaf < FIRST_STATE]
    rows = [(first, leaf, leaves, 'None' if subleaves is None else f'Some({subleaves})') for first, leaf, leaves, subleaves in runs(kept)]
    table = ''.join(f'    run({first}, {number(leaf) if leaf > 9 else leaf}, {leaves}, {subleaves}),\n' for first, leaf, leaves, subleaves in rows)
    table += '    // the end\n    run(PLACES, 0, 0, None),\n'
    tried = ''.join(f'    ({number(leaf)}, {leaves}, {subleaves}),\n' for _, leaf, leaves, subleaves in rows)
    wanted = ''.join(f'    ({number(place.leaf)}, {place.subleaf or 0}),\n' for place in needed)
    texts = {}

    def of(path, step, *given):
        texts[path] = step(path, (root / path).read_text(encoding='utf-8'), *given)

    def array(path, text, name, many, lines):
        return replaced(path, text, rf'^((?:pub )?const {name}: .*; )\d+\] = \[\n(?:    .*\n)+\];\n', lambda old: f'{old[1]}{many}] = [\n{lines}];\n')
    of('crates/masking/src/masks.rt', leaf_code.table_of_masks, root)
    of('crates/masking/src/run.rt', code_runs, root, kept)
    of('crates/masking/src/lib.rt', place_of, root, kept)
    of('crates/masking/proofs/place_of/Answers.antt', place_of_proof, kept)
    single = ' ∷ '.join(f'0x{leaf:X}' for leaf, _, _ in reversed(alone(kept)))
    of('crates/masking/specs/PlaceOfLaws.antt', replaced, r'^single_leaves =\n    .*\n', f'single_leaves =\n    {single} ∷ []\n')
    of('crates/rows/src/checked/required.rt', leaf_code.required_places, root, kept)
    bits, with_1 = leaf_code.not_kept(kept)
    of('crates/collect/src/full.rt', replaced, r'^pub const NOT_KEPT: .*\n', bits)
    of('crates/collect/must-fail/several.edit', replaced, r'^old: pub const NOT_KEPT: .*\nnew: .*\n', f'old: {bits}new: {with_1}')
    of('crates/lookup/src/lib.rt', last_leaves, root, kept)
    of('crates/kvm_export/specs/Flags.antt', leaf_code.with_flags, kept, 'are')
    of('crates/theorems/specs/ListTheorems.antt', leaf_code.with_flags, kept, 'by_place')
    of('include/snp_cpuid.h', in_paragraph, 'by rising leaf and subleaf: ', '. origins says', words(kept, 'h'), ' * ', 150)
    of('rust/src/places.rs', array, 'RUNS', len(rows) + 1, table)
    of('rust/tests/memory.rs', array, 'RUNS', len(rows), tried)
    of('rust/tests/command/page_sets.rs', array, 'REQUIRED', len(needed), wanted)
    of(f'{COMMAND}/commands/from_dump.rs', in_paragraph, 'reads go in: leaves ', '. The others', words(read, base='x'), '', 100)
    of(f'{COMMAND}/commands/from_kvm.rs', in_paragraph, 'the table reads: leaves ', '. A page', words(read, base='x'), '', 100)
    of(f'{COMMAND}/masks.rs', leaf_code.command_masks, root)
    asked = [('STATE' if leaf == STATE else str(leaf) if leaf < 0xA else f'0x{leaf:x}', subleaf or 0) for leaf, subleaf in required(root)]
    of('differential/compare/src/pages.rs', array, 'REQUIRED', len(asked), ''.join(f'    ({leaf}, {subleaf}),\n' for leaf, subleaf in asked))
    for path, prefix, width in ('include/refusals.txt', ' ' * 8, 150), ('docs/COMMAND.md', '    ', 104):
        of(path, in_paragraph, ' rows need an entry: leaves ', '. Besides', words(needed), prefix, width)
        texts[path] = re.sub(r'\d+ (?=rows need an entry)', f'{len(needed)} ', texts[path])
    return texts, f'{len(kept)} places in lists of {len(texts)} files'


def main(asked, root=ROOT):
    return made_files.run(asked, root, 'leaves', __doc__, named) or made_files.run(asked, root, 'leaves', __doc__, made)


if __name__ == '__main__':
    sys.exit(main(sys.argv[1:]))
