#!/usr/bin/env python3
"""kinds.py: what follows from the table of feature registers, `register_kinds` of crates/finish/specs/Kinds.antt.

--write writes it, and --check fails where a file has something else:
  crates/register_masks/src/lib.rt        the arms of `masks_at`
  crates/register_masks/proofs/masks_at   its proof: the places that have an arm, and a line for each
  include/snp_cpuid.h                     the feature registers by name
Whether the arms are right is for the proof to say; this spares the hand.
"""
from pathlib import Path
import re
import sys
import textwrap

import made_files
from kept_leaves import REGISTERS, kinds, names, places
from made_files import replaced
from proved_source import Unlisted

ROOT = Path(__file__).resolve().parents[2]
CODE, PROOF, HEADER = 'crates/register_masks/src/lib.rt', 'crates/register_masks/proofs/masks_at/Answers.antt', 'include/snp_cpuid.h'
# the feature bits of a kind, and the bits that must agree
MASKS = {'feature': ('ALL', '0'), 'feature_but28': ('ALL_BUT_BIT_28', 'BIT_28'), 'area': ('0', '0'), 'freed': ('0', '0'), 'other': ('0', 'ALL')}
WIDTH = 150


def arms(root):
    """[(number of the place, its name in the source, its eight masks)], rising."""
    known, named, found = places(root), names(root), []
    for place, four in kinds(root).items():
        number = known.index(place)
        if number not in named:
            raise Unlisted(f'crates/masking/src/place.rt has no name for place {number}, {place.written()}')
        for kind in four:
            if kind not in MASKS:
                raise Unlisted(f'{kind} is no kind that has masks')
        found.append((number, named[number], [MASKS[kind][0] for kind in four] + [MASKS[kind][1] for kind in four]))
    return sorted(found)


def code(text, rows):
    """The source with its arms."""
    made = ''.join(f'        place::{name} => masks({", ".join(eight)}),\n' for _, name, eight in rows)
    return replaced(CODE, text, r'(    match place \{\n)(?:        place::.*\n)+', lambda found: found[1] + made)


def proof(text, rows):
    """The proof with its places: the list of those that the code names, that any other is none of them, and two answers for each."""
    many = len(rows)
    listed = textwrap.fill(' ∷ '.join(str(number) for number, _, _ in rows) + ' ∷ []', WIDTH - 20)
    text = replaced(PROOF, text, r'^named = is_one \(.*\)\n', lambda _: f'named = is_one ({listed})\n')
    tests = ''.join(f'      ne_eqb _ {number} c.in_default.in_default-own.rest{".0" * (many - 1 - at)}.1,\n' for at, (number, _, _) in enumerate(rows))
    text = replaced(PROOF, text, r'(    rw \(\n)(?:      ne_eqb .*\n)+', lambda found: found[1] + tests)
    # the first call has no place in its name
    calls = [f'masks-in-{number}' if at else 'masks' for at, (number, _, _) in enumerate(rows)] + ['masks-in_default']

    def answer(name, body):
        return f'pub {name} : goal.{name}\nunfolding kinds_at register_kinds slot kept_leaves\n{name} c = {body}\n'
    needs = [answer(call.replace('masks', 'masks-requires'), 'search rules') for call in calls]
    own = [answer(f'returns-in-{number}', f'rw (c.{call}.ensures, c.in-{number}.is)') for call, (number, _, _) in zip(calls, rows)]
    return replaced(PROOF, text, r'(?:^pub masks-requires.*\n.*\n.*\n\n)+(?:^pub returns-in-\d+ : .*\n.*\n.*\n\n?)+', '\n'.join(needs + own))


def header(text, root):
    """The feature registers in words: 1.EDX but its bit 28, 7.0.EBX, ECX and EDX."""
    found = []
    for place, four in kinds(root).items():
        held = [REGISTERS[at] + (' but its bit 28' if kind == 'feature_but28' else '') for at, kind in enumerate(four) if kind.startswith('feature')]
        if held:
            found.append(f'{place.written()}.' + (', '.join(held[:-1]) + ' and ' if len(held) > 1 else '') + held[-1])
    words = f'Feature registers are {"; ".join(found)}.'
    lines = textwrap.wrap(words, WIDTH - 3)
    made = '\n'.join(f' * {line}' for line in lines) + ' */\n'
    return replaced(HEADER, text, r'^ \* Feature registers are (?:[^.]|\.(?=[0-9A-Z]))*\. \*/\n', lambda _: made)


def made(root):
    """{path: its text as it should be}, and how many places have kinds of their own."""
    rows = arms(root)
    old = {path: (root / path).read_text(encoding='utf-8') for path in (CODE, PROOF, HEADER)}
    new = {CODE: code(old[CODE], rows), PROOF: proof(old[PROOF], rows), HEADER: header(old[HEADER], root)}
    return new, f'{len(rows)} places with kinds of their own in {len(new)} files'


def main(words, root=ROOT):
    return made_files.run(words, root, 'kinds', __doc__, made)


if __name__ == '__main__':
    sys.exit(main(sys.argv[1:]))
