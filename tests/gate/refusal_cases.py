#!/usr/bin/env python3
"""refusal_cases.py: the cases of the refusals in the proved source, made of include/refusals.txt: number, name, and what each names.

--write writes them, and --check fails where a file has something else:
  crates/table/src/lib.rt, numbers.rt      the cases of `Refusal`, and the numbers of each
  crates/table/specs, proofs               `details`, `refusal_with`, `refusal_told`
  crates/lines/src, specs                  what each number names; `only_named_lem`
  crates/answers/specs/Told.antt, ToldProof.antt    `RefusalTold`, and the two laws on it
  crates/letter, crates/nearest_exactly    one line for each case that has none of its own
  crates/refusals/specs, pool_laws/specs   the rank of each check of `Check`, and its lines in proofs by cases on them; the number that it gives
What the definitions say is proved against `carried` of crates/letter/specs/Paper.antt, which is written by hand, as are the models. The cases of
`TopologyError`, crates/topology, stand under one case of `Refusal`. interface.py --write comes after this.
"""
from pathlib import Path
import re
import sys

import check_cases
import made_files
from made_files import replaced
from proved_source import Unlisted
from refusal_list import listed

ROOT = Path(__file__).resolve().parents[2]
NESTED = 'TopologyInconsistent'
TOLD, NEAREST = 'crates/answers/specs/Told', 'crates/nearest_exactly/specs/NearestExactly'
TYPES = {'leaf': 'CpuidFunction', 'subleaf': 'Option<u32>', 's': 'u8'}


class Case:
    """A refusal of the list, nested in the topology's case or not."""

    def __init__(self, refusal, nested):
        self.number, self.name, self.details, self.nested = refusal.number, refusal.name, refusal.details, nested
        if self.details not in ([], ['leaf'], ['leaf', 'subleaf'], ['s']):
            raise Unlisted(f'include/refusals.txt: {self.number} names {", ".join(self.details)}, which no case does')

    def pattern(self, *words):
        """The case with names for what it carries, in brackets where it carries something."""
        inner = ' '.join([self.name, *(words or self.details)])
        inner = f'({inner})' if self.details else inner
        return f'({NESTED} {inner})' if self.nested else inner


def cases(root):
    source = (root / 'crates/topology/src/lib.rt').read_text(encoding='utf-8')
    topology = re.search(r'pub enum TopologyError \{\n(.*?)^\}', source, re.DOTALL | re.MULTILINE)
    names = set(re.findall(r'^    (\w+)', topology[1], re.MULTILINE)) if topology else set()
    found = [Case(refusal, refusal.name in names) for refusal in listed(root)]
    if [case.number for case in found] != list(range(1, len(found) + 1)):
        raise Unlisted('include/refusals.txt does not count from 1 on')
    return found


def plain(every):
    """The cases of `Refusal` itself: those of the topology are one, at the first of them."""
    first = next((case for case in every if case.nested), None)
    return [case for case in every if not case.nested or case is first]


def clauses(path, text, head, tail, patterns):
    """The clauses `HEAD PATTERN TAIL` of a function, one for each of these; others of its clauses stand as they are."""
    line = rf'^{re.escape(head)} (?:\w+|\(.*\)){re.escape(tail)}\n'
    return replaced(path, text, f'(?:{line})+', ''.join(f'{head} {pattern}{tail}\n' for pattern in patterns))


def enum(case):
    kinds = ', '.join(TYPES[detail] for detail in case.details)
    return f'{NESTED}(TopologyError)' if case.nested else case.name + (f'({kinds})' if kinds else '')


def arm(case):
    given = f'({", ".join(case.details)})' if case.details else ''
    if case.nested:
        return f'Refusal::{NESTED}(e) => AnswerNumbers::from(e)'
    if 'leaf' in case.details:
        return f'Refusal::{case.name}{given} => at_leaf({case.number}, leaf.0, {"subleaf" if "subleaf" in case.details else "None"})'
    return f'Refusal::{case.name}{given} => with_s({case.number}, {"s" if case.details else "0"})'


def detail(case):
    if case.nested:
        return f'details ({NESTED} e) = topology_details e\n'
    if 'leaf' in case.details:
        subleaf = 'subleaf' if 'subleaf' in case.details else 'None'
        told = f'record {{ number = {case.number}; leaf = leaf.0; subleaf = {subleaf}; s = 0 }}'
    else:
        told = f'with_s {case.number} s' if case.details else f'alone {case.number}'
    return f'details {case.pattern()} = {told}\n'


def with_details(case):
    """A row of `refusal_with`."""
    words = {'leaf': '(function d.leaf)', 'subleaf': 'd.subleaf', 's': 'd.s'}
    row = case.pattern(*(words[each] for each in case.details))
    return row if not row.startswith('(') else row[1:-1]


def named(case, words):
    """What a number names, by one of four words."""
    return words[len(case.details) if case.details != ['s'] else 3]


def told(every):
    """The list of Told.antt and the two of its proof: 3 may name a subleaf or not, and so has two rows."""
    rows, given, back = '', '', ''
    for case in every:
        both = case.details == ['leaf', 'subleaf']
        for suffix, subleaf in ((('', 'None'), ('_subleaf', '(Some k)')) if both else (('', ''),)):
            kept = {'leaf': 'l', 's': 's'}
            words = [subleaf if each == 'subleaf' else kept[each] for each in case.details]
            bound = {'leaf': '(l : CpuidFunction)', 's': '(s : ℕ)'}
            binders = [bound[each] for each in case.details if each in bound] + (['(k : ℕ)'] if suffix else [])
            name = ' '.join([f'told_{case.number}{suffix}', *(kept[each] for each in case.details if each in kept), *(['k'] if suffix else [])])
            numbers = f'{case.number} {"l.0" if "leaf" in case.details else 0} {"1 k" if suffix else "0 0"} {"s" if "s" in case.details else 0}'
            arrow = f'{" ".join(binders)} → ' if binders else ''
            rows += f'  told_{case.number}{suffix} : {arrow}RefusalTold {case.pattern(*words)} {numbers}\n'
            given += f'refusal_in {case.pattern(*words)} = {name}\n'
            back += f'refusal_back {f"({name})" if " " in name else name} = refl\n'
    return rows, given, back


def others(path, text, head, tail, every, names):
    """Clauses of the cases that have none of their own."""
    own = {name for name in names if re.search(rf'^{re.escape(head)} \(?{name}\b(?!.*{re.escape(tail)}$)', text, re.MULTILINE)}
    patterns = [f'({NESTED} e)' if case.nested else case.pattern() for case in plain(every) if (NESTED if case.nested else case.name) not in own]
    return clauses(path, text, head, tail, patterns)


def made(root):
    """{path: its text as it should be}."""
    every = cases(root)
    names = [NESTED if case.nested else case.name for case in plain(every)]
    expanded = [case.pattern() for case in every]
    read = {}

    def of(path, *steps):
        text = (root / path).read_text(encoding='utf-8')
        # a file that names all cases names a new one
        text = re.sub(r'(Refusal\.TheVariants\.)\{(PagesLength, PageCount, MissingRequiredResult(?:, \w+){12,})\}',
                      lambda found: f'{found[1]}{{{", ".join(names)}}}', text)
        for step in steps:
            text = step(path, text)
        read[path] = text
    of('crates/table/src/lib.rt', lambda path, text: replaced(
        path, text, r'(^pub enum Refusal \{\n)(?:    .*\n)+', lambda found: found[1] + ''.join(f'    {enum(case)},\n' for case in plain(every))))
    of('crates/table/src/numbers.rt', lambda path, text: replaced(
        path, text, r'(^        match refusal \{\n)(?:            .*\n)+',
        lambda found: found[1] + ''.join(f'            {arm(case)},\n' for case in plain(every))))
    of('crates/table/specs/Refusal.antt',
       lambda path, text: replaced(path, text, r'(?:^details .* = .*\n)+', ''.join(map(detail, plain(every)))),
       lambda path, text: replaced(path, text, r'(^    \(PagesLength\n)(?:    ∷ .*\n)+',
                                   lambda found: found[1] + ''.join(f'    ∷ {with_details(case)}\n' for case in every) + '    ∷ [])\n'))
    of('crates/table/specs/RefusalLaws.antt', lambda path, text: clauses(path, text, 'refusal_told', ' = refl', expanded))
    words = 'NOTHING', 'ONLY_LEAF', 'LEAF_AND_SUBLEAF', 'ONLY_S'
    of('crates/lines/src/bytes/names.rt',
       lambda path, text: replaced(path, text, r'^const NUMBERS: usize = \d+;\n', f'const NUMBERS: usize = {len(every) + 1};\n'),
       lambda path, text: replaced(path, text, r'(^    NOT_IN_USE,\n)(?:    \w+, // \d+\n)+',
                                   lambda found: found[1] + ''.join(f'    {named(case, words)}, // {case.number}\n' for case in every)))
    kinds = 'nothing', 'only_leaf', 'leaf_and_subleaf', 'only_s'
    of('crates/lines/specs/NumbersInUse.antt', lambda path, text: replaced(
        path, text, r'(^    not_in_use ∷\n)(?:    \w+ ∷  -- \d+\n)+',
        lambda found: found[1] + ''.join(f'    {named(case, kinds)} ∷  -- {case.number}\n' for case in every)))
    of('crates/lines/specs/NumbersNamedProof.antt', lambda path, text: clauses(path, text, 'only_named_lem', ' = refl', expanded))
    of('crates/letter/specs/Paper.antt')
    of('crates/letter/specs/ImageProof.antt', lambda path, text: clauses(path, text, 'carried_same', ' = refl', expanded))
    rows, given, back = told(every)
    of(f'{TOLD}.antt', lambda path, text: replaced(path, text, r'(?:^  told_\d+.*\n)+', rows))
    constructors = ', '.join(re.findall(r'^  (told_\S+)', rows, re.MULTILINE))
    of(f'{TOLD}Proof.antt',
       lambda path, text: replaced(path, text, r'(^use \S+\.RefusalTold\.)\{.*\}\n', lambda found: f'{found[1]}{{{constructors}}}\n'),
       lambda path, text: replaced(path, text, r'(?:^refusal_in .* = .*\n)+', given),
       lambda path, text: replaced(path, text, r'(?:^refusal_back .* = .*\n)+', back))
    of(f'{NEAREST}.antt', lambda path, text: others(path, text, 'GivenFor c s', ' = ⊥', every, names))
    of(f'{NEAREST}Proof.antt')
    of(f'{NEAREST}Proof.antt'.replace('/specs/', '/proofs/'), lambda path, text: others(path, text, '  refusal_given', ' f = absurd f', every, names))
    # what of a file of specs/ stands in proofs/ names the cases too
    for path in [path.replace('/specs/', '/proofs/') for path in read]:
        if path not in read and (root / path).is_file():
            of(path)
    read.update(check_cases.made(root, every, names))
    return read, f'{len(every)} refusals in {len(read)} files of the proved source'


def main(words, root=ROOT):
    return made_files.run(words, root, 'refusal_cases', __doc__, made)


if __name__ == '__main__':
    sys.exit(main(sys.argv[1:]))
