"""check_cases.py: the checks of building, in order, where proofs go by cases on them, made of `Check` and `Fault` of Conditions.antt. No tool by
itself: refusal_cases.py writes them."""
import re
from typing import NamedTuple

from made_files import replaced
from proved_source import Unlisted

SPECS = 'crates/refusals/specs'
CONDITIONS = f'{SPECS}/Conditions.antt'
POOL = 'crates/pool_laws/specs/PoolExactlyProof.antt'


class Check(NamedTuple):
    name: str
    fields: int  # how many stand before the equation that names the refusal
    refusal: str  # ManyPages, or the case of the topology

    def small(self):
        return f'fault_small chosen s h {self.name} r f = rw f.{self.fields} (alone_small {self.refusal} refl refl (omega arith))\n'


def outside(text):
    """What of a text stands in no brackets."""
    while '(' in text:
        text, many = re.subn(r'\([^()]*\)', '', text)
        if not many:
            raise Unlisted(f'{CONDITIONS}: brackets in {text}')
    return text


def checks(text):
    """The checks in order, with what `Fault` has of each."""
    names = re.search(r'^pub data Check : Type 0 where\n  (.*) : Check\n', text, re.MULTILINE)
    faults = dict(re.findall(r'^Fault chosen s (\w+) r =\s+(.*)\n', text, re.MULTILINE))
    found = []
    for name in names[1].split() if names else []:
        named = re.search(r'\(r ≡ (?:TopologyInconsistent \(?)?(\w+)', faults.get(name, ''))
        if not named:
            raise Unlisted(f'{CONDITIONS}: Fault names no refusal for {name}')
        found.append(Check(name, outside(faults[name]).count('×'), named[1]))
    return found


def number_test(numbers):
    """The test of a number that building gives: those that count from 1 on, and each other."""
    run = next(n for n in range(1, len(numbers) + 2) if n not in numbers)
    others = [f'eqb n {n}' for n in sorted(numbers) if n > run]
    test = others.pop() if others else ''
    for other in reversed(others):
        test = f'{other} || ({test})' if '||' in test else f'{other} || {test}'
    return f'ltb n {run}' + (f' || ({test})' if '||' in test else f' || {test}' if test else '')


def smalls(path, listed, alone, text):
    """The clauses of `fault_small`: of a check whose refusal names nothing it is made, others stand as they are."""
    block = re.search(r'(?:^fault_small chosen .*\n(?: .*\n)*)+', text, re.MULTILINE)
    if not block:
        raise Unlisted(f'{path} has no fault_small')
    own = {clause.split()[4]: clause for clause in re.findall(r'^fault_small .*\n(?: .*\n)*', block[0], re.MULTILINE)}
    made = ''
    for check in listed:
        if check.refusal not in alone and check.name not in own:
            raise Unlisted(f'{path} wants a clause of fault_small for {check.name}')
        made += check.small() if check.refusal in alone else own[check.name]
    return text[:block.start()] + made + text[block.end():]


def made(root, every, names):
    """{path: its text as it should be}."""
    read = {path: (root / path).read_text(encoding='utf-8') for path in
            (CONDITIONS, POOL, *(f'{SPECS}/{name}.antt' for name in ('StagesSettled', 'ExactlyProof', 'LinedProof')))}
    listed = checks(read[CONDITIONS])
    numbers = {case.name: case.number for case in every}
    alone = {case.name for case in every if not case.details and not case.nested}
    given = {numbers[check.refusal] for check in listed}
    cases = ', '.join(check.name for check in listed)
    steps = {
        'Conditions': [(r'(?:^rank \w+ = \d+\n)+', ''.join(f'rank {check.name} = {at}\n' for at, check in enumerate(listed)))],
        'StagesSettled': [(r'^checks =\n(?:    .*\n)+', 'checks =\n    ' + '\n    ∷ '.join([*(check.name for check in listed), '[]']) + '\n'),
                          (r'^check_count = \d+\n', f'check_count = {len(listed)}\n'),
                          (r'(?:^check_rank \w+ = .*\n)+', ''.join(f'check_rank {check.name} = (lit< tt, refl)\n' for check in listed))],
        'ExactlyProof': [(r'^building_number n = .*\n', f'building_number n = {number_test(given)}\n'),
                         (r'(?:^fault_number chosen .*\n)+',
                          ''.join(f'fault_number chosen s {check.name} r f = rw f.{check.fields}\n' for check in listed))],
        'LinedProof': [],
    }
    for name, parts in steps.items():
        path = f'{SPECS}/{name}.antt'
        for pattern, text in parts:
            read[path] = replaced(path, read[path], pattern, text)
        read[path] = re.sub(r'(?<=Conditions\.Check\.)\{.*\}', f'{{{cases}}}', read[path])
    read[POOL] = replaced(POOL, read[POOL], r'(?:^      by_check \w+ g = let .*\n)+', ''.join(
        f'      by_check {check.name} g = let e = g.{check.fields} in impossible (cc)\n' for check in listed if check.name != 'edition'))
    read[POOL] = re.sub(r'(?<=Conditions\.Check\.)\{.*\}', f'{{{cases}}}', read[POOL])
    # what of these files stands in proofs/ names the checks too
    for name in steps:
        path = f'{SPECS}/{name}.antt'.replace('/specs/', '/proofs/')
        if (root / path).is_file():
            read[path] = re.sub(r'(?<=Conditions\.Check\.)\{.*\}', f'{{{cases}}}', (root / path).read_text(encoding='utf-8'))
    path = f'{SPECS}/LinedProof.antt'
    read[path] = smalls(path, listed, alone, read[path])
    used = {check.refusal for check in listed} & alone
    read[path] = replaced(path, read[path], r'(^use .*Refusal\.TheVariants\.)\{(.*)\}\n', lambda found: f'{found[1]}{{' + ', '.join(
        name for name in names if name in used or name in found[2].split(', ')) + '}\n')
    return read
