"""Runs the program on real input and compares every byte that it writes with the model's output: tables, each refusal with all its details, and
input that is too long.

program_answers.py [PROGRAM]      crates/snp_cpuid_image/out/snp_cpuid_image where none is named
"""
from collections import Counter
from functools import cache
from pathlib import Path
import subprocess
import sys

import model
from pagesets import STATE, minimal, pages, rich, split, spread, with_byte, with_topology
import vector_groups

PROGRAM = Path(__file__).resolve().parents[2] / 'crates/snp_cpuid_image/out/snp_cpuid_image'
LONGEST = 65536

# every refusal that building can give, with its details: document 01, "Where each check stands"
REQUIRED = model.COMMON_REQUIRED_LEAVES + model.SNP_REQUIRED_LEAVES + [(STATE, subleaf) for subleaf in (2, 5, 6, 7, 11, 12)]
REFUSALS = {('refusal', number, 0, None, 0) for number in (1, 2, 4, 5, 8)}
REFUSALS |= {('refusal', 3, *key, 0) for key in REQUIRED}
REFUSALS |= {('refusal', number, 0, None, s) for number in (6, 7) for s in range(8)}
# 17 may name any leaf: every required one, and some that no table has
UNCLEAN = sorted({leaf for leaf, _ in REQUIRED} | {0, 0x100, 0x40000000, 0x80000000, 0xFFFFFFFF})
REFUSALS |= {('refusal', 17, leaf, None, 0) for leaf in UNCLEAN}


def topologies():
    """Refusals 6 and 7 for each s that they can name."""
    for s in range(8):
        lps = 2 ** s if s else 2
        for rows in minimal(), rich():
            yield spread(with_topology(rows, s, 0, lps, 0, 0))
            yield spread(with_topology(rows, s, 0, lps + 1, 1, 0))


def unclean():
    """Refusal 17 for each of these leaves, at the front of page 0 and of page 1."""
    first, second = split(rich())
    for leaf in UNCLEAN:
        entry = leaf, 3, 1, 2, 3, 4
        yield with_byte(pages([entry, *first], second), 0, 0, 45, 0x20)
        yield with_byte(pages(first, [entry, *second]), 1, 0, 40, 1)


def lengths():
    """A good set and a refused one filled up to the longest input, and about it: by one byte, by a page, and by far more than is read at once."""
    for data in spread(rich()), spread(minimal())[:4096]:
        for length in LONGEST - 4096, LONGEST - 1, LONGEST, LONGEST + 1, LONGEST + 4096, 2 * LONGEST, 2 ** 20:
            yield data + bytes(length - len(data))


def inputs():
    """Every page set of the vectors and those above, once."""
    sets = [vector.pages for vector in vector_groups.vectors()]
    return list(dict.fromkeys([*sets, *topologies(), *unclean(), *lengths()]))


@cache
def told(data):
    """What the model's answer to this input is called."""
    return ('too long',) if len(data) > LONGEST else model.build(data, False)


def lacking(sets):
    """What no input asks for: each answer with its details, and the two lengths about the limit."""
    refused = {answer for answer in map(told, sets) if answer[0] == 'refusal'}
    lacks = [f'no input is answered by {answer}' for answer in sorted(REFUSALS - refused, key=str)]
    lacks += [f'{answer} is not in the list' for answer in sorted(refused - REFUSALS, key=str) if (answer[1], *answer[3:]) != (17, None, 0)]
    kinds = {(len(data), told(data)[0]) for data in sets if LONGEST <= len(data) <= LONGEST + 1}
    for kind in (LONGEST, 'table'), (LONGEST, 'refusal'), (LONGEST + 1, 'too long'):
        if kind not in kinds:
            lacks.append(f'no input of {kind[0]} bytes is answered by a {kind[1]}')
    return lacks


def wrong_answers(program, sets):
    """A line for each input whose answer is not the model's."""
    for data in sets:
        wanted = model.output(data), b'', 0
        ran = subprocess.run([program], input=data, capture_output=True, check=False)
        got = ran.stdout, ran.stderr, ran.returncode
        if got != wanted:
            yield f'{len(data)} bytes: wrote {got[0][:40].hex()}, the model {wanted[0][:40].hex()}, error {got[1]}, status {got[2]}'


def main(words):
    sets = inputs()
    wrong = [*lacking(sets), *wrong_answers(words[0] if words else PROGRAM, sets)]
    for text in wrong[:20]:
        print(text)
    counts = Counter(f'refusal {answer[1]}' if answer[0] == 'refusal' else answer[0] for answer in map(told, sets))
    summary = ', '.join(f'{count} {kind}' for kind, count in sorted(counts.items()))
    print(f'{len(wrong)} wrong' if wrong else f'{len(sets)} inputs of the program, {summary}')
    return 1 if wrong else 0


if __name__ == '__main__':
    sys.exit(main(sys.argv[1:]))
