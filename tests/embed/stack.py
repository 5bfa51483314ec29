"""The stack of each exported function: bounds from the object code against the table of docs/EMBEDDING.md, the one place that has them.

stack.py            prints the table as the two libraries have it, the one for programs and the one for ring 0
stack.py --write    puts it into docs/EMBEDDING.md, and the largest figure, rounded up to a power of two, into include/snp_cpuid.h
"""
from pathlib import Path
import re
import sys

import object_code

ROOT = Path(__file__).resolve().parents[2]
LIBRARY = ROOT / 'target' / 'staticlib' / 'libsnp_cpuid.a'
RING0 = LIBRARY.parent / 'ring0' / 'libsnp_cpuid.a'
PAGE = ROOT / 'docs' / 'EMBEDDING.md'
HEADER = ROOT / 'include' / 'snp_cpuid.h'
ROW = re.compile(r'^\| `(snp_cpuid_\w+)` \| ([\d,]+) \| ([\d,]+) \|\n', re.MULTILINE)
MOST = re.compile(r'^(#define SNP_CPUID_MOST_STACK_BYTES) (\d+)$', re.MULTILINE)
# a figure is rounded up to this, so that a few bytes more or less need no edit
STEP = 256


def exported():
    """The functions that the header declares, in its order; inline ones are the caller's own code."""
    text = re.sub(r'/\*.*?\*/', '', HEADER.read_text(), flags=re.DOTALL)
    return re.findall(r'^(?!static |SNP_CPUID_DECIDES |typedef )\w[\w ]*[ *](snp_cpuid_\w+)\(', text, re.MULTILINE)


def measured(library=LIBRARY):
    """For each of them the bound from the object code."""
    bounds = object_code.bounds(object_code.functions(library))
    return {name: bounds[name] for name in exported()}


def stated(library=LIBRARY):
    """For each of them what the page says of a library."""
    column = (LIBRARY, RING0).index(library)
    return {name: int(figures[column].replace(',', '')) for name, *figures in ROW.findall(PAGE.read_text())}


def most():
    """The header's figure for all of them."""
    return int(MOST.search(HEADER.read_text())[2])


def rounded(figures):
    return {name: -(-figure // STEP) * STEP for name, figure in figures.items()}


def power(number):
    return 1 << (number - 1).bit_length()


def main(words):
    figures, ring0 = (rounded(measured(library)) for library in (LIBRARY, RING0))
    rows = ''.join(f'| `{name}` | {figure:,} | {ring0[name]:,} |\n' for name, figure in figures.items())
    if words == ['--write']:
        text = PAGE.read_text()
        first, last = (at for found in [list(ROW.finditer(text))] for at in (found[0].start(), found[-1].end()))
        PAGE.write_text(text[:first] + rows + text[last:])
        HEADER.write_text(MOST.sub(rf'\1 {power(max([*figures.values(), *ring0.values()]))}', HEADER.read_text()))
    elif words:
        sys.exit(__doc__)
    else:
        print(rows, end='')


if __name__ == '__main__':
    main(sys.argv[1:])
