"""leaf_code.py: what the code and its laws have of the kept leaves beside their places, made of the definitions. No tool by itself: leaves.py has it.

The table of kept leaves, the numbers of the leaves and the lists of required leaves are definitions; the code's tables are made of them, and the
proofs judge the code's tables. A row of `KEPT_LEAVES` or of the command's table that is there stays as it is, and a leaf that is kept whole gets one.
"""
from itertools import groupby
import re

from kept_leaves import KEPT, PLACES, constants, defined, leaf_names, masks, names, required, rows
from made_files import replaced
from proved_source import Unlisted

FIRST_STATE = 2
MADE = 0x0, 0x80000000
NUMBERS = 64


def number(leaf):
    return f'0x{leaf:X}' if leaf < 0x10000 else f'0x{leaf >> 16:04X}_{leaf & 0xFFFF:04X}'


def numbered(text):
    """{number of a leaf: its name} of the constants."""
    return {value: name for name, value in constants(text, {}, 'leaf::').items()}


def named_leaves(text, root):
    """The constants of the leaves, by rising number. A leaf without one has the name of its definition in capitals."""
    known = numbered(text)
    lines = {leaf: known.get(leaf, re.sub(r'(?<=[a-z0-9])(?=[A-Z])', '_', name).upper()) for name, leaf in defined(root).items()}
    head = text[:text.index('pub const')]
    return head + '\n'.join(f'pub const {name}: u32 = {number(leaf)};\n' for leaf, name in sorted(lines.items()))


def named_places(path, text, leaves, firsts):
    """The constants of places: one that begins a leaf and has no name yet gets its leaf's, counted from the named place before it."""
    for first, leaf, indexed in firsts:
        known = constants(text, {name: value for value, name in leaves.items()}, 'leaf::')
        if first in known.values():
            continue
        before, at = max(((name, place) for name, place in known.items() if place < first), key=lambda each: each[1])
        line = f'pub const {leaves[leaf]}{"_0" if indexed else ""}: usize = {before} + {first - at};\n'
        text = replaced(path, text, rf'^pub const {before}: [^;]*;\n', lambda old, made=line: f'{old[0]}\n{made}')
    return text


def table_of_masks(path, text, root):
    """The rows of `KEPT_LEAVES`."""
    leaf = leaf_names(root)
    found = re.search(r'^pub const KEPT_LEAVES: .*= \[\n((?:    .*\n)*)\];\n', text, re.MULTILINE)
    if not found:
        raise Unlisted(f'{path} has no KEPT_LEAVES')
    there = re.findall(r'((?:    //.*\n)*    KeptLeaf \{\n        leaf: CpuidFunction\(leaf::(\w+)\),\n(?:        .*\n){5}    \},\n)', found[1])
    made = ''
    for places_of, mask in zip(rows(root), masks(root)):
        name = leaf[places_of[0].leaf]
        if there and there[0][1] == name:
            made += there.pop(0)[0]
        elif mask == 'all_ones':
            registers = ''.join(f'        {register}: ONES,\n' for register in ('eax', 'ebx', 'ecx', 'edx'))
            subleaf = 'false' if places_of[0].subleaf is None else 'true'
            made += f'    KeptLeaf {{\n        leaf: CpuidFunction(leaf::{name}),\n{registers}        subleaf: {subleaf},\n    }},\n'
        else:
            raise Unlisted(f'{path} has no row for {name} at its place, and {KEPT} does not keep it whole')
    if there:
        raise Unlisted(f'{path} has a row for {there[0][1]} that {KEPT} does not have there')
    return text[:found.start(1)] + made + text[found.end(1):]


def command_masks(path, text, root):
    """The lines of the command's table of masks: leaves that follow each other, or the subleaves of a row."""
    found = re.search(r'^const LINES: \[Line; \d+\] = \[\n((?:    .*\n)*)\];\n', text, re.MULTILINE)
    if not found:
        raise Unlisted(f'{path} has no LINES')
    lines = found[1].splitlines(keepends=True)

    def first_of(line):
        numbers = re.findall(r'0x[0-9A-F_]+|\bFIRST_STATE\b|\b\d+\b', line)
        leaf = int(numbers[0].replace('_', ''), 16)
        if 'leaves:' in line:
            return leaf, int(numbers[1].replace('_', ''), 16), None
        return leaf, leaf, None if 'subleaves(' not in line else FIRST_STATE if numbers[1] == 'FIRST_STATE' else int(numbers[1])
    there = [first_of(line) for line in lines]
    for row, mask in zip(rows(root), masks(root)):
        leaf, subleaf = row[0]
        if leaf in MADE or any(first <= leaf <= last and subleaf == own for first, last, own in there):
            continue
        if mask != 'all_ones':
            raise Unlisted(f'{path} has no line for {leaf:X}, and {KEPT} does not keep it whole')
        made = f'leaf({number(leaf)}, [Whole; 4])' if subleaf is None else f'subleaves({number(leaf)}, {subleaf}, {row[-1].subleaf}, [Whole; 4])'
        at = sum((first, own or 0) < (leaf, subleaf or 0) for first, _, own in there)
        lines.insert(at, f'    {made},\n')
        there.insert(at, (leaf, leaf, subleaf))
    return text[:found.start()] + f'const LINES: [Line; {len(lines)}] = [\n' + ''.join(lines) + '];\n' + text[found.end():]


def bit_of(leaf):
    """The number of a leaf in the walk: the leaf turned left by one bit, of which the low six are taken."""
    return (leaf << 1 | leaf >> 31) % NUMBERS


def not_kept(kept):
    """The leaves that are not kept, as bits, and the same with leaf 1 among them, for an edit that must fail."""
    bits = (1 << NUMBERS) - 1
    for leaf in {place.leaf for place in kept if place.leaf not in MADE}:
        bits &= ~(1 << bit_of(leaf))

    def line(value):
        digits = f'{value:016X}'
        return 'pub const NOT_KEPT: u64 = 0x' + '_'.join(digits[at:at + 4] for at in range(0, 16, 4)) + ';\n'
    return line(bits), line(bits | 1 << bit_of(1))


def place_written(place, kept, named):
    """A place as the code writes it: its name, or the first place of its leaf and how far it is from there."""
    at, first = kept.index(place), next(at for at, each in enumerate(kept) if each.leaf == place.leaf)
    if at in named:
        return f'place::{named[at]}', 0
    if first not in named:
        raise Unlisted(f'{PLACES} has no name for {place.written()}')
    return f'place::{named[first]}', at - first


def required_places(path, text, root, kept):
    """The places of the required leaves in the order of their lists, and how many they are."""
    named, lines = names(root), ''
    needed = required(root)
    for place in needed:
        name, further = place_written(place, kept, named)
        lines += f'    {name} as u8' + (f' + {further}' if further else '') + ',\n'
    return replaced(path, text, r'^const REQUIRED_PLACES: \[u8; \d+\] = \[\n(?:    .*\n)+\];\n',
                    f'const REQUIRED_PLACES: [u8; {len(needed)}] = [\n{lines}];\n')


def flags(kept):
    """The flags and the indexes of the places, as lists of the laws: 1 where the place has a subleaf; the subleaf, or 0."""
    def listed(value, many):
        """This number so many times; or, for a text, the text."""
        return f'replicate {many} {value}' if isinstance(value, int) else ' ++ '.join([value] * many)

    def counted(many):
        """The numbers from 0 on."""
        return f'({" ∷ ".join(map(str, range(many)))} ∷ [])' if many < 5 else f'tabulate {many} (λ k. k)'
    leaves = [(indexed, len(list(group))) for (_, indexed), group in groupby(kept, lambda place: (place.leaf, place.subleaf is not None))]
    values = [int(place.subleaf is not None) for place in kept], [counted(many) if indexed and many > 1 else 0 for indexed, many in leaves]
    return [' ++ '.join(listed(value, len(list(group))) for value, group in groupby(each)) for each in values]


def with_flags(path, text, kept, suffix):
    """A file that states the flags and the indexes."""
    for name, made in zip(('flags', 'indexes'), flags(kept)):
        text = replaced(path, text, rf'^(pub {name}_{suffix} : {name} ≡ ).*\n', lambda old, said=made: f'{old[1]}{said}\n')
    return text

