"""kept_leaves.py: the kept leaves, their places and the kinds of their registers, as the definitions have them.

The leaves are `kept_leaves` of crates/masking/specs/Kept.antt with the numbers of crates/x86defs/specs/Functions.antt, those that every table needs
the two lists of crates/checks/specs/Required.antt, the kinds `register_kinds` of crates/finish/specs/Kinds.antt; the names of places are the constants
of crates/masking/src/place.rt.
"""
import re
from typing import NamedTuple

from proved_source import Unlisted

FUNCTIONS, KEPT, KINDS = 'crates/x86defs/specs/Functions.antt', 'crates/masking/specs/Kept.antt', 'crates/finish/specs/Kinds.antt'
REQUIRED = 'crates/checks/specs/Required.antt'
LEAVES, PLACES = 'crates/x86defs/src/leaf.rt', 'crates/masking/src/place.rt'
REGISTERS = 'EAX', 'EBX', 'ECX', 'EDX'


class Place(NamedTuple):
    leaf: int
    subleaf: int | None

    def written(self):
        """As documents write it: 7.0, 80000008h, 8000001Dh.0."""
        leaf = f'{self.leaf:X}' + ('h' if self.leaf > 0xFF else '')
        return leaf if self.subleaf is None else f'{leaf}.{self.subleaf}'


def read(root, path):
    return (root / path).read_text(encoding='utf-8')


def defined(root):
    """{name of a leaf in the definitions: its number}."""
    return {name: int(number, 16) for name, number in re.findall(r'^(\w+) = function (0x[0-9A-F]+)$', read(root, FUNCTIONS), re.MULTILINE)}


def table(root):
    """[(name of a leaf, first subleaf, last subleaf, masks)] of the rows of the table of kept leaves, as they are written."""
    there = re.search(r'^kept_leaves avic =\n((?:    .*\n)+)', read(root, KEPT), re.MULTILINE)
    found = re.findall(r'\bkept (\w+) (?:made|whole|\(subleaves (\d+) (\d+)\)) (.*)\n', there[1] if there else '')
    if not found:
        raise Unlisted(f'{KEPT} has no kept_leaves')
    return found


def rows(root):
    """The rows of the table of kept leaves, each with its places."""
    numbers, found = defined(root), []
    for name, first, last, _ in table(root):
        if name not in numbers:
            raise Unlisted(f'{FUNCTIONS} has no number for {name} of {KEPT}')
        found.append([Place(numbers[name], subleaf) for subleaf in (range(int(first), int(last) + 1) if first else [None])])
    return found


def masks(root):
    """The name of the masks of each row."""
    return [each[3] for each in table(root)]


def required(root):
    """The places that every table needs an entry for, in the order in which building asks for them."""
    numbers, text, found = defined(root), read(root, REQUIRED), []
    for name in 'common_required_leaves', 'snp_required_leaves':
        lines = re.search(rf'^{name} =\n((?:    .*\n)+)', text, re.MULTILINE)
        for leaf, subleaf in re.findall(r'(?:whole|sub) (\w+)(?: (\d+))?\n', lines[1] if lines else ''):
            if leaf not in numbers:
                raise Unlisted(f'{FUNCTIONS} has no number for {leaf} of {REQUIRED}')
            found.append(Place(numbers[leaf], int(subleaf) if subleaf else None))
    if not found:
        raise Unlisted(f'{REQUIRED} has no required leaves')
    return found


def places(root):
    """The places in their order."""
    return [place for row in rows(root) for place in row]


def kinds(root):
    """{place: the kinds of its four registers} of the places that the table names, in the table's order."""
    table = re.search(r'^register_kinds =\n((?:    .*\n)+)', read(root, KINDS), re.MULTILINE)
    known, found = places(root), {}
    for leaf, subleaf, *four in re.findall(r'leaf \(function (0x[0-9A-F]+)\) (\d+) (\w+) (\w+) (\w+) (\w+)', table[1] if table else ''):
        place = next((each for each in known if (each.leaf, each.subleaf or 0) == (int(leaf, 16), int(subleaf))), None)
        if place is None:
            raise Unlisted(f'{KINDS}: {leaf} {subleaf} is no place of {KEPT}')
        found[place] = four
    if not found:
        raise Unlisted(f'{KINDS} has no register_kinds')
    return found


def constants(text, known, module):
    """{name: number} of the constants of a source, whose values are sums and differences of numbers and of other constants."""
    found = {}
    for name, value in re.findall(r'^pub const (\w+): \w+ = ([^;]*);', text, re.MULTILINE):
        value = re.sub(r'\bas \w+|_(?=[0-9A-F]{4}\b)', '', value)
        total, sign = 0, 1
        for word in re.findall(r'[-+]|[\w:]+', value):
            if word in '+-':
                sign = 1 if word == '+' else -1
            else:
                total += sign * (int(word, 0) if word[0].isdigit() else known[word.removeprefix(module)] if word.startswith(module) else found[word])
        found[name] = total
    return found


def leaf_names(root):
    """{number of a leaf: its name in the source}."""
    return {number: name for name, number in constants(read(root, LEAVES), {}, 'leaf::').items()}


def names(root):
    """{number of a place: its name in the source}."""
    leaves = {name: number for number, name in leaf_names(root).items()}
    return {number: name for name, number in constants(read(root, PLACES), leaves, 'leaf::').items()}
