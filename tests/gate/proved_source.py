"""proved_source.py: the exported structs and functions as the proved source has them, and the numbers of the refusals.

Structs are those marked #[repr(C)] in crates/*/src, functions those marked `pub extern "C" fn` in crates/snp_cpuid_c/src. A parameter that lends
a slice is a pointer and a length for C and Rust, one that lends an array a pointer alone.
"""
import re
from typing import NamedTuple

STRUCT = re.compile(r'((?:^// [^\n]*\n)*)^#\[repr\(C\)\]\n(?:#\[derive\([^)\n]*\)\]\n)?pub struct SnpCpuid(\w+) \{\n(.*?)^\}',
                    re.MULTILINE | re.DOTALL)
FUNCTION = re.compile(r'((?:^// [^\n]*\n)*)^#\[unsafe\(no_mangle\)\]\npub extern "C" fn (\w+)\((.*?)\)(?: -> (\w+))?\s*(?:ensures|\{)',
                      re.MULTILINE | re.DOTALL)
LENT = re.compile(r'&(mut )?\[(u8|u32|u64)(?:; (\w+))?\]$')
REFUSED = re.compile(r'(Refusal|TopologyError)::(\w+)(?:\(.*?\))? => (?:with_s|at_leaf)\((\d+), ')
PLAIN = {'u32': 4, 'u64': 8, 'usize': 8, 'bool': 1}


class Unlisted(Exception):
    """What stands in the source and has no form for C and Rust."""


class Struct(NamedTuple):
    name: str  # Built
    comment: str
    fields: list  # [(name, type of Rust)]


class Function(NamedTuple):
    name: str  # snp_cpuid_build
    comment: str
    parameters: list  # [(name, type of Rust)]
    answer: str  # Built, u32


def words_of(comment):
    return ' '.join(line[2:].strip() for line in comment.splitlines())


def sources(root, crates):
    """The text of each source, lib.rt of a crate before its other files."""
    paths = sorted((root / 'crates').glob(f'{crates}/src/**/*.rt'), key=lambda path: (path.parts[:-1], path.name != 'lib.rt', path.name))
    return [path.read_text(encoding='utf-8') for path in paths]


def structs(root):
    """Every exported struct."""
    found = []
    for text in sources(root, '*'):
        for comment, name, body in STRUCT.findall(text):
            fields = [tuple(part.strip() for part in line.strip().removeprefix('pub ').rstrip(',').split(':')) for line in body.splitlines()]
            for field, kind in fields:
                if kind not in PLAIN:
                    raise Unlisted(f'SnpCpuid{name}.{field} is a {kind}: an answer has plain numbers')
            found.append(Struct(name, words_of(comment), fields))
    if not found:
        raise Unlisted('no struct of crates/*/src is marked #[repr(C)]')
    return found


def length_name(name, changed, kind, alone):
    """What the length of a lent slice is called."""
    if kind != 'u8':
        return 'servers' if name == 'lengths' else f'{name}_count'
    if changed and name == 'out':
        return 'room'
    return 'length' if alone else f'{name}_length'


def parameters(function, text):
    """The parameters as C and Rust have them: [(name, type of Rust)]."""
    given = [tuple(part.strip() for part in each.split(':', 1)) for each in re.split(r',\s*(?![^\[]*\])', text.strip().rstrip(',')) if each.strip()]
    read = [name for name, kind in given if kind == '&[u8]']
    found = []
    for name, kind in given:
        lent = LENT.match(kind)
        if lent:
            found.append((name, f'*{"mut" if lent[1] else "const"} {lent[2]}'))
            if not lent[3]:
                found.append((length_name(name, lent[1], lent[2], len(read) < 2), 'usize'))
        elif kind in PLAIN:
            found.append((name, kind))
        else:
            raise Unlisted(f'{function} takes {name}: {kind}, which has no form for C')
    return found


def functions(root):
    """Every exported function, those over a kept table first."""
    found = []
    for text in sources(root, 'snp_cpuid_c'):
        for comment, name, given, answer in FUNCTION.findall(text):
            found.append(Function(name, words_of(comment), parameters(name, given), (answer or '').removeprefix('SnpCpuid')))
        if len(FUNCTION.findall(text)) != text.count('#[unsafe(no_mangle)]'):
            raise Unlisted('crates/snp_cpuid_c/src has a #[unsafe(no_mangle)] that is not read as a function')
    if not found:
        raise Unlisted('crates/snp_cpuid_c/src exports nothing')
    return sorted(found, key=lambda function: not function.name.startswith('snp_cpuid_table_'))


def constant(root, file, name):
    """The value of a named number of a file in crates/."""
    found = re.search(rf'^pub const {name}: usize = (\d+);', (root / 'crates' / file).read_text(encoding='utf-8'), re.MULTILINE)
    if not found:
        raise Unlisted(f'crates/{file} has no {name}')
    return int(found[1])


def refused(root):
    """{number: (enum, case)} of the refusals."""
    text = (root / 'crates' / 'table' / 'src' / 'numbers.rt').read_text(encoding='utf-8')
    return {int(number): (enum, case) for enum, case, number in REFUSED.findall(text)}
