"""refusal_list.py: include/refusals.txt, read and held against the proved numbers, and its forms for C, Rust, tests and documents."""
import re
from typing import NamedTuple

from proved_source import Unlisted, refused

HEAD = re.compile(r'^(\d+) (\w+)((?: (?:leaf|subleaf|s))*)$')
SAYS = re.compile(r'^says (?:if (no subleaf|leaf [0-9A-F]+|s \d+|s below \d+): )?(.+)$')
ORDER = re.compile(r'^order (\S+) (\d+(?: \d+)+)$')
# the longest piece of a C string in one line
PIECE = 110


class Refusal(NamedTuple):
    number: int
    name: str  # PagesLength
    details: list  # of leaf, subleaf and s
    means: str
    says: list  # [(when or '', message)]
    rust: str = ''  # its words in Rust, where they are others than what it means
    rust_leaf: str = ''  # those of its leaf
    tried: tuple = ()  # of {detail: number}
    explains: str = ''

    def constant(self):
        return 'SNP_CPUID_' + re.sub(r'(?<=[a-z])(?=[A-Z])', '_', self.name).upper()


def tried(refusal, words):
    """The details of its lines in tests/data/messages.txt: a leaf in hexadecimal, others in decimal."""
    found = []
    for row in words.split(', '):
        given = dict(zip(refusal.details, row.split()))
        if len(given) != len(row.split()) or {**given, 'subleaf': ''}.keys() != {*refusal.details, 'subleaf'}:
            raise Unlisted(f'include/refusals.txt: {refusal.number} has {row}, which is not what it names')
        found.append({detail: int(word, 16 if detail == 'leaf' else 10) for detail, word in given.items()})
    return tuple(found)


def lines(root):
    return (root / 'include' / 'refusals.txt').read_text(encoding='utf-8').splitlines()


def orders(root):
    """{file: the refusals that its function gives, in their order}."""
    by_number = {refusal.number: refusal for refusal in listed(root)}
    found = {match[1]: [int(word) for word in match[2].split()] for match in map(ORDER.match, lines(root)) if match}
    for path, numbers in found.items():
        if not set(numbers) <= set(by_number):
            raise Unlisted(f'include/refusals.txt: the order of {path} has a number that no refusal has')
    return {path: [by_number[number] for number in numbers] for path, numbers in found.items()}


def listed(root):
    """The refusals of the list as it stands."""
    found = []
    for number, line in enumerate(lines(root), 1):
        head, says, (word, _, rest) = HEAD.match(line), SAYS.match(line.strip()), line.strip().partition(' ')
        if head:
            found.append(Refusal(int(head[1]), head[2], head[3].split(), '', []))
        elif found and word == 'means' and not found[-1].means:
            found[-1] = found[-1]._replace(means=rest)
        elif found and line.strip().startswith('rust leaf: ') and not found[-1].rust_leaf:
            found[-1] = found[-1]._replace(rust_leaf=rest.removeprefix('leaf: '))
        elif found and word == 'rust' and not found[-1].rust:
            found[-1] = found[-1]._replace(rust=rest)
        elif found and word == 'with' and not found[-1].tried:
            found[-1] = found[-1]._replace(tried=tried(found[-1], rest))
        elif found and (line.strip() == 'explains' or line.startswith(' ' * 8)):
            found[-1] = found[-1]._replace(explains=f'{found[-1].explains} {line.strip().removeprefix("explains")}'.strip())
        elif found and says:
            found[-1].says.append((says[1] or '', says[2]))
        elif line.strip() and not line.startswith('#') and not ORDER.match(line):
            raise Unlisted(f'include/refusals.txt:{number}: {line.strip()}')
    for refusal in found:
        if not refusal.means or not refusal.says or refusal.says[-1][0] or any(not when for when, _ in refusal.says[:-1]):
            raise Unlisted(f'include/refusals.txt: {refusal.number} wants what it means, and last what it says without a condition')
        if not refusal.explains:
            raise Unlisted(f'include/refusals.txt: {refusal.number} wants what `explain` says of it')
        if bool(refusal.details) != bool(refusal.tried):
            raise Unlisted(f'include/refusals.txt: {refusal.number} wants details to be tried with where it names some, and there alone')
    return found


def refusals(root):
    """The refusals of the list, by number, as the proved source has them too."""
    found = listed(root)
    proved = {number: case for number, (_, case) in refused(root).items()}
    if {refusal.number: refusal.name for refusal in found} != proved or [refusal.number for refusal in found] != sorted(proved):
        raise Unlisted('include/refusals.txt has other numbers or names than crates/table/src/numbers.rt: tests/gate/refusal_cases.py --write')
    return found


def c_string(text):
    """A string of C, in pieces of a line each."""
    pieces = ['']
    for word in re.findall(r'\S+ ?', text):
        pieces += [''] if len(pieces[-1]) + len(word) > PIECE else []
        pieces[-1] += word
    return [f'"{piece}"' for piece in pieces]


def c_when(when):
    word, number = when.split(' ')[0], when.split(' ')[-1]
    if when == 'no subleaf':
        return '!refusal.has_subleaf'
    if word == 'leaf':
        return f'refusal.leaf == 0x{number}'
    return f'refusal.s {"<" if "below" in when else "=="} {number}'


def c_returns(when, message, indent):
    """The statement that gives a message, where it applies."""
    first = f'if ({c_when(when)}) return ' if when else 'return '
    pieces = c_string(message)
    lines = [f'{indent}{first}{pieces[0]}', *(f'{indent}       {piece}' for piece in pieces[1:])]
    return '\n'.join(lines) + ';\n'


def c_enum(listed):
    """The numbers by name."""
    rows = ['    SNP_CPUID_ACCEPTED = 0,\n']
    for refusal in listed:
        named = f'; names {" and ".join(refusal.details)}' if refusal.details else ''
        comma = '' if refusal is listed[-1] else ','
        rows.append(f'    {refusal.constant()} = {refusal.number}{comma} /* {refusal.means}{named} */\n')
    return 'enum snp_cpuid_number {\n' + ''.join(rows) + '};\n'


def c_words(listed):
    """What a number means, and the text of its message."""
    words = ''.join(f'    case {refusal.constant()}: return "{refusal.means}";\n' for refusal in listed)
    texts = ''.join(f'    case {refusal.constant()}:\n' + ''.join(c_returns(when, message, ' ' * 8) for when, message in refusal.says)
                    for refusal in listed)
    return ('static inline const char *snp_cpuid_words(uint32_t number)\n{\n    switch (number) {\n'
            f'    case SNP_CPUID_ACCEPTED: return "accepted";\n{words}    default: return "no such number";\n    }}\n}}\n\n'
            '/* The text of a message: %l stands for the leaf and %c for the subleaf, both in hexadecimal, %s for s and %p for 2 to the power '
            'of s. */\n'
            'static inline const char *snp_cpuid_message_text(struct snp_cpuid_refusal refusal)\n{\n    switch (refusal.number) {\n'
            f'{texts}    default: return snp_cpuid_words(refusal.number);\n    }}\n}}\n')


def rust_when(when):
    word, number = when.split(' ')[0], when.split(' ')[-1]
    if not when:
        return 'When::Always'
    if when == 'no subleaf':
        return 'When::NoSubleaf'
    if word == 'leaf':
        return f'When::Leaf(0x{number})'
    return f'When::{"Below" if "below" in when else "Is"}({number})'


def rust_name(root, refusal):
    """A closure that gives the refusal of its details."""
    enum, case = refused(root)[refusal.number]
    given = ', '.join(f'd.{detail}' for detail in refusal.details)
    if refusal.details == ['leaf']:
        case = f'{case} {{ leaf: d.leaf }}'
    elif given:
        case = f'{case}({given})'
    named = f'{enum}::{case}' if enum == 'Refusal' else f'Refusal::TopologyInconsistent(TopologyError::{case})'
    return f'|{"d" if given else "_"}| {named}'


def rust_list(root, listed):
    """rust/src/refusal_list.rs"""
    rows = ''
    for refusal in listed:
        says = ', '.join(f'({rust_when(when)}, "{message}")' for when, message in refusal.says)
        if len(refusal.says) > 1:
            says = '\n' + ''.join(f'            ({rust_when(when)}, "{message}"),\n' for when, message in refusal.says) + '        '
        rows += f'    Line {{\n        number: {refusal.number},\n        name: {rust_name(root, refusal)},\n        says: &[{says}],\n    }},\n'
    return ('//! The refusals, made of include/refusals.txt by `tests/gate/interface.py --write`.\n\n'
            'use crate::refusal::{Line, Refusal, TopologyError, When};\n\n'
            f'#[rustfmt::skip]\npub(crate) const LIST: &[Line] = &[\n{rows}];\n')


def holds(when, given):
    """Whether a message's condition holds of these details."""
    word, number = when.split(' ')[0], when.split(' ')[-1]
    if when == 'no subleaf':
        return 'subleaf' not in given
    if word == 'leaf':
        return given['leaf'] == int(number, 16)
    return not when or (given['s'] < int(number) if 'below' in when else given['s'] == int(number))


def messages(listed):
    """tests/data/messages.txt: lines of each refusal with their messages, by a formatter of this tool's own."""
    rows = ''
    for refusal in listed:
        for given in refusal.tried or ({},):
            text = next(message for when, message in refusal.says if holds(when, given))
            marks = {'%l': f'{given.get("leaf", 0):X}', '%c': f'{given.get("subleaf", 0):X}', '%s': f'{given.get("s", 0)}',
                     '%p': f'{2 ** given.get("s", 0)}'}
            line = ''.join(f' {number:08X}' if detail == 'leaf' else f' {number}' for detail, number in given.items())
            rows += f'{refusal.number}{line}: {re.sub("%[lcsp]", lambda mark: marks[mark[0]], text)}\n'
    return rows


def markdown(listed):
    """The rows of a table."""
    head = '| number | C | names | means |\n|---|---|---|---|\n'
    return head + ''.join(f'| {refusal.number} | `{refusal.constant()}` | {", ".join(refusal.details)} | {refusal.means} |\n'
                          .replace('|  |', '| |') for refusal in listed)
