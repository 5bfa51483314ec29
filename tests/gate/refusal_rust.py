"""refusal_rust.py: what the Rust crate has of each refusal of include/refusals.txt: rust/src/refusal.rs its variant, what it names and its row of the
test, rust/src/bin/snp-cpuid/meanings.rs what `explain` says."""
import re
import textwrap

from proved_source import Unlisted, refused

WIDTH = 150
TOPOLOGY = 'Refusal::TopologyInconsistent'
TYPES = {'leaf': 'u32', 'subleaf': 'Option<u32>', 's': 'u8'}
# what the test has of each detail: for the `let`s before its rows and for the variant
KINDS = {
    (): [('none', {})],
    ('leaf', 'subleaf'): [('leaf', {'leaf': '0x8000_001D', 'subleaf': 'Some(3)'}), ('Details { leaf: 5, ..none }', {'leaf': '5', 'subleaf': 'None'})],
    ('leaf',): [('Details { leaf: 0x4000_0000, ..none }', {'leaf': '0x4000_0000'})],
    ('s',): [('s', {'s': '7'})],
}


def doc(text, indent='    '):
    return ''.join(f'{line}\n' for line in textwrap.wrap(text, WIDTH, initial_indent=f'{indent}/// ', subsequent_indent=f'{indent}/// ',
                                                         break_long_words=False, break_on_hyphens=False))


def carrying(refusal, values):
    """The variant's name with these values of what it names."""
    if refusal.details == ['leaf']:
        value = values['leaf']
        return f'{refusal.name} {{ {"leaf" if value == "leaf" else f"leaf: {value}"} }}'
    given = ', '.join(values[detail] for detail in refusal.details)
    return refusal.name + (f'({given})' if given else '')


def variant(refusal):
    """Its lines in an enum. A leaf alone is a field with a name, and has its own words."""
    head = doc(f'{refusal.number}: {refusal.rust or refusal.means}.')
    if refusal.details != ['leaf']:
        return head + f'    {carrying(refusal, TYPES)},\n'
    return head + f'    {refusal.name} {{\n{doc(refusal.rust_leaf or "the leaf", " " * 8)}        leaf: u32,\n    }},\n'


def arm(patterns, told):
    """An arm of `details` as rustfmt has it: in one line where that fits, else one line for each pattern."""
    line = f'            {" | ".join(patterns)} => {told},\n'
    if len(line) <= WIDTH + 1 and len(patterns) < 3:
        return line
    return '            ' + '\n            | '.join(patterns) + f' => {told},\n'


def arms(listed, nested):
    made = ''
    for kind in [['leaf', 'subleaf'], ['leaf'], ['s'], []]:
        patterns = []
        alike = [refusal for refusal in listed if refusal.details == kind]
        inner = ' | '.join(f'TopologyError::{carrying(refusal, {each: each for each in kind})}' for refusal in alike if refusal in nested)
        for refusal in alike:
            if refusal not in nested:
                patterns.append(f'Refusal::{carrying(refusal, {each: each for each in kind})}')
            elif inner:
                patterns.append(f'{TOPOLOGY}({inner})')
                inner = ''
        told = f'Details {{ {", ".join(kind)}, ..Details::default() }}' if kind else 'Details::default()'
        made += arm(patterns, told) if patterns else ''
    return made


def rows(listed, nested):
    """The rows of the test of numbers and details."""
    made = ''
    for refusal in listed:
        for named, values in KINDS[tuple(refusal.details)]:
            case = carrying(refusal, values)
            made += f'            ({refusal.number}, {named}, {f"{TOPOLOGY}(TopologyError::{case})" if refusal in nested else f"Refusal::{case}"}),\n'
    return made


def either(numbers):
    return f'{", ".join(map(str, numbers[:-1]))} or {numbers[-1]}'


def rust(root, listed, text):
    """rust/src/refusal.rs with all that is made."""
    nested = [refusal for refusal in listed if refused(root)[refusal.number][0] == 'TopologyError']
    refusals = ''
    for refusal in listed:
        if refusal not in nested:
            refusals += variant(refusal)
        elif refusal is nested[0]:
            refusals += doc(f'{either([each.number for each in nested])}: the topology leaves disagree.')
            refusals += '    TopologyInconsistent(TopologyError),\n'
    for head, made, tail in (('pub enum Refusal {\n', refusals, '}\n'), ('pub enum TopologyError {\n', ''.join(map(variant, nested)), '}\n'),
                             ('        match *self {\n            Refusal::', arms(listed, nested), '        }\n'),
                             ('        for (number, named, refusal) in [\n', rows(listed, nested), '        ] {\n')):
        kept = head.removesuffix('            Refusal::')
        found = re.findall(rf'^{re.escape(head)}(?s:.*?)^{re.escape(tail)}', text, re.MULTILINE)
        if len(found) != 1:
            raise Unlisted(f'rust/src/refusal.rs has {len(found)} places like {kept.strip()}')
        text = text.replace(found[0], kept + made + tail)
    return text


def errors(path, listed, text):
    """A file with the refusals of its function in their order, where its documentation has them."""
    names = [f'[`Refusal::{refusal.name}`]' for refusal in listed]
    found = re.findall(r'^( *)/// # Errors\n *///\n((?: */// .*\n)+)', text, re.MULTILINE)
    found = [(indent, lines) for indent, lines in found if re.sub(r'\s+///', '', lines).endswith(' in this order.\n')]
    if len(found) != 1:
        raise Unlisted(f'{path} has {len(found)} places for the refusals in their order')
    indent, lines = found[0]
    return text.replace(lines, doc(f'{", ".join(names[:-1])} and {names[-1]}, in this order.', indent))


def meanings(listed, text):
    """rust/src/bin/snp-cpuid/meanings.rs with what is explained."""
    strings = ''
    for refusal in listed:
        lines = textwrap.wrap(f'"{refusal.explains}",', WIDTH - 7, break_long_words=False, break_on_hyphens=False)
        strings += f'    // {refusal.number}\n    ' + ' \\\n     '.join(lines) + '\n'
    found = re.search(r'^const MEANINGS: .*\n(?s:.*?)^\];\n', text, re.MULTILINE)
    if not found:
        raise Unlisted('rust/src/bin/snp-cpuid/meanings.rs has no MEANINGS')
    return f'{text[:found.start()]}const MEANINGS: [&str; {len(listed)}] = [\n{strings}];\n{text[found.end():]}'
