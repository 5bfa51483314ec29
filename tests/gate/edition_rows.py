"""edition_rows.py: the editions of the AVX rule, read from `further_editions` of crates/table/specs/Edition.antt, as numbers and in words. No tool by
itself: tests/gate/figures.py puts them where they are told."""
import re

from proved_source import Unlisted

EDITION = 'crates/table/specs/Edition.antt'
NAMES = 'crates/x86defs/specs'
REGISTERS = '1.ECX', '80000001h.ECX'
# the forms of the words, as a file may have them: {word: pattern}
LIST = r'[0-9]+(?:, [0-9]+)* (?:and|n?or) [0-9]+'
FORMS = {
    'and': LIST, 'or': LIST, 'nor': LIST, 'options': r'--edition [0-9]+(?:, --edition [0-9]+)* or --edition [0-9]+',
    'last': '[0-9]+', 'none': '[0-9]+', 'clears': r'2: [^\n]*', 'hides': r'2 hides [^\n]*?',
    'back': r'(?:edition 2 back to 1|a later edition back to an earlier one)',
    'back_of_rule': r'(?:edition 2 of the AVX rule back to edition 1|a later edition of the AVX rule back to an earlier one)',
}


def named(root, text, mask):
    """[(name, bit)] of a mask by its name in the file of editions; none for 0."""
    if mask == '0':
        return []
    found = re.search(rf'^{mask} =\s*mask_of (\w+)\.position \(([^)]*) ∷ \[\]\)', text, re.M)
    module = found and re.search(rf'^use Rattle\.x86defs\.specs\.(\w+) as {found[1]}$', text, re.M)
    if not module:
        raise Unlisted(f'{EDITION} has no mask {mask} of named bits')
    positions = dict(re.findall(r'^position (\S+) = (\d+)$', (root / f'{NAMES}/{module[1]}.antt').read_text(encoding='utf-8'), re.M))
    names = [name.rsplit('.', 1)[1] for name in found[2].split(' ∷ ')]
    return [(name.replace('_', '').upper(), positions[name]) for name in names]


def rows(root):
    """Of each edition from 2 on, for each of the two registers, [(name, bit)] that it clears and the one before it leaves."""
    text = (root / EDITION).read_text(encoding='utf-8')
    found = re.search(r'^further_editions =\s+(.*?)\s+∷ \[\]$', text, re.M | re.S)
    masks = found and [re.fullmatch(r'bits (\w+) (\w+)', row) for row in re.split(r'\s+∷\s+', found[1])]
    if not masks or None in masks:
        raise Unlisted(f'{EDITION} has no editions')
    return [[named(root, text, mask) for mask in row.groups()] for row in masks]


def joined(words, last):
    return f'{", ".join(words[:-1])} {last} {words[-1]}' if len(words) > 1 else words[0]


def told(row):
    """The bits of an edition with their places."""
    parts = [(joined([name for name, _ in bits], 'and'), register, 'bit' if len(bits) == 1 else 'bits', joined([bit for _, bit in bits], 'and'))
             for register, bits in zip(REGISTERS, row) if bits]
    return ', '.join(f'{names} ({register} {word} {places})' for names, register, word, places in parts)


def editions(root):
    """{editions:WORD: the known editions in that form}."""
    further = rows(root)
    last = 1 + len(further)
    numbers = [str(number) for number in range(1, last + 1)]
    hidden = [', '.join(name for bits in row for name, _ in bits) for row in further]
    two = last == 2
    words = {
        **{word: joined(numbers, word) for word in ('and', 'or', 'nor')}, 'options': joined([f'--edition {number}' for number in numbers], 'or'),
        'last': last, 'none': last + 1, 'clears': '; '.join(f'{number}: {told(row)}' for number, row in enumerate(further, 2)),
        'hides': '; '.join(f'{number} {"hides" if number == 2 else "also"} {names}' for number, names in enumerate(hidden, 2)),
        'back': 'edition 2 back to 1' if two else 'a later edition back to an earlier one',
        'back_of_rule': 'edition 2 of the AVX rule back to edition 1' if two else 'a later edition of the AVX rule back to an earlier one',
    }
    return {f'editions:{word}': text for word, text in words.items()}
