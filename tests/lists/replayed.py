"""What the makers of rust/tests/*.txt have in common: lists of questions with a model's answers, which a Rust test replays (rust/tests/replay reads
what is written here).

make_NAME.py           writes rust/tests/NAME.txt
make_NAME.py --check   compares the file with what it makes
"""
from collections import Counter
from pathlib import Path

from make_vectors import differences

FOLDER = Path(__file__).resolve().parents[2] / 'rust' / 'tests'


def edits(old, new):
    """How bytes are made of others, in one word: - for no edit, or in a row, with commas: #LENGTH cuts them or fills them up with zeros,
    @OFFSET:BYTES writes some. Lengths are decimal, offsets and bytes hexadecimal."""
    base = old[:len(new)] + bytes(max(0, len(new) - len(old)))
    words = [f'#{len(new)}'] if len(new) != len(old) else []
    words += [f'@{start:x}:{part.hex()}' for start, part in differences(base, new)]
    return ','.join(words) or '-'


def main(words, name, what, lines, kinds, every):
    """The whole of a maker, with its exit status: `kinds` has the kind of each answer, of which every one must occur and no other."""
    counts = Counter(kinds)
    if set(counts) != set(every):
        print(f'only {sorted(counts, key=str)} occur')
        return 1
    file, data = FOLDER / f'{name}.txt', ''.join(line + '\n' for line in lines).encode()
    if words == ['--check']:
        right = file.read_bytes() == data
        print(f'{counts.total()} {what} are as made' if right else f'not as made: {file.name}')
        return 0 if right else 1
    file.write_bytes(data)
    print(', '.join(f'{count} {kind}' for kind, count in sorted(counts.items(), key=str)))
    print(f'{counts.total()} {what}, {len(data)} bytes')
    return 0
