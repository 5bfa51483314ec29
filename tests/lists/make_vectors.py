"""Makes what the programs read and must answer, from the model: crates/vectors/stdin and stdout, the vectors of vector_groups.py, and
crates/snp_cpuid_image/stdin and stdout, the shipped page set and its image.

make_vectors.py           writes the files
make_vectors.py --check   compares the files with what it makes
make_vectors.py --names   prints the name of each line of crates/vectors/stdout

A vector's page set is sent as its differences from the one before.
"""
from collections import Counter
from pathlib import Path
import sys

import model
from vector import COMMAND_SIZE, command
import vector_groups

CRATES = Path(__file__).resolve().parents[2] / 'crates'
SHIPPED = Path(__file__).resolve().parents[1] / 'data' / 'epyc-milan.pages'
LONGEST_SET = 65537


def differences(old, new):
    """(offset, bytes) of the parts of `new` that differ from `old`; parts closer than a command is long are one."""
    found = []
    for at in (i for i in range(len(new)) if old[i] != new[i]):
        if found and at < found[-1][1] + COMMAND_SIZE:
            found[-1][1] = at + 1
        else:
            found.append([at, at + 1])
    return [(start, new[start:end]) for start, end in found]


def commands(vectors):
    """The whole of stdin. The program's page set starts as zeros, with length 0."""
    data, held, length = b'', bytearray(LONGEST_SET), 0
    for vector in vectors:
        if len(vector.pages) != length:
            length = len(vector.pages)
            data += command('n', length)
        for start, part in differences(held, vector.pages):
            data += command('d', start, len(part)) + part
            held[start:start + len(part)] = part
        data += vector.command
    return data


def counted(vectors):
    """How many different questions are asked, of how many different page sets; lines that repeat another are told apart."""
    queries = len({(vector.pages, vector.command) for vector in vectors})
    sets = len({vector.pages for vector in vectors})
    return f'{queries} different queries of {sets} different page sets, {len(vectors) - queries} repeated'


def main(words):
    vectors = list(vector_groups.vectors())
    if words == ['--names']:
        for number, vector in enumerate(vectors, 1):
            print(number, vector.name)
        return 0
    shipped = SHIPPED.read_bytes()
    made = {
        'vectors/stdin': commands(vectors),
        'vectors/stdout': ''.join(vector.line + '\n' for vector in vectors).encode(),
        'snp_cpuid_image/stdin': shipped,
        'snp_cpuid_image/stdout': model.output(shipped),
    }
    if words == ['--check']:
        wrong = [name for name, data in made.items() if (CRATES / name).read_bytes() != data]
        print(f'not as made: {" ".join(wrong)}' if wrong else counted(vectors))
        return 1 if wrong else 0
    for name, data in made.items():
        (CRATES / name).write_bytes(data)
        print(f'{name}: {len(data)} bytes')
    for answer, count in sorted(Counter(vector.summary for vector in vectors).items()):
        print(f'{count:4} {answer}')
    print(counted(vectors))
    return 0


if __name__ == '__main__':
    sys.exit(main(sys.argv[1:]))
