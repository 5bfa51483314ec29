"""make_server_a.py: the image of server A and its digest, as crates/images/specs/FingerprintA.antt lists them, by the models.

Server A's entries are those of crates/page_sets/specs/PageSets.antt. The proof says whether the bytes are right, and
tests/unit/test_model_fingerprint.py that they are as made here.
"""
import hashlib
from pathlib import Path
import re
import sys

import model
from pagesets import pages

ROOT = Path(__file__).resolve().parents[2]
SETS, LISTED = 'crates/page_sets/specs/PageSets.antt', 'crates/images/specs/FingerprintA.antt'
SERVER = re.compile(r'^server_a = first_page (\w+) (\w+) (\w+) \+\+ page \d+ \(state_entries (\w+) (\w+) (\w+)\)$', re.MULTILINE)


def entries(text, name, given):
    """The entries of a definition, with these numbers for its arguments."""
    names, body = re.search(rf'^{name} ((?:\w+ )+)=\s((?:.*entry .*\n)+)', text, re.MULTILINE).groups()
    known = dict(zip(names.split(), given))
    found = re.findall(r'\bentry (\w+) (\w+) (\w+) (\w+) (\w+) (\w+)', body)
    return [tuple(int(known.get(word, word), 0) for word in six) for six in found]


def server_a():
    """The pages of server A."""
    text = (ROOT / SETS).read_text(encoding='utf-8')
    numbers = SERVER.search(text).groups()
    return pages(entries(text, 'required_entries', numbers[:3]), entries(text, 'state_entries', numbers[3:]))


def listed(data, wide):
    """Bytes as a list of the proofs, so many in a line."""
    rows = [' ∷ '.join(f'0x{byte:02x}' for byte in data[at:at + wide]) for at in range(0, len(data), wide)]
    return '    ' + ' ∷\n    '.join(rows) + ' ∷ []\n'


def made():
    """The file with both lists."""
    image, text = model.image(model.build(server_a(), False, 1)), (ROOT / LISTED).read_text(encoding='utf-8')
    for name, data, wide in ('image_a', image, 20), ('digest_a', hashlib.sha256(image).digest(), 16):
        text = re.sub(rf'^{name} =\n(?:    .*\n)+', lambda _, name=name, said=listed(data, wide): f'{name} =\n{said}', text, flags=re.MULTILINE)
    return text, len(image)


def main():
    text, length = made()
    (ROOT / LISTED).write_text(text, encoding='utf-8')
    print(f'{length} bytes of server A')
    return 0


if __name__ == '__main__':
    sys.exit(main())
