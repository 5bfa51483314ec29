#!/usr/bin/env python3
"""figures.py: the figures of the proved source, in constants, comments, messages, documents, and where one follows from another in the source.

tests/gate/figures.txt has the places: a file, and below it texts of that file with {FIGURE} where the number stands, or {FIGURE:,} where it has
commas. {place:7.0} is the number of the place of leaf 7 subleaf 0, {row:7.0} that of its row in the table of kept leaves, {required:7.0} its position
in the lists of required leaves, {stretch:7.0} how many places from there on have subleaves as it has, or have none; {end:1} is the leaf after those
that follow each other from leaf 1 on. {rows:3}, {image:3} and {kvm:3} are the rows and the bytes of an accepted table with three components, as the
EPYC's of tests/data is; {fingerprint} is that of its image, as the model writes it. {editions:and} has the known editions, as "1 and 2", and
edition_rows.py has their other forms. \\n is a new line. --write puts each figure there, and --check fails where a file has another one or does not
have the text at all. A new place is a new line of the list. The other tools read what this one writes, so it comes first.

The number of places, 88, and that of their registers also stand bare in definitions and proofs. Where the table of kept leaves has another number
than the code's PLACES, --write puts the new numbers for the old ones in every file of the crates but those of BY_HAND, which state them.
"""
import hashlib
from pathlib import Path
import re
import sys

from edition_rows import FORMS, editions
from kept_leaves import required, rows as kept_rows
from proved_source import Unlisted, constant

ROOT = Path(__file__).resolve().parents[2]
LIST = 'tests/gate/figures.txt'
MASK = 'crates/counts/specs/Mask.antt'
IMAGE = 'crates/snp_cpuid_image/stdout'
BY_HAND = 'crates/theorems/specs/Document01.antt', 'crates/letter/specs/Paper.antt', 'crates/vectors/'
FIGURE = re.compile(r'\{(\w+)(?::(,|[a-z_]+|[0-9A-F.]+))?\}')
STATE, FIRST_STATE = 0xD, 2
NUMBER, LEAF, DIGEST = '[0-9,]*[0-9]', '0x[0-9A-F]+', '[0-9a-f]{64}'


def most_components(root):
    """The most bits that a combined mask has from 2 up: each is a row of leaf Dh."""
    found = re.search(r'components_in x ≤ (\d+)', (root / MASK).read_text(encoding='utf-8'))
    if not found:
        raise Unlisted(f'{MASK} has no bound of the components')
    return int(found[1])


def figures(root):
    """{name: number}. In the image a row has 21 bytes, and 25 with a subleaf; in a list for KVM any row has 40, after 8 of the head. The rows from
    D.2 on are those that an accepted table may lack."""
    table, needed = kept_rows(root), required(root)
    kept = [place for row in table for place in row]
    always = [place for place in kept if place.leaf != STATE or place.subleaf < FIRST_STATE]
    subleaf_rows = sum(place.subleaf is not None for place in always)
    places, rows, image = len(kept), len(always), 21 * len(always) + 4 * subleaf_rows
    longest = image + 25 * (places - rows)
    most, entries = rows + most_components(root), sum(place.leaf != STATE for place in needed)
    return {
        'fingerprint': hashlib.sha256((root / IMAGE).read_bytes()).hexdigest(),
        'servers': constant(root, 'pool/src/sets.rt', 'MOST_SETS'),
        'places': places, 'last': places - 1, 'registers': 4 * places, 'table_bytes': 24 * places,
        'rows': rows, 'most_rows': most, 'image': image, 'most_image': image + 25 * (most - rows), 'most_kvm': 8 + 40 * most,
        'any_image': longest, 'any_but_one': longest - 1, 'any_kvm': 8 + 40 * places, 'kept_rows': len(table),
        'entries': entries, 'one_more': entries + 1, 'two_more': entries + 2, 'three_more': entries + 3, 'entry_bytes': 48 * entries,
        'whole_rows': rows - subleaf_rows, 'subleaf_rows': subleaf_rows, 'required': len(needed), 'not_state': sum(p.leaf != STATE for p in kept),
        **{f'rows:{n}': rows + n for n in range(most - rows + 1)}, **{f'image:{n}': image + 25 * n for n in range(most - rows + 1)},
        **{f'kvm:{n}': 8 + 40 * (rows + n) for n in range(most - rows + 1)},
        **{f'{name}:{written(place)}': number for at, place in enumerate(kept) for name, number in of_place(table, kept, at).items()},
        **{f'required:{written(place)}': at for at, place in enumerate(needed)},
    }


def written(place):
    """A place as the list has it: 7.0."""
    return f'{place.leaf:X}' + ('' if place.subleaf is None else f'.{place.subleaf}')


def of_place(table, kept, at):
    """{name: number} of the place with this number."""
    whole = {place.leaf for place in kept if place.subleaf is None}
    alike = [(place.subleaf is None) == (kept[at].subleaf is None) for place in kept[at:]]
    end = next(leaf for leaf in range(kept[at].leaf, kept[at].leaf + len(kept) + 1) if leaf not in whole)
    return {'place': at, 'row': next(row for row, each in enumerate(table) if kept[at] in each),
            'stretch': (alike + [False]).index(False), 'end': f'0x{end:X}'}


def listed(root):
    """[(file, text)] of the list."""
    found, file = [], None
    for line in (root / LIST).read_text(encoding='utf-8').splitlines():
        if not line.strip() or line.startswith('# '):
            continue
        if not line.startswith(' '):
            file = line.strip()
        elif file and FIGURE.search(line):
            found.append((file, line.strip().replace(r'\n', '\n')))
        else:
            raise Unlisted(f'{LIST}: {line.strip()} names no figure, or stands below no file')
    return found


def with_figures(text, place, known):
    """The text with the figures of a place, or None where it does not have the place."""
    pattern, wanted, at = '', '', 0
    for found in FIGURE.finditer(place):
        name = found[1] if found[2] in (None, ',') else f'{found[1]}:{found[2]}'
        if name not in known:
            raise Unlisted(f'{LIST}: {name} is no figure: {", ".join(each for each in known if ":" not in each)}')
        before, number = place[at:found.start()], f'{known[name]:,}' if found[2] == ',' else str(known[name])
        matched = (FORMS[found[2]] if found[1] == 'editions' else
                   LEAF if name.startswith('end:') else DIGEST if name == 'fingerprint' else NUMBER)
        pattern, wanted, at = f'{pattern}{re.escape(before)}{matched}', wanted + before + number, found.end()
    pattern, wanted = f'(?<![0-9_]){pattern}(?![0-9]){re.escape(place[at:])}', wanted + place[at:]
    made, many = re.subn(pattern, lambda _: wanted, text)
    return made if many else None


def renumbered(root, old, new):
    """Puts the new number of places, and of registers, for the old one. Gives the files that changed."""
    numbers, changed = {str(old): str(new), str(4 * old): str(4 * new)}, []
    for path in sorted(path for part in ('src', 'specs', 'proofs') for path in (root / 'crates').glob(f'*/{part}/**/*')):
        file = str(path.relative_to(root))
        if path.suffix in ('.antt', '.rt') and not file.startswith(BY_HAND):
            text = path.read_text(encoding='utf-8')
            made = re.sub(r'(?<![\w.#-])(?:' + '|'.join(numbers) + r')(?![\w.])', lambda found: numbers[found[0]], text)
            if made != text:
                path.write_text(made, encoding='utf-8')
                changed.append(file)
    return changed


def main(words, root=ROOT):
    if words not in (['--write'], ['--check']):
        print(__doc__.strip())
        return 2
    status, texts = 0, {}
    try:
        known, places = {**figures(root), **editions(root)}, listed(root)
        old = constant(root, 'masking/src/lib.rt', 'PLACES')
        if words == ['--write'] and old != known['places']:
            print(*renumbered(root, old, known['places']), sep='\n')
        for file, place in places:
            text = texts.setdefault(file, (root / file).read_text(encoding='utf-8'))
            made = with_figures(text, place, known)
            if made is None:
                raise Unlisted(f'{file} does not have: {place}')
            if words == ['--check'] and made != text:
                print(f'{file} has another figure (tests/gate/figures.py --write): {place}')
                status = 1
            texts[file] = made
    except Unlisted as why:
        print(why)
        return 1
    if words == ['--write']:
        for file, text in texts.items():
            if text != (root / file).read_text(encoding='utf-8'):
                (root / file).write_text(text, encoding='utf-8')
                print(f'{file} written')
    print(f'{len(places)} places of figures in {len(texts)} files')
    return status


if __name__ == '__main__':
    sys.exit(main(sys.argv[1:]))
