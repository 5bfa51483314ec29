"""Makes rust/tests/nearest.txt: the nearest bit of some page sets, as model_nearest.py answers.

A line `p EDITS` makes a page set of the one before, the first of tests/data/epyc-milan.pages. The other lines ask of the set made last, for a
secure-AVIC choice, 0 or 1, and an edition in hexadecimal; after a bar stand b with page, entry, register and bit, decimal, or r with a refusal's
number, leaf, subleaf and s, leaf and subleaf hexadecimal; a subleaf of - is none.
"""
import random
import sys

import model
from model_nearest import nearest
from pagesets import MILAN, STATE, changed, entries, minimal, page, pages, rich, spread, with_byte, with_topology, without
import replayed
from replayed import edits
from vectors_document_01 import Damage

ALL = 0xFFFFFFFF
SIZES, DEFINITION = 0x80000008, 0x8000001E
FILTERED = 0x40000000, 0, ALL, ALL, ALL, ALL
USUAL = False, 1
EVERY = [(choice, edition) for choice in (False, True) for edition in (1, 2)]
KINDS = [('bit', register) for register in range(4)] + [1, 2, 15, 17, 20]


def ordered(rows, *first):
    """All entries on page 1, where those of leaf Dh count, the rows of `first` before the others; page 0 is empty."""
    keys = [*first, *(key for key in rows if key not in first)]
    return pages([], entries({key: rows[key] for key in keys}))


def asked(data, choices=(USUAL,)):
    for one in choices:
        yield data, one


# The groups: (pages, (secure AVIC, edition))

def unlawful():
    """15 before 1, 2, 17 and 20; 1 before 2; 2 before 17; 17 before 20 and before any bit, in entries below their counts alone."""
    lone, unclean = page([FILTERED]), with_byte(page([FILTERED, (5, 0, 0, 0, 0, 0)]), 0, 1, 47, 1)
    for edition in 0, *model.EDITIONS, model.NO_EDITION, 255, 257, 1 << 31 | 1, ALL:
        for data in b'', lone[:-1], page([], 65), unclean, lone, MILAN:
            yield data, (False, edition)
    for length in 0, 1, 4095, 4097, 8191, 8192:
        yield from asked((page([], 65) * 2)[:length])
    for count in 64, 65, 256, 1 << 31, ALL:
        yield from asked(page([], count) + unclean)
        yield from asked(unclean + page([], count))
    for position in 0, 1, 21, 22:
        for offset in 39, 40, 47:
            yield from asked(with_byte(spread(minimal()), 0, position, offset, 0x80))
    yield from asked(with_byte(with_byte(spread(minimal()), 1, 1, 40, 1), 1, 0, 44, 1))


def missing():
    """20: no entries; none that counts; each required leaf alone; each left out of the first few; two whole sets."""
    for data in page([]), page([]) * 3, page([FILTERED]), page([(STATE, 0, 7, 0, 0, 0)]), page([]) * 2 + page([(STATE, 1, 7, 0, 0, 0)]):
        yield from asked(data, EVERY)
    for key in minimal():
        yield from asked(ordered({key: rich()[key]}))
    yield from asked(spread(without(rich(), DEFINITION)))
    yield from asked(spread(without(minimal(), STATE, 1)))


def first_entries():
    """Each row of three accepted sets first, under every choice: which of its bits are in the table, and what is set, cleared or dropped."""
    for rows in minimal(), rich(), changed(rich(), STATE, 0, eax=3), changed(rich(), STATE, 1, eax=3):
        for key in rows:
            yield from asked(ordered(rows, key), EVERY if key in ((1, None), (0x80000001, None), (0x8000001F, None), (7, 0)) else [USUAL])


def passed_over():
    """What comes before the first entry that decides: filtered leaves, leaf Dh on pages 0 and 2, rows that are made here, empty pages, later entries
    of a place."""
    state = (STATE, 0, ALL, ALL, ALL, ALL)
    before = [FILTERED], [state], [FILTERED, state], [(0, 0, ALL, 0, 0, 0), (0x80000000, 0, 0, 0, 0, 0)], [(7, 1, 0, 0, 0, 0), (0xB, 2, 0, 0, 0, 0)]
    others, states = [e for e in entries(minimal()) if e[0] != STATE], [e for e in entries(minimal()) if e[0] == STATE]
    for some in before:
        yield from asked(pages(some + others, states))
        yield from asked(pages(some, states, some, others))
    for empty in range(4):
        yield from asked(pages(*[[]] * empty, others + states))
    # 1 twice: only bits of the first decide; B.0 twice before it, which never do
    one = (1, 0, 5, 0, 0, 0)
    for twice in [one], [one, one], [(0xB, 0, 1, 1, 1, 1)], [(0xB, 0, 1, 1, 1, 1), (0xB, 0, 2, 2, 2, 2), (0xB, 1, 3, 3, 3, 3)]:
        yield from asked(pages([], twice + others + states))
    # a leaf without subleaves takes its first entry for any ECX_IN
    yield from asked(pages([], [(DEFINITION, 9, 0, 0, 0, 0), (DEFINITION, 0, 0, 0x100, 0, 0)] + others + states))


def no_invlpgb():
    """4: bit 3 of 80000008h.EBX decides, wherever its entry stands; of a second entry none does."""
    clear = changed(rich(), SIZES, ebx=ALL & ~8)
    yield from asked(ordered(clear, (SIZES, None)), EVERY)
    for number in 1, 2, 5:
        yield from asked(ordered(clear, *list(clear)[:number], (SIZES, None)))
    yield from asked(spread(changed(minimal(), SIZES, ebx=0)))
    yield from asked(pages([], [(SIZES, 0, 0, 0, 0, 0), (SIZES, 0, 0, 8, 0, 0)] + [e for e in entries(minimal()) if e[0] != SIZES]))
    # before 5, 7 and a missing subleaf, which no flip then changes
    for rows in without(clear, STATE, 5), changed(clear, STATE, 2, eax=ALL, ebx=1), with_topology(clear, 7, 200, 0, 0, 9):
        yield from asked(ordered(rows, (STATE, 0), (1, None), (SIZES, None)))


def states():
    """3 for a D subleaf, and 5: the bits of D.0.EAX, of D.1.EAX and ECX, and of the sums; others decide nothing."""
    lacking = without(rich(), STATE, 5)
    for first in ([(STATE, 0)], [(STATE, 1)], [(STATE, 1), (STATE, 0)], [(SIZES, None)], [(STATE, 2), (5, None), (SIZES, None)],
                  [(STATE, 11), (STATE, 1)]):
        yield from asked(ordered(lacking, *first))
        yield from asked(ordered(without(lacking, STATE, 12), *first))
    yield from asked(ordered(changed(lacking, STATE, 1, eax=3), (STATE, 1)))
    yield from asked(ordered(without(rich(), STATE, 11), (STATE, 1)))
    for eax, ebx in (ALL, 1), (ALL, 0), (1, ALL), (1 << 31, 1 << 31), (1 << 31, (1 << 31) - 1), (ALL, ALL):
        large = changed(rich(), STATE, 6, eax=eax, ebx=ebx)
        for first in [(STATE, 6)], [(STATE, 9), (STATE, 6)], [(STATE, 11), (STATE, 0)], [(STATE, 1), (7, 0), (STATE, 0)]:
            yield from asked(ordered(large, *first))
    # XSS is 0 for want of bits of D.1.ECX: each of them, and no bit of EAX, adds a subleaf that is missing before the topology is refused
    bare = with_topology(changed(without(without(rich(), STATE, 11), STATE, 12), STATE, 1, eax=0xA, ecx=0), 7, 200, 0, 1, 1)
    for ecx in 0, 0x800, 0x1000:
        yield from asked(ordered(changed(bare, STATE, 1, ecx=ecx), (STATE, 1)))
    # the largest sum gives D.0.ECX, a smaller one only its own row
    for subleaf in 2, 5, 6, 7:
        yield from asked(ordered(rich(), (STATE, subleaf)))


def topologies():
    """6, 7 and 8, and s in their details: fields of 80000008h.ECX, 1.EBX and EDX, 8000001Eh.EBX."""
    figures = [(0, 0, 2, 0, 0), (0, 3, 0, 0, 0), (0, 2, 2, 1, 0), (0, 255, 0, 1, 0), (1, 1, 2, 0, 0), (7, 127, 128, 0, 0), (7, 128, 128, 1, 0),
               (7, 127, 127, 1, 0), (3, 7, 8, 1, 2), (0, 0, 1, 1, 1), (0, 0, 0, 0, 1), (8, 0, 0, 0, 2), (15, 0, 0, 0, 255)]
    for numbers in figures:
        rows = with_topology(rich(), *numbers)
        for first in ([(1, None)], [(SIZES, None)], [(DEFINITION, None), (1, None)], [(5, None), (DEFINITION, None), (SIZES, None)],
                      [(STATE, 7), (STATE, 0)]):
            yield from asked(ordered(rows, *first))
    for numbers in (0, 0, 0, 0, 0), (0, 0, 1, 0, 0), (0, 2, 3, 1, 0), (7, 127, 128, 1, 1), (8, 0, 0, 0, 1), (15, 0, 0, 0, 0), (1, 0, 2, 1, 1):
        rows = with_topology(rich(), *numbers)
        for first in [(SIZES, None)], [(DEFINITION, None)], [(1, None)]:
            yield from asked(ordered(rows, *first))


def whole():
    """The shipped set and others as they stand, under every choice; with bytes that are not read set."""
    for data in MILAN, spread(minimal()), spread(rich()), spread(minimal(), fill=0xFF), MILAN + page([]):
        yield from asked(data, EVERY)
    yield from asked(page([]) + MILAN)


def at_random():
    """Damaged sets, and rows of few bits in any order."""
    damage, draw = Damage(41), random.Random(42)
    for number in range(60):
        data = damage.damage((MILAN, spread(rich()), spread(minimal()))[number % 3])
        if model.build(data, False)[0] == 'table' or number % 10 == 0:
            yield from asked(data)
    for _ in range(80):
        rows = {key: tuple(draw.getrandbits(32) & draw.getrandbits(32) for _ in range(4)) for key in rich()}
        rows = changed(rows, SIZES, ebx=rows[SIZES, None][1] | 8)
        rows = with_topology(rows, *draw.choice(((0, 0, 0, 0, 0), (7, 127, 128, 1, 1), (8, 3, 0, 0, 0))))
        keys = draw.sample(list(rows), len(rows))
        yield from asked(ordered(rows, *keys), [draw.choice(EVERY)])


GROUPS = (unlawful, missing, first_entries, passed_over, no_invlpgb, states, topologies, whole, at_random)


# The file

def questions():
    """Each once, those of the same pages together."""
    found = {}
    for data, question in (one for group in GROUPS for one in group()):
        found.setdefault(bytes(data), {})[question] = None
    return found


def said(answer):
    """(kind, words) of the answer."""
    if answer[0] == 'bit':
        return ('bit', answer[3]), ' '.join(['b', *map(str, answer[1:])])
    _, number, leaf, subleaf, s = answer
    return number, f'r {number} {leaf:x} {"-" if subleaf is None else format(subleaf, "x")} {s}'


def lines():
    """(the kind of the answer, or None where nothing is asked, the line)."""
    last = MILAN
    for data, found in questions().items():
        if data != last:
            yield None, f'p {edits(last, data)}'
            last = data
        for choice, edition in found:
            kind, words = said(nearest(data, choice, edition))
            yield kind, f'{choice:d} {edition:x} | {words}'


def main(words):
    made = [*lines()]
    return replayed.main(words, 'nearest', 'nearest bits', [line for _, line in made], [kind for kind, _ in made if kind is not None], KINDS)


if __name__ == '__main__':
    sys.exit(main(sys.argv[1:]))
