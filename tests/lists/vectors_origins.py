"""The vectors of document 02, P11: where a row came from, and the first entry of a leaf.

Quotations in a group's comment are document 02's.
"""

import model
from model_kvm import kvm_list, read_list
from pagesets import MILAN, PAGE_ENTRIES, STATE, changed, minimal, page, pages, rich, split, spread, with_byte, with_topology, without
from vector import first_entry, lookup

ALL = 0xFFFFFFFF
FIRST, SECOND = split(rich())
FILTERED = [(0x40000000 + number, 0, 1, 2, 3, 4) for number in range(PAGE_ENTRIES)]
MADE = (0, None), (0x80000000, None), (0xB, 0), (0xB, 1)


def other(leaf, subleaf):
    """One more entry of a leaf and subleaf."""
    return [(leaf, subleaf, 0x12345678, 0x12805678, 0x12345678, 0x12345678)]


def sets():
    """Page sets with the same rows in other places."""
    yield 'EPYC', MILAN
    yield 'the least rows', spread(minimal())
    yield 'all bits', spread(rich())
    yield 'from the last to the first', pages(FIRST[::-1], SECOND[::-1])
    yield 'all on page 1, after an empty page', pages([], FIRST[:9] + SECOND + FIRST[9:])
    yield 'on four pages, one of them empty', pages(FIRST[:7], SECOND + FIRST[7:9], [], FIRST[9:])
    yield 'the others on page 15', pages([], SECOND, *[[]] * 13, FIRST)
    yield 'up to the last entry of a page', pages((FILTERED + FIRST)[-PAGE_ENTRIES:], (FILTERED + SECOND)[-PAGE_ENTRIES:])


def every_row():
    """ "Each row shall hold its page and entry, or "made here" for 0, 80000000h, B.0 and B.1" """
    for name, data in sets():
        for leaf, subleaf in model.build(data, False)[1]:
            yield lookup(name, data, leaf, subleaf)


def two_entries():
    """The position is that of the entry that the row is of, the first that counts; without subleaves for any ECX_IN."""
    rows = (1, 0, None), (1, ALL, None), (5, 7, None), (7, 0, 0), (0x80000006, 7, None), (0x8000001D, 3, 3), (0x8000001F, 1, None)
    for leaf, ecx_in, subleaf in rows:
        twice = other(leaf, ecx_in)
        for name, groups in {
            'before': (twice + FIRST, SECOND),
            'after': (FIRST + twice, SECOND),
            'on page 1': (FIRST, twice + SECOND),
            'on page 0, the first on page 2': (twice, SECOND, FIRST),
            'last on page 1': (FIRST, SECOND + twice),
        }.items():
            yield lookup(f'a second entry {name}', pages(*groups), leaf, subleaf)
    # an entry of another subleaf comes first, and a filtered one
    for leaf, subleaf in (7, 0), (0x8000001D, 0), (0x8000001D, 2), (0xB, 0):
        data = pages(other(leaf, 9) + other(leaf, 3) + FIRST, SECOND)
        yield lookup('another subleaf before', data, leaf, subleaf)
    yield lookup('below the count alone', page(other(1, 0), 0) + page(SECOND) + page(FIRST), 1)


def state_entries():
    """A Dh entry counts on page 1 alone: those on other pages are passed over, whatever their place."""
    wrong = [(STATE, subleaf, 0xE7, ALL, ALL, ALL) for subleaf in (0, 1, 2, 12)]
    for name, groups in {
        'page 0 too': (wrong + FIRST, SECOND),
        'page 2 too': (FIRST, SECOND, wrong),
        'page 0 and, twice, page 1': (FIRST + wrong, SECOND + wrong),
        'page 1, after others': (FIRST[:5], FIRST[5:] + SECOND, wrong),
        'page 1, after an empty one': ([], SECOND, FIRST + wrong),
    }.items():
        for subleaf in 0, 1, 2, 12:
            yield lookup(f'leaf Dh on {name}', pages(*groups), STATE, subleaf)


def made_here():
    """ "made here", also where an entry is there, and where it is the first or several are."""
    strange = [entry for leaf, subleaf in MADE for entry in other(leaf, subleaf or 0)]
    for name, data in {
        'an entry for each before': pages(strange + FIRST, SECOND),
        'an entry for each after': pages(FIRST, SECOND + strange),
        'three processors': spread(with_topology(minimal(), 0, 2, 3, 1, 0)),
    }.items():
        for leaf, subleaf in MADE:
            yield lookup(name, data, leaf, subleaf)
            yield lookup(f'{name}, not enforced', data, leaf, subleaf or 0, enforce=False)
            yield first_entry(name, data, leaf, subleaf or 0)


def absent_rows():
    """ "an absent row holds neither": leaves that no table has, subleaves that are dropped, rows not found by their subleaf, refused tables. """
    dropped = changed(changed(rich(), STATE, 1, eax=2), STATE, 0, eax=3)
    for subleaf in 2, 5, 9, 11, 12, 63, 64:
        for name, rows in ('dropped', dropped), ('D.9 has no bit', rich()):
            data = spread({**rows, (STATE, 63): (1, 2, 3, 4)})
            yield lookup(name, data, STATE, subleaf)
            yield first_entry(name, data, STATE, subleaf)
    never = (2, None), (4, 0), (7, 1), (0xB, 2), (STATE, None), (STATE, 3), (0x8000001D, None), (0x8000001D, 4), (0x40000000, None), (ALL, None)
    for leaf, subleaf in never:
        yield lookup('filtered, or not in the table', pages(other(leaf, subleaf or 0) + FIRST, SECOND), leaf, subleaf, enforce=False)
    for leaf, subleaf in (1, 0), (1, 7), (0, 0), (0x80000000, ALL), (0x8000001F, 1):
        for enforce in False, True:
            yield lookup('enforced' if enforce else 'not enforced', MILAN, leaf, subleaf, enforce)
    for name, data in refused():
        for leaf, subleaf in (0, None), (1, None), (7, 0), (0xB, 0), (STATE, 0):
            yield lookup(name, data, leaf, subleaf, enforce=False)


def refused():
    """A page set for each refusal of building."""
    yield 'refused by 1', spread(rich())[:-1]
    yield 'refused by 2', spread(rich()) + page([], 65)
    yield 'refused by 17', with_byte(spread(rich()), 1, 3, 44, 1)
    yield 'refused by 3', spread(without(rich(), 0x8000001E))
    yield 'refused by 4', spread(changed(rich(), 0x80000008, ebx=0))
    yield 'refused by 3, a state', spread(without(rich(), STATE, 6))
    yield 'refused by 5', spread(changed(rich(), STATE, 2, eax=ALL, ebx=1))
    for number, inputs in (6, (7, 127, 128, 0, 0)), (7, (7, 128, 128, 1, 0)), (8, (8, 0, 0, 0, 2)):
        yield f'refused by {number}', spread(with_topology(rich(), *inputs))


def choices():
    """No choice moves a row; an edition that is none finds nothing."""
    for secure_avic, edition in (True, 1), (False, 2), (True, 2), (False, 0), (False, 3):
        for leaf, subleaf in (0, None), (1, None), (STATE, 12), (0xB, 1), (0x8000001F, None):
            yield lookup(f'secure AVIC {secure_avic}, edition {edition}', spread(rich()), leaf, subleaf, True, secure_avic, edition)


def first_entries():
    """The first counted entry, whether or not a table is given: of each kept leaf; under any subleaf where the leaf has none; after 1, 2 and 17. """
    for name, data in sets():
        for leaf, subleaf in model.KEPT[False]:
            if leaf != STATE or subleaf in (0, 1, 2, 9, 10, 12, 63):
                yield first_entry(name, data, leaf, subleaf or 0)
    for leaf, subleaf in (1, 9), (1, ALL), (0x8000001F, 4), (7, 1), (7, ALL), (0xB, 2), (STATE, 64), (STATE, ALL), (0x8000001D, 4), (ALL, ALL):
        yield first_entry('a subleaf beyond', pages(other(leaf, subleaf) + FIRST, other(leaf, subleaf) + SECOND), leaf, subleaf)
    for leaf in 0, 2, 0xC, 0xE, 0x40000000, 0x80000000, 0x80000009, 0x80000018, 0x80000020, ALL:
        yield first_entry('a filtered leaf', pages(other(leaf, 0) + FIRST, other(leaf, 0) + SECOND), leaf)
    for name, data in refused():
        for leaf, subleaf in (1, 0), (STATE, 6), (0x8000001E, 0), (0x40000000, 0):
            yield first_entry(name, data, leaf, subleaf)
    for name, data in ('no bytes', b''), ('an empty page', page([])), ('page 0 alone', page(SECOND)), ('page 2', pages([], [], SECOND)):
        yield first_entry(f'leaf Dh, {name}', data, STATE, 0)
    yield first_entry('one entry', page(other(1, 0)), 1)
    yield first_entry('one entry, not counted', page(other(1, 0), 0), 1)
    data = with_byte(pages(FIRST, SECOND + other(0x40000000, 0)), 1, len(SECOND), 40, 1)
    yield first_entry('17 for a leaf that no table keeps', data, 1)
    yield first_entry('1 before 17', data + b'\0', 1)
    yield first_entry('2 before 17', data + page([], 65), 1)
    yield first_entry('as many pages as the program holds', pages(*[FILTERED] * 15, other(5, 0)), 5)


def after_import():
    """ "After import .. the origin is that of the pages last read": a list's rows in its order, leaf Dh on page 1. """
    for name, data in ('EPYC', MILAN), ('the others on page 15', pages([], SECOND, *[[]] * 13, FIRST)):
        answer = model.build(data, False)
        _, again = read_list(kvm_list(answer), bytes(8192))
        for leaf, subleaf in answer[1]:
            yield lookup(f'{name}, exported and read', again, leaf, subleaf)
            yield first_entry(f'{name}, exported and read', again, leaf, subleaf or 0)


GROUPS = (every_row, two_entries, state_entries, made_here, absent_rows, choices, first_entries, after_import)
