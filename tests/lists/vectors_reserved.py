"""The vectors of document 02, P10: the reserved bytes of an entry, refusal 17.

Quotations in a group's comment are document 02's.
"""

from pagesets import MILAN, PAGE_SIZE, STATE, minimal, page, pages, rich, split, spread, with_byte, without
from vector import build, lookup, write

RESERVED = range(40, 48)
FIRST, SECOND = split(rich())
FILTERED = [(0x40000000 + number, 0, 1, 2, 3, 4) for number in range(64)]


def reserved_bytes():
    """ "the eight reserved bytes", each alone, and the bytes beside them; "XCR0_IN and XSS_IN remain unread". """
    data = spread(rich())
    for offset in RESERVED:
        for value in 1, 0x80:
            yield build(f'byte {offset} is {value:X}h', with_byte(data, 0, 0, offset, value))
    for offset in 0, 4, 8, 15, 16, 23, 24, 39, 48:
        yield build(f'byte {offset} is 55h', with_byte(data, 0, 0, offset, 0x55))
    brand = next(position for position, entry in enumerate(FIRST) if entry[0] == 0x80000002)
    yield lookup('the byte before the reserved ones', with_byte(data, 0, brand, 39, 0x55), 0x80000002)
    yield build('the byte after the last entry', with_byte(data, 1, len(SECOND) - 1, 48, 0x55))


def reserved_entries():
    """ "in an entry below its page's count": kept, filtered or skipped; "Bytes after the count and unused entries aren't tested". """
    full = (FIRST + FILTERED)[:64]
    for count in len(FIRST), len(FIRST) + 1, 63, 64:
        data = page(full, count) + page(SECOND)
        yield build(f'count {count}, the last entry', with_byte(data, 0, count - 1, 40, 1))
        yield build(f'count {count}, the one after it', with_byte(data, 0, count, 40, 1))
    for offset in 4, 11, 15:
        yield build(f'byte {offset} of the page, after the count', with_byte(spread(rich()), 1, 0, offset - 16, 1))
    yield build('the last byte of the page', with_byte(spread(rich()), 1, 0, PAGE_SIZE - 17, 1))
    yield build('an empty page', with_byte(spread(rich()) + page([]), 2, 0, 40, 1))
    sets = {
        'a filtered leaf': (0, [[(0x40000000, 7, 1, 2, 3, 4)] + FIRST, SECOND]),
        'a filtered subleaf': (0, [[(7, 1, 1, 2, 3, 4)] + FIRST, SECOND]),
        'leaf FFFFFFFFh': (0, [[(0xFFFFFFFF, 0xFFFFFFFF, 1, 2, 3, 4)] + FIRST, SECOND]),
        'leaf Dh on page 0': (0, [[(STATE, 0, 1, 2, 3, 4)] + FIRST, SECOND]),
        'leaf Dh on page 1': (1, [FIRST, SECOND]),
        'leaf Dh on page 2': (2, [FIRST, SECOND, [(STATE, 5, 1, 2, 3, 4)]]),
        'a second entry of leaf 1, on page 15': (15, [FIRST, SECOND, *[[]] * 13, [(1, 0, 1, 2, 3, 4)]]),
    }
    for name, (number, groups) in sets.items():
        yield build(name, pages(*groups))
        yield build(f'{name}, unclean', with_byte(pages(*groups), number, 0, 47, 0x10))


def reserved_order():
    """ "first in page and entry order, after 2 and before 3", and every write and lookup gives it. """
    data = pages(FIRST, SECOND + FILTERED[:2])
    places = [(0, 1), (0, len(FIRST) - 1), (1, 0), (1, len(SECOND)), (1, len(SECOND) + 1)]
    for one, other in zip(places, places[1:]):
        yield build(f'entries {one} and {other}', with_byte(with_byte(data, *other, 40, 0xFF), *one, 47, 1))
    data = with_byte(spread(minimal()), 0, 3, 44, 1)
    yield build('a length of 8,193', data + b'\0')
    for count in 64, 65:
        yield build(f'count {count} on page 2', data + page(FILTERED, count))
    for name, rows in ('leaf 1 missing', without(rich(), 1)), ('D.2 missing', without(rich(), STATE, 2)), ('no leaf', {}):
        clean = spread(rows) + page(FILTERED[:1])
        yield build(name, clean)
        yield build(f'{name}, unclean', with_byte(clean, 2, 0, 40, 1))
    data = with_byte(MILAN, 1, 0, 40, 1)
    for room in 0, 732 - 1, 732, 732 + 1:
        yield write('EPYC, unclean', data, room)
    yield write('EPYC, unclean, secure AVIC', data, 732, secure_avic=True)
    yield lookup('EPYC, unclean', data, 1)


GROUPS = (reserved_bytes, reserved_entries, reserved_order)
