"""Makes rust/tests/comparisons.txt: pairs of page sets, each with the answer of model.py to whether a guest of A may move to B.

A line is the secure-AVIC choice (0 or 1), the edition in decimal, the edits that make A and those that make B of tests/data/epyc-milan.pages, and the
answer. Leaves are hexadecimal; a subleaf of - is none. Where the answer names a leaf, PAGE:ENTRY of A's first entry for it and of B's follow, and -
where B has none (document 02, P11).
"""
from itertools import product
import struct
import sys

import model
import model_origins
from pagesets import MILAN, PAGE_ENTRIES, PAGE_SIZE, STATE, with_byte
import replayed
from replayed import edits

FILTERED = 0x40000000
ALL = 0xFFFFFFFF
REGISTERS = [model.EAX, model.EBX, model.ECX, model.EDX]


# One set from another

def word(data, at):
    return struct.unpack_from('<I', data, at)[0]


def put(data, at, number):
    return data[:at] + struct.pack('<I', number) + data[at + 4:]


def places(data=MILAN):
    """Where each entry stands below its page's count."""
    return [start + 16 + 48 * i for start in range(0, len(data), PAGE_SIZE) for i in range(word(data, start))]


def find(leaf, subleaf=0):
    return next(at for at in places() if (word(MILAN, at), word(MILAN, at + 4)) == (leaf, subleaf))


def register(data, at, number, change):
    at += 24 + 4 * number
    return put(data, at, change(word(data, at)) & ALL)


def flipped(at, number, bit):
    return register(MILAN, at, number, lambda old: old ^ 1 << bit)


def set_to(leaf, subleaf, number, value, data=MILAN, field=ALL):
    """The bits of `field` of one register replaced by those of `value`."""
    return register(data, find(leaf, subleaf), number, lambda old: old & ~field | value)


def with_topology(s, nc, lps, mt, t):
    """The five inputs of document 01, "Corners of snp.rs"."""
    data = set_to(0x80000008, 0, model.ECX, s << 12 | nc, field=0xF0FF)
    data = set_to(1, 0, model.EBX, lps << 16, data, 0xFF << 16)
    data = set_to(0x8000001E, 0, model.EBX, t << 8, data, 0xFF << 8)
    return set_to(1, 0, model.EDX, mt << 28, data, 1 << 28)


def appended(data, page, leaf, subleaf, *result):
    """One more entry on a page."""
    count = word(data, page * PAGE_SIZE)
    at = page * PAGE_SIZE + 16 + 48 * count
    entry = struct.pack('<II', leaf, subleaf) + bytes(16) + struct.pack('<4I', *result) + bytes(8)
    return put(data[:at] + entry + data[at + 48:], page * PAGE_SIZE, count + 1)


def richer(data=MILAN):
    """AVX-512 and CET state besides."""
    data = set_to(STATE, 0, model.EAX, 0xE7, data)
    data = set_to(STATE, 1, model.EAX, 0xF, data)
    data = set_to(STATE, 1, model.ECX, 0x1800, data)
    for subleaf, size, start in (5, 64, 832), (6, 512, 896), (7, 1024, 1408), (11, 16, 0), (12, 24, 0):
        if (STATE, subleaf) not in [(word(data, at), word(data, at + 4)) for at in places(data)]:
            data = appended(data, 1, STATE, subleaf, size, start, 0, 0)
    return data


# The pairs: (A, B, secure AVIC), under edition 1 where a group does not name another

def single_bits():
    """In every register of every entry, the lowest bit that is set and the lowest that is not; in the registers whose kind is not one, every bit."""
    every = {(1, model.EDX), (7, model.EBX), (STATE, model.EAX), (STATE, model.ECX), (0x8000001F, model.EAX)}
    for at in places():
        for number in REGISTERS:
            value = word(MILAN, at + 24 + 4 * number)
            lowest = {(value & -value).bit_length() - 1, (~value & value + 1).bit_length() - 1}
            whole = (word(MILAN, at), number) in every and word(MILAN, at + 4) < 2
            for bit in range(32) if whole else sorted(lowest & set(range(32))):
                yield MILAN, flipped(at, number, bit), False
                yield flipped(at, number, bit), MILAN, False


def secure_avic():
    """The bit that the choice adds to 8000001Fh.EAX, and every other, under the choice."""
    at = find(0x8000001F)
    for bit in range(32):
        yield MILAN, flipped(at, model.EAX, bit), True
        yield flipped(at, model.EAX, bit), MILAN, True


def missing():
    """Each entry taken away, from B and from A; each Dh entry on page 0 alone."""
    for at in places():
        yield MILAN, put(MILAN, at, FILTERED), False
        yield put(MILAN, at, FILTERED), MILAN, True
        if word(MILAN, at) == STATE:
            moved = appended(put(MILAN, at, FILTERED), 0, STATE, word(MILAN, at + 4), *struct.unpack_from('<4I', MILAN, at + 24))
            yield MILAN, moved, False


def damaged():
    """Lengths and counts, of A, of B and of both: 1 before 2, A before B."""
    wrong = [MILAN[:length] for length in (0, 1, PAGE_SIZE - 1, len(MILAN) - 1)]
    wrong += [put(MILAN, start, count) for start in (0, PAGE_SIZE) for count in (PAGE_ENTRIES + 1, ALL)]
    wrong += [put(MILAN, 0, PAGE_ENTRIES + 1)[:-1], MILAN + bytes(1)]
    for data in wrong:
        yield MILAN, data, False
        yield data, MILAN, False
    yield wrong[0], wrong[-3], False
    yield wrong[-3], wrong[0], True
    for data in MILAN[:PAGE_SIZE], MILAN + bytes(PAGE_SIZE), put(MILAN, 0, 0), put(MILAN, PAGE_SIZE, PAGE_ENTRIES):
        yield MILAN, data, False
        yield data, MILAN, False


def refused():
    """A set that building refuses, by 4 to 8, as A and as B."""
    sizes, one, unit = find(0x80000008), find(1), find(0x8000001E)
    sets = [register(MILAN, sizes, model.EBX, lambda old: old & ~(1 << 3)), set_to(STATE, 2, model.EAX, ALL)]
    sets += [register(MILAN, one, model.EDX, lambda old: old & ~(1 << 28)), register(MILAN, one, model.EBX, lambda old: old ^ 1 << 16)]
    sets += [register(MILAN, unit, model.EBX, lambda old: old | 0xFF00), register(MILAN, sizes, model.ECX, lambda old: old & ~0xF000)]
    for data in sets:
        for choice in False, True:
            yield data, MILAN, choice
            yield MILAN, data, choice


def others():
    """Itself; more state; duplicates, of which the first wins; an entry for another subleaf."""
    more = richer()
    for a in MILAN, more:
        for b in MILAN, more:
            for choice in False, True:
                yield a, b, choice
    for subleaf in 6, 12:
        at = next(at for at in places(more) if (word(more, at), word(more, at + 4)) == (STATE, subleaf))
        yield more, put(more, at, FILTERED), False
        yield MILAN, put(more, at, FILTERED), False
    for leaf, subleaf in (1, 0), (7, 0), (0x8000001D, 3):
        yield MILAN, appended(MILAN, 0, leaf, subleaf, 0, 0, 0, 0), False
        yield appended(MILAN, 0, leaf, subleaf, ALL, ALL, ALL, ALL), MILAN, False
    yield MILAN, put(MILAN, find(1) + 4, 5), False
    yield MILAN, put(MILAN, find(7) + 4, 1), False


def bit_28():
    """ "1.EDX but bit 28", which "is equal": sets that are built with it or without it, alone and beside features that B has and A has not. """
    for s, nc, lps, t in (8, 255, 0, 1), (15, 0, 255, 0), (0, 0, 1, 0):
        for one, other in product((0, 1), repeat=2):
            a, b = (with_topology(s, nc, lps, mt, t) for mt in (one, other))
            poorer = set_to(1, 0, model.EDX, 0, a, 1 << 26)
            for pair in (a, b), (poorer, b), (a, richer(b)), (set_to(7, 0, model.EBX, 0, poorer), richer(b)):
                yield *pair, False
            yield a, b, True


def by_entries():
    """Under edition 2, servers without AVX state: A's F16C, XOP or FMA4, which its table does not show, must be B's all the same."""
    legacy = set_to(STATE, 0, model.EAX, 3)
    every = set_to(1, 0, model.ECX, ALL, set_to(0x80000001, 0, model.ECX, ALL, legacy))
    sets = [legacy, every, *(set_to(leaf, 0, model.ECX, 0, every, 1 << bit) for leaf, bit in ((1, 29), (0x80000001, 11), (0x80000001, 16)))]
    sets += [set_to(STATE, 0, model.EAX, 7, data) for data in sets]
    for a, b in product(sets, repeat=2):
        yield a, b, False, 2


def unknown_editions():
    """Document 02, P7: 15 before all else, whatever A and B are."""
    for edition, choice in product((0, model.NO_EDITION, 257, 258, 1 << 31, ALL), (False, True)):
        sets = MILAN, b'', put(MILAN, 0, PAGE_ENTRIES + 1), set_to(STATE, 2, model.EAX, ALL), with_byte(MILAN, 0, 0, 40, 1)
        for a, b in product(sets, repeat=2):
            yield a, b, choice, edition


def reserved():
    """Document 02, P10: a reserved byte in each entry, and bytes that are not tested; "the pages .. of servers A and B must be clean". """
    where = [(page, position) for page in (0, 1) for position in range(word(MILAN, page * PAGE_SIZE))]
    sets = [with_byte(MILAN, *place, 40 + number % 8, 1 << number % 8) for number, place in enumerate(where)]
    # the first entry above a page's count; XCR0_IN and XSS_IN; bytes after the count
    sets += [with_byte(MILAN, page, word(MILAN, page * PAGE_SIZE), 40, 1) for page in (0, 1)]
    sets += [with_byte(MILAN, 0, 1, offset, 0xFF) for offset in (8, 16, 23)] + [MILAN[:4] + b'\xFF' * 12 + MILAN[16:]]
    # entries that no table has: filtered, second, of leaf Dh on page 0
    for entry in (FILTERED, 7, 1, 2, 3, 4), (ALL, ALL, 1, 2, 3, 4), (1, 0, 1, 2, 3, 4), (STATE, 0, 1, 2, 3, 4):
        sets.append(with_byte(appended(MILAN, 0, *entry), 0, word(MILAN, 0), 47, 0x80))
    # the first of several
    sets += [with_byte(with_byte(MILAN, *where[3], 47, 1), *later, 40, 0xFF) for later in (where[2], where[4], (1, 0), where[-1])]
    for data in sets:
        yield MILAN, data, False
        yield data, MILAN, True


def reserved_order():
    """B's 1 and 2 before its 17, and that before what its entries lack; A's refusal before all of B's."""
    def unclean(data, page=1, position=1):
        return with_byte(data, page, position, 44, 2)
    unlawful = [MILAN[:-1], MILAN + bytes(1), put(MILAN, 0, PAGE_ENTRIES + 1), put(MILAN, PAGE_SIZE, ALL), MILAN + put(bytes(PAGE_SIZE), 0, ALL)]
    lacking = [put(MILAN, find(1), FILTERED), set_to(5, 0, model.EAX, ALL), set_to(STATE, 2, model.EAX, ALL), set_to(0x80000008, 0, model.EBX, 0)]
    for data in [*unlawful, *lacking]:
        for choice in False, True:
            yield MILAN, unclean(data), choice
            yield MILAN, unclean(data, 0, 0), choice
            yield unclean(data), MILAN, choice
            yield data, unclean(MILAN), choice
            yield unclean(MILAN), data, choice
    yield unclean(MILAN), unclean(MILAN, 0, 0), False


# The file

def told(answer):
    kind, *details = answer
    words = [kind.replace(' ', '-').lower()]
    if kind in ('refused A', 'unlawful B'):
        number, leaf, subleaf, s = details
        return [*words, str(number), f'{leaf:x}', '-' if subleaf is None else str(subleaf), str(s)]
    if kind == 'rises':
        return words
    leaf, subleaf, *rest = details
    return [*words, f'{leaf:x}', '-' if subleaf is None else str(subleaf), *('eax ebx ecx edx'.split()[number] for number in rest)]


def entries_named(a, b, answer):
    """Where the first entries stand of a leaf that the answer names."""
    if answer[0] not in ('no entry', 'differs'):
        return []
    _, leaf, subleaf, *_ = answer
    found = [model_origins.first_entry(data, leaf, subleaf or 0)[1] for data in (a, b)]
    return ['-' if place is None else f'{place[0]}:{place[1]}' for place in found]


GROUPS = (single_bits, secure_avic, missing, damaged, refused, others, bit_28, by_entries, unknown_editions, reserved, reserved_order)
# asked again under edition 2
AGAIN = (missing, damaged, refused, others, bit_28, reserved, reserved_order)


def pairs_of(*groups, edition=1):
    """(A, B, secure AVIC, edition) of each pair of these groups, once."""
    return list(dict.fromkeys((*pair, edition)[:4] for group in groups for pair in group()))


def main(words):
    pairs = pairs_of(*GROUPS) + pairs_of(*AGAIN, edition=2)
    answers = [model.compare(*pair) for pair in pairs]
    lines = [' '.join([str(int(choice)), str(edition), edits(MILAN, a), edits(MILAN, b), *told(answer), *entries_named(a, b, answer)])
             for (a, b, choice, edition), answer in zip(pairs, answers)]
    every = 'rises', 'refused A', 'unlawful B 1', 'unlawful B 2', 'unlawful B 17', 'no entry', 'differs'
    kinds = (f'unlawful B {answer[1]}' if answer[0] == 'unlawful B' else answer[0] for answer in answers)
    return replayed.main(words, 'comparisons', 'comparisons', lines, kinds, every)


if __name__ == '__main__':
    sys.exit(main(sys.argv[1:]))
