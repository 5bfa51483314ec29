"""Makes rust/tests/pool.txt: pools of servers, as model_pool.py answers.

A line `s EDITS` makes a page set of the one before, the first of tests/data/epyc-milan.pages; sets are counted from 0. The other lines ask of a pool,
for a secure-AVIC choice, an edition, the numbers of its sets and the lengths that are given for them (= for their own), which follow their letter;
the answer stands after a bar: b                        the row count, the mask, the image's length, and the edits that make it of the one of its
length told before, the first of
                         zeros
l LEAF SUBLEAF ENFORCE   the four registers and where the row came from, `made` or PAGE:ENTRY; or - where nothing is found
w ROOM                   the image's length, and its edits likewise
or r with a refusal's number, leaf, subleaf and s, and of b the server's number too. Numbers of sets, lengths and counts are decimal, choices 0 or 1,
all else is hexadecimal; a list has commas, and - where it is empty; a subleaf of - is none.
"""
from itertools import permutations, product
import random
import sys

from make_comparisons import ALL, FILTERED, appended, find, flipped, places, put, register, richer, set_to, with_topology, word
import model
from model_pool import MOST, lookup_origin, pool
import model_origins
from pagesets import MILAN, PAGE_ENTRIES, PAGE_SIZE, STATE, with_byte
import replayed
from replayed import edits
from vectors_document_01 import Damage

LENGTH = len(MILAN)
RICHER = richer()


def asked(*sets, lengths=None, secure_avic=False, edition=1):
    """A pool: (sets, their lengths or others, the two choices)."""
    return sets, tuple(len(data) for data in sets) if lengths is None else tuple(lengths), secure_avic, edition


def built(*pools):
    for one in pools:
        yield one, ('b',)


def both(a, b, **choices):
    """Two servers in either order."""
    yield from built(asked(a, b, **choices), asked(b, a, **choices))


def entry(data, leaf, subleaf):
    """Where the entry of a leaf and subleaf stands."""
    return next(at for at in places(data) if (word(data, at), word(data, at + 4)) == (leaf, subleaf))


def in_state(data, subleaf, number, value):
    """A register of a Dh entry replaced."""
    return register(data, entry(data, STATE, subleaf), number, lambda old: value)


def without_entry(data, leaf, subleaf):
    """The entry made one of a leaf that no table has."""
    return put(data, entry(data, leaf, subleaf), FILTERED)


def less_state(data, xfem, xss=0x1800):
    return in_state(in_state(data, 0, model.EAX, xfem), 1, model.ECX, xss)


def moved(data=MILAN):
    """The same entries elsewhere: an empty page 0, leaf Dh on page 1, all others on page 2."""
    return bytes(PAGE_SIZE) + data[PAGE_SIZE:2 * PAGE_SIZE] + data[:PAGE_SIZE]


# Sets that building refuses, with the number

def refused():
    yield MILAN[:-1], put(MILAN, PAGE_SIZE, PAGE_ENTRIES + 1), with_byte(MILAN, 1, 2, 47, 1)
    yield without_entry(MILAN, 0x8000001D, 3), without_entry(MILAN, 0x80000007, 0), set_to(0x80000008, 0, model.EBX, 0, field=1 << 3)
    yield without_entry(MILAN, STATE, 12), set_to(STATE, 2, model.EAX, ALL), with_topology(7, 127, 128, 0, 1)
    yield with_topology(5, 127, 128, 1, 1), with_topology(7, 127, 127, 1, 1), with_topology(7, 127, 128, 1, 255)


REFUSED = [data for some in refused() for data in some]


# The groups: (pool, question)

def how_many():
    """18: 0 and 1 set, one and two more than the most, whatever they are; 2 to the most are not too few or too many."""
    for count in range(MOST + 3):
        yield from built(asked(*[MILAN] * count), asked(*[MILAN] * count, secure_avic=True, edition=2))
    for count in 0, 1, 2, MOST - 1, MOST, MOST + 1, 2 * MOST + 8:
        yield from built(asked(*[b''] * count), asked(*[MILAN[:PAGE_SIZE]] * count))


def lengths():
    """18: lengths that sum to less, to more, and to the slice only modulo 2^8, 2^32 or 2^64; each beside a sum that is right."""
    two, three = (MILAN,) * 2, (MILAN,) * 3
    whole = 2 * LENGTH
    wrong = [(LENGTH, LENGTH - 1), (LENGTH - 1, LENGTH), (LENGTH, LENGTH + 1), (LENGTH + 1, LENGTH), (LENGTH, 0), (0, LENGTH), (0, 0), (1, 1)]
    wrong += [(whole,), (LENGTH,), (), (LENGTH, LENGTH, 1), (LENGTH, LENGTH, LENGTH), (whole, LENGTH)]
    for power in 8, 16, 32, 63, 64:
        wrap = 1 << power
        wrong += [(LENGTH, wrap + LENGTH), (wrap + LENGTH, LENGTH), (wrap - 1, whole + 1), (wrap - LENGTH, LENGTH + whole)]
        wrong += [(wrap // 2, wrap // 2 + whole), (wrap // 2, wrap // 2, LENGTH, LENGTH), (wrap // 4,) * 4 + (LENGTH, LENGTH)]
        wrong.append((LENGTH, wrap - 1, LENGTH, 1))
    wrong = [some for some in wrong if all(0 <= length < 1 << 64 for length in some)]
    wrong += [((1 << 64) - 1,) * count for count in (1, 2, MOST, MOST + 1)] + [(LENGTH, LENGTH) + (0,) * (MOST - many) for many in (1, 2)]
    for some in wrong:
        yield from built(asked(*two, lengths=some))
    # the lengths alone say where a set ends; 0 is a set too
    right = [(0, whole), (whole, 0), (PAGE_SIZE, 3 * PAGE_SIZE), (3 * PAGE_SIZE, PAGE_SIZE), (1, whole - 1), (LENGTH, 0, LENGTH), (0, LENGTH, LENGTH)]
    for some in right:
        yield from built(asked(*two, lengths=some))
    for some in (LENGTH, whole), (whole, LENGTH), (LENGTH, LENGTH, LENGTH), (LENGTH, LENGTH, LENGTH, 0), (LENGTH - 1, LENGTH, LENGTH + 1):
        yield from built(asked(*three, lengths=some))


def own_refusals():
    """Every refusal of a server, as the first, the second, the third and the last of the most; the first of two; before 19."""
    unlike = set_to(5, 0, model.EAX, ALL)
    for data in REFUSED:
        yield from both(MILAN, data)
        yield from built(asked(MILAN, MILAN, data), asked(MILAN, unlike, data), asked(data, unlike), asked(unlike, data, edition=2))
        yield from built(asked(*[MILAN] * (MOST - 1), data, secure_avic=True), asked(*[MILAN] * (MOST - 2), data, MILAN))
        yield from built(asked(*[MILAN] * MOST, data))
    for a, b in product(REFUSED, repeat=2):
        yield from built(asked(a, b), asked(MILAN, a, b))


def order():
    """18 before 15, that before every server's own, and that before 19."""
    unlike = set_to(5, 0, model.EAX, ALL)
    for edition in 0, model.NO_EDITION, 257, 1 << 31, ALL:
        some = (MILAN, MILAN), (b'', MILAN), (MILAN, b''), (MILAN, unlike), (REFUSED[0], REFUSED[3]), (MILAN, MILAN, REFUSED[1]), (MILAN,) * MOST
        for sets in some:
            yield from built(asked(*sets, edition=edition), asked(*sets, edition=edition, secure_avic=True))
        for sets in (), (MILAN,), (MILAN,) * (MOST + 1), (REFUSED[1],):
            yield from built(asked(*sets, edition=edition))
        yield from built(asked(MILAN, MILAN, lengths=(LENGTH, LENGTH + 1), edition=edition), asked(MILAN, MILAN, lengths=(1, 1), edition=edition))
    yield from built(asked(REFUSED[1], MILAN, lengths=(LENGTH, LENGTH - 1)), asked(MILAN, unlike, lengths=(LENGTH, LENGTH - 1)))


def single_bits():
    """19 or a table: in every register of every entry, the lowest bit that is set and the lowest that is not; in the registers whose kind is not one,
    every bit."""
    every = {(1, model.EDX), (1, model.EAX), (7, model.EBX), (STATE, model.EAX), (STATE, model.ECX), (0x8000001F, model.EAX)}
    for at in places():
        for number in range(4):
            value = word(MILAN, at + 24 + 4 * number)
            lowest = {(value & -value).bit_length() - 1, (~value & value + 1).bit_length() - 1}
            whole = (word(MILAN, at), number) in every and word(MILAN, at + 4) < 2
            for bit in range(32) if whole else sorted(lowest & set(range(32))):
                yield from both(MILAN, flipped(at, number, bit))


def third_of_three():
    """Where the third differs from the first, from the second, from both; features that one alone has."""
    at, features = find(5), find(7)
    one, other = flipped(at, model.EBX, 3), flipped(at, model.EBX, 4)
    for servers in product((MILAN, one, other), repeat=3):
        yield from built(asked(*servers))
    one, other = flipped(features, model.EBX, 0), flipped(features, model.EBX, 3)
    for servers in product((MILAN, one, other), repeat=3):
        yield from built(asked(*servers))
    for place in range(MOST):
        servers = [MILAN] * MOST
        servers[place] = flipped(at, model.EBX, 3)
        yield from built(asked(*servers))
        servers[place] = one
        yield from built(asked(*servers))


def bit_28():
    """1.EDX but bit 28: sets that are built with it or without it."""
    for s, nc, lps, t in (8, 255, 0, 1), (15, 0, 255, 0), (0, 0, 1, 0):
        sets = [with_topology(s, nc, lps, mt, t) for mt in (0, 1)]
        sets += [set_to(1, 0, model.EDX, 0, data, 1 << 26) for data in sets]
        for a, b in product(sets, repeat=2):
            yield from built(asked(a, b), asked(a, b, a), asked(b, b, a))


def free():
    """D.0.ECX, all of B.0 and B.1; bits that no table keeps; bits 0 and 1 of D.0.EAX; an entry for B.0 that is a second one."""
    sets = [set_to(STATE, 0, model.ECX, value) for value in (0, 1, ALL)] + [set_to(STATE, 0, model.EAX, value) for value in (4, 5, 6, 7, ALL & ~0xE0)]
    sets += [set_to(0xB, subleaf, number, ALL) for subleaf in (0, 1) for number in range(4)]
    sets += [set_to(0x80000019, 0, model.ECX, ALL), set_to(1, 0, model.EAX, 0xF000C000, field=0xF000C000), set_to(0x8000000A, 0, model.EDX, 0)]
    sets += [set_to(STATE, 0, model.EDX, 5), set_to(STATE, 1, model.EDX, 5), put(MILAN, find(1) + 4, 77), moved(), MILAN + bytes(PAGE_SIZE)]
    sets += [appended(MILAN, 0, leaf, 0, ALL, ALL, ALL, ALL) for leaf in (1, 5, 0x80000008, FILTERED)]
    sets += [set_to(STATE, 0, model.EBX, 0), set_to(STATE, 1, model.EBX, 0)]
    for data in sets:
        yield from both(MILAN, data)
        yield from built(asked(data, data), asked(MILAN, data, moved()))


def subleaves():
    """A subleaf of leaf Dh that only some have, as an entry or as a row; sizes that differ, where all tables have the row and where not."""
    states = [less_state(RICHER, xfem, xss) for xfem in (3, 7, 0x27, 0x67, 0xE3, 0xE7) for xss in (0, 0x800, 0x1000, 0x1800)]
    for a, b in product(states, (RICHER, MILAN, states[5], states[-2])):
        yield from built(asked(a, b), asked(b, a, RICHER))
    for subleaf, number in product((2, 5, 7, 11, 12), range(4)):
        other = in_state(RICHER, subleaf, number, 77)
        yield from both(RICHER, other)
        for third in states[:2] + [MILAN, RICHER]:
            for servers in permutations((RICHER, other, third)):
                yield from built(asked(*servers))
    # entries that no row is made of: absent, or with other figures
    idle = appended(MILAN, 1, STATE, 9, 8, 2432, 0, 0)
    for data in idle, appended(MILAN, 1, STATE, 9, 9, 9, 9, 9), appended(MILAN, 1, STATE, 63, ALL, ALL, ALL, ALL), without_entry(RICHER, STATE, 9):
        yield from both(idle, data)
    for subleaf in 5, 6, 7:
        yield from both(MILAN, without_entry(less_state(RICHER, 7), STATE, subleaf))
        yield from built(asked(without_entry(less_state(RICHER, 7), STATE, subleaf), RICHER, in_state(RICHER, subleaf, model.EAX, 1)))


def hanging():
    """Features that hang on others, each server with one of the two: XSAVEC and XSAVES; IBPB and IBRS; TSC_AUX, RDTSCP and RDPID; AVX-512 and its
    state; both editions of the AVX rule."""
    sets = [set_to(STATE, 1, model.EAX, value, RICHER) for value in (0, 2, 8, 0xA, 9, 3)]
    sets += [set_to(0x80000008, 0, model.EBX, value, RICHER, 0xD000) for value in (0, 0x1000, 0x4000, 0x8000, 0xC000, 0xD000)]
    more = set_to(7, 0, model.EBX, ALL, set_to(7, 0, model.ECX, ALL, set_to(7, 0, model.EDX, ALL, RICHER)))
    more = set_to(0x80000001, 0, model.EDX, ALL, set_to(0x80000001, 0, model.ECX, ALL, set_to(0x8000001F, 0, model.EAX, ALL, more)))
    for data in sets:
        yield from built(*(asked(data, other) for other in sets))
    others = [more, set_to(0x8000001F, 0, model.EAX, 0, more, 1 << 9), set_to(0x80000001, 0, model.EDX, 0, more, 1 << 27)]
    others += [less_state(more, xfem) for xfem in (3, 7, 0x67, 0xE3)] + [set_to(1, 0, model.ECX, 0, more, 1 << 29)]
    others += [set_to(0x8000001F, 0, model.EAX, 0, more, 1 << 26), less_state(more, 0xE7, 0x800)]
    for a, b in product(others, repeat=2):
        for choice, edition in product((False, True), (1, 2)):
            yield from built(asked(a, b, secure_avic=choice, edition=edition))


def orders():
    """The order of servers, whose entries stand elsewhere: the first says where a row came from."""
    layouts = MILAN, moved(), moved(flipped(find(7), model.EBX, 0)), flipped(find(1), model.ECX, 12), appended(MILAN, 1, 1, 0, 0, 0, 0, 0)
    rows = (1, None), (7, 0), (STATE, 0), (STATE, 2), (STATE, 11), (0x8000001F, None), (0, None), (0xB, 1)
    for servers in permutations(layouts, 3):
        yield from built(asked(*servers))
    for servers in permutations(layouts, 2):
        for leaf, subleaf in rows:
            yield asked(*servers), ('l', leaf, subleaf, True)


def lookups():
    """Every row and what is none, enforced or not; in refused pools nothing is found."""
    two = asked(RICHER, less_state(RICHER, 7, 0x800), secure_avic=True)
    for leaf in 0, 1, 2, 5, 7, 0xB, STATE, 0x10, 0x80000000, 0x80000001, 0x80000008, 0x8000001D, 0x8000001E, 0x8000001F, FILTERED, ALL:
        for subleaf in None, 0, 1, 2, 3, 5, 11, 12, 63, 64, 256, ALL:
            for enforce in False, True:
                yield two, ('l', leaf, subleaf, enforce)
    unlike = set_to(5, 0, model.EAX, ALL)
    without_a_table = [asked(), asked(MILAN), asked(MILAN, MILAN, lengths=(1, 1)), asked(MILAN, MILAN, edition=model.NO_EDITION)]
    for one in [*without_a_table, asked(MILAN, REFUSED[3]), asked(MILAN, unlike)]:
        for leaf, subleaf in (0, None), (1, None), (1, 0), (STATE, 2), (0xB, 0):
            yield one, ('l', leaf, subleaf, False)


def writes():
    """Buffers of length 0, one short, exact and longer, after every refusal; 9 last."""
    unlike = set_to(5, 0, model.EAX, ALL)
    for one in asked(MILAN, MILAN), asked(RICHER, less_state(RICHER, 3, 0)), asked(*[RICHER] * MOST, secure_avic=True, edition=2):
        length = len(model.image(pool(b''.join(one[0]), *one[1:])[0]))
        for room in 0, 1, 20, 21, 22, length - 1, length, length + 1, 732, 1000:
            yield one, ('w', room)
    wrong = [asked(), asked(MILAN), asked(*[MILAN] * (MOST + 1)), asked(MILAN, MILAN, lengths=(LENGTH, LENGTH + 1))]
    wrong += [asked(MILAN, MILAN, edition=model.NO_EDITION)]
    wrong += [asked(MILAN, data) for data in REFUSED] + [asked(MILAN, unlike), asked(REFUSED[0], unlike), asked(MILAN, b'')]
    for one in wrong:
        for room in 0, 10, 1000:
            yield one, ('w', room)


def at_random():
    """Servers with some damage, in pools of 2 to the most."""
    damage, draw = Damage(41), random.Random(42)
    good = MILAN, RICHER
    for number in range(160):
        base = good[number % 2]
        count = draw.choice((2, 2, 3, 4, MOST))
        servers = [damage.damage(base) if draw.random() < .4 else base for _ in range(count)]
        yield from built(asked(*servers, secure_avic=draw.random() < .5, edition=draw.choice((1, 2))))
    registers = [(key, number) for key, numbers in model.FEATURES.items() for number in numbers]
    for number in range(160):
        servers = [good[number % 2]] * draw.choice((2, 3, 5))
        for place, data in enumerate(servers):
            for (leaf, subleaf), at in draw.sample(registers, 4):
                data = register(data, entry(data, leaf, subleaf or 0), at, lambda old: old & (draw.getrandbits(32) | 1 << 28 | 1 << 3 | 0b11))
            servers[place] = data
        yield from built(asked(*servers, secure_avic=draw.random() < .5, edition=draw.choice((1, 2))))


GROUPS = (how_many, lengths, own_refusals, order, single_bits, third_of_three, bit_28, free, subleaves, hanging, orders, lookups, writes, at_random)


# The file

def questions():
    """Each once."""
    return dict.fromkeys(one for group in GROUPS for one in group())


def hexadecimal(subleaf):
    return '-' if subleaf is None else f'{subleaf:x}'


def listed(numbers):
    return ','.join(map(str, numbers)) or '-'


def came_from(origin):
    return 'made' if origin == model_origins.MADE_HERE else f'{origin[0]:x}:{origin[1]:x}'


class Pages(dict):
    """The sets by their numbers, and the lines that make them."""

    def __init__(self):
        super().__init__()
        self.last, self.lines = MILAN, []

    def __missing__(self, data):
        self.lines.append(f's {edits(self.last, data)}')
        self.last = data
        self[data] = len(self)
        return self[data]


class Answers:
    """What the model answers; images are told by how they differ from the one of their length told before."""

    def __init__(self):
        self.images, self.pools = {}, {}

    def pool(self, one):
        if one not in self.pools:
            sets, given, secure_avic, edition = one
            self.pools[one] = pool(b''.join(sets), given, secure_avic, edition)
        return self.pools[one]

    def told(self, one, letter, *rest):
        """(kind, words)."""
        answer, server = self.pool(one)
        if letter == 'l':
            found, data = model.lookup(answer, *rest), b''.join(one[0])
            if found is None:
                return 'nothing', ['-']
            return 'found', [*(f'{number:x}' for number in found), came_from(lookup_origin(data, one[1], answer, *rest))]
        if letter == 'w':
            answer, after = model.write_answer(answer, bytes(rest[0])) if answer[0] == 'table' else (answer, b'')
        if answer[0] == 'refusal':
            _, number, leaf, subleaf, s = answer
            return number, ['r', str(number), f'{leaf:x}', hexadecimal(subleaf), str(s), *([str(server)] if letter == 'b' else [])]
        if letter == 'w':
            return 'written', self.changes(after[:answer[1]])
        return 'table', [str(len(answer[1])), f'{answer[2]:x}', *self.changes(model.image(answer))]

    def changes(self, image):
        old, self.images[len(image)] = self.images.get(len(image), bytes(len(image))), image
        return [str(len(image)), edits(old, image)]


def lines():
    """(the kind of the answer, or None where nothing is asked, the line)."""
    pages, answers = Pages(), Answers()
    for one, question in questions():
        sets, given, secure_avic, edition = one
        numbers = [pages[data] for data in sets]
        yield from ((None, line) for line in pages.lines)
        pages.lines.clear()
        own = given == tuple(len(data) for data in sets)
        letter, *rest = question
        words = [letter, str(int(secure_avic)), f'{edition:x}', listed(numbers), '=' if own else listed(given)]
        words += [f'{rest[0]:x}', hexadecimal(rest[1]), str(int(rest[2]))] if letter == 'l' else map(str, rest)
        kind, told = answers.told(one, *question)
        yield kind, ' '.join([*words, '|', *told])


def main(words):
    kinds, made = zip(*lines())
    kinds = [kind for kind in kinds if kind is not None]
    every = [1, 2, 3, 4, 5, 6, 7, 8, 9, 15, 17, 18, 19, 'table', 'found', 'nothing', 'written']
    return replayed.main(words, 'pool', 'answers of pools', made, kinds, every)


if __name__ == '__main__':
    sys.exit(main(sys.argv[1:]))
