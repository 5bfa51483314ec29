"""Makes rust/tests/guest.txt: what the guests of some processors see of some page sets, as model_guest.py answers.

A line `p EDITS` makes a page set of the one before, the first of tests/data/epyc-milan.pages. The other lines ask of the set made last, for a
secure-AVIC choice, an edition, an x2APIC number, XCR0, XSS and OSXSAVE, which follow their letter; the answer stands after a bar: b
the row count, the mask, 1.EBX, 1.ECX, B.0.EDX, B.1.EDX, D.0.EBX and D.1.EBX l LEAF SUBLEAF ENFORCE   the four registers and where the row came from,
`made` or PAGE:ENTRY; or - where nothing is found w ROOM                   the image's length and its bytes or r with a refusal's number, leaf,
subleaf and s. Choices are 0 or 1, lengths and counts decimal, all else is hexadecimal; a subleaf of - is none.
"""
import random
import sys

import model
from model_guest import guest
import model_origins
from pagesets import MILAN, STATE, changed, minimal, page, rich, spread, with_byte, with_topology, without
import replayed
from replayed import edits
from vectors_document_01 import Damage

ALL = 0xFFFFFFFF
PLACES = ((1, None, 'ebx'), (1, None, 'ecx'), (0xB, 0, 'edx'), (0xB, 1, 'edx'), (STATE, 0, 'ebx'), (STATE, 1, 'ebx'))


def view(apic=0, xcr0=1, xss=0, osxsave=False, secure_avic=False, edition=1):
    return secure_avic, apic, xcr0, xss, osxsave, edition


# The groups: (pages, question); a question is (letter, view, what else is asked)

def built(data, *views):
    for one in views:
        yield data, ('b', one)


def real_figures():
    """The dump behind the shipped set reports 340h and 350h for XCR0 7 and XSS 800h."""
    yield from built(MILAN, view(0, 7, 0x800, True), view(0, 7, 0x800, True, True))
    yield from built(MILAN, *(view(7, xcr0, xss, True) for xcr0 in (1, 3, 5, 7) for xss in (0, 0x800, 0x1000, 0x1800)))


def numbers():
    for apic in 0, 1, 0x7F, 0xFF, 0x100, 0x12345678, ALL - 1, ALL:
        yield from built(MILAN, view(apic, 7, 0, True))
        yield from built(spread(rich()), view(apic, 1))


def osxsave():
    for ecx in 0, 1 << 26, 1 << 27, 3 << 26, ALL, ALL ^ 1 << 26, ALL ^ 1 << 27:
        yield from built(spread(changed(minimal(), 1, ecx=ecx)), view(), view(osxsave=True))


def beyond():
    """13: bit 0 of XCR0, bits beyond XFEM, bits of XSS beyond the table's, each below and above 32."""
    views = [view(0, xcr0) for xcr0 in (0, 2, 6, 7, 9, 0xE6, 0xE7, 0x201, 0x2E7, 0x801, 1 << 31 | 1, 1 << 32 | 1, 1 << 63 | 1, 2 ** 64 - 1)]
    views += [view(0, 1, xss) for xss in (1, 4, 0x100, 0x800, 0x1000, 0x1800, 0x2000, 1 << 32, 1 << 43, 1 << 63 | 0x800, 2 ** 64 - 1)]
    for rows in minimal(), rich(), changed(rich(), STATE, 1, eax=3), changed(rich(), STATE, 1, eax=8), changed(rich(), STATE, 1, ecx=0x800):
        yield from built(spread(rows), *views)
    yield from built(MILAN, *views)


def sizes():
    """Alignment of the start by the row's own ECX bit 1; order; neither bit of D.1.EAX; empty subleaves."""
    yield from built(spread(rich()), *(view(0, xcr0, xss) for xcr0 in (1, 7, 0x21, 0x41, 0x81, 0xE7) for xss in (0, 0x800, 0x1000, 0x1800)))
    for ecx11 in range(4):
        for ecx12 in 0, 1, 2, 3, ALL, ALL ^ 2:
            rows = changed(changed(rich(), STATE, 11, ecx=ecx11), STATE, 12, ecx=ecx12)
            yield from built(spread(rows), view(0, 1, 0x1800), view(0, 5, 0x1000), view(0, 1, 0x800))
    for eax in range(16):
        yield from built(spread(changed(rich(), STATE, 1, eax=eax)), view(0, 7), view(0, 7, 0x800))
    for eax in 0, 1, 63, 64, 65, 127, 128:
        rows = changed(changed(changed(rich(), STATE, 2, eax=eax, ecx=2), STATE, 5, eax=eax, ecx=2), STATE, 6, ecx=2)
        yield from built(spread(rows), view(0, 0xE7), view(0, 0x67), view(0, 0x47), view(0, 0x27))


def large():
    """14: FFFFFFFFh itself is a size, one more is not; raising an empty subleaf's start counts; 13 comes before."""
    base = changed(changed(rich(), STATE, 2, eax=0, ebx=0), STATE, 12, eax=0)
    for size in ALL - 577, ALL - 576, ALL - 575, ALL:
        for ecx in 0, 1, 2:
            rows = changed(changed(base, STATE, 11, eax=size, ecx=0), STATE, 12, ecx=ecx)
            for eax in 0, 2, 8, 0xA:
                yield from built(spread(changed(rows, STATE, 1, eax=eax)), view(0, 1, 0x800), view(0, 1, 0x1800), view(0, 0, 0x1800), view())
    # every subleaf as large as can be: far above 32 bits, and D.0.EBX still the largest sum
    rows = rich()
    for subleaf in 2, 5, 6, 7, 11, 12:
        rows = changed(rows, STATE, subleaf, eax=ALL, ebx=0, ecx=2)
    for eax in 0, 2, 0xA:
        yield from built(spread(changed(rows, STATE, 1, eax=eax)), view(0, 0xE7), view(0, 0xE7, 0x1800), view(0, 1), view(0, 5))


def building_first():
    """Each of building's refusals, for a processor that 13 would refuse."""
    sets = [b'', MILAN[1:], page([], 65), MILAN[:4096], spread(without(rich(), STATE, 7)), spread(without(rich(), 0x8000001A))]
    sets += [spread(changed(rich(), 0x80000008, ebx=0)), spread(changed(rich(), STATE, 2, eax=ALL)), spread(with_topology(rich(), 7, 127, 128, 0, 0))]
    sets += [spread(with_topology(rich(), 7, 128, 128, 1, 0)), spread(with_topology(minimal(), 0, 0, 1, 1, 1))]
    sets += [with_byte(MILAN, 1, 0, 40, 1), with_byte(MILAN, 0, 0, 47, 0x80), with_byte(spread(without(rich(), 1)), 0, 1, 43, 1)]
    for data in sets:
        yield data, ('b', view(0, 0, ALL))
        yield data, ('l', view(0, 0, ALL), 1, None, False)
        yield data, ('w', view(0, 0, ALL), 732)


def lookups():
    """Every form of a lookup, in rows that differ and in rows that do not."""
    places = [(leaf, subleaf) for leaf in (1, 0xB, STATE) for subleaf in (None, 0, 1, 2, 9)]
    for leaf, subleaf in places + [(7, 0), (0, None), (6, None)]:
        for enforce in False, True:
            yield MILAN, ('l', view(9, 7, 0x800, True), leaf, subleaf, enforce)
            yield MILAN, ('l', view(9, 2, 0x800, True), leaf, subleaf, enforce)


def writes():
    """Buffers of no byte, one short, exact and longer; whole images; 13 and 14 before 9."""
    large_state = spread(changed(changed(rich(), STATE, 2, eax=ALL, ebx=0), STATE, 1, eax=2))
    for data, one in (MILAN, view(9, 7, 0x800, True)), (spread(rich()), view(ALL, 0xE7, 0x1800, True, True)), (spread(minimal()), view(5)):
        length = len(model.image(guest(data, *one)))
        for room in 0, length - 1, length, length + 1, 1000:
            yield data, ('w', one, room)
    for room in 0, 1000:
        yield MILAN, ('w', view(9, 2), room)
        yield large_state, ('w', view(9, 7), room)


def at_random():
    """Page sets with some damage, states that they may have."""
    damage, draw = Damage(11), random.Random(12)
    good = MILAN, spread(rich()), spread(minimal())
    for number in range(150):
        data = damage.damage(good[number % 3])
        for _ in range(3):
            xcr0, xss = draw.choice((1, 3, 7, 0xE7, draw.getrandbits(12) | 1)), draw.choice((0, 0x800, 0x1000, 0x1800, draw.getrandbits(13)))
            yield from built(data, view(draw.getrandbits(32), xcr0, xss, draw.random() < .5, draw.random() < .5))


def editions():
    """Document 02, P7, of the table that a processor's guest sees: without AVX state, and with it in the table alone; 15 before 1, 13, 14 and 9."""
    for xfem, edition in ((xfem, edition) for xfem in (0, 3, 0xE3, 7, 0xE7) for edition in (1, 2)):
        data, one = spread(changed(rich(), STATE, 0, eax=xfem)), view(0xAB, 1, 0x800, True, edition=edition)
        yield from built(data, one, view(0, xfem | 1, 0, edition=edition), view(0, 5, 0, edition=edition))
        for leaf in 1, 0x80000001:
            yield data, ('l', one, leaf, None, True)
        yield data, ('w', one, 732)
    large_state = spread(changed(changed(rich(), STATE, 2, eax=ALL, ebx=0), STATE, 1, eax=2))
    for edition in 0, model.NO_EDITION, 257, 1 << 31, ALL:
        for data in b'', page([], 65), MILAN[:4096], with_byte(MILAN, 0, 0, 40, 1), large_state, MILAN:
            for one in view(0, 7, edition=edition), view(0, 2, edition=edition):
                yield from built(data, one)
                yield data, ('l', one, 1, None, False)
                yield data, ('w', one, 3)


# The file

def hexadecimal(subleaf):
    return '-' if subleaf is None else f'{subleaf:x}'


def asked(question):
    letter, (secure_avic, apic, xcr0, xss, osxsave, edition), *rest = question
    words = [letter, str(int(secure_avic)), f'{edition:x}', f'{apic:x}', f'{xcr0:x}', f'{xss:x}', str(int(osxsave))]
    if letter == 'l':
        leaf, subleaf, enforce = rest
        words += [f'{leaf:x}', hexadecimal(subleaf), str(int(enforce))]
    return words + [str(room) for room in rest] if letter == 'w' else words


def came_from(origin):
    """Document 02, P11: a guest's row has the origin of the paravisor's."""
    return 'made' if origin == model_origins.MADE_HERE else f'{origin[0]:x}:{origin[1]:x}'


def told(data, question):
    letter, one, *rest = question
    answer = guest(data, *one)
    if letter == 'l':
        found, origin = model.lookup(answer, *rest), model_origins.lookup(data, answer, *rest)
        return ['-'] if found is None else [*(f'{number:x}' for number in found), came_from(origin)]
    if letter == 'w' and answer[0] == 'table' and rest[0] < len(model.image(answer)):
        answer = 'refusal', 9, 0, None, 0
    if answer[0] == 'refusal':
        number, leaf, subleaf, s = answer[1:]
        return ['r', str(number), f'{leaf:x}', hexadecimal(subleaf), str(s)]
    if letter == 'w':
        image = model.image(answer)
        return [str(len(image)), image.hex()]
    _, rows, mask = answer
    registers = [rows[leaf, subleaf]['eax ebx ecx edx'.split().index(name)] for leaf, subleaf, name in PLACES]
    return [str(len(rows)), *(f'{number:x}' for number in (mask, *registers))]


def lines():
    groups = real_figures, numbers, osxsave, beyond, sizes, large, building_first, lookups, writes, at_random, editions
    last, seen = MILAN, set()
    for data, question in ((data, question) for group in groups for data, question in group()):
        if (data, question) in seen:
            continue
        seen.add((data, question))
        if data != last:
            yield f'p {edits(last, data)}'
            last = data
        yield ' '.join([*asked(question), '|', *told(data, question)])


def main(words):
    made = [*lines()]
    answers = [line.split(' | ')[1].split() for line in made if not line.startswith('p ')]
    kinds = [answer[1] if answer[0] == 'r' else 'given' for answer in answers]
    return replayed.main(words, 'guest', 'guest answers', made, kinds, [*'1 2 3 4 5 6 7 8 9 13 14 15 17'.split(), 'given'])


if __name__ == '__main__':
    sys.exit(main(sys.argv[1:]))
