"""Makes rust/tests/kvm.txt: lists for KVM written and read, each with the answer of model_kvm.py and a digest of the lent bytes afterwards.

A line is one of
    write CHOICE EDITION EDITS ROOM ANSWER DIGEST     secure AVIC, 0 or 1; the edits make the pages of tests/data/epyc-milan.pages
    read PARTS ROOM ANSWER DIGEST                     PARTS of the list with + between them: bytes, or bytes*HOW-OFTEN, or - for none
ROOM is how many bytes are lent, each A5h before. ANSWER is 0 and how many bytes were written, or a refusal's number, leaf, subleaf (- is none) and
s, with colons between. Bytes, leaves and digests are hexadecimal; a digest is FNV-1a of 64 bits over all lent bytes.
"""
import struct
import sys

from make_comparisons import richer, set_to
import model
from model_kvm import PAIR_SIZE, kvm_list, read_list, write_list
from pagesets import MILAN, with_byte
import replayed
from replayed import edits

LENT = b'\xA5'
STATE = model.STATE


def digest(data):
    number = 0xCBF29CE484222325
    for byte in data:
        number = (number ^ byte) * 0x100000001B3 % 2 ** 64
    return f'{number:016x}'


def told(answer):
    if answer[0] == 'refusal':
        _, number, leaf, subleaf, s = answer
        return f'{number}:{leaf:x}:{"-" if subleaf is None else subleaf}:{s}'
    return f'0:{answer[1]}'


# Writing: (pages, secure AVIC, edition, room)

def writes():
    every = set_to(1, 0, model.ECX, 0xFFFFFFFF, set_to(0x80000001, 0, model.ECX, 0xFFFFFFFF))
    accepted = [MILAN, richer(), set_to(STATE, 0, model.EAX, 3), set_to(0x8000001F, 0, model.EAX, 0xFFFFFFFF)]
    refused = [b'', MILAN[:4095], MILAN[:4096], struct.pack('<I', 65) + MILAN[4:], set_to(0x80000008, 0, model.EBX, 0),
               set_to(STATE, 2, model.EAX, 0xFFFFFFFF), set_to(0x80000008, 0, model.ECX, 0), set_to(1, 0, model.EDX, 0),
               set_to(0x80000008, 0, model.ECX, 0x1001), set_to(0x8000001E, 0, model.EBX, 0xFF00), with_byte(MILAN, 0, 0, 40, 1),
               with_byte(MILAN, 1, 1, 47, 0x80)]
    for choice in False, True:
        for pages in accepted:
            size = len(kvm_list(model.build(pages, choice)))
            yield from ((pages, choice, 1, room) for room in (0, 1, 7, 8, 47, size - 1, size, size + 1, size + 40, 4096))
        yield from ((pages, choice, 1, room) for pages in refused for room in (0, 2000))
        # edition 2, with the three bits and without AVX state or with it; editions that are none, before building's refusals
        for xfem in 0, 3, 7:
            yield from ((set_to(STATE, 0, model.EAX, xfem, every), choice, edition, room) for edition in (1, 2) for room in (0, 2000))
        yield from ((pages, choice, 2, room) for pages in accepted + refused for room in (0, 2000))
        yield from ((pages, choice, edition, room)
                    for pages in [MILAN, *refused] for edition in (0, model.NO_EDITION, 257, 0xFFFFFFFF) for room in (0, 2000))


# Reading: (the list's parts, room)

def row(function, index=0, flags=0, *rest):
    return struct.pack('<10I', function, index, flags, *rest, *[0] * (7 - len(rest)))


def listed(*parts, count=None, zero=0):
    """A list of (bytes, how often); the count is that of the rows."""
    rows = sum(len(data) * often for data, often in parts) // 40
    return [(struct.pack('<II', rows if count is None else count, zero), 1), *parts]


def reads():
    other, state = row(5, 9, 0, 1, 2, 3, 4), row(STATE, 1, 1, 5, 6, 7, 8)
    of_milan = write_list(MILAN, False, bytes(2000))[1][8:8 + 40 * 29]
    bad = row(1, 0, 2), row(1, 0, 0x80000000), *(row(1, 0, 1, *[0] * at, 1) for at in (4, 5, 6)), row(STATE, 0, 3)
    lists = [
        # 10
        [], [(b'\0', 7)], listed(count=1), listed((other, 1), count=0), listed((other, 1), count=2), listed((other, 2)) + [(b'\0', 1)],
        listed((other, 2), (other[:39], 1), count=3), listed(count=0xFFFFFFFF), listed(count=0x66666666),
        listed((b'\0', 24), count=0x66666667), listed(count=0xFFFFFFFF, zero=1), listed((bad[0], 1), count=2),
        # 12
        listed(zero=1), listed(zero=0x80000000), listed((other, 1), zero=1),
        *(listed((other, 1), (data, 1), (state, 1)) for data in bad), listed((other, 65), (bad[1], 1)), listed((state, 65), zero=1),
        # 11, and 64 for each page
        listed((other, 65)), listed((state, 65)), listed((other, 64), (state, 65)), listed((state, 64), (other, 65)),
        listed((other, 64), (state, 64)), listed((state + other, 64)), listed((other, 64)), listed((state, 64)),
        # read
        listed(), listed((other, 1)), listed((state, 1)), listed((state, 1), (other, 2), (state, 1)), listed((of_milan, 1)),
        listed((row(0xFFFFFFFF, 0xFFFFFFFF, 1, *[0xFFFFFFFF] * 4), 1), (row(0x10D), 1), (row(STATE, 0xFFFFFFFF, 0, *[0xFFFFFFFF] * 4), 1)),
        listed((row(0), 1), (row(0x80000000), 1), (row(0x40000000), 1), (row(7, 1, 0, 9), 1), (row(7, 0, 1, 8), 1), (row(7, 0, 0, 7), 1)),
    ]
    for parts in lists:
        yield from ((parts, room) for room in (0, 1, PAIR_SIZE - 1, PAIR_SIZE, PAIR_SIZE + 1, PAIR_SIZE + 4096))


def spelled(parts):
    words = [data.hex() + (f'*{often}' if often > 1 else '') for data, often in parts]
    return '+'.join(words) or '-'


def lines():
    for pages, choice, edition, room in writes():
        answer, after = write_list(pages, choice, LENT * room, edition)
        yield answer, f'write {int(choice)} {edition} {edits(MILAN, pages)} {room} {told(answer)} {digest(after)}'
    for parts, room in reads():
        answer, after = read_list(b''.join(data * often for data, often in parts), LENT * room)
        yield answer, f'read {spelled(parts)} {room} {told(answer)} {digest(after)}'


def main(words):
    answers, made = zip(*lines())
    kinds = (answer[1] if answer[0] == 'refusal' else answer[0] for answer in answers)
    return replayed.main(words, 'kvm', 'lists for KVM', made, kinds, [*range(1, 13), 15, 17, 'written', 'read'])


if __name__ == '__main__':
    sys.exit(main(sys.argv[1:]))
