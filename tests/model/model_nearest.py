"""A model of document 02, P13: the nearest bit that matters, by building again for every flip.

Quotations in the comments are document 02's. An answer is ('bit', page, entry, register, bit), or a refusal in model.py's form.
"""
import model


def flips(pages):
    """ "single flips of result bits in entries below their counts, ordered by page, entry, register (EAX, EBX, ECX, EDX) and bit from 0": the answer
    that names each, and its byte and mask in the pages. Results stand from 24 on, little-endian."""
    entry = {}
    for page, at in model.entry_places(pages):
        position = entry[page] = entry.get(page, -1) + 1
        for register in range(4):
            for bit in range(32):
                yield ('bit', page, position, register, bit), at + 24 + 4 * register + bit // 8, 1 << bit % 8


def told(answer):
    """ "the table, the refusal or its details; origins don't count" """
    return answer if answer[0] == 'refusal' else answer[:3]


def nearest(pages, secure_avic, edition=1):
    """ "the first that changes the table, the refusal or its details". "Answers: 20 no flip changes anything, after 15; pages refused by 1, 2 or 17
    give that number." """
    before = told(model.build(pages, secure_avic, edition))
    if before[0] == 'refusal' and before[1] in (15, 1, 2, 17):
        return before
    # "The pages are not written."
    flipped = bytearray(pages)
    for flip, at, mask in flips(pages):
        flipped[at] ^= mask
        if told(model.build(flipped, secure_avic, edition)) != before:
            return flip
        flipped[at] ^= mask
    return 'refusal', 20, 0, None, 0
