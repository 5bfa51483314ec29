"""One vector of crates/vectors: a page set, the command that asks something of it, and the line that the program must answer.

A command is 16 bytes (crates/vectors/src/main.rt): its letter, three choices, and three numbers, of which the last is the edition. The answers are
the model's.
"""
from collections import namedtuple
import struct

import model
import model_origins

COMMAND_SIZE = 16
FILL = 0xA5
NO_SUBLEAF = 0xFFFFFFFF

# summary sums the answer up for the count of answers; line is the whole of it
Vector = namedtuple('Vector', 'name pages command summary line')


def command(kind, a=0, b=0, secure_avic=False, has_subleaf=False, enforce=False, edition=1):
    return struct.pack('<c3?III', kind.encode(), secure_avic, has_subleaf, enforce, a, b, edition)


def word(number):
    return f'{number:016x}'


def refusal_words(answer):
    """Number, leaf, whether a subleaf is named, subleaf and s; all 0 where nothing is refused."""
    if answer[0] != 'refusal':
        return [word(0)] * 5
    _, number, leaf, subleaf, s = answer
    return [word(number), word(leaf), word(subleaf is not None), word(subleaf or 0), word(s)]


def place_words(place):
    """A page and the entry's position on it; zeros where there is none."""
    page, entry = place or (0, 0)
    return [word(page), word(entry)]


def origin_words(origin):
    """Document 02, P11: 0 for no row, 1 made here, 2 an entry, and which."""
    if origin is None or origin == model_origins.MADE_HERE:
        return [word(0 if origin is None else 1), *place_words(None)]
    return [word(2), *place_words(origin)]


def summed(kind, answer):
    return f'{kind} refused by {answer[1]}' if answer[0] == 'refusal' else f'{kind} accepted'


def build(name, data, secure_avic=False, edition=1):
    answer = model.build(data, secure_avic, edition)
    rows, mask = (len(answer[1]), answer[2]) if answer[0] == 'table' else (0, 0)
    words = ['b', *refusal_words(answer), word(rows), word(mask)]
    asked = command('b', secure_avic=secure_avic, edition=edition)
    return Vector(name, data, asked, summed('build', answer), ' '.join(words))


def lookup(name, data, leaf, subleaf=None, enforce=True, secure_avic=False, edition=1):
    row = f'{leaf:X}h' if subleaf is None else f'{leaf:X}h.{subleaf:X}h'
    asked = command('l', leaf, NO_SUBLEAF if subleaf is None else subleaf, secure_avic, subleaf is not None, enforce, edition)
    answer = model.build(data, secure_avic, edition)
    found = model.lookup(answer, leaf, subleaf, enforce)
    origin = model_origins.lookup(data, answer, leaf, subleaf, enforce)
    words = ['l', word(found is not None), *map(word, found or (0, 0, 0, 0)), *origin_words(origin)]
    return Vector(f'{name}, {row}', data, asked, 'lookup found' if found else 'lookup not found', ' '.join(words))


def first_entry(name, data, leaf, subleaf=0):
    answer = model_origins.first_entry(data, leaf, subleaf)
    place = answer[1] if answer[0] == 'found' else None
    words = ['f', *refusal_words(answer), word(place is not None), *place_words(place)]
    summary = summed('first entry', answer) if answer[0] == 'refusal' else f'first entry {"" if place else "not "}found'
    return Vector(f'{name}, {leaf:X}h.{subleaf:X}h', data, command('f', leaf, subleaf), summary, ' '.join(words))


def write(name, data, room, secure_avic=False, edition=1):
    answer, lent = model.write(data, secure_avic, bytes([FILL]) * room, edition)
    length = answer[1] if answer[0] == 'written' else 0
    words = ['w', *refusal_words(answer), word(length), lent.hex()]
    asked = command('w', room, secure_avic=secure_avic, edition=edition)
    return Vector(f'{name}, {room} bytes lent', data, asked, summed('write', answer), ' '.join(words))
