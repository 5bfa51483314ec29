"""A model of document 02, P14: "all accepted inputs (s, nc, lps, mt, t) with s from 0 to 7, ordered by s, nc, lps, mt, t in turn, five bytes each".

An input is accepted where document 01's topology (model.py) refuses it by none of 6, 7 and 8. nc, lps and t are fields of eight bits, mt is one bit.
"""
from functools import cache
from itertools import product

import model

SIZES = range(8)
BYTE = range(256)
BIT = range(2)


def accepted(s, nc, lps, mt, t):
    try:
        model.topology(s, nc, lps, mt, t)
    except model.Refusal:
        return False
    return True


def any_thread(s, nc, lps, mt):
    """Whether 6 and 7, which do not ask for t, let these through: else no t need be tried."""
    try:
        model.processors(s, nc, lps, mt)
    except model.Refusal:
        return False
    return True


@cache
def topologies():
    """The list, every input tried in its order."""
    heads = (head for head in product(SIZES, BYTE, BYTE, BIT) if any_thread(*head))
    return [(*head, t) for head in heads for t in BYTE if accepted(*head, t)]


def list_bytes():
    return b''.join(map(bytes, topologies()))


def write(buffer):
    """(('written', length) or the refusal, the lent bytes afterwards). "Bytes beyond the list stay. Answers: 9 fewer than 5,095 lent bytes, which
    then stay untouched." """
    data = list_bytes()
    if len(buffer) < len(data):
        return model.Refusal(9).answer, bytes(buffer)
    return ('written', len(data)), data + bytes(buffer[len(data):])
