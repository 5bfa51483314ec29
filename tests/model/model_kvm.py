"""A model of document 02, P2: an accepted table as struct kvm_cpuid2, and such a list read into two pages.

Quotations in the comments are document 02's; answers have model.py's form.
"""
import struct

import model

HEAD_SIZE = 8
ROW_SIZE = 40
PAIR_SIZE = 2 * model.PAGE_SIZE


def kvm_list(answer):
    """ "a count and a zero word, then 40 bytes a row (function, index, flags, EAX, EBX, ECX, EDX, three zero words), flag 1 where the row has a
    subleaf, else flag and index 0; rows stand in P1's order" """
    rows = answer[1]
    data = struct.pack('<II', len(rows), 0)
    for leaf, subleaf in sorted(rows, key=model.by_leaf):
        index, flags = (0, 0) if subleaf is None else (subleaf, 1)
        data += struct.pack('<3I4I3I', leaf, index, flags, *rows[leaf, subleaf], 0, 0, 0)
    return data


def write_list(pages, secure_avic, buffer, edition=1):
    """(('written', length) or the refusal, the lent bytes afterwards). It "after building's refusals gives 9 for a short buffer"."""
    answer = model.build(pages, secure_avic, edition)
    if answer[0] == 'refusal':
        return answer, bytes(buffer)
    data = kvm_list(answer)
    if len(buffer) < len(data):
        return model.Refusal(9).answer, bytes(buffer)
    return ('written', len(data)), data + bytes(buffer[len(data):])


def list_rows(data):
    """(function, index, results) of each row, in list order. Refusals 10, "then 12", of the list alone."""
    # 10 "length under 8 or not 8 + 40 × count"
    if len(data) < HEAD_SIZE:
        raise model.Refusal(10)
    count, zero = struct.unpack_from('<II', data)
    if len(data) != HEAD_SIZE + ROW_SIZE * count:
        raise model.Refusal(10)
    rows = list(struct.iter_unpack('<10I', data[HEAD_SIZE:]))
    # "12 a flag other than 0 or 1 or a nonzero padding word, the head's zero word included"
    if zero != 0 or any(row[2] > 1 or any(row[7:]) for row in rows):
        raise model.Refusal(12)
    return [(function, index, results) for function, index, _, *results, _, _, _ in rows]


def one_page(rows):
    """ "function as EAX_IN and index as ECX_IN under either flag, each count its page's rows, all other bytes 0" """
    data = struct.pack('<I12x', len(rows))
    for function, index, results in rows:
        data += struct.pack('<II16x4I8x', function, index, *results)
    return data.ljust(model.PAGE_SIZE, b'\0')


def read_list(data, buffer):
    """(('read', 8192) or the refusal, the lent bytes afterwards). "Lent bytes beyond .. the two pages stay." """
    try:
        rows = list_rows(data)
        # "leaf Dh rows on page 1 and all others on page 0, in list order"
        groups = [row for row in rows if row[0] != model.STATE], [row for row in rows if row[0] == model.STATE]
        # "then 11 more than 64 rows for one page, then 9 fewer than 8,192 lent bytes"
        if any(len(group) > model.PAGE_ENTRIES for group in groups):
            raise model.Refusal(11)
        if len(buffer) < PAIR_SIZE:
            raise model.Refusal(9)
    except model.Refusal as refusal:
        return refusal.answer, bytes(buffer)
    return ('read', PAIR_SIZE), b''.join(map(one_page, groups)) + bytes(buffer[PAIR_SIZE:])
