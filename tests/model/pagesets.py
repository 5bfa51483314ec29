"""Makes CPUID page sets (document 01, "Page bytes"), from single entries up to whole sets.

An entry is (EAX_IN, ECX_IN, EAX, EBX, ECX, EDX). Rows are {(leaf, subleaf or None): (EAX, EBX, ECX, EDX)}, the form
that a table has in model.py; a row without subleaf is written with ECX_IN 0.
"""
from pathlib import Path
import struct

from model_masks import COMMON_REQUIRED_LEAVES, SNP_REQUIRED_LEAVES

PAGE_SIZE = 4096
PAGE_ENTRIES = 64
REGISTERS = ('eax', 'ebx', 'ecx', 'edx')
STATE = 0xD
# the shipped page set
MILAN = Path(__file__).resolve().parents[1].joinpath('data', 'epyc-milan.pages').read_bytes()


def page(entries, count=None, fill=0):
    """One page; `count` stands in for the number of entries, `fill` is the byte at every place that is not read. The reserved bytes of an entry are
    read below the count alone (document 02, P10), and are zeros there."""
    count = len(entries) if count is None else count
    unread = bytes([fill])
    data = struct.pack('<I', count) + unread * 12
    for position, (leaf, ecx_in, *result) in enumerate(entries):
        data += struct.pack('<II', leaf, ecx_in) + unread * 16 + struct.pack('<4I', *result)
        data += bytes(8) if position < count else unread * 8
    return data + unread * (PAGE_SIZE - len(data))


def with_byte(data, number, position, offset, value):
    """The pages with one byte changed: that at `offset` from the entry at `position` of page `number`, and its reserved bytes stand at 40 to 47."""
    at = PAGE_SIZE * number + 16 + 48 * position + offset
    return data[:at] + bytes([value]) + data[at + 1:]


def pages(*groups, fill=0):
    """A page for each list of entries."""
    return b''.join(page(group, fill=fill) for group in groups)


def entries(rows):
    return [(leaf, subleaf or 0, *result) for (leaf, subleaf), result in rows.items()]


def split(rows):
    """The entries of page 0 and of page 1, where alone leaf Dh counts."""
    found = entries(rows)
    return [e for e in found if e[0] != STATE], [e for e in found if e[0] == STATE]


def spread(rows, fill=0):
    """Two pages with these rows."""
    return pages(*split(rows), fill=fill)


def changed(rows, leaf, subleaf=None, **registers):
    """The rows with some registers of one row replaced; a new row starts from zeros."""
    old = dict(zip(REGISTERS, rows.get((leaf, subleaf), (0, 0, 0, 0))))
    return {**rows, (leaf, subleaf): tuple({**old, **registers}.values())}


def without(rows, leaf, subleaf=None):
    return {key: result for key, result in rows.items() if key != (leaf, subleaf)}


def minimal():
    """The rows that building asks for, all zero but INVLPGB: one processor, legacy state only. Those without subleaf come first."""
    keys = sorted(COMMON_REQUIRED_LEAVES + SNP_REQUIRED_LEAVES, key=lambda key: (key[1] is not None, key[0], key[1] or 0))
    return changed({key: (0, 0, 0, 0) for key in keys}, 0x80000008, ebx=1 << 3)


def with_topology(rows, s, nc, lps, mt, t):
    """The rows with the five topology inputs (document 01, "Corners of snp.rs") and no other change."""
    def placed(leaf, register, fields, value):
        old = rows[leaf, None][REGISTERS.index(register)]
        return changed(rows, leaf, **{register: old & ~fields | value})
    rows = placed(0x80000008, 'ecx', 0xF0FF, s << 12 | nc)
    rows = placed(1, 'ebx', 0xFF << 16, lps << 16)
    rows = placed(1, 'edx', 1 << 28, mt << 28)
    return placed(0x8000001E, 'ebx', 0xFF << 8, t << 8)


def rich():
    """Every bit reported: AVX-512 and CET with their states at AMD's sizes and places, 128 processors, two a core."""
    rows = {key: (0xFFFFFFFF,) * 4 for key in minimal()}
    sizes = {2: (256, 576), 5: (64, 832), 6: (512, 896), 7: (1024, 1408), 9: (8, 2432), 11: (16, 0), 12: (24, 0)}
    for subleaf, (size, start) in sizes.items():
        rows = changed(rows, STATE, subleaf, eax=size, ebx=start, ecx=int(subleaf > 9))
    return with_topology(rows, 7, 127, 128, 1, 1)
