"""A model of document 01: what building, lookup, the image, writing and the program answer for any page bytes, and of demand 3's hypothesis;
with document 02's order of rows (P1), shift (P5), editions (P7) and reserved bytes (P10).

An answer is ('table', rows, mask), rows {(leaf, subleaf or None): (EAX, EBX, ECX, EDX)} and mask the combined mask,
or ('refusal', number, leaf, subleaf or None, s). Quotations and titles in the comments are document 01's.
"""
import struct

from model_masks import COMMON_REQUIRED_LEAVES, KEPT, SNP_REQUIRED_LEAVES

PAGE_SIZE = 4096
PAGE_ENTRIES = 64
EAX, EBX, ECX, EDX = range(4)

# the two constants of "Corners of mod.rs" and AMD's vendor
MAX_FUNCTION = 0x0000000D
EXTENDED_MAX_FUNCTION = 0x8000001F
VENDOR = (0x68747541, 0x444D4163, 0x69746E65)

STATE = 0xD
LEGACY_STATE = 0b11
LEGACY_AREA = 576
XSAVEC, XSAVES = 1 << 1, 1 << 3
YMM = 1 << 2
AVX512 = 1 << 5 | 1 << 6 | 1 << 7
CET = 1 << 11 | 1 << 12

# document 02, P7: edition 1 "is document 01's rule". "Edition 2 also clears 1.ECX bit 29 and 80000001h.ECX bits 11 (XOP) and 16 (FMA4) when XFEM
# lacks bit 2." {edition: {leaf: the bits of ECX that it clears and the edition before it leaves}}
F16C = 1 << 29
XOP, FMA4 = 1 << 11, 1 << 16
EDITIONS = {1: {}, 2: {1: F16C, 0x80000001: XOP | FMA4}}
NO_EDITION = max(EDITIONS) + 1
# (leaf, bit of ECX) of all that an edition clears and edition 1 leaves
CLEARED_LATER = [(leaf, bit) for cleared in EDITIONS.values() for leaf, bits in cleared.items() for bit in range(32) if bits >> bit & 1]

# "Feature registers of demand 3", and the registers that it frees
FEATURES = {
    (1, None): (ECX, EDX), (7, 0): (EBX, ECX, EDX), (0x80000001, None): (ECX, EDX), (0x80000008, None): (EBX,),
    (STATE, 0): (EAX,), (STATE, 1): (EAX, ECX), (0x8000001A, None): (EAX,), (0x8000001F, None): (EAX,)}
FREED = {(STATE, 0): (ECX,), (0xB, 0): (EAX, EBX, ECX, EDX), (0xB, 1): (EAX, EBX, ECX, EDX)}
# "1.EDX but bit 28", which "is equal"
NO_FEATURE = {(1, None, EDX): 1 << 28}


class Refusal(Exception):
    """Ends building or writing. "A refusal carries leaf, subleaf or none, and s; those not named are 0 or none." """

    def __init__(self, number, leaf=0, subleaf=None, s=0):
        super().__init__(number)
        self.answer = ('refusal', number, leaf, subleaf, s)


# Document 02, P7

def check_edition(edition):
    """ "15 an edition other than 1 or 2, before 1" """
    if edition not in EDITIONS:
        raise Refusal(15)


# "Page bytes" and "Corners of snp.rs"

def page_counts(pages):
    """The count of each page. Refusals 1 and 2 of "Where each check stands"."""
    if len(pages) == 0 or len(pages) % PAGE_SIZE != 0:
        raise Refusal(1)
    counts = [struct.unpack_from('<I', pages, at)[0] for at in range(0, len(pages), PAGE_SIZE)]
    if any(count > PAGE_ENTRIES for count in counts):
        raise Refusal(2)
    return counts


def entry_places(pages):
    """(page, offset) of each entry below its page's count, in page and entry order."""
    for number, count in enumerate(page_counts(pages)):
        for position in range(count):
            yield number, number * PAGE_SIZE + 16 + 48 * position


def check_reserved(pages):
    """Document 02, P10: "17 a nonzero reserved byte in an entry below its page's count, naming leaf EAX_IN with no subleaf, first in page and entry
    order, after 2 and before 3." The eight stand at 40."""
    for _, at in entry_places(pages):
        if any(pages[at + 40:at + 48]):
            raise Refusal(17, *struct.unpack_from('<I', pages, at))


def counted_entries(pages):
    """(EAX_IN, ECX_IN, results) of each counted entry, in order. "A Dh entry counts only on page 1." """
    check_reserved(pages)
    for number, at in entry_places(pages):
        leaf, ecx_in = struct.unpack_from('<II', pages, at)
        if leaf != STATE or number == 1:
            yield leaf, ecx_in, struct.unpack_from('<4I', pages, at + 24)


# "Corners of masking.rs" and the first of "Corners of mod.rs"

def first_rows(pages, secure_avic):
    """Rows 0 and 80000000h, and the masked first entry of each kept leaf and subleaf."""
    masks = KEPT[secure_avic]
    rows = {(0, None): [MAX_FUNCTION, *VENDOR], (0x80000000, None): [EXTENDED_MAX_FUNCTION, *VENDOR]}
    for leaf, ecx_in, results in counted_entries(pages):
        # "A leaf without subleaves takes its first entry for any ECX_IN."
        key = (leaf, None) if (leaf, None) in masks else (leaf, ecx_in)
        if key in masks and key not in rows:
            rows[key] = [result & mask for result, mask in zip(results, masks[key])]
    return rows


def check_required(rows):
    """Refusals 3 and 4 of "Where each check stands", in that order."""
    for leaf, subleaf in COMMON_REQUIRED_LEAVES + SNP_REQUIRED_LEAVES:
        if (leaf, subleaf) not in rows:
            raise Refusal(3, leaf, subleaf)
    if not rows[0x80000008, None][EBX] & 1 << 3:
        raise Refusal(4)


# "Corners of mod.rs": extended state

def state_masks(rows):
    """XFEM and XSS. "D.0.EAX gets bits 0 and 1 set after masking. XFEM is then D.0.EAX." """
    rows[STATE, 0][EAX] |= LEGACY_STATE
    one = rows[STATE, 1]
    return rows[STATE, 0][EAX], one[ECX] if one[EAX] & XSAVEC and one[EAX] & XSAVES else 0


def components(mask):
    """The subleaves from 2 up whose bit is in the mask, rising."""
    return [subleaf for subleaf in range(2, 64) if mask >> subleaf & 1]


def save_area(rows, mask):
    """The largest of 576 and EAX + EBX over the mask's subleaves from 2 up; refusal 5 if a sum passes 32 bits."""
    sums = [rows[STATE, subleaf][EAX] + rows[STATE, subleaf][EBX] for subleaf in components(mask)]
    if any(total > 0xFFFFFFFF for total in sums):
        raise Refusal(5)
    return max([LEGACY_AREA, *sums])


def finish_state(rows, xfem, xss):
    """Leaf Dh: its needed subleaves, D.0.ECX, D.1.ECX and EDX, and the subleaves dropped."""
    needed = components(xfem | xss)
    for subleaf in needed:
        if (STATE, subleaf) not in rows:
            raise Refusal(3, STATE, subleaf)
    rows[STATE, 0][ECX] = save_area(rows, xfem)
    if xss == 0:
        rows[STATE, 1][ECX] = rows[STATE, 1][EDX] = 0
    for subleaf in range(2, 64):
        if subleaf not in needed:
            rows.pop((STATE, subleaf), None)


# "Corners of mod.rs": features that hang on others

def bits_between(old, new):
    """[(leaf, bits of ECX)] that edition `new` clears and `old` leaves"""
    return [bits for edition, cleared in EDITIONS.items() if old < edition <= new for bits in cleared.items()]


def clear_by_state(rows, xfem, xss, edition):
    """CET_SS without both CET states; AVX and AVX-512 features without theirs."""
    one, seven = rows[1, None], rows[7, 0]
    if xss & CET != CET:
        seven[ECX] &= ~(1 << 7)
    if not xfem & YMM:
        one[ECX] &= ~0x10001000
        seven[EBX] &= ~0x20
        seven[ECX] &= ~0x700
    if not xfem & YMM or xfem & AVX512 != AVX512:
        seven[EBX] &= ~0xD0230000
        seven[ECX] &= ~0x5842
        seven[EDX] &= ~0x800100
    if not xfem & YMM:
        for leaf, bits in bits_between(1, edition):
            rows[leaf, None][ECX] &= ~bits


def finish_features(rows):
    """BTC_NO, IBRS and STIBP, the hypervisor bit, RDTSCP and RDPID: the last paragraph of "Corners of mod.rs"."""
    sizes = rows[0x80000008, None]
    sizes[EBX] |= 1 << 29
    if not sizes[EBX] & 1 << 12:
        sizes[EBX] &= ~(1 << 14 | 1 << 15)
    rows[1, None][ECX] |= 1 << 31
    if not rows[0x8000001F, None][EAX] & 1 << 9:
        rows[0x80000001, None][EDX] &= ~(1 << 27)
        rows[7, 0][ECX] &= ~(1 << 22)


# "Corners of snp.rs": topology

def topology_inputs(rows):
    """s, nc, lps, mt, t. "All are read after masking." """
    ecx = rows[0x80000008, None][ECX]
    one, threads = rows[1, None], rows[0x8000001E, None][EBX]
    return ecx >> 12 & 0xF, ecx & 0xFF, one[EBX] >> 16 & 0xFF, one[EDX] >> 28 & 1, threads >> 8 & 0xFF


def processors(s, nc, lps, mt):
    """v, or refusals 6 and 7. nc + 1 is 256 where nc is 255."""
    if s == 0 and mt == 0:
        if nc != 0 or lps > 1:
            raise Refusal(6, s=s)
        return 1
    if s == 0:
        if lps != nc + 1:
            raise Refusal(7, s=s)
        return lps
    v = 2 ** s
    if s <= 7:
        if nc + 1 > v or lps != v:
            raise Refusal(7, s=s)
        if mt != 1:
            raise Refusal(6, s=s)
    return v


def shift(v):
    """Document 02, P5: "The shift in B.1 becomes the least k with 2^k at least v." """
    return next(k for k in range(16) if 2 ** k >= v)


def topology(s, nc, lps, mt, t):
    """B.0 and B.1, or refusals 6, 7 and 8."""
    v = processors(s, nc, lps, mt)
    if t > 1 or t >= v:
        raise Refusal(8)
    threads = [1, 2, 0x100, 0] if t == 1 else [0, 1, 0x100, 0]
    return threads, [shift(v), v, 0x201, 0]


def rust_shift(v):
    """Document 01: "As in the Rust, the shift is the place of the highest one bit of v." """
    return v.bit_length() - 1


def rust_answer(answer):
    """The answer with "the Rust's lower figure", which is expected where v is no power of two: B.1.EAX is the Rust's shift."""
    if answer[0] == 'refusal':
        return answer
    _, v, *rest = answer[1][0xB, 1]
    return answer[0], {**answer[1], (0xB, 1): (rust_shift(v), v, *rest)}, *answer[2:]


# The public functions

def build_rows(rows, edition):
    """The table of masked first entries, in their place; refusals 3 to 8 of "Where each check stands"."""
    check_required(rows)
    xfem, xss = state_masks(rows)
    finish_state(rows, xfem, xss)
    rows[0xB, 0], rows[0xB, 1] = topology(*topology_inputs(rows))
    clear_by_state(rows, xfem, xss, edition)
    finish_features(rows)
    return 'table', {key: tuple(registers) for key, registers in rows.items()}, xfem | xss


def build(pages, secure_avic, edition=1):
    """The table of the pages, or the refusal of the first check that fails in "Where each check stands". The edition is one of any 32 bits."""
    try:
        check_edition(edition)
        return build_rows(first_rows(pages, secure_avic), edition)
    except Refusal as refusal:
        return refusal.answer


def by_leaf(key):
    """Rising leaf, then rising subleaf."""
    return key[0], key[1] or 0


def feature_bits(key, register):
    """The bits of a register that are features."""
    return 0xFFFFFFFF & ~NO_FEATURE.get((*key, register), 0) if register in FEATURES.get(key, ()) else 0


def register_rises(key, register, a, b):
    """Whether one register of B's entry is as demand 3 asks: "at least" means every bit set in A's."""
    if register in FREED.get(key, ()):
        return True
    features = feature_bits(key, register)
    return a & features & ~b == 0 and (a ^ b) & ~features == 0


def compare(a, b, secure_avic, edition=1):
    """The hypothesis of demand 3, under one edition, "the same for A and B": ('rises',), or the first thing that fails.

    ('refused A', number, leaf, subleaf, s), ('unlawful B', number, leaf, subleaf, s), ('no entry', leaf, subleaf) or
    ('differs', leaf, subleaf, register). "Entries are compared as masked", D.0.EAX with its bits 0 and 1 set.
    """
    table = build(a, secure_avic, edition)
    if table[0] == 'refusal':
        return 'refused A', *table[1:]
    try:
        entries = first_rows(a, secure_avic), first_rows(b, secure_avic)
    except Refusal as refusal:
        return 'unlawful B', *refusal.answer[1:]
    for rows in entries:
        if (STATE, 0) in rows:
            rows[STATE, 0][EAX] |= LEGACY_STATE
    # "for every row of A's table but 0 and 80000000h"
    for key in sorted(table[1].keys() - {(0, None), (0x80000000, None)}, key=by_leaf):
        if key not in entries[1]:
            return 'no entry', *key
        for register, (one, other) in enumerate(zip(*(rows[key] for rows in entries))):
            if not register_rises(key, register, one, other):
                return 'differs', *key, register
    return ('rises',)


def lookup(answer, leaf, subleaf, enforce):
    """The four registers that `leaf_result_ref` gives, or None: "in a refused table it finds nothing"."""
    if answer[0] == 'refusal':
        return None
    rows = answer[1]
    if (leaf, None) in rows:
        return rows[leaf, None] if subleaf is None or not enforce else None
    return None if subleaf is None else rows.get((leaf, subleaf))


def image(answer):
    """The bytes of an accepted table ("Image and lookup"). Document 02, P1: "Rows of the image shall ascend by leaf as an unsigned number, then by
    subleaf." """
    data = b''
    for (leaf, subleaf), registers in sorted(answer[1].items(), key=lambda row: by_leaf(row[0])):
        head = struct.pack('<BI', 1, leaf) if subleaf is None else struct.pack('<BII', 2, leaf, subleaf)
        data += head + struct.pack('<4I', *registers)
    return data


def write(pages, secure_avic, buffer, edition=1):
    """(('written', length) or the refusal, the lent bytes afterwards). It "gives building's refusals before 9". """
    return write_answer(build(pages, secure_avic, edition), buffer)


def write_answer(answer, buffer):
    """The same of an answer that stands."""
    if answer[0] == 'refusal':
        return answer, bytes(buffer)
    data = image(answer)
    if len(buffer) < len(data):
        return Refusal(9).answer, bytes(buffer)
    return ('written', len(data)), data + bytes(buffer[len(data):])


def output(pages):
    """What the program writes for the bytes that it reads ("Image and lookup"), secure AVIC off. Document 02, P7: it "keeps edition 1". """
    if len(pages) > 65536:
        return b'\x04'
    answer = build(pages, False)
    if answer[0] == 'table':
        return image(answer)
    _, number, leaf, subleaf, s = answer
    return struct.pack('<BBIIB', 3, number, leaf, 0xFFFFFFFF if subleaf is None else subleaf, s)
