"""A model of a table in the caller's own memory, by include/snp_cpuid.h, "a table that the caller keeps".

Memory is (registers, origins), tuples of four numbers and of one for each place, of any content. The rows in it have model.py's form; what is made
of them is what documents 01 and 02 say, by the other models. Quotations in the comments are the header's.
"""
import hashlib
import struct

import model
from model import ECX, STATE
from model_carry import ROWS, carry, read_image
from model_guest import check_processor, compacted_size, seen, standard_size, table_masks
from model_kvm import kvm_list
import model_origins
import model_pool

ALL = 0xFFFFFFFF
# the places, "by rising leaf and subleaf"
PLACES = list(ROWS)
NO_ROW, MADE, UNKNOWN, FIRST_ENTRY = 0, 1, 3, 4
NOTHING = 0, 0, 0, 0
REGISTERS = 4 * len(PLACES)
EMPTY = (0,) * REGISTERS, (0,) * len(PLACES)
LAYOUT = f'<{REGISTERS}I{len(PLACES)}Q'


def to_bytes(memory):
    """struct snp_cpuid_kept_table."""
    return struct.pack(LAYOUT, *memory[0], *memory[1])


def from_bytes(data):
    numbers = struct.unpack(LAYOUT, data)
    return numbers[:REGISTERS], numbers[REGISTERS:]


# What memory holds

def words(memory):
    """The four registers of every place, whether or not there is a row."""
    return {key: tuple(memory[0][4 * place:4 * place + 4]) for place, key in enumerate(PLACES)}


def rows(memory):
    """ "A place has a row exactly where its origin is not 0." """
    return {key: registers for (key, registers), origin in zip(words(memory).items(), memory[1]) if origin != NO_ROW}


def mask(memory):
    """The combined mask, of "the registers as they stand, whether or not there is a row". """
    xfem, xss = table_masks(words(memory))
    return xfem | xss


def table(memory):
    return 'table', rows(memory), mask(memory)


def counts(memory):
    return len(rows(memory)), mask(memory)


def memory_of(found, origins):
    """Memory with these rows and the numbers of their origins; all else of it is zeros."""
    registers = [number for key in PLACES for number in found.get(key, NOTHING)]
    return tuple(registers), tuple(origins.get(key, NO_ROW) for key in PLACES)


def with_rows(memory, new):
    """The memory with other registers of rows that it has."""
    return tuple(number for registers in {**words(memory), **new}.values() for number in registers), memory[1]


# Origins

def origin_number(origin):
    """1 the builder made it, "else 4 + 64 * page + entry" """
    return MADE if origin == model_origins.MADE_HERE else FIRST_ENTRY + 64 * origin[0] + origin[1]


def told_origin(number):
    """(origin, page, entry) as a lookup tells them. "2, which no function writes, is told as the first entry of page 0" """
    if number >= FIRST_ENTRY:
        return 2, *divmod(number - FIRST_ENTRY, 64)
    return number, 0, 0


# Filling it

def filled(answer, origins):
    """The memory after an answer: "A refusal leaves a table without rows, all zeros." """
    if answer[0] == 'refusal':
        return EMPTY
    return memory_of(answer[1], {key: origin_number(origin) for key, origin in origins.items()})


def build(pages, secure_avic, edition):
    """(the answer, the memory afterwards)"""
    answer = model.build(pages, secure_avic, edition)
    return answer, filled(answer, model_origins.origins(pages, answer))


def pool(pages, lengths, secure_avic, edition):
    """((answer, server), the memory afterwards)"""
    answer, server = model_pool.pool(pages, lengths, secure_avic, edition)
    return (answer, server), filled(answer, model_pool.origins(pages, lengths, answer))


def read(image):
    """(is_image, the memory afterwards): "The rows' origins are 3, as an image has none. Bytes that are no image leave a table without rows." """
    found = read_image(image)
    return found is not None, memory_of(found or {}, dict.fromkeys(found or {}, UNKNOWN))


# Questions

def found_in(found, memory, leaf, subleaf, enforce):
    """(registers, (origin, page, entry)) of the row that a lookup finds among these rows, which are the memory's as somebody sees them, or None."""
    registers = model.lookup(('table', found, None), leaf, subleaf, enforce)
    if registers is None:
        return None
    place = PLACES.index((leaf, None) if (leaf, None) in found else (leaf, subleaf))
    return registers, told_origin(memory[1][place])


def find(memory, leaf, subleaf, enforce):
    return found_in(rows(memory), memory, leaf, subleaf, enforce)


def state(memory, xcr0, xss):
    """The compacted size, or refusal 13 or 14, of "the registers as they stand". """
    check_processor(words(memory), xcr0, xss)
    return compacted_size(words(memory), xcr0, xss)


def guest_rows(memory, apic, xcr0, osxsave, size):
    """The rows as a guest sees them, with a size for D.1.EBX. D.0.EBX is "FFFFFFFFh where it does not fit 32 bits". """
    return seen(rows(memory), apic, osxsave, (min(standard_size(words(memory), xcr0), ALL), size))


def guest_find_kept(memory, apic, xcr0, osxsave, size, *asked):
    return found_in(guest_rows(memory, apic, xcr0, osxsave, size), memory, *asked)


def guest_find(memory, apic, xcr0, xss, osxsave, *asked):
    """What guest_find_kept gives with the table's own size, or refusal 13 or 14."""
    return guest_find_kept(memory, apic, xcr0, osxsave, state(memory, xcr0, xss), *asked)


def guest(memory, apic, xcr0, xss, osxsave):
    """The memory as the guest sees it, or refusal 13 or 14, which "leaves a table without rows". """
    size = state(memory, xcr0, xss)
    return with_rows(memory, guest_rows(memory, apic, xcr0, osxsave, size))


def image(memory):
    return model.image(table(memory))


def fingerprint(memory):
    """ "the SHA-256 (FIPS 180-4) of the image"; "a table without rows has the fingerprint of no bytes" """
    return hashlib.sha256(image(memory)).digest()


def kvm(memory):
    return kvm_list(table(memory))


def carried(memory, old, new, xcr0, xss):
    """(0 or the refusal's number, the memory afterwards). A place without a row "reads as zeros here". """
    answer = carry(table(memory), old, new, xcr0, xss)
    return (answer[1], memory) if answer[0] == 'refusal' else (0, with_rows(memory, answer[1]))


# Two tables

def register_rises(key, register, a, b):
    """Whether a register of the second table is as wanted: "lacks a feature bit of the first's, is a smaller save area (D.0.ECX), or else differs" is
    what it may not."""
    if (*key, register) == (STATE, 0, ECX):
        return a <= b
    features = model.feature_bits(key, register)
    return a & features & ~b == 0 and (a ^ b) & ~features == 0


def is_further(key, a_mask, b_mask):
    """Whether a row is a "subleaf from 2 up of leaf Dh of a mask bit that the second has beyond the first" """
    leaf, subleaf = key
    return leaf == STATE and subleaf >= 2 and b_mask & ~a_mask & 1 << subleaf != 0


def compare(a, b):
    """(answer, leaf and subleaf or None, register or None): "Of 1, 2 and 3 it is the first, by rising leaf, subleaf and register." """
    of_a, of_b, a_mask, b_mask = rows(a), rows(b), mask(a), mask(b)
    for key in PLACES:
        if key in of_a and key not in of_b:
            return 1, key, None
        if key in of_a:
            for register, (one, other) in enumerate(zip(of_a[key], of_b[key])):
                if not register_rises(key, register, one, other):
                    return 2, key, register
        elif key in of_b and not is_further(key, a_mask, b_mask):
            return 3, key, None
    return (4, None, None) if a_mask & ~b_mask else (0, None, None)
