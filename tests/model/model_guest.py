"""A model of document 02, P3: what one processor's guest sees.

Quotations in the comments are document 02's; answers have model.py's form. Absent rows of a table read as zeros.
"""
import model
from model import EAX, EBX, ECX, STATE

XSAVE, OSXSAVE = 1 << 26, 1 << 27
ALIGNED = 1 << 1


def register(rows, leaf, subleaf, number):
    return rows.get((leaf, subleaf), (0, 0, 0, 0))[number]


def table_masks(rows):
    """XFEM and XSS of a table, by document 01, "Corners of mod.rs", from the rows as they stand."""
    both = model.XSAVEC | model.XSAVES
    xss = register(rows, STATE, 1, ECX) if register(rows, STATE, 1, EAX) & both == both else 0
    return register(rows, STATE, 0, EAX), xss


def standard_size(rows, xcr0):
    """ "D.0.EBX is the size rule of D.0.ECX taken over XCR0." """
    return max([model.LEGACY_AREA, *(register(rows, STATE, i, EAX) + register(rows, STATE, i, EBX) for i in model.components(xcr0))])


def compacted_size(rows, xcr0, xss):
    """ "D.1.EBX is 576 plus the EAX of each subleaf from 2 up in XCR0 or XSS, ascending, each start raised to a multiple of 64 where that row's ECX
    bit 1 is set; it is 0 if D.1.EAX has neither bit 1 nor bit 3." """
    if not register(rows, STATE, 1, EAX) & (model.XSAVEC | model.XSAVES):
        return 0
    size = model.LEGACY_AREA
    for subleaf in model.components(xcr0 | xss):
        if register(rows, STATE, subleaf, ECX) & ALIGNED:
            size += -size % 64
        size += register(rows, STATE, subleaf, EAX)
    return size


def check_processor(rows, xcr0, xss):
    """Refusals 13 and 14 of a processor on a table's own rows."""
    xfem, table_xss = table_masks(rows)
    # "13 XCR0 lacks bit 0 or has a bit beyond XFEM, or the given XSS has one beyond the table's"
    if not xcr0 & 1 or xcr0 & ~xfem or xss & ~table_xss:
        raise model.Refusal(13)
    # "then 14 D.1.EAX has bit 1 or 3 and the D.1 size passes 32 bits"
    if compacted_size(rows, xcr0, xss) > 0xFFFFFFFF:
        raise model.Refusal(14)


def with_registers(rows, leaf, subleaf, **changes):
    """Puts new values into the registers of a row that is there."""
    if (leaf, subleaf) in rows:
        old = dict(zip(('eax', 'ebx', 'ecx', 'edx'), rows[leaf, subleaf]))
        rows[leaf, subleaf] = tuple({**old, **changes}.values())


def seen(rows, apic, osxsave, sizes):
    """The rows as the guest of a processor sees them, with the two sizes of its save area."""
    rows = dict(rows)
    # "Leaf 1 EBX bits 24-31 are the number's low eight bits. Leaf 1 ECX bit 27 is set if OSXSAVE is on and bit 26 is set, else clear."
    ebx, ecx = register(rows, 1, None, EBX), register(rows, 1, None, ECX)
    shown = OSXSAVE if osxsave and ecx & XSAVE else 0
    with_registers(rows, 1, None, ebx=ebx & 0x00FFFFFF | (apic & 0xFF) << 24, ecx=ecx & ~OSXSAVE | shown)
    # "B.0 and B.1 EDX are the number."
    for subleaf in 0, 1:
        with_registers(rows, 0xB, subleaf, edx=apic)
    for subleaf, size in enumerate(sizes):
        with_registers(rows, STATE, subleaf, ebx=size)
    return rows


def guest_of(table, apic, xcr0, xss, osxsave):
    """The guest's table from the paravisor's, or the refusal; a refused table gives its own. An accepted table has no standard size past 32 bits."""
    if table[0] == 'refusal':
        return table
    rows = table[1]
    try:
        check_processor(rows, xcr0, xss)
    except model.Refusal as refusal:
        return refusal.answer
    sizes = standard_size(rows, xcr0), compacted_size(rows, xcr0, xss)
    return 'table', seen(rows, apic, osxsave, sizes), table[2]


def guest(pages, secure_avic, apic, xcr0, xss, osxsave, edition=1):
    """The guest's whole table, looked up as before (model.lookup). "Building's refusals come first", P7's 15 among them. """
    return guest_of(model.build(pages, secure_avic, edition), apic, xcr0, xss, osxsave)
