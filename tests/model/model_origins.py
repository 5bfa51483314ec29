"""A model of document 02, P11: where each row of a table came from, and the first entry of a leaf.

An origin is 'made here' or (page, entry), both counted from 0. Answers have model.py's form, which is free of origins: "sameness .. means everything
but origins". Quotations in the comments are document 02's, or document 01's where they say so.
"""
import struct

import model
from model import PAGE_SIZE, STATE
from model_masks import KEPT

MADE_HERE = 'made here'
# "or "made here" for 0, 80000000h, B.0 and B.1"
MADE = ((0, None), (0x80000000, None), (0xB, 0), (0xB, 1))
# document 01, the kept leaves; the secure-AVIC choice adds a bit and no leaf
KEYS = KEPT[False].keys()


def kept_key(leaf, subleaf):
    """The row that an entry is for, or None. Document 01: "A leaf without subleaves takes its first entry for any ECX_IN." """
    return next((key for key in ((leaf, None), (leaf, subleaf)) if key in KEYS), None)


def first_entries(pages):
    """{row: (page, entry)} of the first counted entry of each, or refusal 1, 2 or 17. Document 01: "A counted entry stands below its page's count
    and, for leaf Dh, on page 1; pages and positions in order give the first." """
    model.check_reserved(pages)
    found = {}
    for page, count in enumerate(model.page_counts(pages)):
        for entry in range(count):
            leaf, subleaf = struct.unpack_from('<II', pages, page * PAGE_SIZE + 16 + 48 * entry)
            if leaf != STATE or page == 1:
                found.setdefault(kept_key(leaf, subleaf), (page, entry))
    found.pop(None, None)
    return found


def origins(pages, answer):
    """{row: origin} of the table that an answer has: "Each row shall hold its page and entry, or "made here" .. an absent row holds neither". A
    refused table has no rows."""
    if answer[0] == 'refusal':
        return {}
    entries = first_entries(pages)
    return {row: MADE_HERE if row in MADE else entries[row] for row in answer[1]}


def lookup(pages, answer, leaf, subleaf, enforce):
    """The origin of the row that model.lookup finds in the answer's table, or None where it finds none."""
    if model.lookup(answer, leaf, subleaf, enforce) is None:
        return None
    held = origins(pages, answer)
    return held[leaf, None] if (leaf, None) in held else held[leaf, subleaf]


def first_entry(pages, leaf, subleaf):
    """('found', (page, entry)) of the first counted entry for a kept leaf, and the subleaf where the leaf has them; ('found', None) where there is
    none; or the refusal 1, 2 or 17."""
    try:
        return 'found', first_entries(pages).get(kept_key(leaf, subleaf))
    except model.Refusal as refusal:
        return refusal.answer
