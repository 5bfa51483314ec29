"""A model of document 02, P12: one table for a pool of servers.

A pool's answer is (answer, server). The answer has model.py's form; server is the number, from 0, of the server whose own refusal it is, else 0.
Quotations in the comments are document 02's. P12's feature registers are document 01's, of which 1.EDX is one "but bit 28".
"""
from itertools import accumulate

import model
from model import ECX, STATE
import model_origins

ALL = 0xFFFFFFFF
# "18 fewer than 2 or more than 16 sets, or lengths that don't sum to the slice"
FEWEST, MOST = 2, 16
# "B.0 and B.1 apart"
APART = {(0xB, 0), (0xB, 1)}


def page_sets(pages, lengths):
    """The servers' page sets, "end to end in one slice beside a list of their lengths". """
    # a sum of numbers, whatever their size
    if not FEWEST <= len(lengths) <= MOST or sum(lengths) != len(pages):
        raise model.Refusal(18)
    return [pages[end - length:end] for length, end in zip(lengths, accumulate(lengths))]


def equal_bits(key, register):
    """The bits of a row's register in which the servers may not differ: those "elsewhere than in feature registers or D.0.ECX". """
    return 0 if (*key, register) == (STATE, 0, ECX) else ALL & ~model.feature_bits(key, register)


def check_alike(entries, tables):
    """ "19 where rows that all tables have, B.0 and B.1 apart, differ elsewhere than in feature registers or D.0.ECX, by masked entry" """
    for key in set.intersection(*(set(table[1]) for table in tables)) - APART:
        for register, values in enumerate(zip(*(rows[key] for rows in entries))):
            if len({value & equal_bits(key, register) for value in values}) > 1:
                raise model.Refusal(19)


def joined(entries):
    """ "joins the feature registers of their first entries by and, keeps all else from the first". A row with features is a required one. """
    rows = {key: list(registers) for key, registers in entries[0].items()}
    for key, registers in model.FEATURES.items():
        for register in registers:
            for other in entries[1:]:
                rows[key][register] &= other[key][register] | ALL & ~model.feature_bits(key, register)
    return rows


def pool(pages, lengths, secure_avic, edition=1):
    """The pool's answer, "under one edition and one secure-AVIC choice"."""
    tables = []
    try:
        sets = page_sets(pages, lengths)
        # "then any server's own refusal in server order"
        for server, data in enumerate(sets):
            tables.append(model.build(data, secure_avic, edition))
            if tables[-1][0] == 'refusal':
                return tables[-1], server
        entries = [model.first_rows(data, secure_avic) for data in sets]
        check_alike(entries, tables)
        return model.build_rows(joined(entries), edition), 0
    except model.Refusal as refusal:
        return refusal.answer, 0


def first_set(pages, lengths, answer):
    """The pages that an accepted pool's rows are of: "keeps all else from the first, origins included". """
    return b'' if answer[0] == 'refusal' else page_sets(pages, lengths)[0]


def origins(pages, lengths, answer):
    """{row: origin} of the pool's table."""
    return model_origins.origins(first_set(pages, lengths, answer), answer)


def lookup_origin(pages, lengths, answer, leaf, subleaf, enforce):
    """The origin of the row that model.lookup finds in the pool's table, or None."""
    return model_origins.lookup(first_set(pages, lengths, answer), answer, leaf, subleaf, enforce)
