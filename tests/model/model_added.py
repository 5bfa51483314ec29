"""A model of document 02, P9: page sets with entries added. Quotations are document 02's."""
import struct

from model import PAGE_SIZE, Refusal, page_counts


def read(pages, page, position):
    """What is read of an entry: EAX_IN, ECX_IN and the four results."""
    at = page * PAGE_SIZE + 16 + 48 * position
    return struct.unpack_from('<II', pages, at) + struct.unpack_from('<4I', pages, at + 24)


def last_page(counts):
    """ "the last page that had entries", or None. """
    return max((page for page, count in enumerate(counts) if count), default=None)


def added(before, after):
    """Whether `after` is `before` with "counted entries after its last one, or further pages at the end"."""
    try:
        old, new = page_counts(before), page_counts(after)
    except Refusal:
        # "with lawful counts"
        return False
    if len(new) < len(old):
        return False
    for page, count in enumerate(old):
        # "without raising the count of any but the last page that had entries"
        if new[page] != count and (page != last_page(old) or new[page] < count):
            return False
    return all(read(before, page, position) == read(after, page, position) for page, count in enumerate(old) for position in range(count))


def covered(answer):
    """ "accepted or refused by 4 to 8" """
    return answer[0] == 'table' or 4 <= answer[1] <= 8
