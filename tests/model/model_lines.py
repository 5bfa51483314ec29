"""A model of document 02, P6: each refusal as one line, and the reader of such lines.

Quotations in the comments are document 02's; a refusal has model.py's form, and ('no such line',) "is no numbered refusal".
"""
import model

NO_SUCH_LINE = ('no such line',)
DIGITS = b'0123456789'
CAPITALS = b'0123456789ABCDEF'

# The numbers in use, each with the details that it names: document 01, "Where each check stands", then P2, P3, P7, P8, P10, P12 and P13.
NAMES = {
    1: (),
    2: (),
    3: ('leaf', 'subleaf'),
    4: (),
    5: (),
    6: ('s',),
    7: ('s',),
    8: (),
    9: (),
    10: (),
    11: (),
    12: (),
    13: (),
    14: (),
    15: (),
    16: (),
    17: ('leaf',),
    18: (),
    19: (),
    20: (),
}


def line(number, leaf, subleaf, s):
    """ "the number in decimal, then, each after one space and only where that number names it, the leaf in eight hexadecimal capitals, the subleaf
    and s in decimal. A subleaf of none is left out." None for "a number not in use or a set detail that it doesn't name". """
    set_details = [name for name, is_set in (('leaf', leaf != 0), ('subleaf', subleaf is not None), ('s', s != 0)) if is_set]
    if number not in NAMES or not set(set_details) <= set(NAMES[number]):
        return None
    texts = {'leaf': f' {leaf:08X}', 'subleaf': '' if subleaf is None else f' {subleaf}', 's': f' {s}'}
    return (str(number) + ''.join(texts[name] for name in NAMES[number]) + '\n').encode()


def write_line(number, leaf, subleaf, s, buffer):
    """(('written', length), ('no such line',) or refusal 9, the lent bytes afterwards). "no such line" comes "before 9 and writing nothing"."""
    data = line(number, leaf, subleaf, s)
    if data is None:
        return NO_SUCH_LINE, bytes(buffer)
    if len(buffer) < len(data):
        return model.Refusal(9).answer, bytes(buffer)
    return ('written', len(data)), data + bytes(buffer[len(data):])


def decimal(word, most):
    """The number, or None. "Decimals have no leading zeros." """
    if not 1 <= len(word) <= 10 or any(digit not in DIGITS for digit in word) or word[:1] == b'0' and len(word) > 1:
        return None
    return int(word) if int(word) <= most else None


def hexadecimal(word):
    return int(word, 16) if len(word) == 8 and all(digit in CAPITALS for digit in word) else None


def read_line(data):
    """The refusal that the line is of, "for every number in use by then and with any leaf and subleaf of 32 bits and any s of 8 bits"; "no such line
    .. from the reader for anything else". """
    if data[-1:] != b'\n':
        return NO_SUCH_LINE
    first, *words = data[:-1].split(b' ')
    number = decimal(first, 0xFF)
    if number not in NAMES:
        return NO_SUCH_LINE
    details = {'leaf': 0, 'subleaf': None, 's': 0}
    read = {'leaf': hexadecimal, 'subleaf': lambda word: decimal(word, 0xFFFFFFFF), 's': lambda word: decimal(word, 0xFF)}
    for name in NAMES[number]:
        if name == 'subleaf' and not words:
            continue
        details[name] = read[name](words.pop(0)) if words else None
        if details[name] is None:
            return NO_SUCH_LINE
    return ('refusal', number, *details.values()) if not words else NO_SUCH_LINE
