"""Makes rust/tests/lines.txt: what model_lines.py answers to refusals that are to be written and to bytes that are to be read.

A line of it reads, leaf in hexadecimal, bytes in hexadecimal or '-' for none, other numbers in decimal and '-' for no subleaf:
write NUMBER LEAF SUBLEAF S ROOM ANSWER BYTES   a buffer of ROOM bytes 5A: 'length N', 'refusal 9' or 'none', and what the buffer then holds
read BYTES none                                 no such line
read BYTES NUMBER LEAF SUBLEAF S                what the line says
"""
import sys

from model_lines import NAMES, NO_SUCH_LINE, line, read_line, write_line
import replayed

ALL = 0xFFFFFFFF
LEAVES = 0, 1, 9, 0xA, 0xD, 0x10, 0xABCDEF, 0x7FFFFFFF, 0x8000001D, ALL
SUBLEAVES = None, 0, 1, *(10 ** power + more for power in range(1, 10) for more in (-1, 0)), 0x7FFFFFFF, ALL
SIZES = 0, 1, 7, 9, 10, 11, 99, 100, 101, 199, 200, 249, 250, 255


def named():
    """Every number in use with every detail that it names."""
    for number, names in NAMES.items():
        for leaf in LEAVES if 'leaf' in names else (0,):
            for subleaf in SUBLEAVES if 'subleaf' in names else (None,):
                for s in SIZES if 's' in names else (0,):
                    yield number, leaf, subleaf, s


def unnamed():
    """Numbers not in use, details that a number does not name, one at a time and all at once, and numbers wider than their field."""
    between = [number for number in range(25) if number not in NAMES]
    for number in *between, 99, 100, 255, 256, 256 + 1, 256 + 3, 65536 + 6, 65536 + 17, ALL:
        yield number, 0, None, 0
        yield number, 0xD, 2, 7
    for number, names in NAMES.items():
        for leaf in 1, 1 << 31:
            yield number, leaf, None, 0
        for subleaf in 0, 1, ALL:
            yield number, 0, subleaf, 0
        for s in 1, 255, 256, 257, ALL:
            yield number, 0, None, s
        yield number, 0xD, 2, 7


def writes():
    """Each with buffers of length 0, one short, exact and longer; where there is no such line, of length 0 and with room for every line."""
    for refusal in [*named(), *unnamed()]:
        # the model's number and s have eight bits
        data = line(*refusal) if refusal[0] <= 0xFF and refusal[3] <= 0xFF else None
        for room in (0, 1, 22, 30) if data is None else sorted({0, len(data) - 1, len(data), len(data) + 1, 22, 30}):
            buffer = b'\x5A' * room
            answer, after = (NO_SUCH_LINE, buffer) if data is None else write_line(*refusal, buffer)
            told = {'written': 'length', 'refusal': 'refusal'}.get(answer[0], 'none')
            yield ' '.join(['write', *words(*refusal), str(room), told, *map(str, answer[1:2]), after.hex() or '-'])


def strange():
    """Lines with every byte replaced, left out and put in, cut and run together, and with numbers too large."""
    used = b'\x00\t\n\r !+-.09:@AFGadfg\x80\xB2\xFF'
    for refusal in ((3, 0xD, 12, 0), (3, 0x8000001F, None, 0), (6, 0, None, 0), (7, 0, None, 255), (1, 0, None, 0), (15, 0, None, 0),
                    (17, 0x8000001D, None, 0)):
        text = line(*refusal)
        for at in range(len(text) + 1):
            yield text[:at]
            yield text[:at] + text[at + 1:]
            for byte in used:
                yield text[:at] + bytes([byte]) + text[at:]
                yield text[:at] + bytes([byte]) + text[at + 1:]
        yield text + text
        yield b'\n' + text
        yield text.lower()
        yield text[:-1] + b'\r\n'
    for text in ('', '0', '15', '16', '17', '17 ', '17 D', '17 0000000D', '17 0000000d', '17 0000000D 0', '17 10000000D', '18', '18 0000000D', '21', '256', '257',
                 '4294967297', '4294967299 0000000D', '18446744073709551617', '01', '001', '3', '3 ', '3 D', '3 000000D', '3 00000000D',
                 '3 0000000D 0012', '3 0000000D 4294967296', '3 0000000D 4294967308', '3 0000000D 42949672950',
                 '3 0000000D 12 0', '3 0000000D none', '3 10000000D', '3 10000000D 12', '6', '6 256', '6 257', '6 262', '6 4294967296', '6 00',
                 '6 0000000D', '6 0 0', '1 0', '9 0', '10 0', '3 FFFFFFFF 4294967295', '3  0000000D', '3 0000000D  12', '\n'):
        yield text.encode() + b'\n'
    yield b'3 0000000D ' + b'1' * 200 + b'\n'
    yield b'1\n' + b'\x00' * 30


def reads():
    for data in dict.fromkeys([*(line(*refusal) for refusal in named()), *strange()]):
        answer = read_line(data)
        yield ' '.join(['read', data.hex() or '-', *(['none'] if answer == NO_SUCH_LINE else words(*answer[1:]))])


def words(number, leaf, subleaf, s):
    return [str(number), f'{leaf:x}', '-' if subleaf is None else str(subleaf), str(s)]


def main(arguments):
    made = [*writes(), *reads()]
    # what becomes of a line that is to be written, or the number of one that is read
    kinds = (text.split()[6 if text.startswith('write') else 2] for text in made)
    return replayed.main(arguments, 'lines', 'lines', made, kinds, ['length', 'refusal', 'none', *map(str, NAMES)])


if __name__ == '__main__':
    sys.exit(main(sys.argv[1:]))
