"""Tests of model_lines.py: document 02, P6, refusals that a cellar office can read."""
import random
import re
import unittest

from model_lines import NAMES, NO_SUCH_LINE, read_line, write_line

ALL = 0xFFFFFFFF
IN_USE = list(range(1, 21))

# lines written down from document 02's words
LINES = {
    (1, 0, None, 0): '1\n',
    (3, 1, None, 0): '3 00000001\n',
    (3, 0, None, 0): '3 00000000\n',
    (3, 0xD, 0, 0): '3 0000000D 0\n',
    (3, 0xD, 63, 0): '3 0000000D 63\n',
    (3, 0x8000001D, 3, 0): '3 8000001D 3\n',
    (3, ALL, ALL, 0): '3 FFFFFFFF 4294967295\n',
    (3, 0xABCDEF, 10, 0): '3 00ABCDEF 10\n',
    (6, 0, None, 0): '6 0\n',
    (6, 0, None, 7): '6 7\n',
    (7, 0, None, 255): '7 255\n',
    (8, 0, None, 0): '8\n',
    (9, 0, None, 0): '9\n',
    (10, 0, None, 0): '10\n',
    (14, 0, None, 0): '14\n',
    (15, 0, None, 0): '15\n',
    (16, 0, None, 0): '16\n',
    (17, 0, None, 0): '17 00000000\n',
    (17, 0x8000001D, None, 0): '17 8000001D\n',
    (18, 0, None, 0): '18\n',
    (19, 0, None, 0): '19\n',
    (20, 0, None, 0): '20\n',
}


def refusals():
    """Every number with every detail that it names, at the edges of each detail's width."""
    for number, names in NAMES.items():
        for leaf in (0, 1, 9, 0xA, 0xD, 0x8000001D, ALL) if 'leaf' in names else (0,):
            for subleaf in (None, 0, 1, 9, 10, 99, 100, ALL) if 'subleaf' in names else (None,):
                for s in (0, 1, 7, 9, 10, 99, 100, 255) if 's' in names else (0,):
                    yield number, leaf, subleaf, s


def by_pattern(data):
    """The reader a second time, by one pattern a number, from the numbers' details alone."""
    number = r'(0|[1-9][0-9]{0,2})'
    patterns = {'leaf': r' ([0-9A-F]{8})', 'subleaf': r'( (0|[1-9][0-9]{0,9}))?', 's': ' ' + number}
    for which, names in NAMES.items():
        found = re.fullmatch(str(which) + ''.join(f'(?P<{name}>{patterns[name]})' for name in names) + r'\n', data.decode('latin-1'))
        if found:
            texts = {name: text.strip() if text else '' for name, text in found.groupdict().items()}
            leaf, s = int(texts.get('leaf', '0'), 16), int(texts.get('s', '0'))
            subleaf = int(texts['subleaf']) if texts.get('subleaf') else None
            if (subleaf or 0) < 2 ** 32 and s < 2 ** 8:
                return 'refusal', which, leaf, subleaf, s
    return NO_SUCH_LINE


def written(refusal):
    answer, data = write_line(*refusal, bytes(40))
    return data[:answer[1]]


class Writing(unittest.TestCase):
    def test_by_hand(self):
        for refusal, text in LINES.items():
            self.assertEqual(write_line(*refusal, b'x' * 30), (('written', len(text)), text.encode() + b'x' * (30 - len(text))))

    def test_numbers_in_use(self):
        self.assertEqual(list(NAMES), IN_USE)
        self.assertEqual({number: names for number, names in NAMES.items() if names},
                         {3: ('leaf', 'subleaf'), 6: ('s',), 7: ('s',), 17: ('leaf',)})

    def test_9(self):
        for refusal, text in LINES.items():
            for room in range(len(text)):
                self.assertEqual(write_line(*refusal, b'x' * room), (('refusal', 9, 0, None, 0), b'x' * room))
            self.assertEqual(write_line(*refusal, bytes(len(text))), (('written', len(text)), text.encode()))

    def test_no_such_line(self):
        strange = [(number, 0, None, 0) for number in range(256) if number not in IN_USE]
        strange += [(3, 1, 2, 3), (3, 0, None, 1), (6, 1, None, 1), (6, 0, 0, 1), (7, 0, 1, 0), (7, ALL, None, 0)]
        strange += [(17, 1, 0, 0), (17, 0, 0, 0), (17, 1, None, 1), (17, 1, 2, 3)]
        for number, names in NAMES.items():
            if not names:
                strange += [(number, 1, None, 0), (number, 0, 0, 0), (number, 0, None, 1), (number, 1 << 31, 5, 9)]
        for refusal in strange:
            for room in b'', b'x' * 30:
                self.assertEqual(write_line(*refusal, room), (NO_SUCH_LINE, room))

    def test_lines_are_apart(self):
        """ "Different refusals, details included, give different lines, and no line begins another." """
        lines = sorted(map(written, refusals()))
        self.assertEqual(len(set(lines)), len(lines))
        for one, other in zip(lines, lines[1:]):
            self.assertFalse(other.startswith(one))
        self.assertTrue(all(line.isascii() and line.count(b'\n') == 1 and line.endswith(b'\n') for line in lines))


class Reading(unittest.TestCase):
    def test_back(self):
        for refusal in refusals():
            self.assertEqual(read_line(written(refusal)), ('refusal', *refusal))

    def test_anything_else(self):
        for text in ('', '\n', '1', '01\n', '1 \n', ' 1\n', '1\n\n', '1\r\n', '1\n1\n', '0\n', '99\n', '256\n', '257\n', '-1\n', '+1\n', '1.0\n',
                     '3\n', '3 \n', '3 D\n', '3 0000000d\n', '3 0000000d 0\n', '3 000000D\n', '3 00000000D\n', '3  0000000D\n', '3 0000000D \n',
                     '3 0000000D  0\n', '3 0000000D 00\n', '3 0000000D 01\n', '3 0000000D 4294967296\n', '3 0000000D 0 0\n',
                     '3 0000000D none\n', '3 0x00000D\n', '3 0000000D 99999999999\n', '6\n', '6 \n', '6 256\n', '6 00\n', '6 07\n', '6 1 1\n',
                     '6 0000000D\n', '7 A\n', '8 0\n', '9 1\n', '10 0\n', '1 0\n', '3 0000000D\t0\n', '3\t0000000D\n', '3 0000000_D\n', '1_0\n',
                     '17\n', '17 0000000D 0\n', '17 D\n', '17 0000000d\n',
                     *(f'{number}\n' for number in range(300) if number not in IN_USE)):
            self.assertEqual(read_line(text.encode()), NO_SUCH_LINE, text)
        self.assertEqual(read_line('\u0661\n'.encode()), NO_SUCH_LINE)
        self.assertEqual(read_line(b'\xff\n'), NO_SUCH_LINE)
        self.assertEqual(read_line(b'3 0000000D ' + b'1' * 5000 + b'\n'), NO_SUCH_LINE)

    def test_no_byte_more_or_less(self):
        for refusal in refusals():
            data = written(refusal)
            for cut in range(len(data)):
                self.assertEqual(read_line(data[:cut]), NO_SUCH_LINE)
            self.assertEqual(read_line(data + b'\n'), NO_SUCH_LINE)

    def test_against_patterns(self):
        """Lines with one byte replaced, put in or taken out, against the second reader; what is read is written back as it was."""
        draw, found = random.Random(6), 0
        lines = [*map(written, refusals())]
        bytes_used = b'0123456789ABCDEFad \n\t-\xb2\x00'
        for _ in range(20000):
            data = bytearray(draw.choice(lines))
            at, byte = draw.randrange(len(data)), draw.choice(bytes_used)
            data[at:at + draw.randrange(2)] = bytes([byte])[:draw.randrange(2)]
            answer = read_line(bytes(data))
            self.assertEqual(answer, by_pattern(bytes(data)), bytes(data))
            if answer != NO_SUCH_LINE:
                found += 1
                self.assertEqual(written(answer[1:]), bytes(data))
        self.assertGreater(found, 1000)


if __name__ == '__main__':
    unittest.main()
