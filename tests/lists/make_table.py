"""Makes rust/tests/table.txt: what the functions over a table that the caller keeps do, as model_table.py answers; tests/c/table.c replays it.

Numbers are hexadecimal and edits are those of replayed.py. A line `p EDITS`, `i EDITS` or `t EDITS` makes the pages, the image or the bytes of the
table's struct of those before, the first of none. Every other line is a question, a bar and the answer's numbers in the order of its struct. `build`,
`pool` and `read` end with the edits that make the table of zeros, which the next lines ask; `guest` and `carry` end with the edits that make theirs
of the table, which stays, or with z for all zeros; `image` and `kvm` end with the edits that make the buffer of ROOM bytes A5, `fingerprint` with those
of 32 bytes A5. `compare` begins with the edits that make the second table of the first.
"""
from itertools import product
import random
import sys

from make_carry import fullest, image as image_of, least
import model
from model import EAX, STATE
import model_table as kept
from model_table import EMPTY, PLACES, REGISTERS
from pagesets import MILAN, changed, minimal, rich, spread, with_byte, with_topology, without
import replayed
from replayed import edits

ALL = 0xFFFFFFFF
FILL = b'\xA5'
STRANGERS = (2, None), (2, 0), (7, 1), (7, None), (0xB, 2), (STATE, 64), (STATE, ALL), (0x80000009, None), (0x8000001D, 4), (ALL, ALL)
# the rows that differ for a guest, and some that do not
SEEN = (1, None), (0xB, 0), (0xB, 1), (STATE, 0), (STATE, 1)
UNSEEN = (0, None), (7, 0), (STATE, 2), (STATE, 12), (STATE, 63), (0x8000001F, None), (2, None)


# How a question and its answer are written

def numbers(*values):
    return [f'{value:x}' for value in values]


def subleaf_words(subleaf):
    return numbers(subleaf is not None, subleaf or 0)


def row_words(found):
    """struct snp_cpuid_found"""
    if found is None:
        return numbers(*[0] * 8)
    registers, origin = found
    return numbers(1, *registers, *origin)


def refusal_words(answer):
    """Number, leaf, has_subleaf, subleaf and s."""
    if answer[0] == 'table':
        return numbers(0, 0, 0, 0, 0)
    _, number, leaf, subleaf, s = answer
    return [*numbers(number, leaf), *subleaf_words(subleaf), *numbers(s)]


def memory_word(old, new):
    return 'z' if new == EMPTY else edits(kept.to_bytes(old), kept.to_bytes(new))


class List:
    """The lines so far, and what the next are asked of."""

    def __init__(self):
        self.lines, self.kinds = [], []
        self.bytes = {'p': b'', 'i': b''}
        self.table = EMPTY
        self.lines.append(f't {edits(b"", kept.to_bytes(EMPTY))}')

    def ask(self, name, kind, question, answer):
        self.lines.append(' '.join([name, *question, '|', *answer]))
        self.kinds.append(f'{name} {kind}')

    def put(self, name, data):
        if data != self.bytes[name]:
            self.lines.append(f'{name} {edits(self.bytes[name], data)}')
            self.bytes[name] = data

    def put_table(self, memory):
        self.lines.append(f't {edits(kept.to_bytes(self.table), kept.to_bytes(memory))}')
        self.table = memory

    def fill(self, memory):
        self.table = memory
        return edits(kept.to_bytes(EMPTY), kept.to_bytes(memory))

    def build(self, pages, secure_avic, edition):
        self.put('p', pages)
        answer, memory = kept.build(pages, secure_avic, edition)
        words = [*refusal_words(answer), *numbers(*kept.counts(memory)), self.fill(memory)]
        self.ask('build', 0 if answer[0] == 'table' else answer[1], numbers(secure_avic, edition), words)

    def pool(self, sets, lengths=None, secure_avic=False, edition=1):
        pages, lengths = b''.join(sets), lengths or [len(one) for one in sets]
        self.put('p', pages)
        (answer, server), memory = kept.pool(pages, lengths, secure_avic, edition)
        words = [*refusal_words(answer), *numbers(server, *kept.counts(memory)), self.fill(memory)]
        self.ask('pool', 0 if answer[0] == 'table' else answer[1], [*numbers(secure_avic, edition), ','.join(numbers(*lengths))], words)

    def read(self, data):
        self.put('i', data)
        is_image, memory = kept.read(data)
        self.ask('read', int(is_image), [], [*numbers(is_image, *kept.counts(memory)), self.fill(memory)])

    def find(self, leaf, subleaf, enforce):
        found = kept.find(self.table, leaf, subleaf, enforce)
        self.ask('find', 'found' if found else 'nothing', [*numbers(leaf), *subleaf_words(subleaf), *numbers(enforce)], row_words(found))

    def guest_find(self, processor, leaf, subleaf, enforce):
        question = [*numbers(*processor, leaf), *subleaf_words(subleaf), *numbers(enforce)]
        try:
            found = kept.guest_find(self.table, *processor, leaf, subleaf, enforce)
            self.ask('guest_find', 'found' if found else 'nothing', question, ['0', *row_words(found)])
        except model.Refusal as refusal:
            self.ask('guest_find', refusal.answer[1], question, numbers(refusal.answer[1], *[0] * 8))

    def guest_find_kept(self, processor, size, leaf, subleaf, enforce):
        apic, xcr0, _, osxsave = processor
        found = kept.guest_find_kept(self.table, apic, xcr0, osxsave, size, leaf, subleaf, enforce)
        question = [*numbers(*processor, size, leaf), *subleaf_words(subleaf), *numbers(enforce)]
        self.ask('guest_find_kept', 'found' if found else 'nothing', question, row_words(found))

    def state(self, xcr0, xss):
        try:
            number, size = 0, kept.state(self.table, xcr0, xss)
        except model.Refusal as refusal:
            number, size = refusal.answer[1], 0
        self.ask('state', number, numbers(xcr0, xss), numbers(number, size))

    def guest(self, processor):
        try:
            answer, memory = ('table',), kept.guest(self.table, *processor)
        except model.Refusal as refusal:
            answer, memory = refusal.answer, EMPTY
        words = [*refusal_words(answer), *numbers(*kept.counts(memory)), memory_word(self.table, memory)]
        self.ask('guest', 0 if answer[0] == 'table' else answer[1], numbers(*processor), words)

    def write(self, name, data, room):
        """An image or a list for KVM, into as much room."""
        if room < len(data):
            self.ask(name, 9, numbers(room), [*numbers(9, 0, 0, 0, 0, 0), '-'])
        else:
            self.ask(name, 0, numbers(room), [*numbers(0, 0, 0, 0, 0, len(data)), edits(FILL * room, data + FILL * (room - len(data)))])

    def image(self, more):
        data = kept.image(self.table)
        self.write('image', data, max(0, len(data) + more))

    def kvm(self, more):
        data = kept.kvm(self.table)
        self.write('kvm', data, max(0, len(data) + more))

    def carry(self, *question):
        number, memory = kept.carried(self.table, *question)
        self.ask('carry', number, numbers(*question), numbers(number) + [memory_word(self.table, memory)])

    def compare(self, second):
        answer, key, register = kept.compare(self.table, second)
        leaf, subleaf = key or (0, None)
        words = [*numbers(answer, leaf), *subleaf_words(subleaf), *numbers(register or 0)]
        self.ask('compare', answer, [edits(kept.to_bytes(self.table), kept.to_bytes(second))], words)

    def counts(self):
        self.ask('counts', 'given', [], numbers(*kept.counts(self.table)))

    def fingerprint(self):
        digest = kept.fingerprint(self.table)
        kind = 'of rows' if kept.image(self.table) else 'of no bytes'
        self.ask('fingerprint', kind, [], [*numbers(*kept.counts(self.table)), edits(FILL * len(digest), digest)])


# What is asked of each table

def questions_at(out, key):
    """A leaf as it stands, with a subleaf that it has not, and without one, enforced and not."""
    leaf, subleaf = key
    for asked, enforce in product(dict.fromkeys((subleaf, None, 0, 5)), (False, True)):
        out.find(leaf, asked, enforce)


def of_a_processor(out, processor, places=SEEN + UNSEEN[:3], whole=True):
    apic, xcr0, xss, osxsave = processor
    out.state(xcr0, xss)
    if whole:
        out.guest(processor)
    for number, (leaf, subleaf) in enumerate(places):
        out.guest_find(processor, leaf, subleaf, number % 2 == 0)
        out.guest_find_kept((apic, xcr0, xss, osxsave), 0x1234567 * number & ALL, leaf, subleaf, number % 2 == 1)


def of_a_table(out, processors, places, whole=True):
    """All that can be asked of the table that stands; `whole` with what writes all of it."""
    out.counts()
    out.fingerprint()
    for leaf, subleaf in places:
        out.find(leaf, subleaf, True)
    for processor in processors:
        of_a_processor(out, processor, whole=whole)
    for editions in (1, 2), (1, 1), (2, 1), (model.NO_EDITION, 1):
        for xcr0, xss in (1, 0), (0, 0), (3, 0x800):
            out.carry(*editions, xcr0, xss)
    for more in (-1, 0, 3) if whole else (-1,):
        out.image(more)
        out.kvm(more)


PROCESSORS = (5, 7, 0x800, True), (0x1FF, 3, 0, True), (ALL, 1, 0, False), (9, 0, 0, False), (0, 1 << 63 | 1, 0, True), (1, 1, 1 << 63, True)


# The groups

def built(out):
    """Tables from pages, under each choice; every place is asked for of one."""
    out.build(MILAN, False, 1)
    for key in (*PLACES, *STRANGERS):
        questions_at(out, key)
    for processor in PROCESSORS:
        of_a_processor(out, processor, SEEN + UNSEEN)
    bare = spread(changed(rich(), STATE, 0, eax=3))
    for data, choice, edition in (MILAN, True, 2), (spread(rich()), False, 1), (spread(minimal()), False, 1), (bare, True, 1), (bare, False, 2):
        out.build(data, choice, edition)
        of_a_table(out, PROCESSORS[:3], PLACES[::3])


def refused(out):
    """Every refusal of building leaves a table without rows."""
    rows = rich()
    sets = [b'', MILAN[:-1], MILAN[:4096], b'\x41' + MILAN[1:], with_byte(MILAN, 0, 3, 47, 1), spread(without(rows, 7, 0))]
    sets += [spread(without(rows, STATE, 7)), spread(changed(rows, 0x80000008, ebx=0)), spread(changed(rows, STATE, 2, eax=ALL, ebx=1))]
    sets += [spread(with_topology(rows, *inputs)) for inputs in ((0, 0, 2, 0, 0), (0, 255, 0, 1, 0), (7, 127, 128, 1, 2))]
    for data in sets:
        out.build(data, False, 1)
    of_a_table(out, PROCESSORS[:2], PLACES[::20])
    for edition in 0, model.NO_EDITION, ALL:
        out.build(MILAN, False, edition)


def pooled(out):
    fewer, more = spread(changed(rich(), STATE, 0, eax=7)), spread(rich())
    lawful = [MILAN] * 2, [more, fewer], [fewer, more, fewer], [spread(minimal())] * 16
    for sets in *lawful, [MILAN], [b''] * 17, [more, MILAN], [more, b''], [more[:4096], more]:
        out.pool(sets)
    out.pool([more, fewer], None, True, 2)
    of_a_table(out, PROCESSORS[:2], PLACES[::5])
    out.pool([more, fewer], [8192, 8191])
    out.pool([more, fewer], [2 ** 64 - 8192, 24576])
    out.pool([more, fewer], None, False, 3)


def read(out):
    """Images of tables built and built otherwise, cut, out of order and with a byte more."""
    whole = model.image(model.build(MILAN, True, 1))
    otherwise = image_of(least(3, (0xA, 0, 0x800, 0))), b'', b'\3', image_of(fullest(7))
    for data in whole, whole[:-1], whole + b'\0', whole[21:], whole[:21] * 2, *otherwise:
        out.read(data)
        of_a_table(out, PROCESSORS[:1], PLACES[::11], whole=len(data) < 300)
    out.image(0)
    out.kvm(0)


def state_memory(draw):
    """Memory at random, whose leaf Dh is as a table may have it now and then."""
    often = draw.choice((0, .3, .7, .95, 1))
    origins = [draw.choice((1, 2, 3, 4, 67, 68, draw.getrandbits(64) | 4)) if draw.random() < often else 0 for _ in PLACES]
    registers = [draw.getrandbits(32) for _ in range(REGISTERS)]
    d0, d1 = (4 * PLACES.index((STATE, subleaf)) for subleaf in (0, 1))
    registers[d0] |= 1
    registers[d1] |= draw.choice((0, 2, 8, 0xA, 0xA))
    if draw.random() < .7:
        for subleaf in range(2, 64):
            at = 4 * PLACES.index((STATE, subleaf))
            registers[at] &= 0xFFFFFF
            registers[at + 1] &= draw.choice((0xFFFF, ALL))
    return tuple(registers), tuple(origins)


def at_random(out):
    """Memory of any content: registers where there is no row, origins that no function writes."""
    draw = random.Random(33)
    for number in range(24):
        memory = state_memory(draw)
        out.put_table(memory)
        one = kept.words(memory)[STATE, 1]
        xfem, xss = kept.words(memory)[STATE, 0][EAX], one[2] if one[0] & 0xA == 0xA else 0
        processors = [(draw.getrandbits(32), xfem & draw.getrandbits(32) | 1, xss & draw.getrandbits(32), draw.random() < .5) for _ in range(2)]
        processors.append((draw.getrandbits(32), draw.getrandbits(64), draw.getrandbits(64), True))
        of_a_table(out, processors, draw.sample(PLACES, 6), whole=number % 8 == 0)
        out.carry(1, 2, processors[0][1], processors[0][2])


def with_word(memory, at, value):
    return memory[0][:at] + (value,) + memory[0][at + 1:], memory[1]


def with_origin(memory, place, value):
    return memory[0], memory[1][:place] + (value,) + memory[1][place + 1:]


def compared(out):
    """A table beside itself, with one bit, word or row of either changed; built ones of more and fewer states; and at random."""
    draw = random.Random(34)
    out.build(spread(rich()), False, 1)
    rich_table = out.table
    for base in rich_table, kept.build(MILAN, False, 1)[1]:
        out.put_table(base)
        out.compare(base)
        out.compare(EMPTY)
        for place in range(len(PLACES)):
            out.compare(with_origin(base, place, 0 if base[1][place] else 3))
            for register in range(4):
                at = 4 * place + register
                out.compare(with_word(base, at, base[0][at] ^ 1 << draw.randrange(32)))
        at = 4 * PLACES.index((1, None)) + 3
        for bit in 27, 28, 29:
            out.compare(with_word(base, at, base[0][at] ^ 1 << bit))
        out.compare(with_word(base, 4 * PLACES.index((STATE, 0)) + 2, ALL))
    fewer = kept.build(spread(changed(rich(), STATE, 0, eax=7)), False, 1)[1]
    out.put_table(EMPTY)
    for second in EMPTY, fewer, state_memory(draw), with_word(EMPTY, 4 * PLACES.index((STATE, 0)), 7):
        out.compare(second)
    out.put_table(fewer)
    out.compare(rich_table)
    # a mask that the first has from registers without a row, and states beyond the first's, alike
    out.put_table(with_word(EMPTY, 4 * PLACES.index((STATE, 0)), 7))
    for second in EMPTY, with_origin(EMPTY, PLACES.index((STATE, 2)), 1), with_origin(with_word(EMPTY, 24, ALL), PLACES.index((STATE, 3)), 1):
        out.compare(second)
    for place in range(0, len(PLACES), 3):
        out.compare(with_origin(with_word(EMPTY, 24, ALL), place, 9))
    for _ in range(8):
        first = state_memory(draw)
        out.put_table(first)
        out.compare(first)
        out.compare(with_origin(first, draw.randrange(len(PLACES)), draw.choice((0, 1))))


GROUPS = built, refused, pooled, read, at_random, compared
KINDS = {
    'build': (0, 1, 2, 3, 4, 5, 6, 7, 8, 15, 17), 'pool': (0, 1, 3, 15, 18, 19), 'read': (0, 1), 'find': ('found', 'nothing'),
    'guest_find': (13, 14, 'found', 'nothing'), 'guest_find_kept': ('found', 'nothing'), 'state': (0, 13, 14), 'guest': (0, 13, 14),
    'image': (0, 9), 'kvm': (0, 9), 'carry': (0, 13, 14, 15, 16), 'compare': (0, 1, 2, 3, 4), 'counts': ('given',),
    'fingerprint': ('of rows', 'of no bytes')}


def made():
    out = List()
    for group in GROUPS:
        group(out)
    return out


def main(words):
    out = made()
    every = [f'{name} {kind}' for name, kinds in KINDS.items() for kind in kinds]
    return replayed.main(words, 'table', 'answers of tables', out.lines, out.kinds, every)


if __name__ == '__main__':
    sys.exit(main(sys.argv[1:]))
