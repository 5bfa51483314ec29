"""Tests of model.py and model_added.py: document 02, P9, added entries change no answer."""
import itertools
import random
import unittest

import model
from model_added import added, covered, last_page, read
from pagesets import MILAN, PAGE_ENTRIES, STATE, changed, entries, minimal, page, pages, rich, split, spread, with_topology, without

LEAVES = sorted({leaf for leaf, _ in model.KEPT[False]})


def groups(source):
    """The entries of each page, up to its count, as `pagesets.pages` takes them."""
    return [[read(source, number, position) for position in range(count)] for number, count in enumerate(model.page_counts(source))]


def grown(source, spare=(), further=()):
    """The page set with the spare entries after its last one, and further pages."""
    found = groups(source)
    found[last_page(model.page_counts(source))] += spare
    return pages(*found, *further)


def draw_entry(draw):
    """An entry of any leaf: a kept one, a Dh subleaf, or one that is filtered; its registers anything."""
    leaf = draw.choice([*LEAVES, STATE, STATE, STATE, 2, 0x40000000, 0x80000021, draw.getrandbits(32)])
    subleaf = draw.choice([0, 1, draw.randrange(70), draw.getrandbits(32)])
    return leaf, subleaf, *(draw.choice([0, 0xFFFFFFFF, draw.getrandbits(32)]) for _ in range(4))


def row_sets():
    """Rows of accepted tables, and rows refused by each of 4 to 8."""
    yield minimal()
    yield rich()
    yield changed(rich(), STATE, 1, eax=0)
    yield changed(minimal(), 0x80000008, ebx=0)
    yield changed(rich(), STATE, 6, eax=0xFFFFFFFF, ebx=1)
    for inputs in (0, 0, 2, 0, 0), (7, 127, 128, 0, 0), (0, 255, 0, 1, 0), (3, 8, 8, 1, 0), (0, 0, 1, 1, 1), (15, 0, 0, 0, 2):
        yield with_topology(minimal(), *inputs)


def layouts(rows):
    """The rows on two pages, on one page after an empty one, with empty pages at the end, and on four pages."""
    main, state = split(rows)
    yield pages(main, state)
    yield pages([], entries(rows))
    yield pages(main, state, [], [])
    yield pages(main[:7], state + main[7:9], [], main[9:])


def sets():
    yield MILAN
    for rows in row_sets():
        yield from layouts(rows)


class AddedEntries(unittest.TestCase):
    def test_numbers_are_all_there(self):
        """The sets below are accepted ones, and ones refused by each of 4 to 8."""
        answers = [model.build(source, False) for source in sets()]
        self.assertTrue(all(covered(answer) for answer in answers))
        self.assertEqual({answer[1] for answer in answers if answer[0] == 'refusal'}, {4, 5, 6, 7, 8})

    def test_answer_stays(self):
        draw = random.Random(9)
        for source in sets():
            for secure_avic, edition in itertools.product((False, True), (1, 2)):
                wanted = model.build(source, secure_avic, edition)
                room = PAGE_ENTRIES - max(model.page_counts(source))
                for _ in range(12):
                    spare = [draw_entry(draw) for _ in range(draw.randrange(room + 1))]
                    further = [[draw_entry(draw) for _ in range(draw.choice([0, 1, 5, 64]))] for _ in range(draw.randrange(4))]
                    after = grown(source, spare, further)
                    self.assertTrue(added(source, after))
                    self.assertEqual(model.build(after, secure_avic, edition), wanted)

    def test_every_row_again_changes_nothing(self):
        """Each kept leaf and subleaf once more, with other registers: the first entry has won. Dh subleaves without their bit stay away."""
        for source in sets():
            wanted = model.build(source, False)
            for leaf, subleaf in model.KEPT[False]:
                again = (leaf, subleaf or 0, 0xFFFFFFFF, 0xFFFFFFFF, 0xFFFFFFFF, 0xFFFFFFFF)
                for after in grown(source, [again]), grown(source, (), [[again]]):
                    self.assertTrue(added(source, after))
                    self.assertEqual(model.build(after, False), wanted)

    def test_what_is_not_read_may_differ(self):
        """XCR0_IN, XSS_IN, bytes after the count and unused entries are no part of what is compared."""
        main, state = split(rich())
        self.assertTrue(added(pages(main, state), pages(main, state, fill=0xA5)))

    def test_chains(self):
        """Entries added to entries added: still added to the first."""
        draw = random.Random(10)
        first = source = spread(minimal())
        for _ in range(20):
            source = grown(source, [draw_entry(draw)], [[]] * draw.randrange(2))
            self.assertTrue(added(first, source))
        self.assertEqual(model.build(source, False), model.build(first, False))


class NotCovered(unittest.TestCase):
    def test_a_missing_leaf_may_arrive(self):
        """Refusal 3, of the lists and of the extended state: the entry added after the last one lets the set in."""
        for key in rich():
            if key == (STATE, 9):
                continue
            before = spread(without(rich(), *key))
            answer = model.build(before, False)
            self.assertEqual(answer, ('refusal', 3, *key, 0))
            self.assertFalse(covered(answer))
            after = grown(before, entries({key: rich()[key]}))
            self.assertTrue(added(before, after))
            self.assertEqual(model.build(after, False)[0], 'table')

    def test_another_refusal_may_come(self):
        """From 3 to 3 with another leaf, and from 3 to 4."""
        bare = without(without(minimal(), 1), 5)
        self.assertEqual(model.build(spread(bare), False), ('refusal', 3, 1, None, 0))
        self.assertEqual(model.build(grown(spread(bare), [(1, 0, 0, 0, 0, 0)]), False), ('refusal', 3, 5, None, 0))
        bare = without(changed(minimal(), 0x80000008, ebx=0), 5)
        self.assertEqual(model.build(grown(spread(bare), [(5, 0, 0, 0, 0, 0)]), False), ('refusal', 4, 0, None, 0))


class NotAdded(unittest.TestCase):
    def test_earlier_page(self):
        """Another page's count raised: its new entry comes before those of later pages, and decides."""
        main, state = split(without(minimal(), 5))
        before = pages(main, state + [(5, 0, 1, 2, 3, 4)])
        after = pages(main + [(5, 0, 9, 9, 9, 9)], state + [(5, 0, 1, 2, 3, 4)])
        self.assertFalse(added(before, after))
        self.assertEqual([model.build(source, False)[1][5, None] for source in (before, after)], [(1, 2, 3, 4), (9, 9, 9, 9)])

    def test_page_without_entries(self):
        """Pages that had no entry stay without, before and after the last that had one."""
        main, state = split(minimal())
        spare = [(1, 0, 0, 0, 0, 0)]
        self.assertTrue(added(pages(main, state, []), pages(main, state + spare, [])))
        self.assertFalse(added(pages(main, state, []), pages(main, state, spare)))
        self.assertFalse(added(pages([], main + state), pages(spare, main + state)))
        # "further pages at the end" may hold entries
        self.assertTrue(added(pages(main, state, []), pages(main, state, [], spare)))
        # without any entry there is no last page that had one
        self.assertFalse(added(pages([]), pages(spare)))
        self.assertTrue(added(pages([]), pages([], spare)))

    def test_fewer_or_others(self):
        main, state = split(minimal())
        before = pages(main, state)
        self.assertTrue(added(before, before))
        for after in pages(main), pages(main, state[:-1]), pages(main, state[::-1]), pages(main[1:], state), pages([], main, state):
            self.assertFalse(added(before, after))

    def test_unlawful(self):
        """ "with lawful counts" """
        main, state = split(minimal())
        many = [(0, 0, 0, 0, 0, 0)] * 64
        self.assertTrue(added(pages(main, state), pages(main, state, many)))
        self.assertFalse(added(pages(main, state), page(main) + page(state, count=65)))
        self.assertFalse(added(pages(main, state), pages(main, state) + page(many, count=65)))
        self.assertFalse(added(pages(main, state), pages(main, state) + b'\0'))


if __name__ == '__main__':
    unittest.main()
