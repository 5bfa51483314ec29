#!/usr/bin/env python3
"""crate_list.py: the list of crates as Markdown, made from crates.txt and from the comment that each crate's src opens with.

Without a word it prints the list; --write puts it between the two marks in docs/ARCHITECTURE.md, and --check fails where the page has another one.
A heading is one of crates.txt. A row has the crate, the comment that its src/lib.rt or src/main.rt opens with, up to an empty line, and the crates
that its line in crates.txt names, without those that another one named there stands on already. The kit's own crates are left out.
"""
import re
import sys

from made_list import ROOT, MadeList, Unlisted, groups

HEAD = ['| crate | what it is | stands on |', '|---|---|---|']


def below(named, crate):
    """All crates that one stands on, in any number of steps."""
    found, left = set(), list(named[crate])
    while left:
        each = left.pop()
        if each not in found:
            found.add(each)
            left += named[each]
    return found


def directly(named, crate):
    """The crates that one names, without those that another one of them stands on."""
    covered = set().union(*(below(named, each) for each in named[crate]))
    return [each for each in named[crate] if each not in covered]


def opening(root, crate):
    """What a crate is: the sentences that its source opens with, without the last full stop."""
    for file in 'lib.rt', 'main.rt':
        path = root / 'crates' / crate / 'src' / file
        if path.is_file():
            comment = re.match(r'(?:// .*\n)*', path.read_text(encoding='utf-8'))[0]
            text = ' '.join(line[2:].strip() for line in comment.splitlines())
            if not text.endswith('.'):
                raise Unlisted(f'crates/{crate}/src/{file} does not open with a sentence in a comment')
            return text[:-1].replace('|', r'\|')
    raise Unlisted(f'crates/{crate}/src has no lib.rt and no main.rt')


def rows(root):
    """[(heading, the rows of its crates)]."""
    found = groups(root)
    named = {crate: names for _, crates in found for crate, names in crates.items()}
    return [(heading, [f'| [{crate}](../crates/{crate}) | {opening(root, crate)} | {", ".join(directly(named, crate))} |'.replace('|  |', '| |')
                       for crate in crates])
            for heading, crates in found]


LIST = MadeList('docs/ARCHITECTURE.md', 'crates', 'crate_list.py', HEAD, rows)


def main(words, root=ROOT):
    return LIST.main(words, __doc__, root)


if __name__ == '__main__':
    sys.exit(main(sys.argv[1:]))
