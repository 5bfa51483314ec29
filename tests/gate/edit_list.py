#!/usr/bin/env python3
"""edit_list.py: the list of edits that must fail as Markdown, made from the comments in crates/NAME/must-fail/LABEL.edit.

Without a word it prints the list; --write puts it between the two marks in docs/EDITS.md, and --check fails where the page has another one. Order
and headings are those of crates.txt. A row has the edit and its comment, which says what wrong answer or reading the edit makes. An edit without one
is told, and there is no list then.
"""
import re
import sys

from edits_refused import sections
from made_list import ROOT, MadeList, Unlisted, groups

HEAD = ['| edit | what it would let pass |', '|---|---|']


def rows_of(root, path):
    """A row for each edit that a file holds: its name, and what it says of itself, without the last full stop."""
    crate, found = path.parent.parent.name, []
    for name, text, _ in sections(path) or [('', '', [])]:
        if not re.search(r'\w', text):
            raise Unlisted(f'{path.relative_to(root)} does not open with a comment that says what it would let pass')
        said = re.sub(r'\.$', '', text).replace('|', r'\|')
        found.append(f'| [{crate}/{name}](../{path.relative_to(root)}) | {said} |')
    return found


def rows(root):
    """[(heading, the rows of its crates' edits)], without a heading that has none."""
    found = [(heading, [row for crate in crates for path in sorted((root / 'crates' / crate / 'must-fail').glob('*.edit')) for row in rows_of(root, path)])
             for heading, crates in groups(root)]
    return [(heading, edits) for heading, edits in found if edits]


LIST = MadeList('docs/EDITS.md', 'edits', 'edit_list.py', HEAD, rows)


def main(words, root=ROOT):
    return LIST.main(words, __doc__, root)


if __name__ == '__main__':
    sys.exit(main(sys.argv[1:]))
