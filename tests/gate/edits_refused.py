#!/usr/bin/env python3
"""edits_refused.py [FOLDER]: whether each must-fail edit is refused at a fact.

`rt ci` tries each edit too, and tells the first error alone. Here each is tried over the libraries that it left, and all that the prover says stands in
target/must-fail/CRATE/FILE.log. It is kept for the same files under the same kit, in ~/.cache/snp-cpuid/edits or below $XDG_CACHE_HOME. With FOLDER
nothing is tried, and the logs there are read.

An edit shows something only where what it says is what cannot be proved. An error about a name, a line that cannot be read, an import, or a proof
that no longer fits the shape of the code would also come of an edit that changes nothing. Prints each edit whose first error is such a one.

A file may hold several edits, each under a comment that opens with its name and with a line `at: FILE` or `at: FILE DECLARATION`: one check then
tries them all. Such an edit must be refused at a fact of its own, in the file of the crate that it names or in that declaration of it, and no two of
them name one place. Of a source file the declaration is a function, or TYPE::METHOD, whose fact needs no answer of ours.
"""
from collections import Counter
from concurrent.futures import ThreadPoolExecutor
from hashlib import sha256
from pathlib import Path
import os
import re
import shutil
import sys
import tempfile

import own_check

ROOT = Path(__file__).resolve().parents[2]

# what the check of a large crate takes
MOST_MEMORY = 4_000_000_000

# where an error stands, and the error, with the lines below it that are set in
ERROR = re.compile(r'^(\S+):\d+:\d+: error(?:\[[^]]*\])?: (.*(?:\n  .*)*)', re.MULTILINE)
# an error inside a declaration opens with its name; a line that cannot be read, or an import, has none
DECLARATION = re.compile(r'`[^`]+`: (.*)')
# such an error repeats another one
REPEATS = re.compile(r'.* was not admitted |\d+ declarations? that depends? on ')
# what rattle says of a fact that the proof which it made itself does not show, and then of the function; of one that is `not proved` an error stands
# elsewhere, and the fact may only want an answer that has another name
UNPROVED = re.compile(r'^note: (\S+):\d+:\d+: it is not proved that|^fn \w+::((?:\w+::)*\w+): (no proof: |not proved)', re.MULTILINE)

# a whole goal that is another one than the code now asks for
OTHER_GOAL = re.compile(r'expected type `(?:[^` ]*\.)?goals?\.', re.IGNORECASE)
NO_FACT = (
    ('a proof that no longer fits', r'module `[^`]*\.Goals` has no `[^`]*` that can be named from here'),
    ('a proof that no longer fits', r'^record `[^`]*`\s+has no field'),
    ('an import', r'has no `[^`]*` that can be named from here'),
    ('an unknown name', r'is not in scope'),
    ('a replay that fails', r'no occurrence'),
)


def anywhere(path, message):
    return True


def within(place):
    """Whether an error of a log stands in that file of the crate, or in that declaration of the file."""
    file, _, declaration = place.partition(' ')
    return lambda path, message: f'/{path}'.endswith('/' + file) and (not declaration or message.startswith(f'`{declaration}`: '))


def names(path):
    """The names of a function by its path in the crate: the last word, and each longer end of it, as a method's with its type."""
    words = path.split('::')
    return ['::'.join(words[at:]) for at in range(len(words))]


def unproved(text):
    """(file, function) of each fact that a proof which rattle made itself does not show."""
    found, files = [], []
    for file, function, how in UNPROVED.findall(text):
        if file:
            files.append(file)
        else:
            found += [(file, function if how != 'not proved' else '') for file in files]
            files = []
    return found + [(file, '') for file in files]


def no_fact(text, own=anywhere):
    """Why the first error of a log, of those that are its own, is no fact that is refused, with that error; None where it is a fact."""
    errors = (message for path, message in ERROR.findall(text) if own(path, message))
    first = next((message for message in errors if not REPEATS.match(message)), None)
    if first is None:
        return None if any(own(path, f'`{name}`: ') for path, function in unproved(text) for name in names(function)) else ('no error', '')
    line = first.split('\n')[0]
    inside = DECLARATION.match(line)
    if OTHER_GOAL.search(first):
        return 'a proof that no longer fits', line
    # a long name breaks the line before 'has no field'
    opening = ' '.join(first.split('\n')[:2])
    for why, pattern in NO_FACT:
        said = opening if pattern.startswith('^record') else line
        if re.search(pattern, DECLARATION.match(said).group(1) if inside else said):
            return why, line
    return None if inside else ('an error outside every declaration', line)


def sections(path):
    """[(name, comment, place that it must be refused at, or None)] of the edits that a file holds: each opens with a comment. Where there is one it
    has the file's name, and may be refused anywhere."""
    found = []
    for line in path.read_text(encoding='utf-8').splitlines():
        if line.startswith('#'):
            if not found or found[-1][2]:
                found.append([[], None, False])
            found[-1][0].append(line[1:].strip())
        elif line.startswith('at: ') and found:
            found[-1][1] = line[len('at: '):]
        elif line.startswith('old: '):
            if not found:
                found.append([[], None, False])
            found[-1][2] = True
    found = [(' '.join(comment), at) for comment, at, changes in found if changes]
    if len(found) == 1:
        return [(path.stem, *found[0])]
    places = [at for _, at in found]
    # a file without a declaration is the only one of that file
    files = Counter(at.split(' ')[0] for at in places if at)
    if len(set(places)) < len(places) or any(not at or ' ' not in at and files[at] > 1 or ': ' not in comment for comment, at in found):
        raise ValueError(f'{path}: of several edits in a file each has a name, and a place of its own to be refused at')
    return [(*comment.split(': ', 1), at) for comment, at in found]


def edits(root=ROOT):
    """(crate, file, name, which errors are its own) of every edit in the repository."""
    found = []
    for path in sorted(root.glob('crates/*/must-fail/*.edit')):
        for name, _, at in sections(path):
            found.append((path.parent.parent.name, path.stem, name, within(at) if at else anywhere))
    return found


def edited(text, crate):
    """{path: text} of the files that the edits of a file change, of the crate in this folder: each pair applies to what the earlier ones made."""
    file, old, texts = None, None, {}
    for line in text.splitlines():
        word, _, rest = line.partition(': ')
        if word == 'file':
            file = rest.strip()
        elif word == 'old':
            old = rest
        elif word in ('new', 'new:') and file and old is not None:
            there = texts.get(file) or (crate / file).read_text(encoding='utf-8')
            if there.count(old) != 1:
                raise ValueError(f'{file} does not have once: {old}')
            texts[file], old = there.replace(old, rest), None
    return texts


def key(root, crate, edit):
    """The sum of all that the answer to an edit is made of."""
    found = sha256((own_check.kit() / 'KIT-ID').read_bytes() + repr(own_check.lines(root)[crate]).encode() + edit.read_bytes())
    for path in own_check.files(root, {crate, *own_check.below(root, crate)}):
        if path.is_file():
            found.update(f'{path.relative_to(root)} '.encode() + sha256(path.read_bytes()).digest())
    return found.hexdigest()


def try_edits(root, folder):
    """Leaves what the prover says of each file of edits in FOLDER/CRATE/FILE.log; the largest crates come first."""
    store = Path(os.environ.get('XDG_CACHE_HOME') or Path.home() / '.cache') / 'snp-cpuid/edits'
    store.mkdir(parents=True, exist_ok=True)
    todo = []
    for edit in root.glob('crates/*/must-fail/*.edit'):
        crate = edit.parent.parent.name
        log, kept = folder / crate / f'{edit.stem}.log', store / key(root, crate, edit)
        log.parent.mkdir(parents=True, exist_ok=True)
        if kept.is_file():
            shutil.copyfile(kept, log)
        else:
            log.unlink(missing_ok=True)
            todo.append((sum(path.stat().st_size for path in own_check.files(root, {crate})), crate, edit, log, kept))
    for crate in sorted({crate for _, crate, *_ in todo}):
        try:
            own_check.hold_libraries(root, crate)
        except own_check.Unproved as why:
            print(why)
            todo = [each for each in todo if each[1] != crate]

    def one(crate, edit, log, kept):
        with tempfile.TemporaryDirectory() as room:
            kept_work = own_check.kept_work(root, crate, Path(room) / 'work')
            status, said = own_check.ask(root, 'check', crate, edited(edit.read_text(encoding='utf-8'), edit.parent.parent), '--jobs', '1', *kept_work)
        log.write_text(said, encoding='utf-8')
        if status == 1:
            shutil.copyfile(log, f'{kept}.new')
            os.replace(f'{kept}.new', kept)
        return status
    order = [rest for _, *rest in sorted(todo, key=lambda each: -each[0])]
    free = os.sysconf('SC_AVPHYS_PAGES') * os.sysconf('SC_PAGE_SIZE')
    with ThreadPoolExecutor(max(1, min(len(os.sched_getaffinity(0)), free // MOST_MEMORY))) as pool:
        ended = list(pool.map(lambda rest: one(*rest), order))
    # a limit of the machine is no answer: once more, alone
    for rest in (rest for rest, status in zip(order, ended) if status not in (0, 1)):
        one(*rest)


def main(words, root=ROOT):
    folder = Path(words[0]) if words else root / 'target' / 'must-fail'
    if not words:
        try:
            try_edits(root, folder)
        except (own_check.Unproved, ValueError) as why:
            print(why)
            return 1
    wrong = 0
    asked = edits(root)
    for crate, file, name, own in asked:
        log = folder / crate / f'{file}.log'
        found = no_fact(log.read_text(encoding='utf-8', errors='replace'), own) if log.is_file() else ('not tried', str(log))
        if found:
            wrong += 1
            print(f'{crate}/{name}: {found[0]}: {found[1][:200]}')
    print(f'{len(asked) - wrong} edits refused at a fact' + (f', {wrong} not' if wrong else ''))
    return 1 if wrong else 0


if __name__ == '__main__':
    sys.exit(main(sys.argv[1:]))
