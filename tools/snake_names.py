#!/usr/bin/env python3
"""Turns the names of definitions and lemmas to snake case, in crates/ and in the files that are named.

usage: tools/snake_names.py            in the repository: every name that specs/ and proofs/ declare, in all of crates/
       tools/snake_names.py FILE..     the same names in these files, as words between backticks or quotes or as whole words with a dash or a capital

It ran once, right after port.py. The names are those in tools/snake_names.tsv, old and new: the script writes that list where it is not there.
Types and modules keep their capitals. A name that would fall together with another one gets `_lem`.
"""
import collections
import pathlib
import re
import sys

ROOT = pathlib.Path(__file__).resolve().parents[1]
LIST = ROOT / 'tools/snake_names.tsv'
WORD = r"[A-Za-z_][\w'′₀-₉²-]*"
# what a declaration begins with
DECLARED = re.compile(r"^(\s*)((?:pub |abbrev |unfoldable )*)(data|record|module|ruleset)? ?(" + WORD + r")(.*)$")
KEYWORDS = {'use', 'unfolding', 'open', 'infixl', 'infixr', 'let', 'in', 'where', 'elim', 'rw', 'record', 'mod', 'pub', 'abbrev', 'unfoldable'}
# words of an import from a module that is not this repository's
FOREIGN = re.compile(r"^\s*(?:pub )?(?:ghost )?use (?!Rattle\.(?:OWN)\.)([\w.′']+)\.\{([^}]*)\}", re.MULTILINE)
# definitions whose name in snake case is another one's
APART = {'cleanAt': 'is_clean_at', 'firstEntry': 'first_entry_of', 'isWithin': 'within_test', 'rowLawful': 'is_row_lawful', 'sameRow': 'is_same_row'}
# `result` is Rattle's word for what a function returns: the definition of that name is `cpuid_result`
RESULT_FROM = re.compile(r"Rattle\.x86defs\.specs\.Functions\.\{[^}]*\bresult\b|^abbrev pub result :", re.MULTILINE)
RESULT = re.compile(r"(?<![.\w'-])result(?![\w'-])(?! =)(?! :(?! \u2115 \u2192 \u2115 \u2192 \u2115))")


def snake(name):
    words = re.sub(r'(?<=[a-z0-9])([A-Z])', r'_\1', name)
    words = re.sub(r'(?<=[A-Z])([A-Z][a-z])', r'_\1', words)
    return words.replace('-', '_').replace('′', "'").lower()


def files():
    for crate in sorted((ROOT / 'crates').iterdir()):
        for part in 'specs', 'proofs', 'src':
            yield from sorted(path for path in (crate / part).rglob('*') if path.suffix in ('.antt', '.rt'))


def declared():
    """Each name that a file of specs/ or a lemma file of proofs/ declares, with the files; fields of records apart."""
    names, fields, definitions = collections.defaultdict(set), set(), set()
    for path in files():
        if path.suffix != '.antt' or path.name in ('Proof.antt', 'Answers.antt', 'Invariants.antt'):
            continue
        record = None
        for line in path.read_text(encoding='utf-8').splitlines():
            found = DECLARED.match(line)
            if not line.strip() or not found:
                continue
            indent, marks, kind, name, rest = found.groups()
            if record is not None and len(indent) <= record:
                record = None
            if kind == 'record' and rest.rstrip().endswith('where') or kind == 'data' or (kind is None and rest.rstrip().endswith('where') and marks):
                record = len(indent) if kind == 'record' else record
            if kind == 'module' or name in KEYWORDS:
                continue
            typed = re.match(r"^\s*(\{[^}]*\}\s*)*(\([^()]*\)\s*)*:", rest)
            if kind in ('data', 'record') or typed:
                if record is not None and indent and kind is None:
                    fields.add(name)
                names[name].add(path)
                if kind in ('data', 'record') or 'abbrev' in marks or 'unfoldable' in marks:
                    definitions.add(name)
    return names, fields, definitions


def foreign_words(pattern):
    """The words that some file imports from a module that is not this repository's."""
    words = set()
    for path in files():
        for _, list_of in pattern.findall(path.read_text(encoding='utf-8')):
            words.update(part.strip() for word in list_of.split(',') for part in word.split(' as '))
    return words


def rust_words():
    """The words of the code itself, without what a clause or a comment says."""
    words = set()
    for path in files():
        if path.suffix == '.rt':
            text = re.sub(r'//[^\n]*|ghost use [^;]*;|(?:ensures|requires)[^{\n]*\{[^\n]*\}$', '', path.read_text(encoding='utf-8'), flags=re.MULTILINE)
            words.update(re.findall(WORD, text))
    return words


def turned(pattern):
    names, fields, definitions = declared()
    foreign, rust = foreign_words(pattern), rust_words()
    plain = {name for name in names if snake(name) == name or name[0].isupper()}
    turn, taken = {}, set(foreign)
    fixed = {name for name in plain if name in fields or name in definitions or name in rust or name[0].isupper()}
    taken |= fixed

    def give(name, new):
        if new in taken:
            print(f'{name}: {new} is taken', file=sys.stderr)
            new += '_lem'
        assert new not in taken, (name, new)
        taken.add(new)
        if new != name:
            turn[name] = new
    camel = [name for name in sorted(names) if name not in plain and '-' not in name]
    for name in sorted(camel, key=lambda name: (name not in definitions, name)):
        give(name, APART.get(name, snake(name)))
    for name in sorted(plain - fixed - foreign):
        give(name, name)
    for name in sorted(name for name in names if name not in plain and '-' in name):
        give(name, snake(name))
    return turn, fields


def main():
    crates = '|'.join(sorted(path.name for path in (ROOT / 'crates').iterdir()))
    foreign = re.compile(FOREIGN.pattern.replace('OWN', crates), re.MULTILINE)
    if not LIST.exists():
        turn, fields = turned(foreign)
        lines = [f'{old}\t{new}\t{"field" if old in fields else "name"}' for old, new in sorted(turn.items())]
        LIST.write_text('\n'.join(lines) + '\n', encoding='utf-8')
    rows = [line.split('\t') for line in LIST.read_text(encoding='utf-8').splitlines()]
    turn, fields = {old: new for old, new, _ in rows}, {old for old, _, kind in rows if kind == 'field'}
    own_path = re.compile(rf"(?:Rattle\.(?:{crates})\.|tie\.)[\w.'′-]*$")

    def turn_text(text, path, is_prose=False):
        kept = set()
        if RESULT_FROM.search(text) and path.suffix == '.antt':
            text = ''.join(line if line.lstrip().startswith('--') else RESULT.sub('cpuid_result', line) for line in text.splitlines(True))
        for _, words in foreign.findall(text):
            for word in words.split(','):
                kept.update(part.strip() for part in word.split(' as '))
        walked = path.name == 'Proof.antt'

        def turn_word(found):
            word = found[0]
            new = turn.get(word)
            if new is None or word in kept:
                return word
            before = text[max(0, found.start() - 200):found.start()]
            if before.endswith('.') and not before.endswith('..'):
                if own_path.search(before) and not before.endswith('tie.'):
                    return new
                # a module by a short name
                if re.search(r"(?<![\w.])[A-Z]\w*(?:\.[A-Z]\w*)*\.$", before):
                    return new
                if word in fields and not walked:
                    return new
                return word
            if before.endswith('#') or is_prose and word == snake(word):
                return word
            return new
        return re.sub(WORD, turn_word, text)

    paths = [pathlib.Path(name) for name in sys.argv[1:]] or list(files())
    changed = 0
    for path in paths:
        text = path.read_text(encoding='utf-8')
        if path.suffix == '.rt':
            # only clauses and imports for clauses have such names; a string is not touched
            new = re.sub(r'"(?:[^"\\]|\\.)*"|[^"]+', lambda found: found[0] if found[0].startswith('"') else turn_text(found[0], path), text)
        else:
            new = turn_text(text, path, path.suffix not in ('.antt', '.rt', '.edit'))
        if new != text:
            path.write_text(new, encoding='utf-8')
            changed += 1
    print(f'{len(turn)} names, {changed} files changed')


if __name__ == '__main__':
    main()
