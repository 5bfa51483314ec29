#!/usr/bin/env python3
"""believed.py: the lines that a reader has to believe, as Markdown: for demand 3, and for demands 1 and 2.

Without a word it prints the lists; --write puts them between the two marks in docs/REVIEW.md, and --check fails where the page has others. Counted
are lines that are neither comments, imports nor blank: those of a word's definition, and of the words that it uses in turn, whatever file they stand in,
so that a rule that moves is counted where it goes. What comes from the kit (natural numbers, lists, bits of a number) is not counted.

For demands 1 and 2 that is all of the theorems of document 01, all of the paper's page, and the words that this page uses. For demand 3 it is the
statement by the letter and the words that it uses; of a word whose value a theorem of document 01 gives in the paper's figures (DETERMINED), that
theorem's statement counts with its own words, and the definition does not.
"""
from collections import defaultdict
import re
import sys

from made_list import ROOT, MadeList, Unlisted

THEOREMS, PAGE = 'crates/theorems/specs/Document01.antt', 'crates/letter/specs/Paper.antt'
RISE, STATEMENT = 'crates/rise/specs/Rise.antt', 'Demand3ByTheLetter'
READ_FIRST = (RISE, 'crates/finish/specs/Kinds.antt', 'crates/refusals/specs/Conditions.antt', THEOREMS, PAGE)
DETERMINED = {
    ('build', 'Build', 'answer'): ('verdict_by_the_letter', 'table_by_the_letter'),
    ('collect', 'Lawful', 'lawful_verdict'): ('lawful_by_the_letter',),
    ('collect', 'FirstEntries', 'first_at'): ('first_entries_by_the_letter',),
    ('pages', 'Entries', 'entries'): ('entries_by_the_letter',),
    ('pages', 'Entries', 'counted'): ('entries_by_the_letter',),
    ('masking', 'Kept', 'masks_at'): ('masks_by_the_letter',),
    ('masking', 'Kept', 'leaf_at'): ('registers_by_the_letter',),
    ('letter', 'Names', 'sub_at'): ('registers_by_the_letter',),
    ('finish', 'Kinds', 'kinds_at'): ('registers_by_the_letter',),
    ('finish', 'Finish', 'rule_at'): ('rows_without_entry',),
}
MOST_NAMED = 12  # of more words the list says how many they are
HEAD = ['| file | what is used of it | lines |', '|---|---|---|']
IMPORT = re.compile(r"^(?:ghost )?use Rattle\.(?!std\.)(\w+)\.specs\.([\w.'-]+?)(?:\.TheVariants)?(?:\.\{(.*)\})?(?: as (\w+))?;?$")
DEFINED = r'^(?: +(?=abbrev |unfoldable ))?(?:(?:abbrev|unfoldable|pub|record|data) )+{}(?= [:({{])'
DECLARED = r'^pub (?:struct|enum) {}\b.*?(?:^\}}|;)$'


def code(text):
    """The lines of a text that are neither comments, imports nor blank."""
    lines = (re.sub(r'(^|\s)(--|//).*', '', line).rstrip() for line in text.splitlines())
    return [line for line in lines if line.strip() and not re.match(r'\s*(ghost |pub )?(use|mod) ', line)]


class Words:
    """What a repository's files define and bring in. `determined` has the words of which a theorem is counted in place of the definition."""

    def __init__(self, root, determined=()):
        self.root, self.counted, self.files = root, defaultdict(dict), {}
        self.determined = {(f'crates/{crate}/specs/{file}.antt', name): determined[crate, file, name] for crate, file, name in determined}

    def text(self, file):
        if file not in self.files:
            path = self.root / file
            if not path.is_file():
                raise Unlisted(f'{file} is not there')
            self.files[file] = path.read_text(encoding='utf-8')
        return self.files[file]

    def brought(self, file):
        """{name: (file, name there)} of what a file brings in from the crates."""
        found = {}
        for line in self.text(file).splitlines():
            match = IMPORT.match(line)
            for each in (match[3] or '').split(', ') if match else []:
                name, _, here = each.partition(' as ')
                if name:
                    found[here or name] = self.home(match[1], match[2], name)
        return found

    def modules(self, file):
        """{name: file} of the files that a file brings in as a whole."""
        found = filter(None, map(IMPORT.match, self.text(file).splitlines()))
        return {match[4] or match[2]: f'crates/{match[1]}/specs/{match[2]}.antt' for match in found if not match[3] and '.' not in match[2]}

    def home(self, crate, module, name):
        """The file that defines a name of a module, and the definition that it is part of: a case of a type is its type's."""
        if module.startswith('declared.'):
            named = module.split('.')[-1]
            for path in sorted((self.root / 'crates' / crate / 'src').rglob('*.rt')):
                if re.search(DECLARED.format(named), path.read_text(encoding='utf-8'), re.MULTILINE | re.DOTALL):
                    return path.relative_to(self.root).as_posix(), named
            raise Unlisted(f'crates/{crate}/src declares no {named}')
        file, _, kind = module.partition('.')
        return f'crates/{crate}/specs/{file}.antt', kind or name

    def block(self, file, name):
        """The lines of a definition, up to the next blank line; of a theorem those of its statement."""
        text = self.text(file)
        if file.endswith('.rt'):
            return code(re.search(DECLARED.format(name), text, re.MULTILINE | re.DOTALL)[0])
        begins = self.defines(file, name)
        if not begins:
            raise Unlisted(f'{file} does not define {name}')
        text = re.split(r'\n\s*\n', text[begins.start():], maxsplit=1)[0]
        return code(re.split(rf'\n(?:unfolding |{name}\b)', text)[0] if file == THEOREMS else text)

    def defines(self, file, word):
        """Whether a file defines a word."""
        begins = DECLARED if file.endswith('.rt') else DEFINED
        return re.search(begins.format(re.escape(word)), self.text(file), re.MULTILINE | re.DOTALL)

    def take(self, file, name):
        """Counts a definition and those that it rests on, or the theorems that determine it."""
        for theorem in self.determined.get((file, name), ()):
            self.take(THEOREMS, theorem)
        if (file, name) in self.determined or name in self.counted[file]:
            return
        lines = self.counted[file][name] = self.block(file, name)
        brought, modules = self.brought(file), self.modules(file)
        for module, word in set(re.findall(r'(?:\b(\w+)\.)?([^\s(){}\[\],;:.&]+)', ' '.join(lines))):
            if module in modules and self.defines(modules[module], word):
                self.take(modules[module], word)
            elif word in brought:
                self.take(*brought[word])
            elif self.defines(file, word):
                self.take(file, word)

    def rows(self, first=()):
        """How many lines, and a row for each file: the rows of `first`, then the files in the order of reading, then the others."""
        made = list(first)
        order = [*(file for file in READ_FIRST if file in self.counted), *sorted(file for file in self.counted if file not in READ_FIRST)]
        for file in order:
            names = self.counted[file]
            used = f'{len(names)} words' if len(names) > MOST_NAMED else ', '.join(f'`{name}`' for name in sorted(names))
            made.append((file, used, sum(map(len, names.values()))))
        return sum(lines for *_, lines in made), [f'| {link(file)} | {used} | {lines} |' for file, used, lines in made]


def link(file):
    return f'[{re.sub(r"^crates/|[.]antt$", "", file)}](../{file})'


def rows(root):
    """[(heading, the rows of its files)]."""
    rise = Words(root, DETERMINED)
    rise.take(RISE, STATEMENT)
    paper = Words(root)
    for home in paper.brought(PAGE).values():
        paper.take(*home)
    whole = [(THEOREMS, 'the theorems', len(code(paper.text(THEOREMS)))), (PAGE, 'the paper in its own figures', len(code(paper.text(PAGE))))]
    (first, listed), (lines, made) = rise.rows(), paper.rows(whole)
    both = sum(len(block) for file, names in rise.counted.items() for name, block in names.items()
               if file in (THEOREMS, PAGE) or name in paper.counted[file])
    return [(f'{first} lines to believe for demand 3, the rise', listed),
            (f'{lines} lines to believe for demands 1 and 2, {lines - both} of them not above', made)]


LIST = MadeList('docs/REVIEW.md', 'files to believe', 'believed.py', HEAD, rows)


def main(given, root=ROOT):
    return LIST.main(given, __doc__, root)


if __name__ == '__main__':
    sys.exit(main(sys.argv[1:]))
