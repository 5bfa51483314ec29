#!/usr/bin/env python3
"""named.py [FOLDER]: whether what comments and documents name is there, in the repository in FOLDER or in this one.

Read are the comments of the .rt, .antt and .edit files under crates/, and README.md, CONTRIBUTING.md, CHANGELOG.md and docs/*.md. Checked are
  a path       that begins with a top folder (tests/run) or with a crate (bits/specs/Bits, with .antt or without)
  a file       of a crate (specs/Bits.antt, Bits.antt, place.rt): the comment's own crate or one named before it in the paragraph; in a row of a table
               also a further file as in bits/specs/Bits `has`; Lists `concat`. Bits.antt alone is that of specs/ or of proofs/
  a link       relative to its document; what follows # is a heading of the page
  an item      crate::item, of the crate's src; snp_cpuid::item may also be of the crate for Rust
  a crate      where the word crate stands before its name, in a picture after |   or +--, and in a list as in (over bits, rows)
  a name       in backticks right after a file, or before it as in `name` of FILE, `name` (FILE) and (`name`, FILE): the file defines it
  other names  with an underscore, and in backticks those with a hyphen or a capital too: a name that a crate defines or brings in, a crate, a file of
               specs/, or a word of the code beside the crates

A word in capitals, * and .. in a path stand for any name (crates/NAME/must-fail/LABEL.edit); there must be one such path. Six documents name what is
gone: docs/CHANGES.md and docs/HISTORY.md tell what has moved away, docs/PORT.md, docs/DESIGN-PASS.md and docs/LOOK-BACK.md what had another spelling
or form, and only their links are checked; docs/DECISIONS.md tells what was not chosen, and its other names are not checked.

Each thing that is not there is a line FILE:LINE: what. The last line counts the documents and the names that are there, and the exit status is 0 only
where none is missing.
"""
from functools import cache
from pathlib import Path
import os
import re
import sys

ROOT = Path(__file__).resolve().parents[2]
TOP = 'crates|docs|tests|rust|include|differential|bench|install|examples'
INSIDE = 'specs|src|proofs|must-fail'
LINKS_ONLY = {'docs/CHANGES.md', 'docs/HISTORY.md', 'docs/PORT.md', 'docs/DESIGN-PASS.md', 'docs/LOOK-BACK.md'}
NO_OTHER_NAMES = {'docs/DECISIONS.md'}
# a name that stands for any; names of Rust's library and of Linux
ELSEWHERE = {'Name', 'HashMap', 'kernel_fpu_begin'}
CODE = {'.rs', '.c', '.h', '.py', '.toml', '.in', ''}

TOKEN = re.compile(
    r'\]\((?P<link>[^)\s]+)\)'
    r'|^ +(?:\|  |\+--) (?P<drawn>[a-z]\w*(?:, [a-z]\w*)*)(?=,?(?:  |$))'
    r'|\(over (?P<over>[a-z]\w*(?:, [a-z]\w*)+)\)'
    rf'|(?<![\w./-])(?P<path>(?:(?:{TOP})/|(?!target/)[a-z]\w*/(?:{INSIDE})/)(?:[\w.*/-]*[\w*/])?)'
    rf'|(?<![\w./-])(?P<own>(?:{INSIDE})/[\w.*/-]*\w)(?:\s+of\s+crate\s+`?(?P<whose>\w+)`?)?'
    r'|(?<![\w./*-])(?P<bare>[A-Z]\w*\.antt|[a-z]\w*\.rt)\b(?!\]\()'
    r'|(?<![\w:·./-])(?P<item>[a-z]\w*(?:::[A-Za-z_]\w*)+)'
    r'|\b[Cc]rates?\s+(?:`(?P<crate>[a-z]\w*)`|(?P<plain>[a-z]+_\w+))'
    r'|(?<=[,;] )(?P<further>[A-Z]\w+)(?= `|[,;] | \|)'
    r'|`(?P<other>[A-Za-z][\w′]*(?:[-_](?!N`)[\w′]+)+|[A-Za-z]\w*[a-z0-9][A-Z][\w′]*|[A-Z][a-z][\w′]*)`'
    r'|(?<![\w./:·`$"-])(?P<word>[a-z][a-z0-9]*_\w+)(?![\w/:`·])(?!\.\w)', re.MULTILINE)
NAME = r'`([^`\s]+)`'
AFTER = re.compile(rf'\s+{NAME}')
AFTER_AGAIN = re.compile(rf',\s+{NAME}')
BEFORE = re.compile(rf'{NAME}\s+(?:of\s+|in\s+|\()\[?$|\({NAME},\s+\[?$')

COMMENT = {'.rt': re.compile(r'//(.*)'), '.antt': re.compile(r'(?:^|\s)--(?=[\s-]|$)(.*)'), '.edit': re.compile(r'^#(.*)')}
# constructors of one type on one line
ALIKE = re.compile(r'^ +((?:[^\s:({=→]+ ){2,}):(?= )', re.MULTILINE)
KEYWORDS = 'fn|struct|enum|const|static|type|trait|mod'
ITEM = re.compile(rf'\b(?:{KEYWORDS})\s+(\w+)')
# a case of an enum or a field of a struct, which may stand after an item
PART = re.compile(r'^\s*(?:pub )?([A-Za-z_]\w*)(?=[(,{:]| \{| =)', re.MULTILINE)
DEFINITION = re.compile(r'^ *(?:(?:abbrev|unfoldable|pub|record|data|let) )*([^\s:({]+) (?=[:({])', re.MULTILINE)
BROUGHT_IN = re.compile(r'^use [^{\n]*\{([^}]*)\}', re.MULTILINE)
HEADING = re.compile(r'^#+ +(.*?)\s*$')


def blocks(kind, text):
    """The prose of a file: comments that stand together, paragraphs, items of a list and rows of a table, each a list of (line number, text)."""
    found = [[]]
    for number, line in enumerate(text.split('\n'), 1):
        if kind == '.md':
            begins = re.match(r'\||#|\s*(?:[-*]|\d+\.) ', line)
            prose = line if line.strip() else None
        else:
            comment = COMMENT[kind].search(line)
            begins = comment and line[:comment.start()].strip()
            prose = comment and comment[1]
        if begins or prose is None:
            found.append([])
        if prose is not None:
            found[-1].append((number, prose))
    return [block for block in found if block]


def anchor(heading):
    """The anchor that a heading is linked by."""
    return re.sub(r'[^\w -]', '', re.sub(r'\]\([^)]*\)', '', heading)).lower().replace(' ', '-')


def pattern(path):
    """A path as a pattern, with a * for each word in capitals and for '..'."""
    return re.sub(r'(?<=/)[A-Z][A-Z_]+(?=/|\.(?!md)|$)|\.\.', '*', path)


class Repository:
    def __init__(self, root):
        self.root = Path(root)
        self.crates = {path.name for path in self.root.glob('crates/*') if path.is_dir()}
        self.text = cache(lambda path: (self.root / path).read_text(encoding='utf-8', errors='replace'))
        self.there = cache(self._there)
        self.items = cache(self._items)
        self.parts = cache(lambda crate: {part for path in self.sources(crate) for part in PART.findall(COMMENT['.rt'].sub('', self.text(path)))})
        self.definitions = cache(self._definitions)
        self.anchors = cache(self._anchors)
        self.names = cache(self._names)

    def glob(self, path):
        found = sorted(found.relative_to(self.root).as_posix() for found in self.root.glob(path))
        # what rt keeps of a crate has copies of its files
        return [path for path in found if not re.match(r'crates/\w+/out/', path)]

    def _there(self, path):
        """The path as it stands in the repository, where a specification may be named without .antt, and an edit of a crate that has the name of a
        top folder as examples/LABEL; None where it is not there."""
        crate, _, label = path.partition('/')
        for each in path, path + '.antt', f'crates/{crate}/must-fail/{label}.edit':
            if (self.root / each).exists():
                return each
        found = self.glob(pattern(path)) if '*' in pattern(path) else []
        return path if found else None

    def sources(self, crate):
        """The files of a crate's src; those of the crate for Rust too where it has the same name."""
        manifest = self.root / 'rust/Cargo.toml'
        package = re.search(r'^name = "([\w-]+)"', manifest.read_text(encoding='utf-8'), re.MULTILINE) if manifest.is_file() else None
        rust = self.glob('rust/src/**/*.rs') if package and package[1].replace('-', '_') == crate else []
        return self.glob(f'crates/{crate}/src/**/*.rt') + rust

    def _items(self, crate):
        return {item for path in self.sources(crate) for item in self.items_of(path)}

    def items_of(self, path):
        return ITEM.findall(COMMENT['.rt'].sub('', self.text(path)))

    def _definitions(self, path):
        return set(DEFINITION.findall(self.text(path))).union(*(names.split() for names in ALIKE.findall(self.text(path))))

    def _names(self):
        """Every name that a crate has, and every word of the code beside the crates."""
        names = self.crates | ELSEWHERE
        for crate in self.crates:
            names |= self.items(crate) | self.parts(crate)
        for path in self.glob('crates/*/specs/**/*.antt') + self.glob('crates/*/proofs/**/*.antt'):
            names |= self.definitions(path) | {Path(path).stem}
            for brought in BROUGHT_IN.findall(self.text(path)):
                names.update(brought.replace(',', ' ').split())
        beside = [path for top in TOP.split('|')[1:] for path in self.glob(f'{top}/**/*') if Path(path).suffix in CODE and '/target/' not in path]
        for path in beside + self.glob('Makefile'):
            if (self.root / path).is_file():
                names.update(re.findall(r'[A-Za-z][\w-]*', self.text(path)))
        return names

    def _anchors(self, path):
        fences = re.compile(r'^```.*?^```', re.MULTILINE | re.DOTALL)
        return {anchor(heading[1]) for line in fences.sub('', self.text(path)).split('\n') if (heading := HEADING.match(line))}

    def defines(self, path, name):
        """Whether a file, or any of a crate's folder, defines a name; None where that cannot be told."""
        crate = re.fullmatch(r'crates/(\w+)/?', path)
        if crate:
            return name in self.items(crate[1]) or any(
                name in self.definitions(each) for part in ('specs', 'proofs') for each in self.glob(f'crates/{crate[1]}/{part}/*.antt'))
        if path.endswith('.antt'):
            # a file of specs/ may have a part of it in proofs/
            beside = path.replace('/specs/', '/proofs/')
            return name in self.definitions(path) or beside != path and self.there(beside) is not None and name in self.definitions(beside)
        if path.endswith('.rt') and not re.fullmatch(KEYWORDS, name):
            return name.split('::')[-1] in self.items_of(path)
        return None


class Reading:
    """One repository, read file by file: how many names are there, and a line for each that is not."""

    def __init__(self, root):
        self.repository = Repository(root)
        self.count = 0
        self.missing = []

    def files(self):
        top = [path for path in ('README.md', 'CONTRIBUTING.md', 'CHANGELOG.md') if (self.repository.root / path).is_file()]
        return top + self.repository.glob('docs/*.md') + [path for kind in COMMENT for path in self.repository.glob(f'crates/*/**/*{kind}')]

    def read(self, path):
        for block in blocks(Path(path).suffix, self.repository.text(path)):
            text = '\n'.join(line for _, line in block)
            named = [path.split('/')[1]] if path.startswith('crates/') else []
            for token in TOKEN.finditer(text):
                place = f'{path}:{block[text.count(chr(10), 0, token.start())][0]}'
                if path in LINKS_ONLY and not token['link'] or path in NO_OTHER_NAMES and (token['other'] or token['word']):
                    continue
                file = self.look(place, path, token, named)
                if file and path not in LINKS_ONLY:
                    self.look_beside(place, file, text, token)

    def hold(self, place, there, what):
        """Counts a name that is there, or notes the one that is not."""
        if there:
            self.count += 1
        else:
            self.missing.append(f'{place}: {what}')
        return there

    def look(self, place, path, token, named):
        """Looks one token up, and gives the file that it names. `named` are the crates named so far in the paragraph, the last one first."""
        if token['link']:
            return self.look_link(place, path, token['link'], named)
        if token['item']:
            return self.look_item(place, token['item'].split('::'), named)
        crates = token['crate'] or token['plain'] or token['drawn'] or token['over']
        if crates:
            for crate in crates.split(', '):
                self.hold(place, crate in self.repository.crates, f'there is no crate {crate}')
            return None
        name = token['other'] or token['word']
        if name:
            self.hold(place, name in self.repository.names(), f'nothing has the name {name}')
            return None
        if token['further']:
            return self.look_further(place, token, named)
        return self.look_path(place, token, named)

    def look_link(self, place, path, link, named):
        to, _, part = link.partition('#')
        if re.match(r'[a-z]+:', link):
            return None
        file = os.path.normpath(os.path.join(os.path.dirname(path), to)) if to else path
        if not self.hold(place, (self.repository.root / file).exists(), f'there is no {file}'):
            return None
        if part:
            self.hold(place, file.endswith('.md') and part in self.repository.anchors(file), f'{file} has no heading #{part}')
        self.note_crate(file, named)
        return file

    def look_item(self, place, words, named):
        crate, item, *parts = words
        if crate in self.repository.crates:
            named.insert(0, crate)
            items = self.repository.items(crate)
            unknown = [item] if item not in items else [part for part in parts if part not in items | self.repository.parts(crate)]
            self.hold(place, not unknown, f'{"::".join(words)}: crates/{crate}/src has no {"::".join(unknown)}')

    def look_further(self, place, token, named):
        """A further file of the crate that was named last, where the cell of a table has named one."""
        cell = token.string[:token.start()].rpartition('|')
        if not cell[1] or not re.search(r'\w/specs/\w', cell[2]) or '](' in cell[2]:
            return None
        path = f'crates/{named[0]}/specs/{token["further"]}.antt' if named else ''
        return self.hold(place, self.repository.there(path) if path else None, f'there is no {path or token["further"]}')

    def look_path(self, place, token, named):
        if token['path']:
            path = token['path']
            if '/target/' in path:
                return None
            first, _, rest = path.partition('/')
            if re.match(rf'(?:{INSIDE})/', rest) and (first in self.repository.crates or not re.fullmatch(TOP, first)):
                path = f'crates/{path}'
            file = self.hold(place, self.repository.there(path), f'there is no {path}')
            if file:
                self.note_crate(file, named)
            return file
        inside = token['own'] or f'{"specs" if token["bare"].endswith(".antt") else "src"}/{token["bare"]}'
        named = [token['whose']] if token['whose'] else named
        places = [inside] if token['own'] else [inside, inside.replace('specs/', 'proofs/')]
        found = (self.repository.there(f'crates/{crate}/{place}') for crate in named or sorted(self.repository.crates) for place in places)
        of = ' of ' + ', '.join(sorted(set(named))) if named else ''
        return self.hold(place, next(filter(None, found), None), f'there is no {inside}{of}')

    def note_crate(self, file, named):
        crate = re.match(r'crates/(\w+)', file)
        if crate and crate[1] in self.repository.crates:
            named.insert(0, crate[1])

    def look_beside(self, place, file, text, token):
        """Looks the names in backticks up that stand right before or after a file."""
        before = BEFORE.search(text, 0, token.start())
        names = [before[1] or before[2]] if before else []
        after = AFTER.match(text, token.end())
        while after:
            names.append(after[1])
            after = AFTER_AGAIN.match(text, after.end())
        for name in names:
            there = self.repository.defines(file, name)
            if there is not None:
                self.hold(place, there, f'{file} does not define {name}')


def main(words):
    reading = Reading(words[0] if words else ROOT)
    for path in reading.files():
        reading.read(path)
    for line in reading.missing:
        print(line)
    documents = sum(not path.startswith('crates/') for path in reading.files())
    print(f'{documents} documents and the comments of the crates: {reading.count} names are there'
          + (f', {len(reading.missing)} are not' if reading.missing else ''))
    return 1 if reading.missing else 0


if __name__ == '__main__':
    sys.exit(main(sys.argv[1:]))
