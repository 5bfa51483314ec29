"""made_list.py: what crate_list.py and edit_list.py share: a list in Markdown that is made of the crates and stands between two marks of a page.

Such a program prints its list where no word is given. --write puts it between the marks, and --check fails where the page has another one.
"""
from pathlib import Path

ROOT = Path(__file__).resolve().parents[2]


class Unlisted(Exception):
    """Why there is no list."""


def groups(root):
    """[(heading, {crate: the crates that its line names})] in the order of crates.txt, where a line that opens with ## is a heading. The kit's own
    crates are left out, and the word that makes a crate a static library."""
    found, above = [], set()
    for line in (root / 'crates.txt').read_text(encoding='utf-8').splitlines():
        if line.startswith('##'):
            found.append((line[2:].strip(), {}))
        elif line.strip() and not line.startswith('#'):
            name, names = (part.strip() for part in line.split(':'))
            if not found:
                raise Unlisted(f'{name} stands above the first heading of crates.txt')
            found[-1][1][name.removesuffix(' staticlib')] = names.split()
    listed = {name for _, named in found for name in named}
    folders = {path.name for path in (root / 'crates').iterdir() if path.is_dir()}
    for name in sorted(folders ^ listed):
        raise Unlisted(f'{name} is ' + ('in crates.txt and not in crates/' if name in listed else 'in crates/ and not in crates.txt'))
    for _, named in found:
        for name, names in named.items():
            named[name] = [each for each in names if each in listed]
            for each in named[name]:
                if each not in above:
                    raise Unlisted(f'{name} stands above {each} in crates.txt, and names it')
            above.add(name)
    return found


class MadeList:
    """The list of `what` on a page, made by a program of this folder: rows(root) gives [(heading, its rows)], below each of which `head` stands."""

    def __init__(self, page, what, program, head, rows):
        self.page, self.what, self.program, self.head, self.rows = Path(page), what, program, head, rows
        self.opens = f'<!-- the list of {what}, by tests/gate/{program} --write -->'
        self.closes = f'<!-- end of the list of {what} -->'

    def lines(self, parts):
        """The list, with a heading and a table for each part."""
        return '\n\n'.join('\n'.join([f'### {heading}', '', *self.head, *rows]) for heading, rows in parts)

    def page_with(self, text, lines):
        """The page with the list between its marks."""
        if text.count(self.opens) != 1 or text.count(self.closes) != 1 or text.index(self.closes) < text.index(self.opens):
            raise Unlisted(f'{self.page} does not have the two marks, once and in their order')
        return f'{text[:text.index(self.opens)]}{self.opens}\n\n{lines}\n\n{text[text.index(self.closes):]}'

    def differing(self, old, new):
        """The first line of the page that is not as made."""
        lines = old.splitlines(), new.splitlines()
        number = next((i for i, (a, b) in enumerate(zip(*lines)) if a != b), min(map(len, lines)))
        wanted = lines[1][number] if number < len(lines[1]) else 'nothing'
        return f'{self.page}:{number + 1} is not as made (tests/gate/{self.program} --write); here belongs: {wanted}'

    def run(self, words, root):
        parts = self.rows(root)
        lines = self.lines(parts)
        if not words:
            print(lines)
            return 0
        page = root / self.page
        old = page.read_text(encoding='utf-8')
        new = self.page_with(old, lines)
        if words == ['--write']:
            page.write_text(new, encoding='utf-8')
        elif new != old:
            print(self.differing(old, new))
            return 1
        print(f'{sum(len(rows) for _, rows in parts)} {self.what} in the list')
        return 0

    def main(self, words, usage, root=ROOT):
        if words not in ([], ['--write'], ['--check']):
            print(usage.strip())
            return 2
        try:
            return self.run(words, root)
        except Unlisted as why:
            print(why)
            return 1
