"""made_files.py: what the tools have in common that make files of the proved source: --write writes them, and --check holds them. No tool by itself."""
import re

from proved_source import Unlisted


def replaced(path, text, pattern, made):
    """A file's text with the one place that is like a pattern made anew: `made` is the text, or gives it from the match."""
    new, many = re.subn(pattern, lambda found: made(found) if callable(made) else made, text, flags=re.MULTILINE)
    if many != 1:
        raise Unlisted(f'{path} has {many} places like {pattern}')
    return new


def run(words, root, tool, doc, made):
    """The exit status of a tool. `made(root)` gives {path: its text as it should be}, and the last line, which says how many parts there are."""
    if words not in (['--write'], ['--check']):
        print(doc.strip())
        return 2
    try:
        texts, last = made(root)
    except Unlisted as why:
        print(why)
        return 1
    status = 0
    for path, text in texts.items():
        there = root / path
        if words == ['--write']:
            there.write_text(text, encoding='utf-8')
        elif not there.is_file() or there.read_text(encoding='utf-8') != text:
            print(f'{path} is not as made: tests/gate/{tool}.py --write')
            status = 1
    print(last)
    return status
