"""A small repository with crates and a page, of which a program that makes a list is asked (tests/gate/made_list.py)."""
from contextlib import redirect_stdout
from io import StringIO
from pathlib import Path
import tempfile


def asked(program, words, page, files):
    """(status, what is said, the page then); `files` has the text of each file, or None for a folder without the file."""
    with tempfile.TemporaryDirectory() as folder, redirect_stdout(StringIO()) as said:
        root = Path(folder)
        for name, text in {program.LIST.page: page, **files}.items():
            (root / name).parent.mkdir(parents=True, exist_ok=True)
            if text is not None:
                (root / name).write_text(text, encoding='utf-8')
        status = program.main(words, root)
        return status, said.getvalue(), (root / program.LIST.page).read_text(encoding='utf-8')


def page_of(program, made):
    """A page that has this list between its marks."""
    return f'# Page\n\n{program.LIST.opens}\n\n{made}\n{program.LIST.closes}\n\nAfter.\n'
