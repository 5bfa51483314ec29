"""own_check.py: what the prover says of a crate with other texts in the place of its own, over the libraries as rt left them in crates/*/out. No tool
by itself: edits_refused.py and reader_promise.py have it."""
from functools import cache
from pathlib import Path
import os
import re
import shutil
import subprocess
import tempfile

PARTS = 'src', 'specs', 'proofs'


class Unproved(Exception):
    """What stands below a crate is not proved as it is now."""


@cache
def kit():
    found = shutil.which('rt')
    if not found:
        raise Unproved("no Rattle kit: 'rt' is not on the PATH")
    return Path(found).resolve().parents[1]


@cache
def lines(root):
    """{crate: (whether it is a static library, the crates that its line names)}."""
    rows = (re.match(r'(\w+)( staticlib)?:(.*)', line.split('#')[0]) for line in (root / 'crates.txt').read_text(encoding='utf-8').splitlines())
    return {row[1]: (bool(row[2]), row[3].split()) for row in rows if row}


@cache
def below(root, crate):
    """All crates of the repository that one stands on."""
    named = [name for name in lines(root)[crate][1] if name in lines(root)]
    return frozenset(named).union(*(below(root, name) for name in named))


def files(root, crates):
    """The files that a proof of these crates reads, and their folders, which are newer where a file of them went."""
    return [path for crate in sorted(crates) for part in PARTS for path in sorted((root / 'crates' / crate / part).rglob('*'))]


def library(root, crate):
    return root / f'crates/{crate}/out/rlib/{crate}.rlib'


def hold_libraries(root, crate):
    """Has rt prove what a crate stands on where it does not stand as it was proved."""
    crates = below(root, crate)
    newest = max((path.stat().st_mtime for path in [root / 'crates.txt', *files(root, crates)]), default=0)
    if all(library(root, name).is_dir() and library(root, name).stat().st_mtime > newest for name in crates):
        return
    for name in lines(root)[crate][1]:
        # a library of the kit is there as it is
        if name not in lines(root):
            continue
        ran = subprocess.run([root / 'install/prove', name], stdout=subprocess.PIPE, stderr=subprocess.STDOUT, text=True, check=False)
        if ran.returncode:
            raise Unproved(f'{name}, below {crate}:\n{ran.stdout[-2000:]}')


def ask(root, verb, crate, texts, *words, instead=None):
    """(status, text) of rattle's `verb` for a crate with these texts {path: text}, over the libraries below it, or these {crate: folder} instead."""
    static, named = lines(root)[crate]
    given = {name: library(root, name) for name in below(root, crate)} | (instead or {})
    own = [name for name in named if name not in given]
    of_crate = 'src/main.rt' if (root / f'crates/{crate}/src/main.rt').is_file() else 'src/lib.rt'
    command = [kit() / 'bin/rattle', verb, '--crate-name', crate, of_crate, '-L', f'dependency={kit()}/rlibs']
    command += [word for name in ('std', *own) for word in ('--extern', f'{name}={kit()}/rlibs/{name}.rlib')]
    command += [word for name in named if name in given for word in ('--extern', f'{name}={given[name]}')]
    command += [word for path in given.values() for word in ('-L', f'dependency={path.parent}')]
    command += ['--antt-project', kit() / 'rattle/logic/antt-project.json', '--logic-built', kit() / 'logic_built']
    command += ['--crate-type', 'staticlib'] if static else []
    with tempfile.TemporaryDirectory() as room:
        for part in PARTS:
            if (root / 'crates' / crate / part).is_dir():
                shutil.copytree(root / 'crates' / crate / part, Path(room) / part)
        for path, text in texts.items():
            (Path(room) / path).write_text(text, encoding='utf-8')
        ran = subprocess.run([*command, *words], cwd=room, stdin=subprocess.DEVNULL, stdout=subprocess.PIPE, stderr=subprocess.STDOUT, text=True,
                             errors='replace', check=False)
    return ran.returncode, ran.stdout


def kept_work(root, crate, to):
    """The words by which a check begins with what `rt check` kept of the crate here, in a folder of its own; none where nothing is kept."""
    kept = root / f'crates/{crate}/out/incremental'
    if not kept.is_dir():
        return []

    def link(one, other):
        # a check replaces such a file, and changes none
        return os.link(one, other) if one.endswith('.oantt') else shutil.copy2(one, other)
    try:
        shutil.copytree(kept, to, copy_function=link)
    except (OSError, shutil.Error):
        shutil.rmtree(to, ignore_errors=True)
        shutil.copytree(kept, to)
    return ['--incremental', str(to)]
