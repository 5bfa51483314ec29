#!/usr/bin/env python3
"""sessions.py: what the built command answers to the lines after `$` in docs/COMMAND.md and README.md.

--write puts it below each line. rust/tests/command/documents.rs holds the documents against the command, so nothing here checks them. It runs the
command that `make` or a test of the Rust crate built, the newest. A line that needs a tool which is not there, cpuid or jq, keeps what stands below.
"""
import os
from pathlib import Path
import shutil
import subprocess
import sys
import tempfile

ROOT = Path(__file__).resolve().parents[2]
DOCUMENTS = 'README.md', 'docs/COMMAND.md'
BUILT = 'target/rust/release/snp-cpuid', 'target/rust/debug/snp-cpuid'


def answered(command, folder, binaries):
    """The lines that a command prints in this folder, without empty ones at the end; None where it needs a tool that is not there."""
    needed = [name for name, used in (('cpuid', command.startswith('cpuid ')), ('jq', '| jq ' in command)) if used]
    if not all(shutil.which(name) for name in needed):
        return None
    known = {name: value for name, value in os.environ.items() if name != 'COLUMNS'}
    ran = subprocess.run(['sh', '-c', f'{{ {command}; }} 2>&1'], cwd=folder, env={**known, 'PATH': f'{binaries}:{known["PATH"]}'},
                         stdout=subprocess.PIPE, check=False)
    return ran.stdout.decode(errors='replace').rstrip().split('\n')


def rewritten(text, folder, binaries):
    """A document with the answers of now, and how many lines it has that are run."""
    lines, made, many = text.split('\n'), [], 0
    while lines:
        line = lines.pop(0)
        made.append(line)
        if not line.startswith('    $ '):
            continue
        many, below = many + 1, []
        while lines and (not lines[0] or lines[0].startswith('    ') and not lines[0].startswith('    $ ')):
            below.append(lines.pop(0))
        while below and not below[-1]:
            lines.insert(0, below.pop())
        found = answered(line[len('    $ '):], folder, binaries)
        made += below if found is None else [f'    {each}'.rstrip() if each else '' for each in found if found != ['']]
    return '\n'.join(made), many


def main(words, root=ROOT):
    if words != ['--write']:
        print(__doc__.strip())
        return 2
    built = [root / path for path in BUILT if (root / path).is_file()]
    if not built:
        print(f'neither {" nor ".join(BUILT)} is there: make')
        return 1
    binaries, total = max(built, key=lambda path: path.stat().st_mtime).parent, 0
    for document in DOCUMENTS:
        with tempfile.TemporaryDirectory() as folder:
            (Path(folder) / 'tests').symlink_to(root / 'tests')
            text, many = rewritten((root / document).read_text(encoding='utf-8'), folder, binaries)
        (root / document).write_text(text, encoding='utf-8')
        total += many
    print(f'{total} lines of {len(DOCUMENTS)} documents')
    return 0


if __name__ == '__main__':
    sys.exit(main(sys.argv[1:]))
