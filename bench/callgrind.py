"""Counts of instructions, by Debian's valgrind (apt-get install valgrind)."""
from collections import Counter
from pathlib import Path
from shutil import which
from tempfile import TemporaryDirectory
import re
import subprocess


def installed():
    return bool(which('valgrind'))


def by_function(dump):
    """{function: instructions} of a dump of callgrind, where each name stands once, with a number, and what a call took follows its line."""
    names, found, lines = {}, Counter(), iter(dump.splitlines())
    function = None
    for line in lines:
        if named := re.match(r'(c?fn)=\((\d+)\)(?: (.+))?$', line):
            names.setdefault(named[2], named[3])
            function = names[named[2]] if named[1] == 'fn' else function
        elif line.startswith('calls='):
            next(lines)
        elif cost := re.match(r'(?:[+-]?\d+|\*) (\d+)$', line):
            found[function] += int(cost[1])
    return found


def counted(words, functions):
    """Each line that a program prints, with {function: instructions}: what these functions and all that they call took within the call of `counted..`
    that printed the line. Counts begin where a function of the program is called whose name begins with count_."""
    with TemporaryDirectory() as folder:
        dump = Path(folder) / 'dump'
        around = '--zero-before=count_*', '--dump-after=counted*'
        options = [f'--callgrind-out-file={dump}', *around, *(f'--toggle-collect={function}' for function in functions)]
        ran = subprocess.run(['valgrind', '--tool=callgrind', *options, *words], check=True, capture_output=True, text=True)
        return [(line, by_function(Path(f'{dump}.{number}').read_text())) for number, line in enumerate(ran.stdout.splitlines(), 1)]
