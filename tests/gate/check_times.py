#!/usr/bin/env python3
"""How long the check of a revision takes: tests/gate/check_times.py [--times N] [--logs FOLDER] REVISION..

Each revision is cloned outside the repository and proved there from nothing by `rt all verdict`, two crates at a time, one revision after the other,
with temporary files in memory where it can be had. --times N goes N times through the list. Each run prints a line: the commit, wall seconds, processor seconds, the
processor seconds that the machine spent on other things meanwhile, how many of the listed crates were proved, and 'proved' or the first crate that
was not. --logs keeps what `rt all verdict` said. Run it on a machine with nothing else to do: 'others' stays near 0 where that was so.
"""
import argparse
import os
import re
import resource
import subprocess
import sys
import tempfile
import time
from pathlib import Path
from typing import NamedTuple

ROOT = Path(__file__).resolve().parents[2]
PROVED = re.compile(r'^(\w+): ok$')
NOT_PROVED = re.compile(r'^(\w+): (?:failed|not run)')


class Run(NamedTuple):
    """One check of one commit. Seconds are of the wall's clock, of the check's own processes, and of all others on this machine."""
    commit: str
    wall: float
    processor: float
    others: float
    proved: int
    listed: int
    verdict: str

    def line(self):
        return f'{self.commit:8}  {self.wall:6.0f}  {self.processor:11.0f}  {self.others:8.0f}  {self.proved:6} of {self.listed:<4}  {self.verdict}'


def told(said, crates):
    """(crates proved, 'proved' or what was not) of what `rt all verdict` said, by its summary."""
    lines = said.partition('== summary\n')[2].splitlines()
    proved = {found[1] for line in lines if (found := PROVED.match(line))}
    failed = next((found[1] for line in lines if (found := NOT_PROVED.match(line))), None)
    if failed is None and len(proved) == len(crates):
        return len(proved), 'proved'
    return len(proved), f'not proved: {failed or "see rt"}'


def busy(stat):
    """The seconds that all cores have been busy, by the text of /proc/stat. What another guest of the host took (steal) counts too."""
    user, nice, system, _idle, _waiting, *interrupts_and_steal = (int(ticks) for ticks in stat.splitlines()[0].split()[1:9])
    return (user + nice + system + sum(interrupts_and_steal)) / os.sysconf('SC_CLK_TCK')


def seconds():
    """(wall clock, processor seconds of ended children, busy seconds of all cores), each from a start of its own."""
    children = resource.getrusage(resource.RUSAGE_CHILDREN)
    return time.monotonic(), children.ru_utime + children.ru_stime, busy(Path('/proc/stat').read_text(encoding='ascii'))


def git(*words):
    return subprocess.run(['git', *words], cwd=ROOT, check=True, capture_output=True, text=True).stdout


def listed_at(commit):
    """The crates of crates.txt at a commit."""
    lines = (line.split('#')[0] for line in git('show', f'{commit}:crates.txt').splitlines())
    return [line.split(':')[0].strip() for line in lines if ':' in line]


def checked(commit, logs):
    """The run of one commit in a clone that is removed after it."""
    memory = Path('/dev/shm')
    with tempfile.TemporaryDirectory() as room, tempfile.TemporaryDirectory(dir=memory if memory.is_dir() else None) as scratch:
        git('clone', '--quiet', '--no-checkout', str(ROOT), f'{room}/clone')
        git('-C', f'{room}/clone', 'checkout', '--quiet', commit)
        before = seconds()
        ran = subprocess.run(['rt', 'all', 'verdict', '--jobs', '2'], cwd=f'{room}/clone', env={**os.environ, 'TMPDIR': scratch},
                             stdout=subprocess.PIPE, stderr=subprocess.STDOUT, text=True, check=False)
        wall, processor, all_cores = (now - then for now, then in zip(seconds(), before))
    if logs:
        logs.mkdir(parents=True, exist_ok=True)
        with open(logs / commit, 'a', encoding='utf-8') as log:
            log.write(ran.stdout)
    crates = listed_at(commit)
    proved, verdict = told(ran.stdout, crates)
    return Run(commit, wall, processor, max(0, all_cores - processor), proved, len(crates), verdict)


def commit_of(revision):
    """The short name of a revision's commit; a revision that is not there ends the program before anything is measured."""
    try:
        return git('rev-parse', '--short', '--verify', '--quiet', f'{revision}^{{commit}}').strip()
    except subprocess.CalledProcessError:
        raise argparse.ArgumentTypeError(f'no revision {revision}') from None


def times(word):
    if not word.isdecimal() or int(word) == 0:
        raise argparse.ArgumentTypeError('at least 1')
    return int(word)


def main(words=None):
    parser = argparse.ArgumentParser(description=__doc__.splitlines()[0])
    parser.add_argument('--times', type=times, default=1, metavar='N', help='go N times through the list')
    parser.add_argument('--logs', type=Path, metavar='FOLDER', help='keep what rt all verdict said, a file a commit')
    parser.add_argument('commits', nargs='+', type=commit_of, metavar='REVISION')
    asked = parser.parse_args(words)
    print('commit    wall s  processor s  others s  crates proved  verdict', flush=True)
    whole = True
    for commit in asked.commits * asked.times:
        run = checked(commit, asked.logs)
        print(run.line(), flush=True)
        whole &= run.verdict == 'proved'
    return 0 if whole else 1


if __name__ == '__main__':
    sys.exit(main())
