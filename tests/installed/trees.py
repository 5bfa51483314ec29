"""Runs of make, and the tree that `make install` leaves."""
from pathlib import Path
import os
import subprocess
import tempfile

ROOT = Path(__file__).resolve().parents[2]
PAGES = ROOT / 'tests' / 'data' / 'epyc-milan.pages'
PREFIX = '/opt/a prefix'


def make(*words, path=None):
    """A run of make with these words, under another PATH where one is given; the library is the repository's own unless a word names another."""
    environment = {**os.environ, **({'PATH': path} if path else {})}
    environment.pop('SNP_CPUID_LIB', None)
    command = ['make', '--silent', '--no-print-directory', *words]
    return subprocess.run(command, cwd=ROOT, env=environment, capture_output=True, text=True, check=False)


def files(folder):
    """All that stands below a folder but folders, by relative path."""
    return {str(path.relative_to(folder)) for path in Path(folder).rglob('*') if not path.is_dir()}


def version():
    """The one place that has the version."""
    lines = (ROOT / 'rust' / 'Cargo.toml').read_text().splitlines()
    return next(line.split('"')[1] for line in lines if line.startswith('version = '))


class Tree:
    """An installation in a folder of its own."""

    def __init__(self):
        self.room = tempfile.TemporaryDirectory()
        self.destination = Path(self.room.name, 'destination')
        self.destination.mkdir()
        self.words = [f'DESTDIR={self.destination}', f'PREFIX={PREFIX}']
        ran = make('install', *self.words)
        assert ran.returncode == 0, ran.stderr
        self.prefix = Path(str(self.destination) + PREFIX)

    def close(self):
        self.room.cleanup()

    def run(self, *words):
        """What the installed command prints."""
        return subprocess.run([self.prefix / 'bin' / 'snp-cpuid', *words], capture_output=True, text=True, check=True).stdout
