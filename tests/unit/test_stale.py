"""Nothing stale: an edit of any source, specification or proof makes the library again, by `make` and by cargo."""
from pathlib import Path
import os
import shutil
import subprocess
import tempfile
import unittest

ROOT = Path(__file__).resolve().parents[2]
LIBRARY = 'target/staticlib/libsnp_cpuid.a'
SOURCES = 'src/lib.rt', 'src/deep/down.rt', 'specs/Lib.antt', 'specs/deep/Law.antt', 'proofs/Proof.antt', 'proofs/deep/down/Proof.antt'
NEW, OLD = 2_000_000_000, 1_000_000_000


@unittest.skipUnless(shutil.which('make'), 'make is not installed (apt-get install make)')
class Make(unittest.TestCase):
    def setUp(self):
        folder = tempfile.TemporaryDirectory()
        self.addCleanup(folder.cleanup)
        self.root = Path(folder.name)
        (self.root / 'rust').mkdir()
        shutil.copy(ROOT / 'Makefile', self.root)
        shutil.copy(ROOT / 'rust/Cargo.toml', self.root / 'rust')
        for name in ('crates.txt', *(f'crates/one/{source}' for source in SOURCES), 'crates/one/must-fail/x.edit', 'include/snp_cpuid.h', 'install/libraries', LIBRARY):
            (self.root / name).parent.mkdir(parents=True, exist_ok=True)
            (self.root / name).write_text('')
        for path in self.root.rglob('*'):
            os.utime(path, (OLD, OLD))
        os.utime(self.root / LIBRARY, (NEW, NEW))

    def stale(self):
        environment = {name: value for name, value in os.environ.items() if name not in ('SNP_CPUID_LIB', 'MAKEFLAGS')}
        return subprocess.run(['make', '--question', LIBRARY], cwd=self.root, env=environment, stderr=subprocess.DEVNULL, check=False).returncode != 0

    def test_what_makes_the_library_stale(self):
        self.assertFalse(self.stale())
        for name in 'crates.txt', 'include/snp_cpuid.h', 'install/libraries', *(f'crates/one/{source}' for source in SOURCES):
            os.utime(self.root / name, (NEW + 1, NEW + 1))
            self.assertTrue(self.stale(), name)
            os.utime(self.root / name, (OLD, OLD))

    def test_a_file_that_went_or_is_new(self):
        for name in 'proofs/deep/down/Proof.antt', 'src/deep/down.rt':
            (self.root / 'crates/one' / name).unlink()
            os.utime((self.root / 'crates/one' / name).parent, (NEW + 1, NEW + 1))
            self.assertTrue(self.stale(), name)
            os.utime((self.root / 'crates/one' / name).parent, (OLD, OLD))

    def test_what_does_not(self):
        os.utime(self.root / 'crates/one/must-fail/x.edit', (NEW + 1, NEW + 1))
        self.assertFalse(self.stale())


@unittest.skipUnless(shutil.which('rustc'), 'rustc is not installed')
class Cargo(unittest.TestCase):
    """build.rs, built for a small repository, with a make that writes down what it is asked."""

    @classmethod
    def setUpClass(cls):
        folder = tempfile.TemporaryDirectory()
        cls.addClassCleanup(folder.cleanup)
        cls.root = Path(folder.name)
        (cls.root / 'rust').mkdir()
        subprocess.run(['rustc', '--edition', '2024', '-o', cls.root / 'build', ROOT / 'rust/build.rs'],
                       env={**os.environ, 'CARGO_MANIFEST_DIR': str(cls.root / 'rust')}, check=True)

    def build(self, make, **given):
        """(status, lines said) of build.rs with this script as make."""
        script = self.root / 'bin/make'
        script.parent.mkdir(exist_ok=True)
        script.write_text(f'#!/bin/sh\n{make}\n')
        script.chmod(0o755)
        environment = {name: value for name, value in os.environ.items() if name not in ('SNP_CPUID_LIB', 'MAKEFLAGS')}
        ran = subprocess.run([self.root / 'build'], env={**environment, **given, 'PATH': f'{script.parent}{os.pathsep}{os.environ["PATH"]}'},
                             stdout=subprocess.PIPE, stderr=subprocess.STDOUT, text=True, check=False)
        return ran.returncode, ran.stdout.splitlines()

    def test_make_is_asked_and_cargo_watches_the_crates(self):
        status, lines = self.build(f'echo "make $*"; mkdir -p {self.root}/target/staticlib; touch {self.root}/{LIBRARY}')
        self.assertEqual(status, 0, lines)
        self.assertIn(f'make --silent --no-print-directory {LIBRARY}', lines)
        for watched in 'crates', 'crates.txt', LIBRARY:
            self.assertIn(f'cargo::rerun-if-changed={self.root}/rust/../{watched}', lines)

    def test_a_make_that_fails(self):
        status, lines = self.build('echo "no kit"; exit 2')
        self.assertEqual((status, lines[-2]), (1, 'no kit'))
        self.assertIn('SNP_CPUID_LIB', lines[-1])

    def test_a_given_library_asks_no_make(self):
        given = self.root / 'given'
        given.mkdir()
        status, lines = self.build('echo make was asked', SNP_CPUID_LIB=str(given))
        self.assertEqual((status, lines[-1]), (1, f'snp-cpuid: {given}/libsnp_cpuid.a is not there'))
        (given / 'libsnp_cpuid.a').write_text('')
        status, lines = self.build('echo make was asked', SNP_CPUID_LIB=str(given))
        self.assertEqual((status, 'make was asked' in lines), (0, False))


if __name__ == '__main__':
    unittest.main()
