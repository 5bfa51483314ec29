"""`make deb`: the Debian package, unpacked and tried in a folder of its own. It wants Debian's dpkg-deb; lintian (apt-get install lintian) where it
is installed."""
from pathlib import Path
import os
import shutil
import struct
import subprocess
import tempfile
import unittest

from trees import PAGES, ROOT, files, make, version


def interpreted(program):
    """Whether a program of ELF names an interpreter, PT_INTERP: one that is linked statically names none."""
    start, = struct.unpack_from('<Q', program, 32)
    size, count = struct.unpack_from('<HH', program, 54)
    return any(struct.unpack_from('<I', program, start + size * place)[0] == 3 for place in range(count))


@unittest.skipUnless(shutil.which('dpkg-deb') and shutil.which('strip'), 'dpkg-deb or strip is not installed (apt-get install dpkg binutils)')
class Deb(unittest.TestCase):
    @classmethod
    def setUpClass(cls):
        ran = make('deb')
        assert ran.returncode == 0, ran.stderr
        cls.package = ROOT / ran.stdout.strip()
        cls.room = tempfile.TemporaryDirectory()
        cls.root = Path(cls.room.name)
        subprocess.run(['dpkg-deb', '-x', cls.package, cls.root], check=True)

    @classmethod
    def tearDownClass(cls):
        cls.room.cleanup()

    def test_it_is_unpacked_and_runs_without_any_library(self):
        command = self.root / 'usr/bin/snp-cpuid'
        ran = subprocess.run([command, 'table', PAGES], capture_output=True, text=True, check=True)
        self.assertIn('AMD EPYC 7713', ran.stdout)
        self.assertEqual(subprocess.run([command, '--version'], capture_output=True, text=True, check=True).stdout, f'snp-cpuid {version()}\n')
        self.assertFalse(interpreted(command.read_bytes()), 'it asks for a loader')

    def test_what_it_has(self):
        there = files(self.root)
        for name in ['include/snp_cpuid.h', 'lib/x86_64-linux-gnu/libsnp_cpuid.a', 'lib/x86_64-linux-gnu/pkgconfig/snp_cpuid.pc',
                     'share/man/man1/snp-cpuid.1.gz', 'share/bash-completion/completions/snp-cpuid', 'share/doc/snp-cpuid/copyright']:
            self.assertIn(f'usr/{name}', there)
        fields = subprocess.run(['dpkg-deb', '-f', self.package, 'Package', 'Version', 'Architecture'], capture_output=True, text=True, check=True)
        self.assertEqual(fields.stdout, f'Package: snp-cpuid\nVersion: {version()}\nArchitecture: amd64\n')

    def test_the_same_files_give_the_same_package(self):
        first = self.package.read_bytes()
        self.assertEqual(make('deb').returncode, 0)
        self.assertEqual(self.package.read_bytes(), first)

    def test_lintian_finds_nothing(self):
        if not shutil.which('lintian'):
            self.skipTest('lintian is not installed (apt-get install lintian)')
        environment = {**os.environ, 'DEBFULLNAME': 'Packer', 'DEBEMAIL': 'packer@debian.org'}
        with tempfile.TemporaryDirectory() as room:
            subprocess.run(['install/deb', 'target/stage', version(), room], cwd=ROOT, env=environment, capture_output=True, check=True)
            package = next(Path(room).glob('*.deb'))
            ran = subprocess.run(['lintian', '--allow-root', package], capture_output=True, text=True, check=False)
        self.assertEqual(ran.stdout, '')


if __name__ == '__main__':
    unittest.main()
