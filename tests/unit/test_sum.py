"""Tests of install/sum over a small repository."""
from hashlib import sha256
from pathlib import Path
import shutil
import subprocess
import tempfile
import unittest

SUM = Path(__file__).resolve().parents[2] / 'install' / 'sum'
LIBRARIES = {'libsnp_cpuid.a': b'one', 'ring0/libsnp_cpuid.a': b'other'}


class Sum(unittest.TestCase):
    def setUp(self):
        folder = tempfile.TemporaryDirectory()
        self.addCleanup(folder.cleanup)
        self.root = Path(folder.name)
        for name, text in LIBRARIES.items():
            path = self.root / 'target/staticlib' / name
            path.parent.mkdir(parents=True, exist_ok=True)
            path.write_bytes(text)
        (self.root / 'install').mkdir()
        shutil.copy(SUM, self.root / 'install')
        self.assertEqual(self.sum('--write'), (0, ''))

    def sum(self, *words):
        """(status, what it says) from another folder."""
        ran = subprocess.run([self.root / 'install/sum', *words], cwd='/', stdout=subprocess.PIPE, stderr=subprocess.STDOUT, text=True, check=False)
        return ran.returncode, ran.stdout

    def test_every_library_of_the_folder_is_written_and_held(self):
        lines = [f'{sha256(text).hexdigest()}  {name}' for name, text in LIBRARIES.items()]
        self.assertEqual((self.root / 'install/library.sha256').read_text().splitlines(), lines)
        self.assertEqual(self.sum(), (0, ''))

    def test_another_library_a_missing_one_and_one_more(self):
        ring0 = self.root / 'target/staticlib/ring0/libsnp_cpuid.a'
        ring0.write_bytes(b'changed')
        status, said = self.sum()
        self.assertEqual(status, 1)
        for text in b'other', b'changed':
            self.assertIn(sha256(text).hexdigest() + '  ring0/libsnp_cpuid.a', said)
        ring0.unlink()
        self.assertEqual(self.sum()[0], 1)
        ring0.write_bytes(b'other')
        self.assertEqual(self.sum()[0], 0)
        shutil.copytree(ring0.parent, self.root / 'target/staticlib/more')
        self.assertEqual(self.sum()[0], 1)

    def test_a_given_library(self):
        given = self.root / 'libsnp_cpuid.a'
        for text in LIBRARIES.values():
            given.write_bytes(text)
            self.assertEqual(self.sum(str(given)), (0, ''))
        given.write_bytes(b'')
        status, said = self.sum(str(given))
        self.assertEqual(status, 1)
        self.assertTrue(said.startswith(f'{given} has the sha256 {sha256(b"").hexdigest()}, and install/library.sha256 has '), said)
        self.assertEqual(self.sum(str(self.root / 'none')), (1, f'sum: {self.root}/none cannot be read\n'))

    def test_bad_words(self):
        for words in ['--read'], ['a', 'b'], ['--write', 'x']:
            self.assertEqual(self.sum(*words)[0], 2)


if __name__ == '__main__':
    unittest.main()
