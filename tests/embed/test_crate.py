"""The crate for a registry, which install/crate makes: it builds, with `std` and without, its documents and their examples run, all from its own
files, and its object code is the library's."""
from pathlib import Path
import hashlib
import os
import re
import shutil
import subprocess
import tarfile
import tempfile
import unittest

import object_code
from stack import LIBRARY, RING0, ROOT, exported


@unittest.skipUnless(shutil.which('cargo'), 'cargo is not installed (apt-get install cargo)')
class Crate(unittest.TestCase):
    @classmethod
    def setUpClass(cls):
        folder = tempfile.TemporaryDirectory()
        cls.addClassCleanup(folder.cleanup)
        cls.room = Path(folder.name)
        subprocess.run([ROOT / 'install' / 'crate', cls.room / 'made'], check=True, capture_output=True)
        [package] = (cls.room / 'made').glob('*.crate')
        with tarfile.open(package) as archive:
            archive.extractall(cls.room, filter='data')
        cls.crate = cls.room / package.stem

    def ran(self, *words, **more):
        """Runs cargo in the package, without the kit, and without a library unless `more` names one."""
        found = [folder for folder in os.environ['PATH'].split(':') if not Path(folder, 'rt').exists()]
        cargo = shutil.which('cargo')
        environment = {name: value for name, value in os.environ.items() if name not in ('SNP_CPUID_LIB', 'RUSTFLAGS')}
        environment['PATH'] = ':'.join([str(Path(cargo).parent), *found])
        return subprocess.run([cargo, *words, '--offline', '--target-dir', self.room / 'target'], cwd=self.crate, env={**environment, **more},
                              capture_output=True, text=True, check=False)

    def cargo(self, *words):
        ran = self.ran(*words)
        self.assertEqual(ran.returncode, 0, ran.stderr[-3000:])
        return ran.stdout + ran.stderr

    def test_its_examples_run(self):
        said = self.cargo('test', '--doc')
        self.assertGreaterEqual(int(re.search(r'(\d+) passed; 0 failed', said)[1]), 25)

    def test_without_std_and_its_documents(self):
        self.cargo('build', '--no-default-features')
        self.assertNotIn('warning', self.cargo('doc', '--no-deps'))

    def test_its_object_code_is_the_librarys(self):
        self.cargo('build', '--release')
        [rlib] = (self.room / 'target' / 'release').glob('libsnp_cpuid.rlib')
        own, library = object_code.functions(rlib), object_code.functions(LIBRARY)
        for name in exported():
            # where a jump or a call goes is the linker's
            where = re.compile(r'[0-9a-f]+ <.*>|0x[0-9a-f]+\(%rip\)')
            instructions = [[(mnemonic, where.sub('', operands)) for mnemonic, operands, _ in code[name].code.values()] for code in (own, library)]
            self.assertEqual(*instructions, name)

    def test_a_library_of_other_declarations_does_not_link(self):
        symbol = re.search(r'"nopl (\w+)\(%rip\)"', (self.crate / 'src' / 'exports.rs').read_text())[1]
        folder = self.room / 'old'
        folder.mkdir()
        for library, links in (LIBRARY, True), (folder / 'libsnp_cpuid.a', False):
            if not links:
                subprocess.run(['objcopy', '--redefine-sym', f'{symbol}=snp_cpuid_interface_of_old', LIBRARY, library], check=True)
            ran = self.ran('test', '--doc', SNP_CPUID_LIB=str(library.parent))
            self.assertEqual((ran.returncode == 0, symbol in ran.stdout + ran.stderr), (links, not links), ran.stderr[-2000:])

    def test_without_an_operating_system_the_library_for_ring_0_is_linked(self):
        script = self.room / 'script'
        environment = {**os.environ, 'CARGO_MANIFEST_DIR': str(ROOT / 'rust')}
        subprocess.run(['rustc', '--edition', '2024', '-o', script, ROOT / 'rust' / 'build.rs'], env=environment, check=True)
        for system, folder in ('linux', LIBRARY.parent), ('none', RING0.parent):
            chosen = {**environment, 'SNP_CPUID_LIB': str(LIBRARY.parent), 'CARGO_CFG_TARGET_OS': system}
            said = subprocess.run([script], env=chosen, capture_output=True, text=True, check=True).stdout
            self.assertIn(f'cargo::rustc-link-search=native={folder}\n', said)

    def test_its_sums_are_those_of_its_files_and_of_the_libraries(self):
        lines = (self.crate / 'SHA256SUMS').read_text().splitlines()
        files = {name: self.crate / name for name in ('snp_cpuid.s', 'ring0.s')} | {'libsnp_cpuid.a': LIBRARY, 'ring0/libsnp_cpuid.a': RING0}
        self.assertEqual({line.split()[-1]: line.split()[-2] for line in lines},
                         {name: hashlib.sha256(path.read_bytes()).hexdigest() for name, path in files.items()})
        # bytes of the package alone, and the licence among them
        self.assertIn('MIT License', (self.crate / 'LICENSE').read_text())
        self.assertEqual([path for path in self.crate.rglob('*.rs') if '../tests' in path.read_text()], [])

    def test_the_assembly_speaks_for_its_own_functions_alone(self):
        for name in 'snp_cpuid.s', 'ring0.s':
            text = (self.crate / name).read_text()
            self.assertNotIn('.note.gnu.property', text)
            self.assertEqual(set(re.findall(r'\.L\w{0,10}', text)), {'.Lsnp_cpuid_'})
        self.assertNotIn('xmm', (self.crate / 'ring0.s').read_text())


if __name__ == '__main__':
    unittest.main()
