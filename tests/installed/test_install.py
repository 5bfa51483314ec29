"""`make install`, `make uninstall` and `make dist`: what is there afterwards, that it works, and what make says where a tool is missing."""
from pathlib import Path
import hashlib
import os
import re
import shutil
import subprocess
import tempfile
import unittest

from trees import PAGES, ROOT, Tree, files, make, version

FILES = {
    'bin/snp-cpuid', 'include/snp_cpuid.h', 'lib/libsnp_cpuid.a', 'lib/pkgconfig/snp_cpuid.pc', 'share/man/man1/snp-cpuid.1',
    'share/bash-completion/completions/snp-cpuid', 'share/zsh/site-functions/_snp-cpuid', 'share/fish/vendor_completions.d/snp-cpuid.fish',
}


def config(tree, *words):
    """What pkg-config says of the installed library."""
    environment = {**os.environ, 'PKG_CONFIG_PATH': str(tree.prefix / 'lib' / 'pkgconfig')}
    return subprocess.run(['pkg-config', *words, 'snp_cpuid'], env=environment, capture_output=True, text=True, check=True).stdout.strip()


class Install(unittest.TestCase):
    @classmethod
    def setUpClass(cls):
        cls.tree = Tree()
        cls.addClassCleanup(cls.tree.close)

    def test_the_files_are_there_and_no_others(self):
        self.assertEqual(files(self.tree.prefix), FILES)
        self.assertEqual({path for path in FILES if os.access(self.tree.prefix / path, os.X_OK)}, {'bin/snp-cpuid'})

    def test_a_c_program_finds_the_library_by_pkg_config(self):
        # the prefix has a space in it, which pkg-config escapes for a shell
        built = Path(self.tree.room.name, 'example')
        words = config(self.tree, '--cflags', '--libs')
        subprocess.run(f"cc -std=c11 -Wall -Wextra -Werror '{ROOT}/install/example.c' {words} -o '{built}'", shell=True, check=True)
        said = subprocess.run([built, PAGES], capture_output=True, text=True, check=True).stdout
        row = self.tree.run('lookup', PAGES, '8000001F').splitlines()[1].split()
        rows = re.search(r'^rows +(\d+)$', self.tree.run('table', PAGES), re.MULTILINE)[1]
        self.assertEqual(said, f'{rows} rows, 8000001F.EAX {row[1]}\n')
        refused = subprocess.run([built, os.devnull], capture_output=True, text=True, check=False)
        self.assertEqual((refused.returncode, refused.stdout), (1, 'refusal 1\n'))

    def test_one_version_everywhere(self):
        header = (self.tree.prefix / 'include' / 'snp_cpuid.h').read_text()
        numbers = [re.search(rf'^#define SNP_CPUID_VERSION_{part} (\d+)$', header, re.MULTILINE)[1] for part in ('MAJOR', 'MINOR', 'PATCH')]
        self.assertEqual('.'.join(numbers), version())
        self.assertEqual(self.tree.run('--version'), f'snp-cpuid {version()}\n')
        self.assertEqual(config(self.tree, '--modversion'), version())
        self.assertIn(f'\nThis is the page of version {version()}.\n', (self.tree.prefix / 'share/man/man1/snp-cpuid.1').read_text())
        # each lock file has the package once
        for lock in 'rust', 'differential':
            self.assertIn(f'name = "snp-cpuid"\nversion = "{version()}"\n', (ROOT / lock / 'Cargo.lock').read_text())

    def test_the_changelog_begins_with_the_version_and_its_day(self):
        headings = [line for line in (ROOT / 'CHANGELOG.md').read_text().splitlines() if line.startswith('## ')]
        for heading in headings:
            self.assertRegex(heading, r'^## \d+\.\d+\.\d+ \(\d{4}-(0[1-9]|1[0-2])-(0[1-9]|[12]\d|3[01])\)$')
        self.assertTrue(headings[0].startswith(f'## {version()} ('), headings[0])

    @unittest.skipUnless(shutil.which('mandoc'), 'mandoc is not installed (apt-get install mandoc)')
    def test_mandoc_finds_nothing(self):
        page = self.tree.prefix / 'share/man/man1/snp-cpuid.1'
        ran = subprocess.run(['mandoc', '-T', 'lint', page], capture_output=True, text=True, check=False)
        self.assertEqual((ran.returncode, ran.stdout, ran.stderr), (0, '', ''))
        # laid out, it has every word of every help; lines and hyphenation are its own
        shown = subprocess.run(['mandoc', '-T', 'ascii', page], capture_output=True, text=True, check=True).stdout
        shown = set(re.sub('.\b', '', shown).split())
        for name in self.tree.run('help').split('\nCommands:\n')[1].split('\n\n')[0].splitlines():
            if not name.startswith('   ') and name.split()[0] != 'help':
                words = set(self.tree.run('help', name.split()[0]).split()) - {'Usage:'}
                self.assertEqual(words - shown, set(), name)

    def test_uninstall_removes_what_install_brought(self):
        tree = Tree()
        self.addCleanup(tree.close)
        other = tree.prefix / 'share' / 'man' / 'man1' / 'other.1'
        other.write_text('kept')
        self.assertEqual(make('uninstall', *tree.words).returncode, 0)
        self.assertEqual(files(tree.destination), {str(other.relative_to(tree.destination))})
        # a second time there is nothing to do
        other.unlink()
        self.assertEqual(make('uninstall', *tree.words).returncode, 0)
        self.assertEqual(files(tree.destination), set())


def sha256(path):
    return hashlib.sha256(Path(path).read_bytes()).hexdigest()


class Dist(unittest.TestCase):
    name = f'snp-cpuid-{version()}-x86_64-linux'
    archive = ROOT / 'target' / 'dist' / f'{name}.tar.gz'

    @classmethod
    def setUpClass(cls):
        make('dist', 'SMOKE=:')
        cls.first = cls.archive.is_file() and sha256(cls.archive)
        cls.ran = make('dist')

    def test_the_same_archive_twice_with_its_sum(self):
        self.assertEqual(sha256(self.archive), self.first)
        self.assertEqual(Path(f'{self.archive}.sha256').read_text(), f'{self.first}  {self.archive.name}\n')

    def test_the_archive_has_the_sum_of_every_file(self):
        folder = ROOT / 'target' / 'dist' / self.name
        lines = (folder / 'SHA256SUMS').read_text().splitlines()
        self.assertEqual({line.split('  ', 1)[1]: line.split()[0] for line in lines},
                         {name: sha256(folder / name) for name in files(folder) - {'SHA256SUMS'}})

    def test_the_archive_is_tried_out(self):
        self.assertEqual(self.ran.returncode, 0, self.ran.stderr)
        said, name = self.ran.stdout.splitlines()
        self.assertRegex(said, rf'^snp-cpuid {re.escape(version())}: \d\d rows, from the shell, from C, from Rust$')
        self.assertTrue((ROOT / name).is_file(), name)

    def test_a_broken_archive_is_found(self):
        """One without the header, one whose command is of another version, one whose manual page is old, each with sums that fit; and two whose sums
        do not."""
        name = self.name
        fit = '; find . -type f ! -name SHA256SUMS | xargs sha256sum >sums; mv sums SHA256SUMS'
        damages = ('rm include/snp_cpuid.h' + fit, 'sed -i s/^Version:.*/Version:/ lib/pkgconfig/snp_cpuid.pc' + fit,
                   'echo >>share/man/man1/snp-cpuid.1' + fit, 'echo >>share/doc/snp-cpuid/NOTICE', 'touch share/doc/snp-cpuid/MORE')
        for damage in damages:
            with tempfile.TemporaryDirectory() as folder:
                shutil.copytree(ROOT / 'target' / 'dist' / name, Path(folder, name))
                subprocess.run(damage, shell=True, cwd=Path(folder, name), check=True)
                subprocess.run(['tar', '-C', folder, '-czf', Path(folder, 'broken.tar.gz'), name], check=True)
                ran = subprocess.run([ROOT / 'install' / 'smoke', Path(folder, 'broken.tar.gz')], capture_output=True, text=True, check=False)
                self.assertNotEqual(ran.returncode, 0, damage)


class Missing(unittest.TestCase):
    """Where a tool is missing, make says so in one line, with what can be done without it."""

    def only(self, *tools):
        """A PATH with the usual small tools and these."""
        folder = tempfile.TemporaryDirectory()
        self.addCleanup(folder.cleanup)
        for tool in 'sh', 'sed', 'make', 'true', 'rm', 'mkdir', 'cut', 'dirname', 'find', 'grep', 'readlink', 'sha256sum', 'xargs', *tools:
            Path(folder.name, tool).symlink_to(shutil.which(tool))
        return folder.name

    def one_line(self, ran):
        self.assertNotEqual(ran.returncode, 0)
        self.assertEqual((ran.stdout, len(ran.stderr.splitlines())), ('', 1), ran.stderr)
        return ran.stderr

    def test_without_the_kit(self):
        # a source that is newer than any library asks for the kit; -W says so to make and changes nothing
        for target in 'all', 'test', 'install', 'dist', 'ring0', 'bench', 'bench-rust':
            said = self.one_line(make(target, '-W', 'crates.txt', path=self.only('cargo')))
            self.assertIn("no Rattle kit: 'rt' is not on the PATH", said)
            self.assertIn('SNP_CPUID_LIB=FOLDER', said)

    def test_without_the_library(self):
        self.assertIn('there is no /nowhere/libsnp_cpuid.a', self.one_line(make('SNP_CPUID_LIB=/nowhere')))

    def test_a_library_with_another_sum(self):
        """An older one, or one of other options of a compiler, is not taken unless its sum is named."""
        with tempfile.TemporaryDirectory() as folder:
            library = Path(folder, 'libsnp_cpuid.a')
            library.write_bytes((ROOT / 'target' / 'staticlib' / 'libsnp_cpuid.a').read_bytes() + b'\n')
            ran = make('given-sum', f'SNP_CPUID_LIB={folder}')
            self.assertNotEqual(ran.returncode, 0)
            wanted = (ROOT / 'install' / 'library.sha256').read_text().split()[0]
            self.assertIn(f'{library} has the sha256 {sha256(library)}, and install/library.sha256 has {wanted}', ran.stderr)
            self.assertIn('SNP_CPUID_SUM=SUM', ran.stderr)
            self.assertEqual(make('given-sum', f'SNP_CPUID_LIB={folder}', f'SNP_CPUID_SUM={sha256(library)}').returncode, 0)
            self.assertNotEqual(make('given-sum', f'SNP_CPUID_LIB={folder}', f'SNP_CPUID_SUM={wanted}').returncode, 0)

    def test_without_cargo(self):
        said = self.one_line(make('command', f'SNP_CPUID_LIB={ROOT}/target/staticlib', path=self.only()))
        self.assertIn("no 'cargo'", said)

    def test_what_was_built_is_installed_without_cargo(self):
        """As by `make` and then `sudo make install`, where root has no cargo."""
        make('stage')
        with tempfile.TemporaryDirectory() as folder:
            ran = make('install', f'DESTDIR={folder}', 'PREFIX=/usr', path=self.only('install'))
            self.assertEqual((ran.returncode, ran.stdout, ran.stderr), (0, '', ''))
            self.assertEqual(files(Path(folder, 'usr')), FILES)

    def test_a_given_library_needs_no_kit(self):
        with tempfile.TemporaryDirectory() as folder:
            # a kit that does not work, before any other
            Path(folder, 'rt').write_text('#!/bin/sh\necho rt was called >&2\nexit 1\n')
            Path(folder, 'rt').chmod(0o755)
            # the repository's own folder is given as any other is, and cargo has the command built for it
            ran = make(f'SNP_CPUID_LIB={ROOT}/target/staticlib', path=f'{folder}{os.pathsep}{os.environ["PATH"]}')
        self.assertEqual((ran.returncode, ran.stderr), (0, ''))
        self.assertTrue(ran.stdout.startswith('leaf '), ran.stdout)


if __name__ == '__main__':
    unittest.main()
