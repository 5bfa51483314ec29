"""Tests of .ci/run: which Debian packages it asks for, with commands in place of apt-get, id and make."""
from pathlib import Path
import os
import shutil
import subprocess
import tempfile
import unittest

CI = Path(__file__).resolve().parents[2] / '.ci' / 'run'
# what the script itself runs
SMALL = 'bash', 'dirname', 'timeout'


class Packages(unittest.TestCase):
    def asked(self, there=(), root=True, cannot=''):
        """What apt-get was asked to install, and what make was asked, where these tools are there already and a package cannot be had."""
        with tempfile.TemporaryDirectory() as folder:
            bin_folder, run = Path(folder, 'bin'), Path(folder, 'repository/.ci/run')
            bin_folder.mkdir()
            run.parent.mkdir(parents=True)
            shutil.copy(CI, run)
            for tool in SMALL:
                (bin_folder / tool).symlink_to(shutil.which(tool))
            commands = {'id': f'echo {0 if root else 1}', 'make': 'echo "make $*"', **{tool: ':' for tool in there},
                        'apt-get': f'echo "$*" >>{folder}/asked; case " $* " in *" {cannot or "-"} "*) exit 100;; esac'}
            for name, script in commands.items():
                (bin_folder / name).write_text(f'#!{shutil.which("sh")}\n{script}\n')
                (bin_folder / name).chmod(0o755)
            ran = subprocess.run([shutil.which('bash'), run], env={**os.environ, 'PATH': str(bin_folder)}, capture_output=True, text=True, check=False)
            asked = Path(folder, 'asked').read_text().splitlines() if Path(folder, 'asked').exists() else []
            self.assertEqual(ran.stdout, 'make --no-print-directory test\n', ran.stderr)
            return [line.split('--no-install-recommends ')[1] for line in asked]

    def test_what_is_missing_is_asked_for_together(self):
        self.assertEqual(self.asked(), ['install jq cpuid clang lld mandoc zsh fish chromium'])
        self.assertEqual(self.asked(there=['jq', 'clang', 'ld.lld', 'fish', 'chromium']), ['install cpuid mandoc zsh'])

    def test_nothing_is_missing(self):
        self.assertEqual(self.asked(there=['jq', 'cpuid', 'clang', 'ld.lld', 'mandoc', 'zsh', 'fish', 'chromium']), [])

    def test_one_that_cannot_be_had_keeps_no_other_back(self):
        self.assertEqual(self.asked(there=['jq', 'clang', 'ld.lld', 'fish', 'chromium'], cannot='cpuid'),
                         ['install cpuid mandoc zsh', 'update', 'install cpuid mandoc zsh', 'install cpuid', 'install mandoc', 'install zsh'])

    def test_only_root_installs(self):
        self.assertEqual(self.asked(root=False), [])


if __name__ == '__main__':
    unittest.main()
