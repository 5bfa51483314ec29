"""Tests of the gate's own script, tests/run, with commands in place of rt, python3, gcc, make, nm and cpuid that print what a case asks for."""
from pathlib import Path
import os
import shutil
import subprocess
import tempfile
import unittest

ROOT = Path(__file__).resolve().parents[2]
NAMES = [line.split(' ', 1)[1] for line in (ROOT / 'tests/parts.txt').read_text().splitlines() if line[0].isdigit()]
TESTS = len(NAMES)
# how many parts each test says that it has
SAME = 7


# what rt ci says of a crate, and at the end
PROVED, OK = 'rt: one proved', 'rt: ok; handles allowed: none; must-fail edits: 3 refused'


def parts(*more):
    """tests/parts.txt with one number for every test but one, which the machine decides."""
    return '# numbers\n' + ''.join(f'{"6+" if name == "guest under KVM" else SAME} {name}\n' for name in (*NAMES, *more))


class Gate(unittest.TestCase):
    def run_gate(self, said=f'{SAME} tests ran', status=0, proofs=f'{OK}\\n7 passed, 0 failed', words=(), kvm=True, **others):
        """(exit status, lines): what every test says last, with which status, and what rt ci says; other commands by name."""
        commands = {
            'rt': f'[ "$*" != ci ] || [ -n "$TMPDIR" ] || {{ echo "{PROVED}"; printf "%b\\n" "{proofs}"; }}',
            'python3': f'echo "{said}"; exit {status}',
            # what it makes is named after -o
            'gcc': f'while [ "$1" != -o ]; do shift; done; printf "#!/bin/sh\\necho {SAME} parts\\n" >"$2" && chmod +x "$2"',
            'nm': f'for i in $(seq {SAME}); do echo "0 T snp_cpuid_$i"; done',
            'make': 'true',
            'cpuid': 'echo "cpuid: no such device" >&2; exit 1',
            **others,
        }
        with tempfile.TemporaryDirectory() as folder:
            bin_folder, root = Path(folder, 'bin'), Path(folder, 'repository')
            for name in 'bin', 'repository/differential', 'repository/target', 'repository/crates/one/src':
                Path(folder, name).mkdir(parents=True)
            (root / 'crates.txt').write_text('one:\n')
            scripts = {f'bin/{name}': script for name, script in commands.items()}
            scripts |= {'repository/tests/gate/kvm_header': f'echo {SAME} rows', 'repository/install/sum': 'true'}
            for name, script in scripts.items():
                path = Path(folder, name)
                path.parent.mkdir(parents=True, exist_ok=True)
                path.write_text(f'#!/bin/sh\n{script}\n')
                path.chmod(0o755)
            shutil.copy(ROOT / 'tests/run', root / 'tests')
            shutil.copy(ROOT / 'install/in-memory', root / 'install')
            (root / 'tests/parts.txt').write_text(parts())
            self.before(root)
            environment = {**os.environ, 'PATH': f'{bin_folder}:{os.environ["PATH"]}', 'OPENVMM_CVM_CPUID': '',
                           'KVM_DEVICE': str(bin_folder if kvm else bin_folder / 'none')}
            ran = subprocess.run([root / 'tests/run', *words], env=environment, stdout=subprocess.PIPE, stderr=subprocess.STDOUT, text=True,
                                 check=False)
            self.counted = (root / 'target/parts.txt').read_text() if (root / 'target/parts.txt').exists() else None
            self.kept = (root / 'target').is_dir() and {path.name for path in (root / 'target').iterdir()}
            return ran.returncode, ran.stdout.splitlines()

    def before(self, root):
        """What a case puts into the repository."""

    def assert_those_of_python_fail(self, lines):
        """Most tests are by python3, and those of C and the proofs pass."""
        failed = sum(': failed' in line for line in lines)
        self.assertGreaterEqual(failed, 20)
        self.assertEqual(lines[-1], f'{TESTS - failed + 7} passed, {failed} failed')
        self.assertIn(f'tables from C: {SAME} parts', lines)

    def test_all_pass(self):
        status, lines = self.run_gate()
        self.assertEqual((status, lines[-1]), (0, f'{TESTS + 7} passed, 0 failed'), lines)
        self.assertRegex(lines[-2], r'^3 passed over: ([^;:]*: the Rust is not at hand \(differential/README.md\)(; |$)){3}$')
        self.assertEqual(self.counted, parts())
        self.assertIn(f'{PROVED}, 0 left', lines)

    def test_another_number_of_parts_fails_and_says_it(self):
        for number in SAME - 1, SAME + 1:
            status, lines = self.run_gate(f'{number} tests ran')
            self.assertEqual(status, 1)
            self.assert_those_of_python_fail(lines)
            said = f'vectors: failed: it has {number} parts, and tests/parts.txt says {SAME}. If that is right, write: {number} vectors'
            self.assertIn(said, lines)
            self.assertIn(f'{number} vectors\n', self.counted)

    def test_a_test_that_does_not_say_fails(self):
        for said in 'OK', '':
            self.assert_those_of_python_fail(self.run_gate(said)[1])

    def test_what_ran_and_what_was_passed_over_count_together(self):
        status, lines = self.run_gate(f'{SAME - 3} tests ran, 3 passed over')
        self.assertEqual((status, lines[-1]), (0, f'{TESTS + 7} passed, 0 failed'))
        self.assertEqual(self.run_gate(f'{SAME - 3} tests ran, 2 passed over')[0], 1)

    def test_a_status_that_is_not_0_fails(self):
        self.assert_those_of_python_fail(self.run_gate(status=1)[1])

    def test_a_number_without_a_test_fails(self):
        self.before = lambda root: (root / 'tests/parts.txt').write_text(parts('gone from here'))
        status, lines = self.run_gate()
        self.assertEqual((status, lines[-1]), (1, f'{TESTS + 7} passed, 1 failed'), lines)
        self.assertIn('gone from here: tests/parts.txt has its number, and there is no such test', lines)

    def test_proofs_that_fail(self):
        for proofs, last in ('6 passed, 1 failed', f'{TESTS + 6} passed, 1 failed'), ('rt: out of memory', f'{TESTS} passed, 1 failed'), \
                ('', f'{TESTS} passed, 1 failed'), ('7 passed, 0 failed', f'{TESTS + 7} passed, 1 failed'):
            status, lines = self.run_gate(proofs=proofs)
            self.assertEqual((status, lines[-1]), (1, last), lines)

    def test_a_bad_edit_fails(self):
        """rt counts it, and goes on."""
        bad = 'rt: must-fail one/x.edit: BAD EDIT: it changes nothing', f'{OK}, 1 bad', f'{OK}, 2 of them only by a limit, 1 bad; every proof'
        for proofs in f'{bad[0]}\\n{OK}', bad[1], bad[2]:
            status, lines = self.run_gate(proofs=f'{proofs}\\n7 passed, 0 failed')
            self.assertEqual((status, lines[-1]), (1, f'{TESTS + 7} passed, 1 failed'), lines)
            self.assertIn('rt ci: an edit that must fail is bad', lines)
        self.assertEqual(self.run_gate(proofs=f'{OK}, 2 of them only by a limit\\n7 passed, 0 failed')[0], 0)

    def test_crates_that_are_kept_and_their_tests(self):
        self.before = lambda root: (root / 'crates.txt').write_text('one:\ntwo:\nlast: two\n')
        kept = 'rt: two is kept: an earlier run on this machine proved the same files over the same libraries'
        _, lines = self.run_gate(proofs=f'rt: two: its tests are proved\\n{kept}\\nrt: last NOT PROVED: its library two failed\\n1 passed, 1 failed')
        for line in f'{PROVED}, 2 left', 'rt: two: its tests are proved', f'{kept}, 1 left', 'rt: last NOT PROVED: its library two failed, 0 left':
            self.assertIn(line, lines)

    def test_the_library_is_made_after_the_proofs(self):
        rt = f'[ "$1" = ci ] || exit 0; echo "{PROVED}"; sleep 0.5; touch proved; echo "{OK}"; echo "7 passed, 0 failed"'
        status, lines = self.run_gate(rt=rt, make='[ -e proved ]')
        self.assertEqual((status, lines[-1]), (0, f'{TESTS + 7} passed, 0 failed'), lines)

    def test_tests_passed_over_are_named(self):
        skipped = "skipped: Debian's cpuid is not installed\n" * 2 + "..skipped: Debian's jq is not installed (apt-get install jq)\n" \
            + "test_x (a.b) ... skipped 'fish is not installed'\n"
        _, lines = self.run_gate(said=f'{skipped}{SAME - 4} tests ran, 4 passed over')
        for said in ("vectors: 2 of them, as Debian's cpuid is there and fails: cpuid: no such device",
                     'vectors: 1 of them, as fish is not installed'):
            self.assertIn(said, lines[-2].split('passed over: ')[1].split('; '))

    def test_without_kvm(self):
        status, lines = self.run_gate(kvm=False)
        self.assertEqual((status, lines[-1]), (0, f'{TESTS + 7} passed, 0 failed'))
        self.assertRegex(lines[-2], r'^4 passed over: .*guest under KVM: \S*/none cannot be opened')

    def test_without_proofs(self):
        status, lines = self.run_gate(words=['--no-proofs'])
        self.assertEqual((status, lines[-1]), (0, f'{TESTS - 1} passed, 0 failed'), lines)
        self.assertRegex(lines[-2], '^5 passed over: the proofs, as asked; why the edits are refused, as asked')

    def test_what_is_older_than_the_sources_is_said(self):
        program = 'crates/snp_cpuid_image/out/snp_cpuid_image'

        def before(root):
            for at, name in enumerate((program, 'crates/one/src/deep/lib.rt')):
                (root / name).parent.mkdir(parents=True)
                (root / name).write_text('')
                os.utime(root / name, (at + 1, at + 1))
            os.utime(root / 'crates.txt', (1, 1))
        self.before = before
        status, lines = self.run_gate(words=['--no-proofs'])
        self.assertEqual((status, lines[-1]), (0, f'{TESTS - 1} passed, 0 failed'), lines)
        self.assertIn(f'{program} is older than crates/one/src/deep/lib.rt', lines)
        self.assertIn(f'{program} is older than crates/one/src/deep/lib.rt', lines[-2])

    def test_words(self):
        """Unknown words are refused before anything is removed; --help asks for nothing."""
        self.before = lambda root: (root / 'target/kept').mkdir()
        for words in ['--no-proof'], ['--no-proofs', '--no-proofs'], ['x'], ['lines', 'x'], ['--help', 'x'], ['']:
            status, lines = self.run_gate(words=words)
            self.assertEqual((status, lines[0]), (2, f'tests/run: unknown words: {" ".join(words)}'))
            self.assertEqual(self.kept, {'kept'})
        for word in '--help', '-h':
            status, lines = self.run_gate(words=[word])
            self.assertEqual((status, lines[0]), (0, 'Usage: tests/run [--no-proofs | --help | NAME..]'))
            self.assertEqual(self.kept, {'kept'})

    def test_tests_by_name(self):
        self.before = lambda root: (root / 'target/kept').mkdir()
        status, lines = self.run_gate(words=['lines', 'pooled from C'])
        self.assertEqual((status, lines[:2], lines[-1]), (0, [f'lines: {SAME} tests ran', f'pooled from C: {SAME} parts'], '2 passed, 0 failed'))
        self.assertIn('kept', self.kept)
        self.assertEqual(self.run_gate('8 tests ran', words=['lines'])[1][-1], '0 passed, 1 failed')

    def test_tests_that_end_early_fail(self):
        status, lines = self.run_gate(gcc='kill -9 $PPID')
        self.assertEqual((status, lines[-1].split(', ')[1] != '0 failed'), (1, True), lines)
        self.assertIn('tables from C: did not end', lines)

    def test_lines_come_one_by_one_into_a_file(self):
        """The line of a crate, and that of a test, are there while rt still works."""
        seen = 'for i in $(seq 600); do grep -q "^Python tests: " "$SAID" && grep -q "one proved" "$SAID" && break; sleep 0.1; done; ' \
            'echo "rt: seen $(grep -c "^Python tests: " "$SAID")"'
        with tempfile.NamedTemporaryFile('r') as said:
            os.environ['SAID'] = said.name
            self.addCleanup(os.environ.pop, 'SAID')
            real = subprocess.run

            def into_a_file(words, stdout, **given):
                with open(said.name, 'w') as file:
                    ran = real(words, stdout=file, **given)
                ran.stdout = said.read()
                return ran
            subprocess.run = into_a_file
            self.addCleanup(setattr, subprocess, 'run', real)
            _, lines = self.run_gate(rt=f'[ "$1" != ci ] || {{ echo "{PROVED}"; {seen}; echo "7 passed, 0 failed"; }}')
        self.assertIn('rt: seen 1', lines)


if __name__ == '__main__':
    unittest.main()
