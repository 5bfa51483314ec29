"""Tests of install/prove, with a script in the place of rt, and of what stands beside it: install/rows and install/in-memory."""
from pathlib import Path
import os
import subprocess
import tempfile
import threading
import unittest

INSTALL = Path(__file__).resolve().parents[2] / 'install'

# proves base, then the crate of its folder, when the file `slow` there is gone
RT = '''#!/bin/sh
echo "rt $*" >>"$ASKED"
crate=$(basename "$PWD")
echo "crate base: modules loaded=1 checked=2"
echo "logic=proved functions=1"
while [ -e slow ]; do sleep 0.01; done
[ -e src/lib.rt ] || echo "a line on standard error" >&2
if [ -e false ]; then echo "./src/lib.rt:1:1: error: no"; echo "logic=not-proved"; exit 1; fi
echo "crate $crate: modules loaded=1 checked=2"
echo "logic=proved functions=1"
'''


class Prove(unittest.TestCase):
    def setUp(self):
        folder = tempfile.TemporaryDirectory()
        self.addCleanup(folder.cleanup)
        self.root, self.asked = Path(folder.name, 'repository'), Path(folder.name, 'asked')
        self.write('install/prove', (INSTALL / 'prove').read_text(), 0o755)
        self.write('bin/rt', RT, 0o755)
        self.write('crates/left/src/lib.rt', '')
        self.write('crates/program/src/main.rt', '')
        self.environment = {**os.environ, 'ASKED': str(self.asked), 'PATH': f'{self.root / "bin"}{os.pathsep}{os.environ["PATH"]}'}

    def write(self, name, text, mode=0o644):
        path = self.root / name
        path.parent.mkdir(parents=True, exist_ok=True)
        path.write_text(text)
        path.chmod(mode)

    def prove(self, crate):
        """(status, lines said, what rt was asked)."""
        ran = subprocess.run([self.root / 'install/prove', crate], cwd='/', env=self.environment, stdout=subprocess.PIPE, stderr=subprocess.STDOUT,
                             text=True, check=False)
        return ran.returncode, ran.stdout.splitlines(), self.asked.read_text().splitlines()

    def test_a_line_for_each_crate(self):
        self.assertEqual(self.prove('left'), (0, ['base proved', 'left proved'], ['rt lib']))

    def test_a_program(self):
        self.assertEqual(self.prove('program'), (0, ['base proved', 'program proved'], ['rt check']))

    def test_a_crate_that_is_not_proved(self):
        self.write('crates/left/false', '')
        status, lines, _ = self.prove('left')
        self.assertEqual((status, lines[0], lines[-2:]), (1, 'base proved', ['./src/lib.rt:1:1: error: no', 'logic=not-proved']))

    def test_lines_come_one_by_one_into_a_pipe(self):
        """base's line is there while the next crate still waits."""
        slow = self.root / 'crates/left/slow'
        slow.write_text('')
        with subprocess.Popen([self.root / 'install/prove', 'left'], env=self.environment, stdout=subprocess.PIPE, text=True) as ran:
            unblock = threading.Timer(20, slow.unlink)
            unblock.start()
            first = ran.stdout.readline()
            unblock.cancel()
            self.assertTrue(slow.exists() and first == 'base proved\n', first)
            slow.unlink()
            self.assertEqual(ran.stdout.readline(), 'left proved\n')


class Rows(unittest.TestCase):
    def rows(self, data):
        return subprocess.run([INSTALL / 'rows'], input=data, stdout=subprocess.PIPE, stderr=subprocess.STDOUT, check=False)

    def test_the_rows_of_an_image(self):
        one = bytes([1]) + b''.join(number.to_bytes(4, 'little') for number in (0x80000001, 1, 2, 3, 0xFFFFFFFF))
        two = bytes([2]) + b''.join(number.to_bytes(4, 'little') for number in (0xD, 12, 4, 5, 6, 7))
        lines = self.rows(one + two).stdout.decode().splitlines()
        self.assertEqual(lines, ['leaf        EAX      EBX      ECX      EDX', '80000001    00000001 00000002 00000003 FFFFFFFF',
                                 '0000000D.C  00000004 00000005 00000006 00000007'])

    def test_a_refusal_and_a_short_row_are_no_rows(self):
        self.assertNotEqual(self.rows(bytes([3, 1])).returncode, 0)
        self.assertNotEqual(self.rows(bytes([1, 0])).returncode, 0)


class InMemory(unittest.TestCase):
    def test_status_folder_and_that_it_is_removed(self):
        ran = subprocess.run([INSTALL / 'in-memory', 'sh', '-c', 'touch "$TMPDIR/x"; stat -c "%a %n" "$TMPDIR"; exit 7'],
                             capture_output=True, text=True, check=False)
        mode, folder = ran.stdout.split()
        self.assertEqual((ran.returncode, mode), (7, '711'))
        self.assertFalse(Path(folder).exists())


if __name__ == '__main__':
    unittest.main()
