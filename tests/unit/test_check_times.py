"""What tests/gate/check_times.py makes of the words of `rt all verdict` and of /proc/stat, and its runs over a small repository with a script as `rt`."""
from contextlib import redirect_stderr, redirect_stdout
from io import StringIO
from pathlib import Path
from unittest import mock
import os
import subprocess
import tempfile
import unittest

import check_times


class Told(unittest.TestCase):
    def test_all_proved(self):
        said = '== a\nlogic=proved\n== b\nlogic=proved\n== summary\na: ok\nb: ok\n2 of 2 crates ok\n'
        self.assertEqual(check_times.told(said, ['a', 'b']), (2, 'proved'))

    def test_one_not_proved_is_named(self):
        said = '== summary\na: ok\nb: failed (1)\nc: not run, since b failed\n(1: not proved or not passed)\n1 of 3 crates ok\n'
        self.assertEqual(check_times.told(said, ['a', 'b', 'c']), (1, 'not proved: b'))

    def test_a_crate_that_is_missing_is_no_proof(self):
        self.assertEqual(check_times.told('== summary\na: ok\n', ['a', 'b']), (1, 'not proved: see rt'))
        self.assertEqual(check_times.told('a: ok\nb: ok\n', ['a', 'b']), (0, 'not proved: see rt'))


class Busy(unittest.TestCase):
    def test_neither_idle_nor_waiting_nor_a_guest_again(self):
        # user nice system idle iowait irq softirq steal guest guest_nice; the last two are in user and nice already
        with mock.patch('os.sysconf', return_value=100):
            self.assertEqual(check_times.busy('cpu  100 200 300 9000 9000 400 500 600 9000 9000\ncpu0 1 1 1 1 1 1 1 1 1 1\n'), 21)


# Proves what crates.txt lists but a crate named `wrong`, where it is called as it should be: in a clone without a trace of an earlier run, two crates
# at a time, and with a temporary folder of its own.
RT = '''#!/bin/sh
[ "$*" = 'all verdict --jobs 2' ] && [ -d "$TMPDIR" ] && [ "$PWD" != "$REPOSITORY" ] && [ ! -e trace ] || exit 2
touch trace
echo '== summary'
for crate in $(sed 's/#.*//; s/:.*//' crates.txt); do
    if [ "$crate" = wrong ]; then echo "$crate: failed (1)" >&2; else echo "$crate: ok"; fi
done
'''


class Runs(unittest.TestCase):
    def setUp(self):
        folder = tempfile.TemporaryDirectory()
        self.addCleanup(folder.cleanup)
        self.root, self.logs = Path(folder.name, 'repository'), Path(folder.name, 'logs')
        rt = Path(folder.name, 'bin', 'rt')
        for made in self.root, rt.parent:
            made.mkdir()
        rt.write_text(RT, encoding='ascii')
        rt.chmod(0o755)
        changed = {'PATH': f'{rt.parent}:{os.environ["PATH"]}', 'REPOSITORY': str(self.root)}
        for patch in mock.patch.object(check_times, 'ROOT', self.root), mock.patch.dict(os.environ, changed):
            patch.start()
            self.addCleanup(patch.stop)
        self.git('init', '--quiet')
        self.one = self.commit('bits:\n')
        self.two = self.commit('bits:\nrows: bits\n')
        self.wrong = self.commit('bits:\nwrong: bits\nrows: wrong\n')

    def git(self, *words):
        author = ['-c', 'user.name=a', '-c', 'user.email=a@example.org']
        return subprocess.run(['git', *author, *words], cwd=self.root, check=True, capture_output=True, text=True).stdout.strip()

    def commit(self, crates):
        (self.root / 'crates.txt').write_text(f'# comment: with a colon\n{crates}', encoding='ascii')
        self.git('add', '.')
        self.git('commit', '--quiet', '--message', 'crates')
        return self.git('rev-parse', '--short', 'HEAD')

    def asked(self, *words):
        """(status, the commit, crates and verdict of each line but the first)."""
        with redirect_stdout(StringIO()) as said:
            status = check_times.main(words)
        rows = [line.split() for line in said.getvalue().splitlines()[1:]]
        return status, [(row[0], ' '.join(row[4:7]), ' '.join(row[7:])) for row in rows]

    def test_each_revision_is_proved_as_it_was_and_in_turn(self):
        once = [(self.one, '1 of 1', 'proved'), (self.two, '2 of 2', 'proved')]
        self.assertEqual(self.asked('--times', '2', self.one, f'{self.wrong}~'), (0, once + once))
        self.assertEqual(self.git('status', '--porcelain'), '')

    def test_a_revision_that_is_not_proved(self):
        lines = [(self.wrong, '2 of 3', 'not proved: wrong'), (self.one, '1 of 1', 'proved')]
        self.assertEqual(self.asked('--logs', str(self.logs), self.wrong, self.one), (1, lines))
        self.assertIn('wrong: failed (1)\n', (self.logs / self.wrong).read_text(encoding='utf-8'))

    def test_a_wrong_word_is_refused_before_the_first_run(self):
        for words in (self.one, 'no-such'), ('--times', '0', self.one), ('--times', 'x', self.one):
            with redirect_stderr(StringIO()) as said, redirect_stdout(StringIO()) as lines, self.assertRaises(SystemExit) as ended:
                check_times.main(words)
            self.assertEqual((ended.exception.code, lines.getvalue()), (2, ''))
            self.assertRegex(said.getvalue(), r'no revision no-such|--times: at least 1')


if __name__ == '__main__':
    unittest.main()
