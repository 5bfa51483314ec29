"""Tests of count_ran.py on what unittest and cargo print."""
import unittest

from count_ran import count

CARGO = '''
running 0 tests

test result: ok. 0 passed; 0 failed; 0 ignored; 0 measured; 0 filtered out; finished in 0.00s


running 4 tests
.skipped: Debian's cpuid is not installed (apt-get install cpuid)
.skipped: Debian's cpuid is not installed (apt-get install cpuid)
..
test result: ok. 4 passed; 0 failed; 1 ignored; 0 measured; 0 filtered out; finished in 1.62s

running 7 tests
skipped: Debian's cpuid is not installed (apt-get install cpuid)
.......
test result: ok. 7 passed; 0 failed; 0 ignored; 0 measured; 0 filtered out; finished in 0.06s
'''


class Count(unittest.TestCase):
    def test_python(self):
        self.assertEqual(count('...\n-----\nRan 60 tests in 5.164s\n\nOK\n'), (60, 0))
        self.assertEqual(count('s.\nRan 2 tests in 0.1s\n\nOK (skipped=1)\n'), (1, 1))
        self.assertEqual(count('s.x\nRan 3 tests in 0.1s\n\nOK (expected failures=1, skipped=2)\n'), (1, 2))

    def test_rust(self):
        self.assertEqual(count(CARGO), (8, 3))

    def test_nothing_ran(self):
        for text in '', 'Ran 0 tests in 0.0s\n\nOK\n', 'NO TESTS RAN\n', 'running 0 tests\n\ntest result: ok. 0 passed; 0 failed;\n':
            self.assertEqual(count(text), (0, 0))

    def test_failures_do_not_count_as_run(self):
        self.assertEqual(count('test result: FAILED. 3 passed; 1 failed; 0 ignored\n'), (0, 0))


if __name__ == '__main__':
    unittest.main()
