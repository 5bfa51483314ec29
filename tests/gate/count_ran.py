"""count_ran.py COMMAND..: runs tests of Python or Rust, hands on what they print and their status, and last prints how many ran.

A test that was passed over did not run: Python's are those that it counts as skipped, Rust's say so in a line 'skipped: ..' and then pass.
"""
import re
import subprocess
import sys

# unittest: 'Ran 3 tests in 0.1s' and 'OK (skipped=1)'; cargo test: 'test result: ok. 3 passed; 0 failed; 0 ignored; ..' for each program
PYTHON = re.compile(r'^Ran (\d+) tests? in ', re.MULTILINE)
PYTHON_SKIPPED = re.compile(r'^OK \(.*?skipped=(\d+)', re.MULTILINE)
RUST = re.compile(r'^test result: ok\. (\d+) passed;', re.MULTILINE)
RUST_SKIPPED = re.compile(r'(?:^|\.)skipped: ', re.MULTILINE)


def count(text):
    """(how many tests ran, how many were passed over)."""
    passed = sum(map(int, PYTHON.findall(text) + RUST.findall(text)))
    skipped = sum(map(int, PYTHON_SKIPPED.findall(text))) + len(RUST_SKIPPED.findall(text))
    return passed - skipped, skipped


def main(words):
    ran = subprocess.run(words, stdout=subprocess.PIPE, stderr=subprocess.STDOUT, text=True, check=False)
    print(ran.stdout, end='')
    number, skipped = count(ran.stdout)
    print(f'{number} tests ran' + (f', {skipped} passed over' if skipped else ''))
    return ran.returncode


if __name__ == '__main__':
    sys.exit(main(sys.argv[1:]))
