"""Tests of sessions.py: the answers of now stand below each line, and all else of a document stays."""
from contextlib import redirect_stdout
from io import StringIO
from pathlib import Path
import tempfile
import unittest

import sessions

OLD = 'Text.\n\n    $ echo one; echo; echo two\n    one\n\n    three\n    $ echo four >&2\n\nMore.\n\n    $ true\n    gone\n\n    no command\n'
NEW = 'Text.\n\n    $ echo one; echo; echo two\n    one\n\n    two\n    $ echo four >&2\n    four\n\nMore.\n\n    $ true\n'


class Sessions(unittest.TestCase):
    def test_answers_of_now(self):
        with tempfile.TemporaryDirectory() as folder:
            made, many = sessions.rewritten(OLD, folder, '/usr/bin')
            self.assertEqual((made, many), (NEW, 3))
            self.assertEqual(sessions.rewritten(made, folder, '/usr/bin'), (made, many))

    def test_a_tool_that_is_not_there(self):
        text = '    $ cat none | jq .\n    kept\n'
        held = sessions.shutil.which
        sessions.shutil.which = lambda name: None
        self.addCleanup(setattr, sessions.shutil, 'which', held)
        with tempfile.TemporaryDirectory() as folder:
            self.assertEqual(sessions.rewritten(text, folder, '/usr/bin'), (text, 1))

    def test_without_a_command_and_other_words(self):
        with tempfile.TemporaryDirectory() as folder, redirect_stdout(StringIO()):
            self.assertEqual((sessions.main(['--write'], Path(folder)), sessions.main(['--check'], Path(folder))), (1, 2))


if __name__ == '__main__':
    unittest.main()
