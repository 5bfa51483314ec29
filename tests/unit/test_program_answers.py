"""Tests of program_answers.py: an answer that no input asks for is told, and so is each way in which a program can be wrong."""
from pathlib import Path
import tempfile
import unittest

import model
import program_answers
from pagesets import minimal, spread

SETS = program_answers.inputs()


class Inputs(unittest.TestCase):
    def test_all_answers_are_asked_for(self):
        self.assertEqual(program_answers.lacking(SETS), [])
        self.assertEqual(len(program_answers.REFUSALS), 5 + 30 + 16 + 24)

    def test_an_answer_without_input_is_told(self):
        for answer in program_answers.REFUSALS:
            without = [data for data in SETS if program_answers.told(data) != answer]
            self.assertEqual(program_answers.lacking(without), [f'no input is answered by {answer}'])

    def test_a_length_without_input_is_told(self):
        for length, many in (65536, 2), (65537, 1):
            without = [data for data in SETS if len(data) != length]
            self.assertEqual(len(program_answers.lacking(without)), many)


class Programs(unittest.TestCase):
    """Programs that write the right bytes for one input."""

    def wrong(self, data, script):
        with tempfile.TemporaryDirectory() as folder:
            program = Path(folder, 'program')
            program.write_text(f'#!/bin/sh\ncat >{folder}/input\n{script}\n')
            program.chmod(0o755)
            return list(program_answers.wrong_answers(program, [data]))

    def written(self, data):
        return "printf '" + ''.join(f'\\{byte:03o}' for byte in data) + "'"

    def test_programs(self):
        for data in b'', spread(minimal()), bytes(65537):
            right = self.written(model.output(data))
            self.assertEqual(self.wrong(data, right), [])
            for script in ':', f'{right}; exit 1', f'{right}; echo >&2', f'{right}; echo', self.written(b'\6' + model.output(data)[1:]):
                self.assertEqual(len(self.wrong(data, script)), 1, script)


if __name__ == '__main__':
    unittest.main()
