"""The model's fingerprint: FIPS 180-4's digests, server A's of the theorems, and sha256sum of the shipped table's image."""
from pathlib import Path
import re
import shutil
import subprocess
import unittest

import make_server_a
import model
import model_table
from pagesets import MILAN

ROOT = Path(__file__).resolve().parents[2]
SERVER_A = ROOT / 'crates/images/specs/FingerprintA.antt'


def literal(name):
    """The bytes that a definition of FingerprintA.antt lists."""
    body = re.search(rf'^{name} =\n((?:    .*\n)+)', SERVER_A.read_text(encoding='utf-8'), re.MULTILINE).group(1)
    return bytes(int(digits, 16) for digits in re.findall('0x([0-9a-f]{2})', body))


class Fingerprint(unittest.TestCase):
    def test_a_table_without_rows_has_that_of_no_bytes(self):
        digest = 'e3b0c44298fc1c149afbf4c8996fb92427ae41e4649b934ca495991b7852b855'
        self.assertEqual(model_table.fingerprint(model_table.EMPTY).hex(), digest)

    def test_server_a_as_the_theorem_has_it(self):
        is_image, memory = model_table.read(literal('image_a'))
        self.assertTrue(is_image)
        self.assertEqual(model_table.fingerprint(memory), literal('digest_a'))

    def test_server_a_is_as_made(self):
        self.assertEqual(SERVER_A.read_text(encoding='utf-8'), make_server_a.made()[0])

    @unittest.skipUnless(shutil.which('sha256sum'), 'sha256sum is missing (coreutils)')
    def test_sha256sum_gives_the_same(self):
        for image in literal('image_a'), model.image(model.build(MILAN, False, 1)):
            told = subprocess.run(['sha256sum'], input=image, capture_output=True, check=True).stdout.split()[0].decode()
            self.assertEqual(model_table.fingerprint(model_table.read(image)[1]).hex(), told)


if __name__ == '__main__':
    unittest.main()
