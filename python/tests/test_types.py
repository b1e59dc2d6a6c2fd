"""A test of the package's types: mypy, where it is installed, finds no fault with them."""
import pathlib
import shutil
import subprocess
import tempfile
import unittest

import geoarrow_fields


@unittest.skipUnless(shutil.which("mypy"), "there is no mypy")
class Types(unittest.TestCase):
    def test_strictly(self):
        with tempfile.TemporaryDirectory() as cache:
            words = ["mypy", "--strict", "--cache-dir", cache, str(pathlib.Path(geoarrow_fields.__file__).parent)]
            ran = subprocess.run(words, stdout=subprocess.PIPE, stderr=subprocess.STDOUT)
        self.assertEqual(ran.returncode, 0, ran.stdout.decode())


if __name__ == "__main__":
    unittest.main()
