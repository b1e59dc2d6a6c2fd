"""Runs each of `object_cases` in a process of its own, under the allocator that finds what is written past a block."""
import os
import subprocess
import sys
import unittest

from . import object_cases
from .shared import TOP


class Objects(unittest.TestCase):
    """The cases."""


def _case(name):
    def run(self):
        environment = {**os.environ, "PYTHONMALLOC": "debug", "PYTHONDONTWRITEBYTECODE": "1", "PYTHONFAULTHANDLER": "1"}
        words = [sys.executable, "-m", "unittest", f"tests.object_cases.Cases.{name}"]
        ran = subprocess.run(words, cwd=TOP / "python", env=environment, stdout=subprocess.PIPE, stderr=subprocess.STDOUT, timeout=120)
        self.assertEqual(ran.returncode, 0, ran.stdout.decode(errors="replace")[-3000:])

    return run


for _name in unittest.defaultTestLoader.getTestCaseNames(object_cases.Cases):
    setattr(Objects, _name, _case(_name))


if __name__ == "__main__":
    unittest.main()
