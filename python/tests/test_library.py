"""Runs each of `library_cases` over a stand-in for the library, in a process of its own, under the allocator that finds what is written past a block; and
compares the numbers of the package with those of the header, which the stand-in is compiled with."""
import os
import pathlib
import re
import shutil
import subprocess
import sys
import tempfile
import unittest

from geoarrow_fields import library

from . import library_cases
from .shared import TOP

CC = os.environ.get("CC", "cc").split()


@unittest.skipUnless(shutil.which(CC[0]), f"there is no {CC[0]}")
class Library(unittest.TestCase):
    """The cases."""

    @classmethod
    def setUpClass(cls):
        there = tempfile.TemporaryDirectory()
        cls.addClassCleanup(there.cleanup)
        cls.library = str(pathlib.Path(there.name, "stand_in.so"))
        compile_stand_in(cls.library)

    def test_another_version(self):
        """A library of another version, whose calls may be others, is not called."""
        with tempfile.TemporaryDirectory() as folder:
            other = str(pathlib.Path(folder, "other.so"))
            compile_stand_in(other, "-DVERSION=10000")
            words = [sys.executable, "-c", "import geoarrow_fields; geoarrow_fields.read('')"]
            ran = subprocess.run(words, cwd=TOP / "python", env={**os.environ, "GEOARROW_C_LIBRARY": other}, stdout=subprocess.PIPE, stderr=subprocess.PIPE)
            self.assertEqual(ran.stderr.decode().splitlines()[-1:], ["ImportError: libgeoarrow_c.so has the version 10000, not 20000"])


def compile_stand_in(built, *words):
    source = pathlib.Path(__file__).with_name("stand_in.c")
    subprocess.run(
        [*CC, "-std=c99", "-Wall", "-Wextra", "-Werror", "-O1", "-shared", "-fPIC", f"-I{TOP}/include", *words, "-o", built, str(source)], check=True)


class Header(unittest.TestCase):
    def test_the_numbers_of_the_header(self):
        said = (TOP / "include/geoarrow.h").read_text()
        found = {name: int(number) for name, number in re.findall(r"GEOARROW_(\w+)(?: =)? (\d+)", said)}
        for name in ("VERSION", "DONE", "SHORT", "MEMORY", "REFUSED", "FIRST_REFUSED", "INFER_TYPES", "NOTES"):
            self.assertEqual(getattr(library, name), found[name], name)
        for one in library.Command:
            self.assertEqual(one, found[one.name])


def _case(name):
    def run(self):
        environment = {
            **os.environ, "GEOARROW_C_LIBRARY": self.library, "PYTHONMALLOC": "debug", "PYTHONDONTWRITEBYTECODE": "1", "PYTHONFAULTHANDLER": "1"}
        words = [sys.executable, "-m", "unittest", f"tests.library_cases.Cases.{name}"]
        ran = subprocess.run(words, cwd=TOP / "python", env=environment, stdout=subprocess.PIPE, stderr=subprocess.STDOUT, timeout=120)
        self.assertEqual(ran.returncode, 0, ran.stdout.decode(errors="replace")[-3000:])

    return run


for _name in unittest.defaultTestLoader.getTestCaseNames(library_cases.Cases):
    setattr(Library, _name, _case(_name))


if __name__ == "__main__":
    unittest.main()
