"""Tests of the wheel: what it holds, and that it works from another folder, in each Python that is here."""
import os
import pathlib
import re
import shutil
import subprocess
import sys
import tempfile
import unittest
import zipfile

from geoarrow_fields import __version__, library

from .shared import TOP

TOOLS = "import setuptools, wheel, pip"  # (in this order: pip loads what setuptools replaces)
INSTALLED = """
import geoarrow_fields, pathlib, sys
assert pathlib.Path(geoarrow_fields.library.path()).parent == pathlib.Path(geoarrow_fields.__file__).parent
print(geoarrow_fields.check(sys.argv[1], infer=True))
"""


def ran(*words, **more):
    return subprocess.run(words, stdout=subprocess.PIPE, stderr=subprocess.STDOUT, **more)


def pythons(script):
    """The interpreters here, from Python 3.8 on, that run a script: that of the tests, Debian's own, and those of pyenv."""
    versions = pathlib.Path(os.environ.get("PYENV_ROOT") or pathlib.Path.home() / ".pyenv", "versions")
    found = dict.fromkeys([sys.executable, "/usr/bin/python3", *sorted(map(str, versions.glob("*/bin/python3")))])
    script = f"import sys; assert sys.version_info >= (3, 8); {script}"
    return [one for one in found if os.path.exists(one) and ran(one, "-W", "ignore", "-c", script).returncode == 0]


def held_in(wheel):
    """The files of the package in a wheel, with what is in them."""
    with zipfile.ZipFile(wheel) as held:
        return {name: held.read(name) for name in held.namelist() if ".dist-info/" not in name}


BUILDERS = pythons(TOOLS)


@unittest.skipUnless(BUILDERS, "no Python here has pip, setuptools and wheel")
class Wheel(unittest.TestCase):
    @classmethod
    def setUpClass(cls):
        there = tempfile.TemporaryDirectory()
        cls.addClassCleanup(there.cleanup)
        cls.folder = pathlib.Path(there.name)
        shutil.copytree(TOP / "python", cls.folder / "top/python", ignore=shutil.ignore_patterns("__pycache__", "build"))
        for name in ("LICENSE-APACHE", "LICENSE-MIT", "NOTICE"):
            shutil.copy(TOP / name, cls.folder / "top")
        cls.code = re.search(r"(?m)^    python -c '(.*)'$", (TOP / "docs/USE.md").read_text())[1]
        cls.table = re.sub("(?m)^    ", "", re.search(r"    bin/try check --infer examples/schema.jsonl\n\n((?:    .*\n)+)", (TOP / "README.md").read_text())[1])
        cls.before = sorted(cls.folder.rglob("*"))
        cls.environment = {**os.environ, "GEOARROW_C_LIBRARY": os.path.realpath(library.path())}
        words = [BUILDERS[-1], "-m", "pip", "wheel", "--no-build-isolation", "--no-index", "--no-deps", "-w", str(cls.folder / "wheels"), "."]
        cls.built = ran(*words, cwd=cls.folder / "top/python", env=cls.environment)

    def wheel(self):
        self.assertEqual(self.built.returncode, 0, self.built.stdout.decode())
        (found,) = (self.folder / "wheels").iterdir()
        return found

    def platform(self):
        """That of the C library that the library needs, as readelf tells it."""
        told = ran("readelf", "-V", os.path.realpath(library.path())).stdout.decode()
        newest = max((2, 17), *((int(major), int(minor)) for major, minor in re.findall(r"Name: GLIBC_(\d+)\.(\d+)", told)))
        return "manylinux_{}_{}_{}".format(*newest, os.uname().machine)

    def test_that_it_needs_the_c_library_alone(self):
        told = ran("readelf", "-d", os.path.realpath(library.path())).stdout.decode()
        self.assertEqual(re.findall(r"\(NEEDED\).*\[(.*)\]", told), ["libc.so.6"])

    def test_what_it_holds(self):
        found = self.wheel()
        self.assertEqual(found.name, f"geoarrow_fields-{__version__}-py3-none-{self.platform()}.whl")
        with zipfile.ZipFile(found) as held:
            self.assertEqual(held.read("geoarrow_fields/libgeoarrow_c.so"), pathlib.Path(os.path.realpath(library.path())).read_bytes())
            modules = {f"geoarrow_fields/{one.name}" for one in (TOP / "python/geoarrow_fields").iterdir() if one.suffix in (".py", ".typed")}
            others = {"geoarrow_fields/" + name for name in ("libgeoarrow_c.so", "LICENSE-APACHE", "LICENSE-MIT", "NOTICE")}
            self.assertEqual({name for name in held.namelist() if ".dist-info/" not in name}, modules | others)
            (points,) = (name for name in held.namelist() if name.endswith(".dist-info/entry_points.txt"))
            self.assertEqual(held.read(points).decode().split(), ["[console_scripts]", "geoarrow-fields", "=", "geoarrow_fields.__main__:script"])

    def test_that_nothing_is_left_beside_it(self):
        self.wheel()
        left = set(self.folder.rglob("*")) - {*self.before, *(self.folder / "wheels").rglob("*"), self.folder / "wheels"}
        self.assertEqual({one.name for one in left if one.name != "__pycache__" and one.suffix != ".pyc"} - {"installed"}, set())

    def test_that_it_works_from_another_folder(self):
        found = self.wheel()
        with tempfile.TemporaryDirectory() as elsewhere:
            for python in pythons("import pip"):
                with self.subTest(python):
                    target = tempfile.mkdtemp(dir=elsewhere)
                    installed = ran(python, "-m", "pip", "install", "--no-index", "--no-deps", "--target", target, str(found))
                    self.assertEqual(installed.returncode, 0, installed.stdout.decode())
                    environment = {name: text for name, text in os.environ.items() if name not in ("GEOARROW_C_LIBRARY", "PYTHONPATH")}
                    said = ran(python, "-c", INSTALLED, str(TOP / "examples/schema.jsonl"), cwd=elsewhere, env={**environment, "PYTHONPATH": target})
                    self.assertEqual(said.returncode, 0, said.stdout.decode())
                    self.assertEqual(said.stdout.decode(), self.table)
                    said = ran(python, "-c", self.code, cwd=TOP, env={**environment, "PYTHONPATH": target})
                    self.assertEqual(said.stdout.decode(), self.table)
                    words = [f"{target}/bin/geoarrow-fields", "check", "--infer", "examples/schema.jsonl"]
                    said = ran(*words, cwd=TOP, env={**environment, "PYTHONPATH": target, "LC_ALL": "C"})
                    self.assertEqual((said.stdout.decode(), said.returncode), (self.table, 1))

    def test_without_the_library(self):
        words = [BUILDERS[-1], "-m", "pip", "wheel", "--no-build-isolation", "--no-index", "--no-deps", "-w", str(self.folder / "none"), "."]
        said = ran(*words, cwd=self.folder / "top/python", env={**self.environment, "GEOARROW_C_LIBRARY": str(self.folder / "nowhere.so")})
        self.assertNotEqual(said.returncode, 0)
        self.assertIn("nowhere.so is not there: bin/native of the project's repository builds it", said.stdout.decode())

    def test_of_a_source_distribution(self):
        """A wheel of it holds what that of the repository does."""
        with tempfile.TemporaryDirectory() as elsewhere:
            said = ran(BUILDERS[-1], "setup.py", "-q", "sdist", "-d", elsewhere, cwd=self.folder / "top/python", env=self.environment)
            self.assertEqual(said.returncode, 0, said.stdout.decode())
            folder = pathlib.Path(elsewhere)
            words = [BUILDERS[-1], "-m", "pip", "wheel", "--no-build-isolation", "--no-index", "--no-deps", "-w", f"{elsewhere}/wheels", *map(str, folder.glob("*.tar.gz"))]
            said = ran(*words, cwd=elsewhere, env=self.environment)
            self.assertEqual(said.returncode, 0, said.stdout.decode())
            (made,) = (folder / "wheels").iterdir()
            self.assertEqual(held_in(made), held_in(self.wheel()))


if __name__ == "__main__":
    unittest.main()
