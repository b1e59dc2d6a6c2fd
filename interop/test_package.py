"""Tests of the ways to start the package and to import it.

Run by interop/test, or alone by `python3 -m unittest interop.test_package`, at the top of the repository.
"""
import os
import subprocess
import sys

from .testing import COMMAND, HERE, TOP, InAFolder, line

NAMES = ["FileError", "Layer", "Schema", "SchemaError", "layers_of_file", "lines", "lines_of_file"]


class Package(InAFolder):
    def python(self, *words, path=None):
        """Status, output and errors of Python, started elsewhere, with this on its path."""
        self.environment["PYTHONPATH"] = os.pathsep.join(map(str, (self.folder / "modules", *(path or ()))))
        return self.ran(*words, start=())

    def test_command_in_each_form(self):
        self.with_pyarrow()
        file = self.file("f.parquet", line("null", "é"))
        link = self.folder / "link.py"
        link.symlink_to(COMMAND)
        for words, path in (
                ((COMMAND,), None), ((link,), None), (("-m", "interop"), [TOP]), (("-m", "interop.arrow_lines"), [TOP]),
                (("-m", "arrow_lines"), [HERE])):
            with self.subTest(words):
                self.assertEqual(self.python(*words, file, path=path), (0, line("null", "é") + "\n", ""))
                self.assertEqual(self.python(*words, "--json", file, path=path)[0], 2)

    def test_names_in_each_form(self):
        round_trip = "print(FROM.lines(FROM.Schema([sys.argv[1]]))[0] == sys.argv[1], *sorted(FROM.__all__))"
        for script, names, path in (
                ("import interop as FROM", NAMES, [TOP]),
                ("import interop.arrow_lines as FROM", [*NAMES, "main"], [TOP]),
                ("from interop import arrow_lines as FROM", [*NAMES, "main"], [TOP]),
                ("import arrow_lines as FROM", [*NAMES, "main"], [HERE])):
            with self.subTest(script):
                wanted = " ".join(["True", *names]) + "\n"
                ran = self.python("-c", f"import sys; {script}; {round_trip}", line("null"), path=path)
                self.assertEqual(ran, (0, wanted, ""))

    def test_one_set_of_names(self):
        script = "import arrow_lines, interop; print(arrow_lines.SchemaError is interop.SchemaError)"
        self.assertEqual(self.python("-c", script, path=[HERE, TOP]), (0, "True\n", ""))

    def test_import_needs_the_standard_library_alone(self):
        script = "import interop.command, sys; print({'pyarrow', 'osgeo', 'numpy'} & set(sys.modules))"
        ran = subprocess.run(
            [sys.executable, "-S", "-c", script], cwd=TOP, stdout=subprocess.PIPE, stderr=subprocess.STDOUT)
        self.assertEqual((ran.returncode, ran.stdout), (0, b"set()\n"))
