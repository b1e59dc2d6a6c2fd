"""What the tests of the command share: a folder with files, and stand-ins for pyarrow and for the program."""
import json
import os
import pathlib
import subprocess
import sys
import tempfile
import unittest

HERE = pathlib.Path(__file__).resolve().parent
TOP = HERE.parent
COMMAND = HERE / "arrow_lines.py"
BUILT = TOP / "crates/fields_program/out/fields_program"
CHECK = TOP / "crates/geoarrow_check/out/geoarrow_check"
PROJJSON = {"type": "GeographicCRS", "name": "WGS 84", "id": {"authority": "EPSG", "code": 4326}}
# A stand-in for pyarrow: its files are lines of fields, behind `stream` where they are no file of IPC.
PYARROW = {
    "__init__.py": """
class ArrowException(Exception): pass
class ArrowInvalid(ValueError, ArrowException): pass
""",
    "parquet.py": """
import ctypes, json
from pyarrow import ArrowInvalid
from interop import making, structures
class Schema:
    def __init__(self, text):
        self.columns = [json.loads(line) for line in text.splitlines()]
    def _export_to_c(self, address):
        capsule = making.export(self.columns)
        moved = structures.moved(making.ArrowSchema, structures._address_in(capsule, making.SCHEMA_CAPSULE))
        ctypes.memmove(address, ctypes.addressof(moved), ctypes.sizeof(moved))
def read_schema(path):
    text = open(path).read()
    if text == "broken":
        raise ArrowInvalid("Parquet magic bytes not found in footer.\\nAnd more.")
    return Schema(text)
""",
    "ipc.py": """
from pyarrow import ArrowInvalid
from pyarrow.parquet import Schema
from interop import making, structures
import json
class Newer:
    def __init__(self, text):
        self.columns = [json.loads(line) for line in text.splitlines()]
    def __arrow_c_schema__(self):
        return making.export(self.columns)
class Reader:
    def __init__(self, text):
        self.schema = Newer(text)
def open_file(file):
    text = file.read().decode()
    if text.startswith("stream") or text == "broken":
        raise ArrowInvalid("Not an Arrow file")
    return Reader(text)
def open_stream(file):
    text = file.read().decode()
    if not text.startswith("stream"):
        raise ArrowInvalid("Not an Arrow stream")
    return Reader(text[len("stream"):])
""",
}


def line(kind, column="f", **extension):
    """The line of a column of a type, with the name and the metadata text of an extension type, where given."""
    field = {"name": column, "nullable": True, "type": kind}
    if extension:
        field["metadata"] = {"ARROW:extension:" + key: text for key, text in extension.items()}
    return json.dumps(field, ensure_ascii=False, sort_keys=True, separators=(",", ":"))


class InAFolder(unittest.TestCase):
    """A test in a folder of its own, which ends with it; there are the files and the stand-ins."""

    def setUp(self):
        there = tempfile.TemporaryDirectory()
        self.addCleanup(there.cleanup)
        self.folder = pathlib.Path(there.name)
        self.environment = dict(
            os.environ, PYTHONUNBUFFERED="", PYTHONIOENCODING="utf-8", PYTHONPATH=str(self.folder / "modules"))

    def ran(self, *words, start=(str(COMMAND),), given=None):
        """Status, output and errors of the command, which reads what is given; its output goes to a file."""
        with tempfile.TemporaryFile() as output:
            ran = subprocess.run(
                [sys.executable, *start, *map(str, words)], cwd=self.folder, env=self.environment,
                input=given or b"", stdout=output, stderr=subprocess.PIPE)
            output.seek(0)
            return ran.returncode, output.read().decode(), ran.stderr.decode()

    def shell(self, text):
        """Status, output and errors of a text for the shell, in which `run` is the command."""
        ran = subprocess.run(
            ["sh", "-c", 'run() { "$python" "$command" "$@"; }; ' + text], cwd=self.folder, stdin=subprocess.DEVNULL,
            stdout=subprocess.PIPE, stderr=subprocess.PIPE,
            env=dict(self.environment, python=sys.executable, command=str(COMMAND), program=str(BUILT)))
        return ran.returncode, ran.stdout.decode(), ran.stderr.decode()

    def with_pyarrow(self, modules=None):
        folder = self.folder / "modules/pyarrow"
        folder.mkdir(parents=True)
        for name, text in (PYARROW if modules is None else modules).items():
            (folder / name).write_text(text)

    def file(self, name, *lines):
        (self.folder / name).write_text("\n".join(lines), encoding="utf-8")
        return name

    def program(self, answers, status=0, words=("columns",)):
        """A program that takes these words, reads all lines, and writes these answers, each a line."""
        path = self.folder / "program"
        text = "".join(answer + "\n" for answer in answers).encode()
        path.write_text(
            f"#!{sys.executable}\nimport sys\nassert sys.argv[1:] == {list(words)!r}\nsys.stdin.buffer.read()\n"
            f"sys.stdout.buffer.write({text!r})\nsys.exit({status})\n")
        path.chmod(0o755)
        return path

    def checked(self, lines, answers, *words, status=0):
        """What the check prints of a file of these lines."""
        if not (self.folder / "modules").exists():
            self.with_pyarrow()
        file = self.file("f.parquet", *lines)
        program = self.program(answers, status, ["--infer", *(word for word in words if word == "--json"), "-"])
        return self.ran("--check", "--program", program, file, *words)
