"""Tests of the command: files by pyarrow, what is told where it is missing, and `--check`.

A program of stored answers stands in for the real one, and a module for pyarrow; the real program is asked too where it
is there, and its tests are skipped where it is not. Run by interop/test, or alone by
`python3 -m unittest interop.test_command`, at the top of the repository.
"""
import json
import subprocess
import unittest

from . import command, making
from .testing import BUILT, CHECK, PROJJSON, TOP, InAFolder, line


class ByPyarrow(InAFolder):
    def test_files(self):
        self.with_pyarrow()
        lines = [line("int64", "gé"), line("binary", name="geoarrow.wkb", metadata=json.dumps({"crs": PROJJSON}))]
        wanted = "".join(one + "\n" for one in lines)
        for name in ("a.parquet", "A.PARQUET", "a.arrow", "a.feather"):
            self.assertEqual(self.ran(self.file(name, *lines)), (0, wanted, ""))
        self.assertEqual(self.ran(self.file("s.arrow", "stream" + lines[0], lines[1])), (0, wanted, ""))
        self.assertEqual(self.ran(self.file("none.parquet")), (0, "", ""))

    def test_faults(self):
        self.with_pyarrow()
        self.assertEqual(
            self.ran(self.file("a.parquet", "broken")),
            (2, "", "arrow_lines: a.parquet: Parquet magic bytes not found in footer.\n"))
        self.assertEqual(
            self.ran(self.file("a.arrow", "broken")), (2, "", "arrow_lines: a.arrow: Not an Arrow stream\n"))
        self.assertEqual(
            self.ran("a.arrow", "--layer", "x"), (2, "", "arrow_lines: a.arrow: a file of this kind has no layers\n"))
        self.assertEqual(self.ran("b.parquet"), (2, "", "arrow_lines: b.parquet: No such file or directory\n"))

    def test_without_pyarrow(self):
        self.with_pyarrow({"__init__.py": "raise ImportError('there is none')"})
        for name in ("a.parquet", "a.arrow", "a.feather"):
            told = f"arrow_lines: {name}: pyarrow is needed for such a file: there is none\n"
            self.assertEqual(self.ran(self.file(name)), (2, "", told))

    def test_words(self):
        self.assertTrue(command.FIELDS.samefile(TOP / "bin/geoarrow_fields"))
        self.assertTrue(command.CHECK.samefile(TOP / "bin/geoarrow_check"))
        for words in ((), ("--json", "a"), ("a", "b"), ("--other", "a"), ("a", "--layer", "b", "--all-layers"),
                      ("a", "--check", "--ask", "read")):
            status, text, told = self.ran(*words)
            self.assertEqual((status, text, told.startswith("usage: ")), (2, "", True))


class Check(InAFolder):
    def test_what_the_program_says(self):
        lines, said = [line("int64", "id"), line("binary", "g", name="geoarrow.wkb")], ["column  holds", "id      int64"]
        for status in (0, 1):
            self.assertEqual(self.checked(lines, said, status=status), (status, "column  holds\nid      int64\n", ""))
        self.assertEqual(self.checked(lines, ["{}", "{}"], "--json", status=1), (1, "{}\n{}\n", ""))

    def test_file_without_layers_as_all_layers(self):
        self.with_pyarrow()
        file, program = self.file("f.parquet", line("null", "n")), self.program(["said"], words=["--infer", "-"])
        self.assertEqual(self.ran(file, "--all-layers"), (0, line("null", "n") + "\n", ""))
        self.assertEqual(self.ran(file, "--check", "--all-layers", "--program", program), (0, "said\n", ""))

    def test_a_schema_without_columns(self):
        self.with_pyarrow()
        file = self.file("none.parquet")
        self.assertEqual(self.ran("--check", "--program", "./asked-for-nothing", file), (0, "  column  holds  CRS  edges\n", ""))
        behind = '{"kind":"file","read":true,"columns":0,"geometries":0,"errors":0,"warnings":0,"notes":0,"status":0}\n'
        self.assertEqual(self.ran("--check", "--json", "--program", "./asked-for-nothing", file), (0, behind, ""))

    @unittest.skipUnless(CHECK.is_file(), "the program is not built")
    def test_a_schema_without_columns_as_the_program_has_it(self):
        rows = [row for row in (TOP / "crates/ipc_samples/data/written.rows").read_text().split("\n") if not row.startswith("#")]
        stream = next(bytes.fromhex(question.partition(" ")[2]) for question, answer in zip(rows[::2], rows[1::2]) if not answer)
        for options, wanted in (([], command.NO_COLUMNS), (["--json"], command.NO_LINES)):
            ran = subprocess.run([str(CHECK), *options, "-"], input=stream, stdout=subprocess.PIPE)
            self.assertEqual((ran.stdout.decode(), ran.returncode), (wanted, 0))

    def test_programs_that_fail(self):
        status, text, told = self.checked([line("null")], [], status=2)
        self.assertEqual((status, text), (2, ""))
        self.assertRegex(told, r"^arrow_lines: .*/program: status 2\n$")
        self.assertEqual(
            self.ran("--check", "--program", "./missing", "f.parquet"),
            (2, "", "arrow_lines: ./missing: No such file or directory\n"))

    @unittest.skipUnless(CHECK.is_file(), "the program is not built")
    def test_real_program(self):
        self.with_pyarrow()
        lines = (TOP / "examples/schema.jsonl").read_text().split("\n")[:-1]
        other = line({"other": "timestamp[ms, tz=UTC]"}, "seen")
        file = self.file("f.parquet", *lines, other)
        wanted = subprocess.run(
            [str(CHECK), "--infer", "-"], input="\n".join([*lines, other]).encode(), stdout=subprocess.PIPE)
        self.assertEqual(self.ran("--check", "--program", CHECK, file), (1, wanted.stdout.decode(), ""))
        self.assertIn("\n  seen       timestamp[ms, tz=UTC]\n", wanted.stdout.decode())
        status, text, told = self.ran("--check", "--json", "--program", CHECK, file)
        *found, behind = [json.loads(one) for one in text.splitlines()]
        self.assertEqual((status, told, [one["index"] for one in found]), (1, "", list(range(8))))
        self.assertEqual((behind["kind"], behind["read"], behind["columns"]), ("file", True, 8))
        self.assertEqual(found[7], {"kind": "column", "index": 7, "column": "seen", "state": "plain", "type": "timestamp[ms, tz=UTC]"})


class Ask(InAFolder):
    def test_ask(self):
        self.with_pyarrow()
        file, program = self.file("f.parquet", line("null", "n"), line("utf8", "t")), self.program(["other", "é"])
        self.assertEqual(self.ran("--ask", "columns", "--program", program, file), (0, "other\né\n", ""))
        status, text, told = self.ran("--ask", "columns", "--program", self.program(["other"]), file)
        self.assertEqual((status, text), (2, ""))
        self.assertIn("status 0, 1 answers to 2 lines, last other", told)

    @unittest.skipUnless(BUILT.is_file(), "the program is not built")
    def test_ask_the_real_program(self):
        self.with_pyarrow()
        file = self.file("f.parquet", line("binary", "g", name="geoarrow.wkb"), line("utf8", "t"))
        answers = {
            "read": "wkb - - -\nnone\n", "infer": "wkb - - -\nwkt - - -\n",
            "columns": "geometry wkb - - -\ninferred wkt - - -\n",
            "canon": line("binary", "g", name="geoarrow.wkb") + "\nnone\n",
        }
        for command, text in answers.items():
            self.assertEqual(self.ran("--ask", command, "--program", BUILT, file), (0, text, ""))
        status, text, told = self.ran("--ask", "nothing", "--program", BUILT, file)
        self.assertEqual((status, text, "0 answers to 2 lines" in told), (2, "", True))

    @unittest.skipUnless(BUILT.is_file(), "the program is not built")
    def test_real_program_answers_each_line_of_another_type(self):
        kinds = ["map<e: null>", "timestamp[ns, tz=Zürich]", "month_interval", "+l"]
        lines = [line({"other": kind}) for kind in kinds]
        ran = subprocess.run([str(BUILT), "columns"], input="\n".join(lines).encode(), stdout=subprocess.PIPE)
        self.assertEqual((ran.returncode, ran.stdout), (0, b"error field\n" * len(lines)))
        for levels, answer in ((making.LEVELS, b"other\n"), (making.LEVELS + 1, b"error field\n")):
            field = json.loads(line("float64"))
            for _ in range(levels - 1):
                field = json.loads(line({"list": field}))
            ran = subprocess.run([str(BUILT), "columns"], input=json.dumps(field).encode(), stdout=subprocess.PIPE)
            self.assertEqual(ran.stdout, answer)
