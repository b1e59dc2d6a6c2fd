"""Tests of the command: what it prints, also beside the program `geoarrow_check`, where that is built."""
import contextlib
import io
import json
import os
import pathlib
import subprocess
import sys
import tempfile
import unittest
from unittest import mock

from geoarrow_fields import check
from geoarrow_fields.__main__ import OF_THE_PROGRAM, main
from geoarrow_fields.columns import columns_of

from .shared import BROKEN, CANON, CRS, DATA, IS_EMPTY, NO_NAME, NOT_WHOLE, READ, TEXT, TOP, WKT, printed

PROGRAM = TOP / "crates/geoarrow_check/out/geoarrow_check"
NO_FILE = "No such file or directory (os error 2)"


def unread(words):
    """What is said of a file that the system does not give (docs/FORMAT.md, 2.8)."""
    return f"error[CannotRead]: found {words}; expected a file that can be read"


# The line behind a file that is not read (docs/FORMAT.md, 2.7).
UNREAD = '{"kind":"file"%s,"read":false,"status":2}\n'


class Command(unittest.TestCase):
    def test_files_and_statuses(self):
        with tempfile.TemporaryDirectory() as folder:
            good, bad, none = (str(pathlib.Path(folder, name)) for name in ("good", "bad", "none"))
            pathlib.Path(good).write_text(f"{TEXT}\n")
            pathlib.Path(bad).write_text(f"{BROKEN}\n")
            pathlib.Path(none).write_text("{}\n")
            self.assertEqual(printed(["check", good]), ("  column  holds  CRS  edges\n  t       utf8\n", "", 0))
            self.assertEqual(printed(["check", good, bad])[1:], ("", 1))
            out, err, status = printed(["check", none, bad])
            self.assertEqual((out.split(f"{bad}:\n")[0], err, status), (f"{none}:\n  column  holds  CRS  edges\n{none}: {NO_NAME}\n", "", 2))
            self.assertEqual(printed(["check", "--json", none])[1:], ("", 2))
            line = '{"kind":"finding","severity":"error","code":"CannotRead","file":"%s/no","found":"%s","expected":"a file that can be read"}\n' % (folder, NO_FILE)
            words = f"{folder}/no: {unread(NO_FILE)}\n"
            self.assertEqual(printed(["check", folder + "/no"]), (words, "", 2))
            self.assertEqual(printed(["check", "--json", folder + "/no"]), (line + UNREAD % f',"file":"{folder}/no"', "", 2))

    def test_a_folder_stands_for_its_files(self):
        with tempfile.TemporaryDirectory() as folder:
            wanted = ["A.ndjson", "b-1.jsonl", "b/c.jsonl", "b.arrow", "d.parquet/e.feather"]
            for name in (*wanted, "_f.jsonl", ".g.jsonl", "_h/i.jsonl", "c.json", "d.JSONL", "e.jsonl.crc"):
                path = pathlib.Path(folder, name)
                path.parent.mkdir(exist_ok=True)
                path.write_text(f"{TEXT}\n")
            out, err, status = printed(["check", folder])
            shown = [line[len(folder) + 1:-1] for line in out.split("\n") if line.endswith(":")]
            self.assertEqual((shown, err, status), (["A.ndjson", "b-1.jsonl", "b.arrow", "b/c.jsonl", "d.parquet/e.feather"], "", 0))
            self.assertEqual(printed(["check", folder + "/_h", folder + "/c.json"])[2], 0)

    def test_the_lines_that_the_program_is_to_print(self):
        words = (DATA.parent / "args").read_text().split()
        found = self.run_in_data(sys.executable, "-m", "geoarrow_fields", "check", *words)
        self.assertEqual(found.stdout.decode(), (DATA.parent / "stdout").read_text())
        self.assertEqual(found.returncode, int((DATA.parent / "status").read_text()))

    def test_files_that_are_empty(self):
        with tempfile.TemporaryDirectory() as folder:
            empty, blank, good = (str(pathlib.Path(folder, name)) for name in ("empty", "blank", "good"))
            for path, text in ((empty, ""), (blank, "\n \t\r\n"), (good, f"{WKT}\n\n")):
                pathlib.Path(path).write_bytes(text.encode())
            line = (
                '{"kind":"finding","severity":"error","code":"EmptyFile"%s,"byte":0,"found":"0 bytes, or blanks alone","expected":"' + READ
                + '","help":"The writing or the copy broke off before its first byte"}\n')
            refused = "".join((line + UNREAD) % ((f',"file":"{path}"',) * 2) for path in (empty, blank))
            words = f"{empty}: {IS_EMPTY}\n{blank}: {IS_EMPTY}\n"
            plain, inferred = "  column  holds  CRS  edges\n  wkt     utf8\n", "  column  holds          CRS  edges\n  wkt     taken for wkt       planar\n"
            for options, table, geometries in (([], plain, 0), (["--infer", "--notes"], inferred, 1)):
                behind = f"3 files: 1 column, {geometries} of geometries; no findings; 2 files not read\n"
                self.assertEqual(printed(["check", *options, empty, blank, good]), (f"{words}{good}:\n{table}{behind}", "", 2))
            out, err, status = printed(["check", "--json", empty, blank, good])
            behind = '{"kind":"summary","files":3,"unread":2,"failed":0,"errors":0,"warnings":0,"notes":0,"status":2}\n'
            self.assertTrue(out.endswith(behind), out)
            self.assertEqual((out[:len(refused)], out[len(refused):].count("\n"), err, status), (refused, 3, "", 2))
        words = f"-: {IS_EMPTY}\n"
        for options, out in (([], words), (["--json"], (line + UNREAD) % ("", ""))):
            for text in (b"", b"\n"):
                found = self.run_in_data(sys.executable, "-m", "geoarrow_fields", "check", *options, "-", given=text)
                self.assertEqual((found.stdout.decode(), found.stderr, found.returncode), (out, b"", 2))

    def test_the_line_behind_several_files(self):
        with tempfile.TemporaryDirectory() as folder:
            more, bad, schema = str(pathlib.Path(folder, "more")), str(pathlib.Path(folder, "bad")), str(TOP / "examples/schema.jsonl")
            pathlib.Path(more).write_text(f"{TEXT}\n".replace("utf8", "null") * 32 + f"{CANON}\n" * 2)
            pathlib.Path(bad).write_text(f"{CANON}\n" + "1\n" * 103)
            noted, stored = str(pathlib.Path(folder, "noted")), str(DATA / "stored.parquet")
            pathlib.Path(noted).write_text(f"{CRS}\n")
            nowhere = f"{folder}/nowhere"
            for words, line, numbers in (  # (the first is that of docs/FORMAT.md, 2.7)
                    ([schema, more, nowhere], "3 files: 41 columns, 5 of geometries; 2 errors and 1 warning in 1 file; 1 file not read", (3, 1, 1, 2, 1, 0, 2)),
                    (["--infer", schema, more, nowhere, nowhere], "4 files: 41 columns, 6 of geometries; 2 errors and 1 warning in 1 file; 2 files not read", (4, 2, 1, 2, 1, 0, 2)),
                    ([more, more], "2 files: 68 columns, 4 of geometries; no findings", (2, 0, 0, 0, 0, 0, 0)),
                    ([bad, more], "2 files: 35 columns, 3 of geometries; 103 errors in 1 file", (2, 0, 0, 103, 0, 0, 2)),
                    ([noted, stored], "2 files: 2 columns, 2 of geometries; 1 warning in 1 file", (2, 0, 0, 0, 1, 0, 0)),
                    (["--notes", noted, stored], "2 files: 2 columns, 2 of geometries; 1 warning and 1 note in 2 files", (2, 0, 0, 0, 1, 1, 0)),
                    (["--notes", noted, stored, schema], "3 files: 9 columns, 5 of geometries; 2 errors, 2 warnings and 1 note in 3 files", (3, 0, 1, 2, 2, 1, 1)),
                    ([nowhere, nowhere], "2 files: 0 columns, 0 of geometries; no findings; 2 files not read", (2, 2, 0, 0, 0, 0, 2))):
                with self.subTest(words=words):
                    self.assertEqual(printed(["check", *words])[0].split("\n")[-2:], [line, ""])
                    last = json.loads(printed(["check", "--json", *words])[0].splitlines()[-1])
                    keys = ("files", "unread", "failed", "errors", "warnings", "notes", "status")
                    self.assertEqual(last, {"kind": "summary", **dict(zip(keys, numbers))})
            out = printed(["check", bad])[0]
            self.assertEqual(out.split("\n")[-2:], [f"{bad}: error[BadLine]: 3 more lines are no columns", ""])
            self.assertNotIn(" file", out)

    def test_notes(self):
        with tempfile.TemporaryDirectory() as folder:
            path = pathlib.Path(folder, "crs")
            path.write_text(CRS + "\n")
            note = f"    {NOT_WHOLE}\n"
            self.assertEqual([note in printed(["check", *options, str(path)])[0] for options in ([], ["--notes"])], [False, True])

    def test_names_of_files_are_escaped(self):
        with tempfile.TemporaryDirectory() as folder:
            names = [str(pathlib.Path(folder, name)) for name in ("a\u001b[2J\nb", "c\x7f\x85d")]
            for name in names:
                pathlib.Path(name).write_text(f"{TEXT}\n")
            shown = [f"{folder}/a\\u{{1b}}[2J\\u{{a}}b", f"{folder}/c\\u{{7f}}\\u{{85}}d"]
            table = "  column  holds  CRS  edges\n  t       utf8\n"
            behind = "2 files: 2 columns, 0 of geometries; no findings\n"
            self.assertEqual(printed(["check", *names]), ("".join(f"{name}:\n{table}" for name in shown) + behind, "", 0))
            for name in names:
                pathlib.Path(name).write_text("{}\n")
            head = "  column  holds  CRS  edges\n"
            behind = "2 files: 0 columns, 0 of geometries; 2 errors in 2 files\n"
            self.assertEqual(printed(["check", *names]), ("".join(f"{name}:\n{head}{name}: {NO_NAME}\n" for name in shown) + behind, "", 2))
            self.assertEqual(printed(["check", names[0] + "\t"]), (f"{shown[0]}\\u{{9}}: {unread(NO_FILE)}\n", "", 2))

    def test_an_output_that_nobody_reads(self):
        with tempfile.TemporaryDirectory() as folder:
            large = pathlib.Path(folder, "large")
            large.write_text(f"{TEXT}\n" * 20_000)
            for option in ("", "--json"):
                command = f'"{sys.executable}" -m geoarrow_fields check {option} "{large}" "{large}"; echo $? >&2'
                found = self.run_in_data("sh", "-c", "{ " + command + "; } | head -1")
                self.assertEqual((found.stdout.count(b"\n"), found.stderr), (1, b"0\n"))

    def test_an_output_that_is_closed(self):
        command = f'"{sys.executable}" -m geoarrow_fields check "{TOP}/examples/schema.jsonl"'
        found = self.run_in_data("sh", "-c", command + " >&-")
        self.assertEqual((found.stderr, found.returncode), (b"standard output: it is closed\n", 2))
        found = self.run_in_data("sh", "-c", command + ' --json nowhere 2>&-')
        self.assertEqual((b"nowhere: " in found.stdout, found.returncode), (False, 2))
        found = self.run_in_data("sh", "-c", f'"{sys.executable}" -m geoarrow_fields check - <&-')
        self.assertEqual((found.stdout.decode(), found.stderr, found.returncode), (f"-: {unread('it is closed')}\n", b"", 2))

    def test_an_output_in_another_encoding(self):
        with tempfile.TemporaryDirectory() as folder:
            path = pathlib.Path(folder, "line")
            path.write_text(TEXT.replace('"t"', '"\u65e5"'), encoding="utf-8")
            command = [sys.executable, "-m", "geoarrow_fields", "check", str(path)]
            found = self.run_in_data(*command, encoding="latin-1")
            self.assertEqual((found.stdout.decode(), found.stderr, found.returncode), ("  column  holds  CRS  edges\n  \u65e5      utf8\n", b"", 0))

    @unittest.skipUnless(os.path.exists("/dev/full"), "there is no /dev/full")
    def test_an_output_that_is_full(self):
        found = self.run_in_data("sh", "-c", f'"{sys.executable}" -m geoarrow_fields check "{TOP}/examples/schema.jsonl" > /dev/full')
        self.assertEqual((found.stderr, found.returncode), (b"standard output: No space left on device\n", 2))

    def test_out_of_memory(self):
        with mock.patch("geoarrow_fields.__main__.check", side_effect=MemoryError):
            words = "a: error[OutOfMemory]: found out of memory; expected more memory\n"
            line = '{"kind":"finding","severity":"error","code":"OutOfMemory","file":"a","found":"out of memory","expected":"more memory"}\n'
            self.assertEqual(printed(["check", "a"]), (words, "", 2))
            self.assertEqual(printed(["check", "--json", "a"]), (line + UNREAD % ',"file":"a"', "", 2))

    def test_options_of_the_program_alone(self):
        for word in OF_THE_PROGRAM:
            for words in (["check", word, "a"], ["check", f"{word}=a", "a"], ["check", "a", word]):
                err = io.StringIO()
                with self.assertRaises(SystemExit) as caught, contextlib.redirect_stderr(err):
                    main(words)
                self.assertEqual((caught.exception.code, err.getvalue().split("error: ")[1]), (2, f"{word} is an option of the program geoarrow_check alone\n"))

    @unittest.skipUnless(PROGRAM.is_file(), "the program is not built")
    def test_beside_the_program(self):
        files = ["columns.jsonl", "stream.arrows", "file.arrow", "other.arrows", "stored.parquet", "plain.parquet", "geo.parquet", str(TOP / "examples/schema.jsonl")]
        for words in [[file] for file in files] + [files, ["nowhere", "file.arrow"]]:
            for options in ([], ["--infer"], ["--json"], ["--json", "--infer"], ["--notes"], ["--json", "--notes"]):
                with self.subTest(words=words, options=options):
                    ours = self.run_in_data(sys.executable, "-m", "geoarrow_fields", "check", *options, *words)
                    wanted = self.run_in_data(str(PROGRAM), *options, *words)
                    self.assertEqual((ours.stdout.decode(), ours.stderr, ours.returncode), (wanted.stdout.decode(), wanted.stderr, wanted.returncode))

    @unittest.skipUnless(PROGRAM.is_file(), "the program is not built")
    def test_standard_input_and_files_that_are_cut(self):
        for name in ("file.arrow", "stream.arrows", "stored.parquet", "columns.jsonl"):
            whole = (DATA / name).read_bytes()
            for length in (*range(0, min(len(whole), 300), 29), len(whole) - 1, len(whole)):
                ours = self.run_in_data(sys.executable, "-m", "geoarrow_fields", "check", "--json", "-", given=whole[:length])
                wanted = self.run_in_data(str(PROGRAM), "--json", "-", given=whole[:length])
                self.assertEqual((ours.stdout, ours.returncode), (wanted.stdout, wanted.returncode))
                self.assertEqual(ours.stderr, wanted.stderr)

    @unittest.skipUnless(PROGRAM.is_file(), "the program is not built")
    def test_names_beside_the_program(self):
        with tempfile.TemporaryDirectory() as folder:
            hidden = "\u200a\u200b\u200f\u2010\u2029\u202a\u202e\u202f\u2065\u2066\u2069\u206a\ufefe\ufeff\uff00"  # the first and the last of each range, and those beside them
            for name in ("a", 'b"\\', "c\n\x01\x1b\x7f\x85\x9f\xa0", "\u00e9\U0001f600", hidden):
                path = pathlib.Path(folder, name)
                for text in (TEXT, "{}", ""):
                    path.write_text(text)
                    for options in ([], ["--json"]):
                        words = [*options, str(path), str(path)]
                        ours = self.run_in_data(sys.executable, "-m", "geoarrow_fields", "check", *words)
                        wanted = self.run_in_data(str(PROGRAM), *words)
                        self.assertEqual((ours.stdout, ours.stderr, ours.returncode), (wanted.stdout, wanted.stderr, wanted.returncode))

    def run_in_data(self, *words, given=b"", encoding="utf-8"):
        environment = {**os.environ, "PYTHONPATH": str(TOP / "python"), "PYTHONIOENCODING": encoding, "PYTHONDONTWRITEBYTECODE": "1"}
        return subprocess.run(words, cwd=DATA, input=given, env=environment, stdout=subprocess.PIPE, stderr=subprocess.PIPE)


class Printed(unittest.TestCase):
    def test_lines_of_json_are_those_of_the_report(self):
        column = '{"kind":"column","index":0,"column":"g","state":"plain","type":"binary"}'
        error = '{"kind":"finding","severity":"error","code":"GeoBbox","column":"g","in":"geo","pointer":"/columns/g/bbox","expected":"m"}'
        warning = '{"kind":"finding","severity":"warning","code":"NoGeoMetadata","expected":"w"}'
        doubtful, wrong = (column.replace("}", ',"findings":[%s]}' % one.replace('"kind":"finding",', "")) for one in (warning, error))
        for report, status, counted, of_file, numbers in (
                (f"{column}\n{column}\n{warning}\n", 0, "4 columns, 0 of geometries; 2 warnings", (2, 0, 1), (0, 0, 2)),
                (f"{column}\n{error}\n{error}\n{warning}\n", 1, "2 columns, 0 of geometries; 4 errors and 2 warnings", (1, 2, 1), (2, 4, 2)),
                (f"{doubtful}\n{warning}\n", 0, "2 columns, 0 of geometries; 4 warnings", (1, 0, 2), (0, 0, 4)),
                (f"{doubtful}\n{wrong}\n{column}\n{warning}\n", 1, "6 columns, 0 of geometries; 2 errors and 4 warnings", (3, 1, 2), (2, 2, 4))):
            with mock.patch("geoarrow_fields.__main__.check", lambda *given, **more: columns_of(report)):
                behind = '{"kind":"file","file":"%s","read":true,"columns":%d,"geometries":0,"errors":%d,"warnings":%d,"notes":0,"status":%d}\n'
                reports = [report + behind % (name, *of_file, status) for name in "ab"]
                self.assertEqual(printed(["check", "--json", "a"]), (reports[0], "", status))
                line = '{"kind":"summary","files":2,"unread":0,"failed":%d,"errors":%d,"warnings":%d,"notes":0,"status":%d}\n' % (*numbers, status)
                self.assertEqual(printed(["check", "--json", "a", "b"]), (f"{''.join(reports)}{line}", "", status))
                behind = ["warning[NoGeoMetadata]: expected w", f"2 files: {counted} in 2 files", ""]
                self.assertEqual(printed(["check", "a", "b"])[0].split("\n")[-3:], behind)

    def test_lines_of_json_name_the_file(self):
        for name in ("stream.arrows", "geo.parquet", "columns.jsonl"):
            path = str(DATA / name)
            with open(path, "rb") as file:
                unnamed = check(file)
            named = check(path)
            for ours, others in ((named, unnamed), (named.findings, unnamed.findings)):
                self.assertEqual([json.loads(one.json) for one in ours], [{**json.loads(one.json), "file": path} for one in others])
            self.assertEqual(printed(["check", "--json", path])[0].splitlines()[:-1], [one.json for one in (*named, *named.findings)])
            self.assertNotIn('"file"', "".join(one.json for one in (*unnamed, *unnamed.findings)))


if __name__ == "__main__":
    unittest.main()
