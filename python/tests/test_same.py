"""Tests of what differs between files: the cases that all languages share, however the files are given, and the command with --same."""
import copy
import io
import json
import os
import pathlib
import pickle
import subprocess
import sys
import tempfile
import threading
import unittest
from typing import NamedTuple, Optional
from unittest import mock

from geoarrow_fields import Differences, Finding, RefusedSource, Schema, check, library, same, write_schema

from .shared import BROKEN, CRS, DATA, IS_EMPTY, NO_NAME, TEXT, TOP, WKT, printed, said_of, with_crs

PROGRAM = TOP / "crates/geoarrow_check/out/geoarrow_check"
ID = '{"name":"id","nullable":true,"type":"int64"}'
OTHER_ID = '{"name":"id","nullable":true,"type":"int32"}'
OF_ID = "error[NotSame] column id: found int32; expected int64. The first file has another type."
ADDED = "error[NotSame] column t: found utf8; expected no such column. The first file has no such column."
MISSING = "error[NotSame] column t: expected utf8. The column is missing."


class Case(NamedTuple):
    """Two files: their bytes, whether types are inferred, which of both is refused, if one is, and of each finding its object and its words."""

    first: bytes
    other: bytes
    infer: bool
    refused: Optional[str]
    found: list


def cases():
    """Each case of native/same.rows, which all languages share."""
    found = []
    for line in (TOP / "native/same.rows").read_text(encoding="utf-8").split("\n"):
        word, _, rest = line.partition(" ")
        if word == "first":
            found.append(Case(bytes.fromhex(rest), b"", False, None, []))
        elif word == "other":
            found[-1] = found[-1]._replace(other=bytes.fromhex(rest))
        elif word == "infer":
            found[-1] = found[-1]._replace(infer=True)
        elif word == "refused":
            found[-1] = found[-1]._replace(refused=rest)
        elif line.startswith("{"):
            found[-1].found.append((line,))
        elif line.startswith(("error[", "note[")):
            found[-1].found[-1] += (line,)
    return found


def with_file(line, name):
    """The line of a finding with the name of a file, which stands behind the code."""
    said = json.loads(line)
    before = {key: said.pop(key) for key in ("kind", "severity", "code")}
    return json.dumps({**before, "file": name, **said}, ensure_ascii=False, separators=(",", ":"))


class InAFolder(unittest.TestCase):
    def setUp(self):
        there = tempfile.TemporaryDirectory()
        self.addCleanup(there.cleanup)
        self.folder = pathlib.Path(there.name)

    def file(self, name, content):
        path = self.folder / name
        path.write_bytes(content)
        return path

    def refused(self, *given, **more):
        with self.assertRaises(RefusedSource) as caught:
            same(*given, **more)
        return caught.exception


class Shared(InAFolder):
    """The cases of all languages."""

    def judge(self, found, wanted, unnamed):
        self.assertIs(type(found), Differences)
        self.assertEqual([(one.json, str(one)) for one in found], wanted)
        self.assertEqual([said_of(one, True) for one in found], [line for line, _ in unnamed])
        self.assertEqual(str(found), "\n".join(words for _, words in wanted))
        self.assertEqual(found.is_error, any(json.loads(line)["severity"] == "error" for line, _ in wanted))

    def judge_case(self, case, name, *given):
        """What is found of files that are given so, the other of which has this name."""
        wanted = [(with_file(line, name) if name else line, words) for line, words in case.found]
        if case.refused == "first":
            error = self.refused(*given, infer=case.infer, notes=True)
            self.assertEqual((error.json, str(error)), wanted[0])
            return
        found, = same(*given, infer=case.infer, notes=True)
        if case.refused is None:
            self.judge(found, wanted, case.found)
            self.assertIsNone(found.refused)
        else:
            self.assertIs(type(found.refused), RefusedSource)
            self.assertEqual((found.refused.json, str(found.refused), list(found)), (*wanted[0], [found.refused.finding]))
            self.assertEqual([(one.json, str(one), one.is_error) for one in found], [(*wanted[0], True)])

    def test_each_case(self):
        for case in cases():
            with self.subTest(case.first[:80], other=case.other[:80]):
                for kind in (bytes, bytearray, io.BytesIO):
                    self.judge_case(case, None, kind(case.first), kind(case.other))

    def test_each_case_of_files(self):
        for case in cases():
            with self.subTest(case.first[:80], other=case.other[:80]):
                first, other = self.file("first \u00e9", case.first), self.file('other "\u8868"', case.other)
                self.judge_case(case, str(first if case.refused == "first" else other), first, str(other))
                with open(first, "rb") as first, open(other, "rb") as other:
                    self.judge_case(case, None, first, other)

    def test_notes_are_told_where_they_are_asked_for(self):
        noted = 0
        for case in cases():
            if case.refused is None:
                found, = same(case.first, case.other, infer=case.infer)
                wanted = [(line, words) for line, words in case.found if json.loads(line)["severity"] != "note"]
                self.judge(found, wanted, wanted)
                noted += len(found) < len(case.found)
        self.assertGreater(noted, 3)

    def test_the_cases_are_many(self):
        found = [json.loads(line) for case in cases() for line, _ in case.found if case.refused is None]
        self.assertEqual({one["code"]: one["severity"] for one in found}, {"NotSame": "error", "CrsNotCompared": "note"})
        self.assertEqual({case.refused for case in cases()}, {None, "first", "other"})
        self.assertEqual({case.infer for case in cases()}, {False, True})
        self.assertEqual(len({one["help"] for one in found}), 7)  # those of the table, and that of the note

    def test_both_ways_round(self):
        """Where nothing differs, nothing does the other way round; of each file from itself nothing does (docs/FORMAT.md, 2.9)."""
        for case in cases():
            if case.refused is None:
                for one in (case.first, case.other):
                    self.assertEqual(same(one, one, infer=case.infer, notes=True), [[]])
                back, = same(case.other, case.first, infer=case.infer, notes=True)
                self.assertEqual(sorted(one.code for one in back), sorted(json.loads(line)["code"] for line, _ in case.found))


class Files(InAFolder):
    def words(self, found):
        return [list(map(str, one)) for one in found]

    def test_several_files(self):
        first, other, third = [ID], [OTHER_ID, TEXT], [TEXT, ID]
        self.assertEqual(self.words(same(first, other, first, third)), [[OF_ID, ADDED], [], [ADDED]])
        self.assertEqual(self.words(same(third, first, third)), [[MISSING], []])
        self.assertEqual(same(first), [])

    def test_a_file_that_is_refused_is_told_and_the_others_are_compared(self):
        found = same([ID], b"", [OTHER_ID], b"PAR1", [ID])
        cut = "error[Truncated] byte 4: found 50415231; expected PAR1 at the end. The file is cut off, or still being written"
        self.assertEqual(self.words(found), [[IS_EMPTY], [OF_ID], [cut], []])
        self.assertEqual([one.refused and one.refused.code for one in found], ["EmptyFile", None, "Truncated", None])
        self.assertEqual([one.is_error for one in found], [True, True, True, False])

    def test_what_is_no_source(self):
        for given in ((3, [ID]), ([ID], 3), ([ID], [OTHER_ID], None)):
            with self.assertRaises(TypeError):
                same(*given)
        for given in (("/nowhere/at/all", [ID]), ([ID], "/nowhere/at/all")):
            with self.assertRaises(FileNotFoundError):
                same(*given)
        with self.assertRaises(TypeError):
            same([ID], [ID], True, notes=True)  # (options have names)

    def test_schemas_and_lists_without_columns(self):
        for empty in ([], (), Schema([])):
            self.assertEqual(same(empty, [], Schema([]), write_schema([])), [[], [], []])
            self.assertEqual(self.words(same(empty, [TEXT])), [[ADDED]])
            self.assertEqual(self.words(same([TEXT], empty)), [[MISSING]])
        self.assertEqual(self.refused([""], [TEXT]).code, "EmptyFile")

    def test_objects_that_give_a_schema(self):
        self.assertEqual(self.words(same(Schema([ID]), Schema([OTHER_ID]), [ID], write_schema([ID]))), [[OF_ID], [], []])

    def test_lines_that_are_no_columns(self):
        self.assertEqual(self.words(same([ID, "{}"], ["{}", OTHER_ID])), [[OF_ID]])

    def test_files_of_each_format(self):
        for name in ("file.arrow", "stream.arrows", "stored.parquet", "plain.parquet", "geo.parquet", "columns.jsonl"):
            whole = (DATA / name).read_bytes()
            self.assertEqual(same(DATA / name, whole, io.BytesIO(whole), notes=True), [[], []])
            names = [one.name for one in check(DATA / name)]
            for sources, words in (((DATA / name, []), "The column is missing."), (([], DATA / name), "The first file has no such column.")):
                found, = same(*sources)
                self.assertEqual([(one.column, one.help) for one in found], [(one, words) for one in names])

    def test_the_byte_of_a_file_whose_begin_is_not_read(self):
        """It is that of the file, where the library is given its end: of the first, and of another."""
        for name, head in (("file.arrow", b"ARROW1\0\0"), ("stored.parquet", b"PAR1")):
            whole = (DATA / name).read_bytes()
            moved = 0
            for at in range(len(whole) - 60, len(whole) - 8):
                turned = head + bytes(1000) + whole[len(head):at] + bytes([whole[at] ^ 0x81]) + whole[at + 1:]
                path = self.file("turned", turned)
                try:
                    check(path)
                except RefusedSource as error:
                    wanted = error.json
                else:
                    continue
                found, = same([ID], path)
                self.assertEqual((found[0].json, self.refused(path, [ID]).json), (wanted, wanted))
                moved += 1
            self.assertGreater(moved, 3)

    def test_types_that_are_inferred(self):
        given = [WKT], [WKT.replace("utf8", "large_utf8")], [WKT.replace("}", ',"metadata":{"ARROW:extension:name":"geoarrow.wkt"}}')]
        self.assertEqual([[one.found for one in found] for found in same(*given)], [["large_utf8"], ["WKT"]])
        spherical = with_crs('"EPSG:4326","edges":"spherical"').replace('"name":"g"', '"name":"geom"')
        plain = '{"name":"geom","nullable":true,"type":"binary"}'
        self.assertEqual([[one.found for one in same([plain], [spherical], infer=infer)[0]] for infer in (False, True)], [["WKB"], ["WKB", "spherical"]])

    def test_they_cross_processes(self):
        for found in same([ID], [OTHER_ID, TEXT], b"", [ID]):
            for other in (pickle.loads(pickle.dumps(found)), copy.copy(found)):
                self.assertEqual((type(other), other, other.is_error, str(other)), (Differences, found, found.is_error, str(found)))
                self.assertEqual(other.refused and other.refused.json, found.refused and found.refused.json)

    def test_a_finding_has_what_it_says(self):
        (found,), = same([ID], [OTHER_ID])
        self.assertEqual(found, Finding("error", "NotSame", "id", found="int32", expected="int64", help="The first file has another type."))

    def test_more_than_the_first_room(self):
        columns = [TEXT.replace('"t"', f'"t{at}"') for at in range(5_000)]
        found, = same([TEXT], columns)
        self.assertEqual([one.column for one in found], [f"t{at}" for at in range(5_000)] + ["t"])

    def test_out_of_memory(self):
        with mock.patch.object(library, "_call", lambda *of: lambda *given: library.MEMORY):
            with self.assertRaises(MemoryError):
                same([ID], [OTHER_ID])

    def test_eight_threads(self):
        sources = [ID, CRS], [OTHER_ID, TEXT], (DATA / "file.arrow").read_bytes()
        wanted, wrong = same(*sources, notes=True), []

        def work():
            for _ in range(20):
                wrong.extend(found for found in [same(*sources, notes=True)] if found != wanted)

        threads = [threading.Thread(target=work) for _ in range(8)]
        for one in threads:
            one.start()
        for one in threads:
            one.join()
        self.assertEqual(wrong, [])


class Command(InAFolder):
    """python -m geoarrow_fields check --same"""

    def lines(self, name, *given):
        return str(self.file(name, "".join(f"{one}\n" for one in given).encode()))

    def test_what_it_prints(self):
        first, other, third = self.lines("a", ID), self.lines("b\x1b", OTHER_ID, TEXT), self.lines("c", ID)
        shown = other.replace("\x1b", "\\u{1b}")
        table = "  column  holds  CRS  edges\n%s\n"
        out = (
            f"{first}:\n{table % '  id      int64'}{shown}:\n" + table % "  id      int32\n  t       utf8"
            + f"{shown}: {OF_ID}\n{shown}: {ADDED}\n{third}:\n" + table % "  id      int64" + "3 files: 4 columns, 0 of geometries; 2 errors in 1 file\n")
        self.assertEqual(printed(["check", "--same", first, other, third]), (out, "", 1))
        self.assertEqual(printed(["check", first, other, third])[2], 0)
        self.assertEqual(printed(["check", "--same", first, third])[2], 0)
        self.assertEqual(printed(["check", "--same", other]), (table % "  id      int32\n  t       utf8", "", 0))

    def test_lines_of_json(self):
        first, other = self.lines("a", ID), self.lines("b", OTHER_ID, TEXT)
        lines = printed(["check", "--same", "--json", first, other])[0].split("\n")
        wanted = [one.json for one in same(first, other)[0]]
        files = [{"kind": "file", "file": one, "read": True, "columns": count, "geometries": 0, "errors": errors, "warnings": 0, "notes": 0, "status": min(errors, 1)}
                 for one, count, errors in ((first, 1, 0), (other, 2, 2))]
        self.assertEqual((json.loads(lines[1]), json.loads(lines[-3])), tuple(files))
        self.assertEqual(lines[4:-3], wanted)
        self.assertEqual(json.loads(lines[-2]), {"kind": "summary", "files": 2, "unread": 0, "failed": 1, "errors": 2, "warnings": 0, "notes": 0, "status": 1})

    def test_the_first_file_is_the_first_that_is_read(self):
        first, other, empty, bad = self.lines("a", ID), self.lines("b", OTHER_ID), self.lines("c"), self.lines("d", OTHER_ID, "{}")
        out, err, status = printed(["check", "--same", empty, first, f"{first}/no", bad, other])
        self.assertEqual((err, status), ("", 2))
        told = [line for line in out.split("\n") if "NotSame" in line or "BadLine" in line]
        self.assertEqual(told, [f"{bad}: {NO_NAME}".replace("line 1", "line 2"), f"{bad}: {OF_ID}", f"{other}: {OF_ID}"])
        self.assertEqual(out.split("\n")[-2], "5 files: 3 columns, 0 of geometries; 3 errors in 2 files; 2 files not read")

    def test_notes_and_inferred_types(self):
        first, other = self.lines("a", with_crs('"EPSG:3857"')), self.lines("b", with_crs("null"))
        told = [[line for line in printed(["check", "--same", *options, first, other])[0].split("\n") if "CrsNotCompared" in line] for options in ([], ["--notes"])]
        words = 'note[CrsNotCompared] column g: expected "EPSG:3857". Nothing tells whether the CRS of the first file is this one.'
        self.assertEqual(told, [[], [f"{other}: {words}"]])
        self.assertEqual(printed(["check", "--same", "--notes", first, other])[2], 0)
        points = [self.lines(name, '{"name":"geom","nullable":true,"type":{"struct":[%s]}}' % ",".join(
            f'{{"name":"{axis}","nullable":{nullable},"type":"float64"}}' for axis in "xy")) for name, nullable in (("c", "true"), ("d", "false"))]
        self.assertEqual([printed(["check", "--same", *options, *points])[2] for options in ([], ["--infer"])], [1, 0])

    def test_each_source_is_read_once(self):
        first = self.lines("a", ID)
        pipe = str(self.folder / "pipe")
        os.mkfifo(pipe)
        words = [sys.executable, "-m", "geoarrow_fields", "check", "--same", "--json", first, pipe, "-"]
        environment = {**os.environ, "PYTHONPATH": str(TOP / "python"), "PYTHONDONTWRITEBYTECODE": "1"}
        given = {"stdin": subprocess.PIPE, "stdout": subprocess.PIPE, "stderr": subprocess.PIPE}
        with subprocess.Popen(words, env=environment, **given) as ran:
            pathlib.Path(pipe).write_text(f"{OTHER_ID}\n")
            out, err = ran.communicate(f"{TEXT}\n".encode(), timeout=60)
        found = [json.loads(line) for line in out.decode().splitlines() if "NotSame" in line]
        self.assertEqual([(one.get("file"), one["column"], one["help"]) for one in found], [
            (pipe, "id", "The first file has another type."), (None, "t", "The first file has no such column."), (None, "id", "The column is missing.")])
        self.assertEqual((err, ran.returncode), (b"", 1))

    @unittest.skipUnless(PROGRAM.is_file(), "the program is not built")
    def test_beside_the_program(self):
        files = [str(DATA / name) for name in ("columns.jsonl", "stream.arrows", "file.arrow", "other.arrows", "geo.parquet", "stored.parquet")]
        broken = [self.lines("a", BROKEN), self.lines("b", OTHER_ID, "{}"), self.lines("c")]
        for words in (files, files[::-1], [*broken, *files], [files[4], files[4]], [files[0]]):
            for options in ([], ["--infer"], ["--json", "--notes"], ["--notes"]):
                with self.subTest(words=words, options=options):
                    self.judge(["--same", *options, *words])

    @unittest.skipUnless(PROGRAM.is_file(), "the program is not built")
    def test_each_case_beside_the_program(self):
        for case in cases():
            for options in (["--json"], []):
                with self.subTest(case.first[:80], other=case.other[:80]):
                    words = [str(self.file("first", case.first)), str(self.file("other", case.other))]
                    self.judge(["--same", "--notes", *options, *(["--infer"] if case.infer else []), *words])

    def judge(self, words):
        """The command prints what the program does."""
        wanted = subprocess.run([str(PROGRAM), *words], stdout=subprocess.PIPE, stderr=subprocess.PIPE)
        self.assertEqual(printed(["check", *words]), (wanted.stdout.decode(), wanted.stderr.decode(), wanted.returncode))


if __name__ == "__main__":
    unittest.main()
