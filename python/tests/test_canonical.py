"""Tests of columns in normal form: the cases that all languages share, however the files are given, and what is made of the lines."""
import io
import json
import pathlib
import subprocess
import tempfile
import threading
import unittest
from typing import NamedTuple
from unittest import mock

from geoarrow_fields import RefusedSource, Schema, canon, canonical, check, library, lines, write_schema

from .shared import BROKEN, CANON, CRS, DATA, OTHER, POINT, TEXT, TOP, WKT

PROGRAM = TOP / "crates/geoarrow_check/out/geoarrow_check"
OLD = '{"metadata":{"ARROW:extension:name":"ogc.wkb"},"name":"g","nullable":true,"type":"binary"}'
WKB = OLD.replace("ogc.wkb", "geoarrow.wkb")


class Case(NamedTuple):
    """A file: its bytes, whether it is refused, and the lines of its columns, or the one that says why."""

    content: bytes
    is_refused: bool
    lines: list


def cases():
    """Each case of native/canonical.rows, which all languages share."""
    found = []
    for line in (TOP / "native/canonical.rows").read_text(encoding="utf-8").split("\n"):
        word, _, rest = line.partition(" ")
        if word == "file":
            found.append(Case(bytes.fromhex(rest), False, []))
        elif word == "refused":
            found[-1] = found[-1]._replace(is_refused=True)
        elif line.startswith("{"):
            found[-1].lines.append(line)
    return found


def rows():
    """The lines of columns, and of their normal forms, of crates/file_rows/data/canonical."""
    for name in ("columns.rows", "fields.rows"):
        given = (TOP / "crates/file_rows/data/canonical" / name).read_text(encoding="utf-8").split("\n")
        said = iter(line for line in given if line and line[0] not in "#=")
        for question in said:
            answer = next(said)
            if answer.startswith("{"):
                yield question.partition(" ")[2], answer


def with_file(line, name):
    """The line of a refused file with its name, which stands behind the code."""
    said = json.loads(line)
    before = {key: said.pop(key) for key in ("kind", "severity", "code")}
    return json.dumps({**before, "file": name, **said}, ensure_ascii=False, separators=(",", ":"))


class InAFolder(unittest.TestCase):
    def setUp(self):
        there = tempfile.TemporaryDirectory()
        self.addCleanup(there.cleanup)
        self.folder = pathlib.Path(there.name)

    def file(self, name, content):
        path = self.folder / name
        path.write_bytes(content)
        return path

    def refused(self, source):
        with self.assertRaises(RefusedSource) as caught:
            canonical(source)
        return caught.exception


class Shared(InAFolder):
    """The cases of all languages."""

    def judge(self, case, source, name=None):
        """What is answered for a file that is given so, and has this name."""
        if case.is_refused:
            wanted, = case.lines
            self.assertEqual(self.refused(source).json, with_file(wanted, name) if name else wanted)
        else:
            self.assertEqual(canonical(source), case.lines)

    def test_each_case(self):
        for case in cases():
            with self.subTest(case.content[:80]):
                for kind in (bytes, bytearray, memoryview, io.BytesIO):
                    self.judge(case, kind(case.content))

    def test_each_case_of_a_file(self):
        for case in cases():
            with self.subTest(case.content[:80]):
                path = self.file('file "\u8868"', case.content)
                self.judge(case, path, str(path))
                self.judge(case, str(path), str(path))
                with open(path, "rb") as file:
                    self.judge(case, file)

    def test_the_cases_are_many(self):
        names = [json.loads(line).get("metadata", {}).get("ARROW:extension:name") for case in cases() if not case.is_refused for line in case.lines]
        self.assertGreater(names.count("geoarrow.wkb"), 10)
        self.assertGreater(names.count(None), 10)
        self.assertGreater(len(set(names)), 10)
        self.assertGreater(sum(case.is_refused for case in cases()), 3)

    def test_each_row_and_all_of_them(self):
        asked, answered = zip(*rows())
        self.assertGreater(len(asked), 150)
        for question, answer in zip(asked, answered):
            self.assertEqual(canonical([question]), [answer])
        self.assertEqual(canonical(asked), list(answered))

    def test_the_normal_form_is_its_own(self):
        """And the names, the states and the types are found in it that are found in the file (docs/FORMAT.md, 2.10): but for what the file alone tells of a column, so that it
        is invalid."""
        mended = {"OldExtensionName", "NullableInner", "MetadataEmpty", "AxisNames", "CoordinatesNotDouble", "CoordinatesNotFloat", "EdgesPlanar"}
        for case in cases():
            if not case.is_refused:
                columns = check(case.content)
                kept = [(line, one) for line, one in zip(case.lines, columns) if not one.is_invalid]
                self.assertEqual([one.name for one in columns], [json.loads(line)["name"] for line in case.lines])
                self.assertEqual(canonical([line for line, _ in kept]), [line for line, _ in kept])
                again = check([line for line, _ in kept])
                self.assertEqual([(one.name, one.state, one.type) for one in again], [(one.name, one.state, one.type) for _, one in kept])
                self.assertEqual([found.code for one in again for found in one.findings if found.code in mended], [])


class Files(InAFolder):
    def test_beside_canon(self):
        """Of a field that `canon` answers it is the line of its column."""
        for line in (POINT, CANON, WKB):
            self.assertEqual(canonical([line]), [canon(line)])
        self.assertEqual(canonical([POINT]), [CANON])

    def test_columns_that_are_as_they_are(self):
        self.assertEqual(canonical([TEXT, WKT, OTHER, BROKEN, CRS]), [TEXT, WKT, OTHER, BROKEN, CRS])

    def test_sources(self):
        stream = write_schema([OLD, TEXT])
        for source in ([OLD, TEXT], (OLD, TEXT), [OLD.encode(), TEXT], Schema([OLD, TEXT]), stream, io.BytesIO(stream), self.file("a", stream), f"{OLD}\n{TEXT}\n".encode()):
            self.assertEqual(canonical(source), [WKB, TEXT])

    def test_sources_without_columns(self):
        for source in ([], (), Schema([]), write_schema([]), b"{}\n", ["{}", "1"]):
            self.assertEqual(canonical(source), [])
        self.assertEqual(self.refused([""]).code, "EmptyFile")

    def test_columns_as_they_stand_in_a_source(self):
        """`lines` of each form of source, whose columns are not put in normal form."""
        stream = write_schema([OLD, TEXT])
        for source in ([OLD, TEXT], (OLD, TEXT), [OLD.encode(), TEXT], Schema([OLD, TEXT]), stream, io.BytesIO(stream), self.file("a", stream), f"{OLD}\n{TEXT}\n".encode()):
            self.assertEqual(lines(source), [OLD, TEXT])
        for source in ([], (), Schema([]), write_schema([]), b"{}\n", ["{}", "1"]):
            self.assertEqual(lines(source), [])
        self.assertEqual(lines(["{}", OLD, "1", "", TEXT]), [OLD, TEXT])
        name = self.file("b", b"PAR1")
        with self.assertRaises(RefusedSource) as refused:
            lines(name)
        self.assertEqual((refused.exception.code, json.loads(refused.exception.finding.json)["file"]), ("Truncated", str(name)))

    def test_the_schema_of_a_file(self):
        """Its lines make the schema that it stores, for each format; so do those of the schema that is made."""
        for name in ("file.arrow", "stream.arrows", "stored.parquet", "plain.parquet", "geo.parquet", "columns.jsonl"):
            found = lines(DATA / name)
            self.assertEqual([json.loads(line)["name"] for line in found], [one.name for one in check(DATA / name)])
            self.assertEqual(lines(Schema(found)), found)
            self.assertEqual(lines(write_schema(found)), found)

    def test_what_is_no_source(self):
        for source in (3, None, object()):
            with self.assertRaises(TypeError):
                canonical(source)
        with self.assertRaises(FileNotFoundError):
            canonical("/nowhere/at/all")
        with self.assertRaises(TypeError):
            canonical([OLD], True)  # (it has no options)

    def test_lines_that_are_no_columns_are_left_out(self):
        self.assertEqual(canonical(["{}", OLD, "1", "", TEXT]), [WKB, TEXT])

    def test_what_is_made_of_the_lines(self):
        """A stream, and a schema, of the same lines."""
        found = canonical([OLD, POINT, TEXT])
        self.assertEqual(lines(Schema(found)), [WKB, CANON, TEXT])
        self.assertEqual(canonical(write_schema(found)), found)
        self.assertEqual([one.findings for one in check(write_schema(found))], [()] * 3)

    def test_files_of_each_format(self):
        for name in ("file.arrow", "stream.arrows", "stored.parquet", "plain.parquet", "geo.parquet", "columns.jsonl", "other.arrows", "reasons.jsonl"):
            whole = (DATA / name).read_bytes()
            found = canonical(whole)
            self.assertEqual(canonical(DATA / name), found)
            self.assertEqual([json.loads(line)["name"] for line in found], [one.name for one in check(DATA / name)])

    def test_the_byte_of_a_file_whose_begin_is_not_read(self):
        """It is that of the file, where the library is given its end."""
        for name, head in (("file.arrow", b"ARROW1\0\0"), ("stored.parquet", b"PAR1")):
            whole = (DATA / name).read_bytes()
            moved = 0
            for at in range(len(whole) - 60, len(whole) - 8):
                path = self.file("turned", head + bytes(1000) + whole[len(head):at] + bytes([whole[at] ^ 0x81]) + whole[at + 1:])
                try:
                    check(path)
                except RefusedSource as error:
                    self.assertEqual(self.refused(path).json, error.json)
                    moved += 1
            self.assertGreater(moved, 3)

    def test_more_than_the_first_room(self):
        """Of lines that are longer in normal form; and each column has its line."""
        short = '{"metadata":{"ARROW:extension:name":"geoarrow.geometry"},"name":"%d","nullable":true,"type":{"mode":"dense","union":[[1,%s]]}}'
        member = '{"name":"p","nullable":true,"type":{"fixed_size_list":{"name":"xy","nullable":true,"type":"float64"},"size":2}}'
        found = canonical([short % (at, member) for at in range(500)])
        self.assertEqual([json.loads(line)["name"] for line in found], [str(at) for at in range(500)])
        self.assertGreater(sum(map(len, found)), 1_000_000)

    def test_out_of_memory(self):
        with mock.patch.object(library, "_call", lambda *of: lambda *given: library.MEMORY):
            with self.assertRaises(MemoryError):
                canonical([OLD])

    def test_eight_threads(self):
        sources = [OLD, POINT, CRS], (DATA / "file.arrow").read_bytes(), (DATA / "geo.parquet").read_bytes()
        wanted, wrong = [canonical(one) for one in sources], []

        def work():
            for _ in range(20):
                wrong.extend(found for found in [[canonical(one) for one in sources]] if found != wanted)

        threads = [threading.Thread(target=work) for _ in range(8)]
        for one in threads:
            one.start()
        for one in threads:
            one.join()
        self.assertEqual(wrong, [])


@unittest.skipUnless(PROGRAM.is_file(), "the program is not built")
class Program(InAFolder):
    """geoarrow_check --canonical"""

    def printed(self, *words):
        return subprocess.run([str(PROGRAM), *map(str, words)], stdout=subprocess.PIPE, stderr=subprocess.PIPE).stdout

    def judge(self, path):
        """It prints the same lines, and as a stream what is written of them."""
        found = canonical(path)
        self.assertEqual(self.printed("--canonical", "--lines", path).decode(), "".join(f"{line}\n" for line in found))
        try:
            stream = write_schema(found)
        except RefusedSource:  # (of types that no message has)
            stream = b""
        self.assertEqual(self.printed("--canonical", "--ipc", path), b"" if check(path).bad_lines else stream)

    def test_files_beside_the_program(self):
        for name in ("file.arrow", "stream.arrows", "stored.parquet", "plain.parquet", "geo.parquet", "columns.jsonl", "other.arrows", "reasons.jsonl"):
            self.judge(DATA / name)

    def test_each_case_beside_the_program(self):
        for case in cases():
            with self.subTest(case.content[:80]):
                path = self.file("file", case.content)
                if case.is_refused:
                    self.assertEqual((self.printed("--canonical", "--lines", path), self.printed("--canonical", "--ipc", path)), (b"", b""))
                else:
                    self.judge(path)


if __name__ == "__main__":
    unittest.main()
