"""Tests of the calls: what they answer, and what they raise."""
import copy
import dataclasses
import html
import io
import json
import mmap
import pathlib
import pickle
import tempfile
import threading
import unittest
from unittest import mock

import geoarrow_fields
from geoarrow_fields import (
    Column, Finding, InvalidColumns, Schema, SchemaError, canon, check, library, lines, read, write_schema)
from geoarrow_fields.columns import columns_of

from .shared import BROKEN, BROKEN_FOUND, CANON, CRS, DATA, FOUND, NO_GEO_METADATA, OTHER, POINT, TEXT, TOP, WKT, said_of, with_crs


class Answers(unittest.TestCase):
    def test_read_and_canon(self):
        self.assertEqual(read(POINT), "point interleaved XY -")
        self.assertEqual(read(POINT.encode()), "point interleaved XY -")
        self.assertEqual(canon(POINT), CANON)
        self.assertEqual(read(TEXT), "none")
        self.assertEqual(read(""), "error field")
        self.assertEqual(read("\x00"), "error field")
        self.assertEqual(read("\ud800"), "error field")
        self.assertEqual(canon(BROKEN), "error arrow")

    def test_an_answer_longer_than_the_first_room(self):
        long = POINT.replace('"p"', '"' + "p" * 200_000 + '"')
        self.assertEqual(canon(long), CANON.replace('"p"', '"' + "p" * 200_000 + '"'))

    def test_out_of_memory(self):
        with mock.patch.object(library, "_call", lambda *of: lambda *given: library.MEMORY):
            for call in (lambda: read(TEXT), lambda: canon(TEXT), lambda: check([TEXT]), lambda: write_schema([TEXT])):
                with self.assertRaises(MemoryError):
                    call()


class Names(unittest.TestCase):
    def test_the_column_of_a_name(self):
        columns = columns_of("".join(f'{{"kind":"column","index":{at},"column":"{name}","state":"plain","type":"utf8"}}\n' for at, name in enumerate(["t", "p", "p", ""])))
        self.assertEqual([columns["t"], columns[""]], [columns[0], columns[-1]])
        self.assertEqual([one.name for one in columns[:2]], ["t", "p"])
        for name, words in (("p", "2 columns are named 'p'"), ("T", "no column is named 'T'")):
            with self.assertRaises(KeyError) as raised:
                columns[name]
            self.assertEqual(raised.exception.args, (words,))
        with self.assertRaises(IndexError):
            columns[4]
        with self.assertRaises(TypeError):
            columns[b"t"]


class Checks(unittest.TestCase):
    def test_sources(self):
        nullable = Finding("warning", "NullableInner", path=("xy",), source="field", found="nullable", expected="not null")
        wanted = [
            Column("t", 0, "plain", "utf8"), Column("p", 1, "geometry", "point interleaved XY", "geoarrow.point", "planar", findings=(nullable,), type_from="field",
            geometry_types=("Point",))]
        text = f"{TEXT}\n{POINT}\n"
        stream = write_schema([TEXT, POINT])
        given = text.encode()
        for source in (
                given, bytearray(given), memoryview(given), memoryview(b"".join(bytes([one, 0]) for one in given))[::2], [TEXT, POINT],
                (TEXT.encode(), POINT), Schema(text), stream, stream + b"\0" * 100):
            with self.subTest(source=type(source).__name__):
                self.assertEqual(check(source), wanted)
        with tempfile.TemporaryDirectory() as folder:
            for found in (given, stream):
                path = pathlib.Path(folder, "source")
                path.write_bytes(found)
                self.assertEqual(check(path), wanted)
                self.assertEqual(check(str(path)), wanted)
        self.assertEqual(check(f"\n{TEXT}\n \t\r\n\n{POINT}\n\n".encode()), wanted)  # blank lines are passed over
        self.assertEqual(check([]), [])
        self.assertEqual(check(Schema([])), [])

    def test_large_sources(self):
        given = f"{TEXT}\n{POINT}\n".encode() * 20_000
        few = check([TEXT, POINT])
        stream = write_schema([given[:-1]])
        self.assertGreater(min(len(given), len(stream)), 2 << 20)
        with tempfile.TemporaryDirectory() as folder:
            path = pathlib.Path(folder, "large")
            for whole in (given, stream):
                path.write_bytes(whole)
                for source in (whole, path, io.BytesIO(whole)):
                    found = check(source)
                    self.assertEqual(len(found), 40_000)
                    for at in (0, 1, 20_001, 39_998, 39_999):
                        self.assertEqual(found[at], dataclasses.replace(few[at % 2], index=at))
        long = TEXT.replace('"t"', '"%s"' % ("é" * 500_000))
        self.assertEqual((lines(Schema([long])), [one.name for one in check([long])]), ([long], ["é" * 500_000]))

    def test_files_that_are_open(self):
        for name in ("file.arrow", "stream.arrows", "stored.parquet", "plain.parquet", "geo.parquet", "columns.jsonl"):
            wanted = check(DATA / name)
            with open(DATA / name, "rb") as file, mmap.mmap(file.fileno(), 0, access=mmap.ACCESS_READ) as mapped:
                for source in (file, io.BytesIO(file.read()), mapped):
                    found = check(source)
                    self.assertEqual((found, found.findings), (wanted, wanted.findings))

    def test_notes(self):
        self.assertEqual([one.code for one in check([CRS])[0].findings], [])
        self.assertEqual([one.code for one in check([CRS], notes=True)[0].findings], ["CrsNotWhole"])
        self.assertEqual([one.code for one in check([WKT], infer=True, notes=True)[0].findings], [])

    def test_empty_metadata(self):
        line = CANON.replace('{"ARROW', '{"ARROW:extension:metadata":"","ARROW')
        (column,) = check([line])
        self.assertEqual((column.state, [one.code for one in column.findings]), ("geometry", ["MetadataEmpty"]))
        self.assertEqual(read(line), "error arrow")

    def test_what_is_inferred(self):
        columns = check([WKT, TEXT], infer=True)
        self.assertEqual(columns, [Column("wkt", 0, "inferred", "wkt - -", None, "planar"), Column("t", 1, "plain", "utf8")])
        self.assertIs(columns[0].is_geometry, False)

    def test_a_crs_and_its_text(self):
        (column,) = check([CRS])
        self.assertEqual(column.crs, {"type": "GeographicCRS", "name": "WGS 84", "id": {"authority": "OGC", "code": "CRS84"}, "scope": 1.5})
        self.assertEqual((column.crs_type, column.edges), ("projjson", "spherical"))
        self.assertEqual((column.crs_from, column.edges_from, column.type_from, column.verdicts), ("field", "field", "field", {}))
        line = (  # (with a value of its own at each key)
            '{"kind":"column","index":1,"column":"a","state":"geometry","type":"f","type_from":"field","extension":"e","crs":"b","crs_type":"c","crs_from":"element",'
            '"edges":"d","edges_from":"geo","epoch":3.5,"orientation":"i","geometry_types":["g","h"],"bbox":[1,2.5],"verdicts":{"crs":{"geo":"agree"}}}\n')
        self.assertEqual(list(columns_of(line)), [Column(
            name="a", index=1, state="geometry", type="f", extension="e", edges="d", crs_type="c", crs="b", crs_from="element", edges_from="geo",
            type_from="field", verdicts={"crs": {"geo": "agree"}}, bbox=(1, 2.5), epoch=3.5, geometry_types=("g", "h"), orientation="i")])
        self.assertEqual((column.state, column.is_geometry, column.is_invalid), ("geometry", True, False))
        self.assertIn('"scope":1.50', column.json)
        (column,) = check([with_crs('{"type":"GeographicCRS", "name":"n", "b" : 1.50 , "a" : "\\u00e9 \\n" , "b" : 2 }')])
        self.assertIn(r'"crs":{"type":"GeographicCRS","name":"n","b":1.50,"a":"é \n","b":2},', column.json)

    def test_a_crs_with_the_largest_number(self):
        column, other = check([with_crs('{"type":"GeographicCRS","name":"n","a":%s,"b":7}' % ("1" * 309)), with_crs("1" * 310)])
        self.assertEqual(column.crs, {"type": "GeographicCRS", "name": "n", "a": int("1" * 309), "b": 7})
        self.assertEqual([one.code for one in other.findings], ["MetadataNotJson"])

    def test_reasons(self):
        (column,) = check([BROKEN])
        self.assertEqual([one.code for one in column.findings], ["BadFieldCount", "UnknownEdges"])
        self.assertEqual(column.findings[0], Finding(
            "error", "BadFieldCount", path=("v",), source="field", found="struct<>", expected="list<coordinates>",
            help="The number of the fields is that of no dimension."))
        self.assertIs(column.is_invalid, True)
        self.assertIs(column.is_geometry, False)

    def test_a_warning_that_stands_for_more(self):
        (column,) = check([TEXT.replace('"utf8"', '{"struct":[%s]}' % ",".join([CANON] * 20))])
        nested = Finding(
            "warning", "NestedGeometry", path=(json.loads(CANON)["name"],), source="field", found="geoarrow.point", expected="the name of a column alone",
            help="GeoParquet takes columns at the root alone.")
        self.assertEqual(column.findings, (nested,) * 15 + (dataclasses.replace(nested, more=4),))
        self.assertEqual((column.is_invalid, column.is_error), (False, False))
        self.assertTrue(column.json.endswith(',"more":4}]}'))

    def test_a_column_with_an_error(self):
        given = [CANON.replace('"type":"float64"', '"type":"int64"')]
        (column,) = check(given)
        self.assertEqual((column.state, column.is_invalid, column.is_error), ("geometry", False, True))
        self.assertEqual([(one.severity, one.code) for one in column.findings], [("error", "CoordinatesNotFloat")])
        self.assertEqual(check(given, strict=True), [column])

    def test_strict(self):
        self.assertEqual(check([TEXT], strict=True), check([TEXT]))
        with self.assertRaises(InvalidColumns) as caught:
            check([TEXT, BROKEN], strict=True)
        self.assertEqual([one.name for one in caught.exception.columns], ["b"])
        self.assertEqual(str(caught.exception), f"'b': {', '.join(BROKEN_FOUND)}")

    def test_files_of_arrow(self):
        (column,) = check(DATA / "file.arrow")
        self.assertEqual((column.name, column.type), ("g", "linestring interleaved XYM"))
        self.assertEqual(check((DATA / "file.arrow").read_bytes()), [column])
        self.assertTrue(check(DATA / "stream.arrows"))

    def test_files_of_parquet(self):
        for name in ("stored.parquet", "plain.parquet"):
            self.assertEqual(check(DATA / name), check((DATA / name).read_bytes()))
        self.assertEqual([one.type for one in check(DATA / "stored.parquet")], ["large_wkb - -"])

    def test_the_findings_of_a_file_of_parquet(self):
        columns = check(DATA / "geo.parquet")
        self.assertEqual(columns.findings, ())
        self.assertEqual([len(one.findings) for one in columns], [2, 1, 1])
        found = [one for column in columns for one in column.findings]
        self.assertEqual([(one.severity, one.code, one.column, one.source, one.pointer, one.found) for one in found[:2]], [
            ("error", "GeoTypes", None, "geo", "/columns/geom/geometry_types/1", '"Dot"'),
            ("error", "GeoBboxOrder", None, "geo", "/columns/geom/bbox/1", "ymin 3, ymax 2")])
        self.assertEqual([one.is_error for one in found], [True, True, False, False])
        self.assertEqual([one.type for one in columns], ["wkb - -", "wkb - -", "wkb - -"])
        self.assertEqual([line.strip() for line in repr(columns).split("\n") if line.startswith("    ")], FOUND)
        self.assertIn(html.escape(FOUND[0]), columns._repr_html_())
        for file in (check(DATA / "plain.parquet"), check(DATA / "file.arrow")):
            self.assertEqual(file.findings, ())

    def test_the_files_of_rows(self):
        """The columns and findings of each file have the lines of its row, and name their parts; notes are found where they are asked for alone."""
        rows = iter((TOP / "crates/file_rows/data/reports/geo_files.rows").read_text(encoding="utf-8").splitlines())
        noted = set()
        for asked in rows:
            command, _, digits = asked.partition(" ")
            if command in ("report_file", "report_file_noted"):
                file, wanted = bytes.fromhex(digits), next(rows)
                columns = check(file, notes=command == "report_file_noted")
                self.assertEqual(" & ".join(one.json for one in (*columns, *columns.findings)), wanted)
                noted |= {one.code for one in (*columns.findings, *(each for column in columns for each in column.findings)) if one.severity == "note"}
                self.assertFalse([one for one in check(file).findings if one.severity == "note"])
                for is_line, found in ((True, columns.findings), (False, [one for column in columns for one in column.findings])):
                    self.assertEqual([said_of(one, is_line) for one in found], [one.json for one in found])
        self.assertIn("CrsNotCompared", noted)

    def test_a_file_of_parquet_without_metadata_of_geoparquet(self):
        columns = check(DATA / "stored.parquet")
        self.assertEqual(columns.findings, (NO_GEO_METADATA,))
        self.assertEqual(repr(columns).split("\n")[-1], str(NO_GEO_METADATA))
        self.assertIn(str(NO_GEO_METADATA), columns._repr_html_())

    def test_the_end_of_a_large_file_alone_is_read(self):
        with tempfile.TemporaryDirectory() as folder:
            path = pathlib.Path(folder, "large")
            for name, head in (("file.arrow", b"ARROW1\0\0"), ("stored.parquet", b"PAR1")):
                with open(path, "wb") as file:
                    file.write(head)
                    file.seek(2**40)  # a hole
                    file.write((DATA / name).read_bytes())
                self.assertEqual(check(path), check(DATA / name))


class Streams(unittest.TestCase):
    def test_streams_that_others_read(self):
        rows = [line for line in (TOP / "crates/ipc_samples/data/written.rows").read_text().split("\n") if not line.startswith("#")]
        compared = 0
        for question, answer in zip(rows[::2], rows[1::2]):
            stream = bytes.fromhex(question.partition(" ")[2])
            metadata = 48 + int.from_bytes(stream[48:52], "little")  # the vector that the schema's third slot leads to, docs/FORMAT.md, 3.6
            if stream[metadata]:  # which lines do not have
                continue
            self.assertEqual(write_schema(answer.split(" | ") if answer else []), stream)
            compared += 1
        self.assertGreater(compared, 6)

    def test_a_text_is_no_list_of_lines(self):
        for given in (TEXT, TEXT.encode()):
            with self.assertRaises(TypeError):
                write_schema(given)

    def test_there_and_back(self):
        given = (DATA / "columns.jsonl").read_text().splitlines()
        self.assertEqual(check(write_schema(given)), check(given))


class Schemas(unittest.TestCase):
    """(interop/test has the tests of the C data interface.)"""

    def test_lines_of_a_schema(self):
        self.assertEqual(lines(Schema([TEXT, POINT, OTHER])), [TEXT, POINT, OTHER])

    def test_a_schema_that_is_checked(self):
        given = (TOP / "examples/schema.jsonl").read_text()
        self.assertEqual(check(Schema(given), infer=True), check(given.encode(), infer=True))


class Columns(unittest.TestCase):
    """Columns whose line is read when it is first looked at."""

    def test_each_attribute_may_be_the_first(self):
        wanted = Column("t", 0, "plain", "utf8")
        for name in ("name", "index", "state", "type", "extension", "edges", "crs_type", "crs", "findings", "crs_from", "edges_from", "type_from", "verdicts", "bbox", "epoch", "geometry_types", "orientation", "is_geometry", "is_invalid", "is_error"):
            (column,) = check([TEXT])
            self.assertEqual(getattr(column, name), getattr(wanted, name))
        for look in (repr, hash, dataclasses.asdict, lambda one: dataclasses.replace(one, name="u"), lambda one: pickle.loads(pickle.dumps(one)), copy.copy):
            (column,) = check([TEXT])
            found = look(column)
            self.assertEqual(found, {**look(wanted), "json": column.json} if look is dataclasses.asdict else look(wanted))

    def test_no_other_attribute(self):
        (column,) = check([TEXT])
        for one in (column, Column("t", 0, "plain", "utf8")):
            with self.assertRaises(AttributeError):
                one.names
            with self.assertRaises(dataclasses.FrozenInstanceError):
                one.name = "u"


class Threads(unittest.TestCase):
    def test_eight_at_once(self):
        source = (DATA / "columns.jsonl").read_bytes()
        calls = (
            lambda: check(source), lambda: check(source, infer=True), lambda: canon(POINT), lambda: read(POINT),
            lambda: write_schema([POINT, CRS]), lambda: check(Schema([POINT, CRS])))
        wanted = [call() for call in calls]
        wrong = []

        def work():
            for _ in range(40):
                wrong.extend(at for at, call in enumerate(calls) if call() != wanted[at])

        threads = [threading.Thread(target=work) for _ in range(8)]
        for one in threads:
            one.start()
        for one in threads:
            one.join()
        self.assertEqual(wrong, [])


class Package(unittest.TestCase):
    def test_the_version(self):
        said = (TOP / "VERSION").read_text()
        self.assertTrue(said.startswith(f"geoarrow_fields {geoarrow_fields.__version__},"), said)


if __name__ == "__main__":
    unittest.main()
