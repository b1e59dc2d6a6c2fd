"""Tests of the model of what is found in GeoParquet metadata: rows of its checks want the same.

Run by interop/test, or alone by `python3 -m unittest interop.test_geo_findings`, at the top of the
repository.
"""
import pathlib
import re
import unittest

from . import geo_findings, geo_layouts, geo_words
from .geo_json import NotJson, read, text_of


class Rows(unittest.TestCase):
    def test_answers(self):
        files = sorted(geo_findings.ROWS.glob("*.rows"))
        count = 0
        for file in files:
            for line, command, question, wanted in geo_findings.rows_of(file):
                count += 1
                with self.subTest(f"{file.name}:{line}"):
                    self.assertEqual(geo_findings.answer(command, question), wanted)
        self.assertGreater(count, 1000)

    def test_each_code_is_found_in_some_row(self):
        found = set()
        for file in geo_findings.ROWS.glob("*.rows"):
            for *_, wanted in geo_findings.rows_of(file):
                parts = [it for it in wanted.split(" & ") if "|" in it]
                found.update(it.split("|")[0].split(" ")[-1] for it in parts)
        self.assertEqual(found, set(geo_findings.CODES))


class Json(unittest.TestCase):
    def test_a_value_is_written_as_it_stands(self):
        for text in ('{"b":1.50,"a":[1E+2,-0],"b":null}', '"\\u0007\\n\\"\\\\é😀"', "[]", "true"):
            self.assertEqual(text_of(read(f" {text} ")), text)

    def test_no_json(self):
        for text in ("", "NaN", "[1,]", "1e400", '"\\ud800"', "[" * 128 + "]" * 128, "[" * 100000):
            with self.subTest(text[:10]), self.assertRaises(NotJson):
                read(text)


class Layouts(unittest.TestCase):
    """Layouts of types and of elements, by cases made by hand from docs/FORMAT.md, 5.5 and 3.4."""

    @staticmethod
    def lists(count, kind, word="list"):
        for _ in range(count):
            kind = {word: {"name": "item", "nullable": True, "type": kind}}
        return kind

    @staticmethod
    def struct(*names, kind="float64", nullable=False):
        return {"struct": [{"name": name, "nullable": nullable, "type": kind} for name in names]}

    def test_types(self):
        xy, xyz = self.struct("x", "y"), self.struct("x", "y", "z")
        for kind, layout in (
                ("binary", "BYTE_ARRAY"), ("binary_view", "BYTE_ARRAY"), ("utf8", None), (xy, "group of x, y"), (self.lists(1, xyz), "LIST of x, y, z"),
                (self.lists(2, xy, "large_list"), "LIST of LIST of x, y"), (self.lists(3, xy), "LIST of LIST of LIST of x, y"), (self.struct("y", "x"), None),
                (self.struct("x", "y", nullable=True), None), (self.struct("x", "y", kind="float32"), None), (self.struct("x"), None), (self.struct(), None),
                (self.lists(1, "binary"), None), ({"other": "dictionary<int32, binary>"}, None)):
            self.assertEqual(geo_layouts.of_type(kind), layout)

    def test_encodings(self):
        self.assertEqual(geo_findings.strict_layouts("WKB"), {"BYTE_ARRAY": "wkb"})
        for encoding, words in (("point", "group of "), ("linestring", "LIST of "), ("multipoint", "LIST of "), ("polygon", "LIST of LIST of "),
                                ("multilinestring", "LIST of LIST of "), ("multipolygon", "LIST of LIST of LIST of ")):
            self.assertEqual(geo_findings.strict_layouts(encoding), {words + "x, y": "xy", words + "x, y, z": "xyz"})

    def test_notation(self):
        union = {"mode": "sparse", "union": [[3, {"name": "a", "nullable": False, "type": "int8"}], [0, {"name": "b", "nullable": True, "type": self.struct()}]]}
        for kind, text in (
                ("float64", "float64"), ({"other": "time32[s]"}, "time32[s]"), (self.struct("x", "y"), "struct<x: float64 not null, y: float64 not null>"),
                (self.lists(1, "utf8", "large_list"), "large_list<item: utf8>"), (union, "sparse_union<a: int8 not null=3, b: struct<>=0>"),
                ({"fixed_size_list": {"name": "i", "nullable": False, "type": "null"}, "size": 2}, "fixed_size_list<i: null not null>[2]")):
            self.assertEqual(geo_layouts.notation(kind), text)

    def test_elements_of_rows(self):
        for words, element in (
                ("silent", geo_findings.Silent()), ("silent; layout LIST of x, y, z", geo_findings.Silent("LIST of x, y, z")), ("given", geo_findings.Given(False)),
                ("given CRS, edges by default", geo_findings.Given(True, geo_findings.DEFAULT)), ("given, edges not known; layout not judged", geo_findings.Given(False, geo_findings.BROKEN, "not judged")),
                ('{"crs":"a, edges b"}', geo_findings.Beside('{"crs":"a, edges b"}')), ("{}, edges by default; layout bytes", geo_findings.Beside("{}", geo_findings.DEFAULT))):
            self.assertEqual(geo_findings.element_of(words), element)


class Words(unittest.TestCase):
    """The words of docs/FORMAT.md, 5, are those of the definitions that the contracts cite."""

    @staticmethod
    def table(file, name):
        """The rows of a definition over codes or versions: the last word before `=`, and the text."""
        specs = pathlib.Path(__file__).resolve().parent.parent / "crates" / file
        rows = re.findall(f"^{name} (.*) = (.*)$", specs.read_text(encoding="utf-8"), re.M)
        return {left.split()[-1].split(".")[-1]: right for left, right in rows}

    @staticmethod
    def text(right):
        found = re.fullmatch(r'(?:Some \()?codes "(.*?)"\)?', right)
        return found and found[1].replace('\\"', '"')

    def test_codes(self):
        codes, words = "geoparquet/specs/Codes.antt", "geoparquet/specs/Words.antt"
        names = {key: self.text(text) for key, text in self.table(codes, "code_of").items()}
        self.assertEqual(list(names.values()), list(geo_words.ROWS))
        self.assertEqual(list(names.values()), list(geo_findings.CODES))
        rules, weights = self.table(words, "rule_of"), self.table(codes, "severity_of")
        expected = self.table(words, "expected_of")
        advice = {**self.table(words, "advice_of"), **self.table(words, "member_advice")}
        for key, code in names.items():
            with self.subTest(code):
                self.assertEqual(geo_words.severity(code), weights[key].lower())
                self.assertEqual(geo_words.text_in(geo_words.ROWS[code][1]), self.text(rules[key]))
                for version in geo_words.VERSIONS:
                    said = geo_words.expected(code, version, None)
                    self.assertEqual(said, self.by_version(expected[key], version))
                    said = geo_words.help_of(code, version, None)
                    self.assertEqual(said, self.by_version(advice.get(key), version))

    def by_version(self, right, version):
        """The text of a row, or that of the version in the definition that it names."""
        found = right and re.search(r"(\w+_text) version", right)
        if not found:
            return right and self.text(right)
        rows = self.table("geoparquet/specs/Words.antt", found[1])
        return self.text(rows.get(version, rows.get("version")))

    def test_lines(self):
        found = geo_findings.Finding("GeoTypes", "g", "/columns/g/geometry_types/0", '"Poligon"', None)
        said = geo_words.line(None, "V1_1", found)
        self.assertTrue(said.endswith(',"help":"Did you mean \\"Polygon\\"?"}'), said)


if __name__ == "__main__":
    unittest.main()
