"""Tests of tables: as text, and as HTML in a notebook."""
import html.parser
import re
import unittest

from geoarrow_fields import Finding, check
from geoarrow_fields.columns import columns_of

from .shared import BROKEN, BROKEN_FOUND, CRS, NO_GEO_METADATA, NOT_WHOLE, TEXT, TOP, WKT, with_crs

COLUMN = '{"kind":"column","index":0,"column":"t","state":"plain","type":"utf8"}'
ERROR = '{"kind":"finding","severity":"error","code":"GeoBbox","column":"t","in":"geo","pointer":"/columns/t/bbox","found":"[1]","expected":"m","help":"h?"}'
NOTE = '{"kind":"finding","severity":"note","code":"GeoNewVersion","in":"geo","pointer":"/version","found":"\\"2.0.0\\"","expected":"1.0.0 or 1.1.0"}'
WHOLE = '{"kind":"finding","severity":"error","code":"GeoNotObject","in":"geo","pointer":"","found":"[]","expected":"an object"}'
WARNING = '{"kind":"finding","severity":"warning","code":"NoGeoMetadata","in":"file","expected":"%s"}' % NO_GEO_METADATA.expected


class Cells(html.parser.HTMLParser):
    """The elements of an HTML text, the texts of its cells, and how many columns each row spans."""

    def __init__(self, text):
        super().__init__()
        self.tags, self.cells, self.spans = set(), [], []
        self.feed(text)
        self.close()

    def handle_starttag(self, tag, attrs):
        self.tags.add(tag)
        if tag == "tr":
            self.spans.append(0)
        if tag in ("td", "th"):
            self.cells.append("")
            self.spans[-1] += int(dict(attrs).get("colspan", 1))

    def handle_data(self, data):
        self.cells[-1] += data


class Tables(unittest.TestCase):
    def test_a_table(self):
        self.assertEqual(repr(check([CRS, BROKEN, WKT], infer=True, notes=True)), """\
  column  holds                        CRS        edges
N g       wkb                          OGC:CRS84  spherical
    %s
E b       invalid geoarrow.linestring
    %s
    %s
  wkt     taken for wkt                           planar""" % (NOT_WHOLE, *BROKEN_FOUND))

    def test_the_table_of_the_readme(self):
        readme = (TOP / "README.md").read_text()
        table = re.search(r"    bin/try check --infer examples/schema.jsonl\n\n((?:    .*\n)+)", readme)[1]
        self.assertEqual(repr(check(TOP / "examples/schema.jsonl", infer=True)), re.sub(r"(?m)^    ", "", table).rstrip("\n"))

    def test_what_a_crs_is_called(self):
        def projjson(name="n", code=None, authority="EPSG"):
            said = "" if code is None else ',"id":{"authority":"%s","code":%s}' % (authority, code)
            return '{"type":"GeographicCRS","name":"%s"%s}' % (name, said)

        malformed = [projjson(code=code) for code in ("1.5", "true", "-1")]
        malformed += ['{"id":{"authority":"EPSG","code":4326}}', '{"type":"GeographicCRS","name":7}', projjson()[:-1] + ',"id":{"authority":"OGC"}}', projjson()[:-1] + ',"id":[1]}']
        for crs, name in (
                ('"EPSG:4326"', "EPSG:4326"), ('"%s"' % ("a" * 40), "a" * 40), ('"%s"' % ("a" * 41), "a" * 38 + ".."),
                (projjson("é" * 50), "é" * 38 + ".."), (projjson(code=1, authority="b" * 39), "b" * 38 + ".."), ('"a\\tb"', "a b"),
                (projjson(), "n"), (projjson(code=4326), "EPSG:4326"), (projjson(code=0), "EPSG:0"), (projjson(code='"x"'), "EPSG:x"),
                (projjson(code=18446744073709551615), "EPSG:18446744073709551615"), (projjson(code=18446744073709551616), "EPSG:?"),
                *((crs, "") for crs in malformed), ("[1]", "a CRS"), ("4326", "a CRS"), ("null", "")):
            with self.subTest(crs):
                row = repr(check([with_crs(crs)])).split("\n")[1]
                self.assertEqual(re.fullmatch(r"[EW ] g +wkb +(.*?) *planar", row)[1], name)

    def test_cells_that_are_cut(self):
        name = "n" * 1_000_000
        columns = check([TEXT.replace('"t"', f'"{name}"'), *[TEXT] * 1000, TEXT.replace('"t"', '"%s"' % ("é" * 41)), TEXT.replace('"t"', '"%s"' % ("é" * 40))])
        self.assertEqual(columns[0].name, name)
        lines = repr(columns).split("\n")
        self.assertEqual([lines[1], lines[2], lines[-2], lines[-1]], [
            "  " + "n" * 38 + "..  utf8", "  t" + " " * 41 + "utf8", "  " + "é" * 38 + "..  utf8", "  " + "é" * 40 + "  utf8"])
        self.assertLess(len(repr(columns)), 60_000)
        other = '{"name":"o","nullable":true,"type":{"other":"%s"}}' % ("x" * 41)
        self.assertEqual(repr(check([other])).split("\n")[1], "  o       " + "x" * 38 + "..")
        self.assertEqual(Cells(check([other])._repr_html_()).cells[5:], ["", "o", "x" * 38 + "..", "", ""])

    def test_characters_of_two_columns_and_of_none(self):
        cells = (
            ("東" * 20, "東" * 20, 40), ("東" * 21, "東" * 19 + "..", 40), ("x" + "東" * 20, "x" + "東" * 18 + "..", 39), ("東京", "東京", 4),
            ("e\u0301" * 40, "e\u0301" * 40, 40), ("e\u0301" * 41, "e\u0301" * 38 + "..", 40), ("\u2764\ufe0f", "\u2764\ufe0f", 2))
        lines = repr(check([TEXT.replace('"t"', f'"{name}"') for name, _, _ in cells])).split("\n")
        self.assertEqual(lines[1:], ["  " + cell + " " * (42 - columns) + "utf8" for _, cell, columns in cells])

    def test_hidden_characters(self):
        cell = r"a\u{1b}[2J\u{85}\u{a}\u{202e}b\u{feff}"
        table = repr(check([TEXT.replace('"t"', r'"a\u001b[2J\u0085\n\u202eb\ufeff"')]))
        self.assertEqual(table, f"  {'column':<{len(cell)}}  holds  CRS  edges\n  {cell}  utf8")


    def test_the_mark_is_the_worst_severity(self):
        said = '{"severity":"%s","code":"C","in":"field","found":"f","expected":"e"}'
        column = COLUMN[:-1] + ',"findings":[%s]}'
        for severities, mark in (
                ((), " "), (("note",), "N"), (("warning",), "W"), (("error",), "E"), (("note", "warning", "note"), "W"), (("warning", "error", "note"), "E"), (("error", "note"), "E")):
            with self.subTest(severities):
                found = columns_of((column % ",".join(said % severity for severity in severities) if severities else COLUMN) + "\n")
                self.assertEqual(repr(found).split("\n")[1], f"{mark} t       utf8")


class Behind(unittest.TestCase):
    """What stands behind the lines of the columns: findings."""

    def test_each_line_is_what_it_begins_as(self):
        columns = columns_of(f"{COLUMN}\n{ERROR}\n{ERROR}\n{WARNING}\n")
        self.assertEqual([one.name for one in columns], ["t"])
        error = Finding("error", "GeoBbox", "t", source="geo", pointer="/columns/t/bbox", found="[1]", expected="m", help="h?")
        self.assertEqual(columns.findings, (error, error, NO_GEO_METADATA))
        self.assertEqual([one.json for one in (*columns, *columns.findings)], [COLUMN, ERROR, ERROR, WARNING])
        for report in ("", f"{COLUMN}\n"):
            columns = columns_of(report)
            self.assertEqual((len(columns), columns.findings), (report.count("\n"), ()))
        self.assertEqual((columns_of(f"{WARNING}\n"), columns_of(f"{WARNING}\n").findings), ([], (NO_GEO_METADATA,)))

    def test_words(self):
        columns = columns_of(f"{COLUMN}\n{ERROR}\n{NOTE}\n{WHOLE}\n{WARNING}\n")
        behind = [
            "error[GeoBbox] column t, geo /columns/t/bbox: found [1]; expected m. h?",
            'note[GeoNewVersion] geo /version: found "2.0.0"; expected 1.0.0 or 1.1.0',
            "error[GeoNotObject] geo: found []; expected an object",
            "warning[NoGeoMetadata] file: expected metadata of GeoParquet at the key geo"]
        self.assertEqual(repr(columns).split("\n")[2:], behind)
        self.assertEqual([one.is_error for one in columns.findings], [True, False, True, False])
        found = Cells(columns._repr_html_())
        self.assertEqual((found.cells[-4:], found.spans), (behind, [5] * 6))


class Html(unittest.TestCase):
    def test_cells(self):
        found = Cells(check([CRS, BROKEN, WKT], infer=True, notes=True)._repr_html_())
        self.assertEqual(found.tags, {"table", "thead", "tbody", "tr", "th", "td"})
        self.assertEqual(found.cells, [
            "", "column", "holds", "CRS", "edges",
            "N", "g", "wkb", "OGC:CRS84", "spherical", "", NOT_WHOLE,
            "E", "b", "invalid geoarrow.linestring", "", "", "", BROKEN_FOUND[0], "", BROKEN_FOUND[1],
            "", "wkt", "taken for wkt", "", "planar"])
        self.assertEqual(found.spans, [5] * 7)

    def test_each_text_is_escaped(self):
        name = "<script>\\\"&amp;'</td>"
        given = [TEXT.replace('"t"', f'"{name}"'), with_crs('"<b>"'), BROKEN.replace('"v"', '"<i>"')]
        given.append(TEXT.replace('"name"', '"metadata":{"ARROW:extension:name":"<u>"},"name"'))
        found = Cells(check(given)._repr_html_())
        self.assertEqual(found.tags, {"table", "thead", "tbody", "tr", "th", "td"})
        for text in ("<script>\"&amp;'</td>", "<b>", BROKEN_FOUND[0].replace("at v", "at <i>"), "extension <u>"):
            self.assertIn(text, found.cells)


if __name__ == "__main__":
    unittest.main()
