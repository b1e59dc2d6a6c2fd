"""Tests of the calls that make columns of geometries, and schemas: what a reader that shares nothing with the library reads of them is what the tables of the format say."""
import copy
import ctypes
import json
import pickle
import sys
import types
import unittest
from unittest import mock

import geoarrow_fields as geo
from geoarrow_fields import Field, SchemaError, capsules, check, lines, makers, schema
from geoarrow_fields.columns import Column

from .shared import TOP, with_crs

sys.path.insert(0, str(TOP))
try:
    from interop import kinds, structures
finally:
    sys.path.remove(str(TOP))

NATIVE = (geo.point, geo.linestring, geo.polygon, geo.multipoint, geo.multilinestring, geo.multipolygon, geo.geometrycollection)
SERIALIZED = {"wkb": ("binary", "large_binary", "binary_view"), "wkt": ("utf8", "large_utf8", "utf8_view")}
PROJJSON = '{ "type": "GeographicCRS", "name": "é", "scope": 1.50 }'
COMPACT = '{"type":"GeographicCRS","name":"é","scope":1.50}'


def each_kind():
    """The words of each kind, and what makes it."""
    for make in NATIVE:
        for coord_type in kinds.COORD_TYPES:
            for dimension in kinds.DIMENSIONS:
                yield f"{make.__name__} {coord_type} {dimension}", lambda make=make, d=dimension, i=coord_type == "interleaved", **given: make(d, interleaved=i, **given)
    for coord_type in kinds.COORD_TYPES:
        yield f"geometry {coord_type} -", lambda i=coord_type == "interleaved", **given: geo.geometry(interleaved=i, **given)
    for dimension in kinds.DIMENSIONS:
        yield f"box separated {dimension}", lambda d=dimension, **given: geo.box(d, **given)
    for make in (geo.wkb, geo.wkt):
        for storage, front in zip(SERIALIZED[make.__name__], ("{}", "large_{}", "{}_view")):
            yield f"{front.format(make.__name__)} - -", lambda make=make, s=storage, **given: make(s, **given)


class GivesText:
    def __init__(self, text):
        self.text = text

    def to_json(self):
        return self.text


class Type:
    """What gives the field of a line: a stand-in for a field or a data type of another library."""

    def __init__(self, line):
        self.line = line

    def __arrow_c_schema__(self):
        return capsules.export_column(self.line.encode())


class Makers(unittest.TestCase):
    def test_each_kind(self):
        self.assertEqual([words for words, _ in each_kind()], list(kinds.all_words()))
        for words, make in each_kind():
            for nullable, given, written in ((True, {}, ()), (False, {"crs": PROJJSON, "edges": "karney"}, (COMPACT, "projjson", "karney"))):
                with self.subTest(words=words, **given):
                    made = make(name="Größe", nullable=nullable, **given)
                    wanted = kinds.column("Größe", words, nullable, *written)
                    self.assertEqual((made.name, made.nullable, made.line), ("Größe", nullable, kinds.line_of(wanted)))
                    self.assertEqual(structures.columns_of(made), [wanted])
                    self.assertEqual(lines(made), [made.line])
                    (column,) = check(made)
                    self.assertEqual((column.state, column.type, column.findings), ("geometry", words, ()) if not given else ("geometry", words, column.findings))

    def test_defaults(self):
        for make, words in ((geo.point, "point separated XY"), (geo.geometry, "geometry separated -"), (geo.box, "box separated XY"), (geo.wkb, "wkb - -"), (geo.wkt, "wkt - -")):
            self.assertEqual(make().line, kinds.line_of(kinds.column("", words, True)))

    def test_crs(self):
        for given, written in (
                ({"crs": "EPSG:4326"}, ('"EPSG:4326"', "authority_code", "")), ({"crs": "4326", "crs_type": "srid"}, ('"4326"', "srid", "")),
                ({"crs": 'GEOGCRS["a"]'}, ('"GEOGCRS[\\"a\\"]"', "wkt2:2019", "")), ({"crs": "WGS 84"}, ('"WGS 84"', "", "")), ({"crs": GivesText(PROJJSON)}, (COMPACT, "projjson", "")),
                ({"crs": PROJJSON, "crs_type": "projjson", "edges": "planar"}, (COMPACT, "projjson", "")), ({"crs": ""}, ()), ({"edges": "thomas"}, ("", "", "thomas"))):
            with self.subTest(**given):
                self.assertEqual(geo.wkb(name="g", **given).line, kinds.line_of(kinds.column("g", "wkb - -", True, *written)))

    def test_names(self):
        one = geo.point("XYZ", crs="EPSG:4326", nullable=False)
        other = one.with_name("g")
        self.assertEqual(other, geo.point("XYZ", name="g", crs="EPSG:4326", crs_type="authority_code", nullable=False))
        self.assertEqual(len({other, geo.point("XYZ", name="g", crs="EPSG:4326", nullable=False), one}), 2)
        self.assertNotEqual(one, other)
        self.assertNotEqual(one, one.line)
        for same in (pickle.loads(pickle.dumps(other)), copy.deepcopy(other)):
            self.assertEqual((same, same.with_name("")), (other, one))
        with self.assertRaises(AttributeError):
            other.name = "h"

    def test_what_is_refused(self):
        for call, error, words in (
                (lambda: geo.point("xy"), ValueError, "^dimension 'xy': expected XY, XYZ, XYM or XYZM$"), (lambda: geo.box(None), ValueError, "^dimension None: expected"),
                (lambda: geo.wkb("utf8"), ValueError, "^storage 'utf8': expected binary, large_binary or binary_view$"),
                (lambda: geo.wkt(crs="a", crs_type="wkt"), ValueError, "^CRS type 'wkt': expected projjson, wkt2:2019, authority_code or srid$"),
                (lambda: geo.geometry(edges="Planar"), ValueError, "^edges 'Planar': expected planar, andoyer, karney, spherical, thomas or vincenty$"),
                (lambda: geo.point(name="\ud800"), UnicodeEncodeError, "surrogates"), (lambda: geo.point(crs="\ud800"), UnicodeEncodeError, "surrogates"),
                (lambda: geo.point(crs=4326), TypeError, "^a CRS is a text, or an object whose to_json\\(\\) gives one, not int$"),
                (lambda: geo.point(crs=GivesText(None)), TypeError, "not GivesText$"),
                (lambda: geo.point(crs="{"), SchemaError, "^error\\[BadSchema\\] column 0: found a CRS that is no PROJJSON; expected an object of JSON that nests at most 126 levels$"),
                (lambda: geo.point(crs_type="srid"), SchemaError, "^error\\[BadSchema\\] column 0: found a CRS type without a CRS; expected a CRS, or no type$"),
                (lambda: geo.point(name="a\0"), SchemaError, "a name with a byte 0"), (lambda: geo.point().with_name("\0"), SchemaError, "a name with a byte 0")):
            with self.assertRaisesRegex(error, words) as caught:
                call()
            self.assertIs(type(caught.exception), error)

    def test_out_of_memory(self):
        with mock.patch.object(geo.library, "_call", lambda *of: lambda *given: geo.library.MEMORY), self.assertRaises(MemoryError):
            geo.point()

    def test_a_field_is_released_once(self):
        """The release callback is another here, which the destructor of the capsule calls."""
        taken, released = geo.point(name="p").__arrow_c_schema__(), []
        address = capsules.address_in(taken, capsules.SCHEMA_CAPSULE)
        field = capsules.ArrowSchema.from_address(address)
        ours = capsules.ArrowSchema.from_buffer_copy(field)
        note = ctypes.CFUNCTYPE(None, ctypes.c_void_p)(released.append)
        field.release = ctypes.cast(note, ctypes.c_void_p).value
        del taken
        self.assertEqual(released, [address])
        capsules.release(ours)
        self.assertIsNone(ours.release)


class Schemas(unittest.TestCase):
    def test_fields_pairs_and_others(self):
        at = '{"name":"at","nullable":true,"type":{"other":"timestamp[ms, tz=UTC]"}}'
        both = schema([geo.wkb(name="a"), geo.Schema([at])])
        given = [geo.point(name="p", crs="EPSG:4326"), ("q", geo.point(name="p")), Type(at), ("t \"é\"", Type('{"name":"","nullable":false,"type":"utf8"}')), both,
                 ("s", Type('{"name":"","nullable":false,"type":{"struct":[{"name":"x","nullable":true,"type":"int8"}]}}'))]
        wanted = [
            kinds.column("p", "point separated XY", True, '"EPSG:4326"', "authority_code"), kinds.column("q", "point separated XY", True), json.loads(at),
            {"name": "t \"é\"", "nullable": False, "type": "utf8"}, kinds.column("a", "wkb - -", True), json.loads(at),
            {"name": "s", "nullable": False, "type": {"struct": [{"name": "x", "nullable": True, "type": "int8"}]}}]
        self.assertEqual(structures.columns_of(schema(given)), wanted)
        self.assertEqual(structures.columns_of(schema(one for one in given)), wanted)
        self.assertEqual(lines(schema([])), [])

    def test_what_is_no_column(self):
        for given, error in ((1, TypeError), ("g", TypeError), ((1, geo.wkb()), TypeError), (("g",), TypeError), (("g", 1), TypeError), (("g", "binary"), TypeError)):
            with self.assertRaises(error):
                schema([given])
        with self.assertRaises(SchemaError):
            schema([("a\0", Type('{"name":"","nullable":false,"type":"utf8"}'))])

    def test_names_that_are_given_out(self):
        self.assertLessEqual({make.__name__ for make in NATIVE} | {"Field", "box", "geometry", "schema", "wkb", "wkt"}, set(geo.__all__))
        for name in geo.__all__:
            self.assertTrue(hasattr(geo, name), name)
        self.assertIs(geo.schema, makers.schema)
        self.assertIs(geo.Field, Field)


class CRSs(unittest.TestCase):
    def test_texts(self):
        for given, text in (
                ('"EPSG:4326"', "EPSG:4326"), ('{ "type": "GeographicCRS", "name":"\\u00e9", "x": [1.50, -0] , "name":"a" }', '{"type":"GeographicCRS","name":"é","x":[1.50,-0],"name":"a"}'), ("4326.0", "4326.0"), ("null", None), ('""', None)):
            (column,) = check([with_crs(given)])
            self.assertEqual(column.crs_text, text)
        self.assertEqual(Column("g", 0, "geometry", "wkb - -", crs={"a": "é"}).crs_text, '{"a":"é"}')
        self.assertIsNone(Column("g", 0, "plain", "utf8").crs_text)

    def test_pyproj(self):
        asked = []
        stand_in = types.ModuleType("pyproj")
        stand_in.CRS = types.SimpleNamespace(from_json=lambda text: asked.append(("json", text)), from_user_input=lambda text: asked.append(("text", text)))
        with mock.patch.dict(sys.modules, pyproj=stand_in):
            for crs in ('"EPSG:4326"', '{"type":"GeographicCRS","name":"a","scope":1.50}', "null"):
                check([with_crs(crs)])[0].to_pyproj()
            check(geo.wkb(crs="4326", crs_type="wkt2:2019"))[0].to_pyproj()
            with self.assertRaisesRegex(ValueError, "the CRS of column g is the number of a database: 4326"):
                check(geo.wkb(name="g", crs="4326", crs_type="srid"))[0].to_pyproj()
        self.assertEqual(asked, [("text", "EPSG:4326"), ("json", '{"type":"GeographicCRS","name":"a","scope":1.50}'), ("text", "4326")])


if __name__ == "__main__":
    unittest.main()
