"""Tests of files that GDAL reads: their CRS, geometry types, layers and virtual paths, and what is told without GDAL.

What is expected of real files is what `ogrinfo` says of them. These tests are skipped where GDAL is missing. Run by
interop/test, or alone by `python3 -m unittest interop.test_gdal`, at the top of the repository.
"""
import ctypes
import functools
import json
import re
import shutil
import subprocess
import unittest
import unittest.mock
import zipfile

from . import files, gdal_layers
from .gdal_layers import Geometry
from .testing import CHECK, TOP, InAFolder, line

POINTS = {
    "type": "FeatureCollection",
    "features": [
        {"type": "Feature", "properties": {"name": name, "people": people, "seen": seen},
         "geometry": {"type": "Point", "coordinates": [x, y]}}
        for name, people, seen, x, y in (
            ("Bern", 134000, "2024-05-01T10:00:00Z", 7.45, 46.95), ("Oslo", 709000, None, 10.75, 59.91))
    ],
}
TWO_GEOMETRIES = """<OGRVRTDataSource>
<OGRVRTLayer name="rows">
<SrcDataSource relativeToVRT="1">rows.csv</SrcDataSource>
<GeometryField name="at" encoding="WKT" field="a">
<GeometryType>wkbPoint25D</GeometryType><SRS>EPSG:4326</SRS>
</GeometryField>
<GeometryField name="way" encoding="WKT" field="b">
<GeometryType>wkbLineString</GeometryType><SRS>EPSG:2056</SRS>
</GeometryField>
</OGRVRTLayer>
</OGRVRTDataSource>
"""
# A program that says of each line which column it is of.
PROGRAM = """#!/bin/sh
sed -e 's/.*"name":"\\([^"]*\\)".*/\\1/'
"""
CODE = {"crs": "EPSG:4326", "crs_type": "authority_code"}


def why_no_gdal():
    try:
        gdal_layers.library()
    except gdal_layers.FileError as error:
        return str(error)
    return "" if shutil.which("ogr2ogr") and shutil.which("ogrinfo") else "ogr2ogr and ogrinfo are not there"


class Library:
    """A stand-in for GDAL's library, in which the last error is of a kind; its files have no layers."""

    def __init__(self, kind):
        self.called = []
        answers = {"GDALOpenEx": 1, "CPLGetLastErrorType": kind, "CPLGetLastErrorMsg": b"a fault\nand more"}
        for name in gdal_layers.CALLS:
            setattr(self, name, functools.partial(self.call, name, answers.get(name, 0)))
        self.CPLQuietErrorHandler = ctypes.CFUNCTYPE(None)(print)

    def call(self, name, answer, *_):
        self.called.append(name)
        return answer


class WithoutGdal(InAFolder):
    def test_library_that_is_missing(self):
        start = (
            "import sys; sys.path.insert(0, sys.argv.pop(1)); from interop import command, gdal_layers; "
            "gdal_layers.places = lambda: [PLACES]; sys.exit(command.main())")
        needed = "arrow_lines: a.gpkg: GDAL's library, 3.6 or later, is needed for such a file: "
        faults = {"": "there is none", "'/no/such.so'": ".*/no/such.so.*", "None": ".*GDALAllRegister.*"}
        for places, why in faults.items():
            status, text, told = self.ran(TOP, self.file("a.gpkg"), start=("-c", start.replace("PLACES", places)))
            self.assertEqual((status, text), (2, ""))
            self.assertRegex(told, f"\\A{needed}{why}\\n\\Z")

    def test_crs_that_the_stream_does_not_say(self):
        added = '"crs":"EPSG:4326","crs_type":"authority_code"'
        for name in ("ogc.wkb", "geoarrow.wkb", "geoarrow.point"):
            for before, after in (
                    (None, "{%s}" % added), ("", "{%s}" % added), ("{}", "{%s}" % added),
                    ('{"crs":null}', "{%s}" % added), ('{"edges":"spherical"}', '{%s,"edges":"spherical"}' % added)):
                with self.subTest(name=name, before=before):
                    texts = {"name": name} if before is None else {"name": name, "metadata": before}
                    column = json.loads(line("binary", "g", **texts))
                    columns, types = gdal_layers.with_geometries([column], [Geometry(CODE, "Point")])
                    wanted = line("binary", "g", name=name.replace("ogc", "geoarrow"), metadata=after)
                    self.assertEqual(columns, [json.loads(wanted)])
                    self.assertEqual(types, ["Point"])

    def test_columns_that_stay_as_they_are(self):
        said = ['{"crs":{"type":"GeographicCRS"},"edges":"planar"}', '{"crs":"OGC:CRS84"}', '{"crs":0}', "[]", "1", "{"]
        columns = [json.loads(line("binary", text, name="geoarrow.wkb", metadata=text)) for text in said]
        columns += [json.loads(line("binary", "none")), json.loads(line("utf8", "other", name="arrow.json"))]
        geometries = [Geometry(CODE, None)] * len(said)
        self.assertEqual(gdal_layers.with_geometries(columns, geometries), (columns, [None] * len(columns)))
        without = [json.loads(line("binary", "g", name="ogc.wkb"))]
        named = [json.loads(line("binary", "g", name="geoarrow.wkb"))]
        self.assertEqual(gdal_layers.with_geometries(without, [Geometry({}, "Point")]), (named, ["Point"]))
        self.assertEqual(gdal_layers.with_geometries(without, []), (named, [None]))
        two = [Geometry(CODE, "Point")] * 2
        self.assertEqual(gdal_layers.with_geometries(without, two), (named, [None]))

    def test_fault_with_which_gdal_goes_on(self):
        for kind, refused in ((2, False), (3, True), (4, True)):
            with self.subTest(kind):
                gdal = Library(kind)
                with unittest.mock.patch.object(gdal_layers, "library", lambda: gdal):
                    with self.assertRaisesRegex(gdal_layers.FileError, "a fault" if refused else "no layers"):
                        gdal_layers.layers_and_names("a.gml")
                self.assertEqual(gdal.called[-2:], ["GDALClose", "CPLPopErrorHandler"])

    def test_only_virtual_paths_may_name_nothing_here(self):
        for name in ("missing.gpkg", "PG:host=nowhere", "./vsizip/missing.zip"):
            self.assertEqual(self.ran(name), (2, "", f"arrow_lines: {name}: No such file or directory\n"))


@unittest.skipIf(why_no_gdal(), why_no_gdal())
class InAFolderWithGdal(InAFolder):
    def setUp(self):
        super().setUp()
        self.file("places.geojson", json.dumps(POINTS))

    def made(self, name, *words):
        """A file that ogr2ogr makes of the two points."""
        subprocess.run(
            ["ogr2ogr", *words, name, "places.geojson"], cwd=self.folder, check=True, stdout=subprocess.DEVNULL,
            stderr=subprocess.DEVNULL)
        return name

    def two_layers(self):
        """A GeoPackage with two layers, of two geometry types and with two CRSs."""
        self.made("two.gpkg", "-nln", "first")
        return self.made(
            "two.gpkg", "-update", "-nln", "second é", "-select", "people", "-t_srs", "EPSG:2056", "-nlt", "POINTZ")

    def by_ogrinfo(self, name, layer):
        """What ogrinfo says of a layer: a geometry type, and the text of a CRS without blanks, for each geometry."""
        text = subprocess.run(
            ["ogrinfo", "-so", "-nomd", name, layer], cwd=self.folder, check=True, stdout=subprocess.PIPE,
            stderr=subprocess.DEVNULL).stdout.decode()
        types = re.findall(r"^Geometry(?: \(.*\))?: (.*)$", text, re.MULTILINE)
        texts = re.findall(r"SRS WKT(?: \(.*\))?:\n(.*\n(?:[ \t].*\n)*)", text)
        return [None if one == "Unknown (any)" else one for one in types], ["".join(one.split()) for one in texts]

    def code_by_ogrinfo(self, name, layer):
        """The authority and the code with which ogrinfo's text of the only CRS ends."""
        (text,) = self.by_ogrinfo(name, layer)[1]
        return ":".join(re.search(r'ID\["(\w+)",(\w+)\]\]$', text).groups())

    def columns(self, *words, told=""):
        status, text, found = self.ran(*words)
        self.assertEqual((status, found), (0, told))
        return {column["name"]: column for column in map(json.loads, text.splitlines())}


def crs_of(column):
    """The CRS and its type, of the metadata of a column. A later GDAL than 3.6 may say it itself, as PROJJSON."""
    said = json.loads(column["metadata"].get("ARROW:extension:metadata", "{}"))
    if isinstance(said.get("crs"), dict):
        raise unittest.SkipTest("this GDAL says the CRS itself, as PROJJSON")
    return said.get("crs"), said.get("crs_type")


class Files(InAFolderWithGdal):
    def test_kinds_of_file(self):
        for name in ("places.gpkg", "places.fgb", "places.shp", "places.geojson"):
            with self.subTest(name):
                columns = self.columns(name if name == "places.geojson" else self.made(name))
                (geometry,) = [one for one in columns.values() if "metadata" in one]
                self.assertEqual((columns["name"]["type"], geometry["type"]), ("utf8", "binary"))
                self.assertEqual(geometry["metadata"]["ARROW:extension:name"], "geoarrow.wkb")
                self.assertIn("crs", json.loads(geometry["metadata"]["ARROW:extension:metadata"]))

    def test_geopackage(self):
        columns = self.columns(self.made("places.gpkg"))
        self.assertEqual(list(columns), ["fid", "name", "people", "seen", "geom"])
        self.assertEqual([one["type"] for one in columns.values()][:3], ["int64", "utf8", "int32"])
        self.assertTrue(columns["seen"]["type"]["other"].startswith("timestamp[ms"))

    def test_files_that_cannot_be_read(self):
        self.file("text.gpkg", "no GeoPackage")
        self.file("empty.shp")
        for name in ("text.gpkg", "empty.shp", ".", "missing.gpkg"):
            with self.subTest(name):
                status, text, told = self.ran(name)
                self.assertEqual((status, text, told.count("\n")), (2, "", 1))
                self.assertTrue(told.startswith(f"arrow_lines: {name}: "))

    def test_cut_files(self):
        whole = (self.folder / self.made("places.gml")).read_bytes()
        for size in (0, 50, len(whole) // 2, len(whole) - 20):
            with self.subTest(size):
                (self.folder / "cut.gml").write_bytes(whole[:size])
                for file, given in (("cut.gml", None), ("/vsistdin/", whole[:size])):
                    status, text, told = self.ran(file, given=given)
                    self.assertEqual((status, text, told.count("\n")), (2, "", 1))
        self.assertEqual(self.columns("places.gml")["people"]["type"], "int32")
        self.file("rows.vrt", TWO_GEOMETRIES)  # whose rows.csv is missing, which GDAL learns later
        status, text, told = self.ran("rows.vrt")
        self.assertEqual((status, text, told.count("\n")), (2, "", 1))

    def test_virtual_paths(self):
        with zipfile.ZipFile(self.folder / "z.zip", "w") as archive:
            archive.write(self.folder / self.two_layers(), "in/two.gpkg")
        columns = self.columns("/vsizip/z.zip/in/two.gpkg", "--layer", "second é")
        self.assertEqual(list(columns), ["fid", "people", "geom"])
        given = (self.folder / "places.geojson").read_bytes()
        status, text, told = self.ran("/vsistdin/", given=given)
        self.assertEqual((status, text, told), self.ran("places.geojson"))
        for name in ("/vsizip/z.zip/missing.gpkg", "/vsizip/missing.zip", "/vsinothing/a", "/vsistdin/"):
            with self.subTest(name):
                status, text, told = self.ran(name)
                self.assertEqual((status, text, told.count("\n")), (2, "", 1))
                self.assertTrue(told.startswith(f"arrow_lines: {name}: "))


class Layers(InAFolderWithGdal):
    def test_one_layer(self):
        file = self.two_layers()
        told = (
            "arrow_lines: two.gpkg: its first layer of 2 (first, second é); "
            "--layer NAME takes another, --all-layers all\n")
        self.assertIn("seen", self.columns(file, told=told))
        self.assertEqual(list(self.columns(file, "--layer", "second é")), ["fid", "people", "geom"])
        self.assertEqual(list(self.columns(file, "--layer", "first"))[1], "name")
        self.assertEqual(
            self.ran(file, "--layer", "third"),
            (2, "", "arrow_lines: two.gpkg: it has no layer third, but first, second é\n"))

    def test_all_layers(self):
        file = self.two_layers()
        first, second = (self.ran(file, "--layer", name)[1] for name in ("first", "second é"))
        told = (
            "arrow_lines: two.gpkg: 5 lines of the layer first\n"
            "arrow_lines: two.gpkg: 3 lines of the layer second é\n")
        self.assertEqual(self.ran(file, "--all-layers"), (0, first + second, told))
        self.assertEqual(self.ran(self.made("one.gpkg"), "--all-layers")[::2], (0, ""))

    def test_fault_in_one_of_all_layers(self):
        (self.folder / "tables").mkdir()
        self.file("tables/first.csv", "a,b", "1,2")
        self.file("tables/second.csv", "a," + "b" * 1_100_000, "1,2")
        self.assertEqual(list(self.columns("tables", "--layer", "first"))[-2:], ["a", "b"])
        status, text, told = self.ran("tables", "--all-layers")
        self.assertEqual((status, text), (2, ""))
        self.assertRegex(told, r"\Aarrow_lines: tables: layer second: column \d \(b+\.\.\): a line of 11\d+ bytes")


class Geometries(InAFolderWithGdal):
    def test_two_layers(self):
        layers, names = files.layers_of_file(str(self.folder / self.two_layers()), every=True)
        self.assertEqual(([layer.name for layer in layers], names), (["first", "second é"], ["first", "second é"]))
        for layer in layers:
            with self.subTest(layer.name):
                column = json.loads(layer.lines[-1])
                self.assertEqual(layer.geometry_types[:-1], [None] * (len(layer.lines) - 1))
                self.assertEqual([layer.geometry_types[-1]], self.by_ogrinfo("two.gpkg", layer.name)[0])
                self.assertEqual(crs_of(column), (self.code_by_ogrinfo("two.gpkg", layer.name), "authority_code"))

    def test_geometry_types(self):
        for kind in ("POINTZM", "LINESTRINGM", "MULTIPOLYGONZ", "GEOMETRYCOLLECTION", "CURVEPOLYGON", "GEOMETRY"):
            with self.subTest(kind):
                file = self.made(f"{kind}.gpkg", "-nlt", kind, "-nln", "layer", "-where", "name = ''")
                ((layer,), _) = files.layers_of_file(str(self.folder / file))
                self.assertEqual([layer.geometry_types[-1]], self.by_ogrinfo(file, "layer")[0])

    def test_crs_without_a_code(self):
        file = self.made("own.gpkg", "-t_srs", "+proj=laea +lat_0=46.5 +lon_0=7 +datum=WGS84", "-nln", "layer")
        crs, kind = crs_of(self.columns(file)["geom"])
        self.assertEqual((["".join(crs.split())], kind), (self.by_ogrinfo(file, "layer")[1], "wkt2:2019"))

    def test_no_crs(self):
        file = self.made("places.shp")
        (self.folder / "places.prj").unlink()
        self.assertEqual(crs_of(self.columns(file)["wkb_geometry"]), (None, None))
        self.assertEqual(self.by_ogrinfo(file, "places")[1], ["(unknown)"])

    def test_two_geometries_of_one_layer(self):
        self.file("rows.csv", "a,b", '"POINT Z (1 2 3)","LINESTRING (1 2,3 4)"')
        self.file("rows.vrt", TWO_GEOMETRIES)
        ((layer,), _) = files.layers_of_file(str(self.folder / "rows.vrt"))
        found = [(json.loads(one), kind) for one, kind in zip(layer.lines, layer.geometry_types) if kind is not None]
        self.assertEqual([column["name"] for column, _ in found], ["at", "way"])
        types, texts = self.by_ogrinfo("rows.vrt", "rows")
        self.assertEqual([kind for _, kind in found], types)
        for (column, _), text in zip(found, texts):
            authority, code = crs_of(column)[0].split(":")
            self.assertTrue(text.endswith(f'ID["{authority}",{code}]]'), text)


class Check(InAFolderWithGdal):
    def test_table_of_all_layers(self):
        file, program = self.two_layers(), self.folder / "program"
        program.write_text(PROGRAM)
        program.chmod(0o755)
        self.assertEqual(self.ran("--check", "--all-layers", "--program", program, file), (0, (
            "layer first\nfid\nname\npeople\nseen\ngeom\n"
            "\n"
            "layer second é\nfid\npeople\ngeom\n"), ""))

    @unittest.skipUnless(CHECK.is_file(), "the program is not built")
    def test_real_program(self):
        status, text, told = self.ran("--check", "--json", "--program", CHECK, self.made("places.gpkg"))
        *found, behind = [json.loads(one) for one in text.splitlines()]
        self.assertEqual((status, told, behind["columns"]), (0, "", 5))
        self.assertEqual([one["state"] for one in found], ["plain", "plain", "plain", "plain", "geometry"])
        self.assertTrue(found[3]["type"].startswith("timestamp[ms"))
