"""Tests with the real geopandas: the lines of files that it writes, beside what it says of their frames. They are skipped where it or GDAL is missing.

Run by interop/test, or alone by `python3 -m unittest interop.test_geopandas`, at the top of the repository.
"""
import json
import unittest

from . import files
from .test_gdal import crs_of, why_no_gdal
from .testing import InAFolder

try:
    import geopandas
    from shapely import geometry
except ImportError as error:
    WHY_NOT = f"geopandas is not there: {error}"
else:
    WHY_NOT = why_no_gdal()

TYPES = {"int64": "int64", "float64": "float64", "bool": "boolean", "object": "utf8"}  # of the lines, by those of pandas
LAYERS = {
    "Point": ([(7.45, 46.95), (10.75, 59.91)], "EPSG:4326"), "3D Point": ([(1, 2, 3)], "EPSG:2056"),
    "Line String": ([[(0, 0), (1, 1)]], "EPSG:3857"), "Polygon": ([[(0, 0), (1, 0), (1, 1)]], None),
}


@unittest.skipIf(WHY_NOT, WHY_NOT)
class RealGeopandas(InAFolder):
    def frame(self, kind, given, crs):
        """A frame with a column of each type, and one of these geometries."""
        make = getattr(geometry, kind.replace("3D ", "").replace(" ", ""))
        return geopandas.GeoDataFrame({"name": ["é"] * len(given), "id": 1, "area": 0.5, "known": True}, geometry=list(map(make, given)), crs=crs)

    def test_files(self):
        for ending, driver in (("gpkg", "GPKG"), ("fgb", "FlatGeobuf")):
            for kind, (given, crs) in LAYERS.items():
                with self.subTest(driver=driver, kind=kind):
                    frame = self.frame(kind, given, crs)
                    path = str(self.folder / f"{kind}.{ending}")
                    frame.to_file(path, driver=driver)
                    ((layer,), _) = files.layers_of_file(path)
                    first, *columns, last = map(json.loads, layer.lines)
                    self.assertIn(first["name"], ("fid", "OGC_FID"))
                    wanted = {name: TYPES[str(frame[name].dtype)] for name in frame.columns if name != "geometry"}
                    self.assertEqual({column["name"]: column["type"] for column in columns}, wanted)
                    self.assertEqual((last["type"], last["metadata"]["ARROW:extension:name"]), ("binary", "geoarrow.wkb"))
                    if crs or driver != "GPKG":  # (a GeoPackage says an undefined CRS where there is none)
                        self.assertEqual(crs_of(last)[0], frame.crs and ":".join(frame.crs.to_authority()))
                    self.assertEqual(layer.geometry_types[-1], kind)
