"""What the tests share: where things are, lines of columns, what is said of a file, and the command."""
import contextlib
import io
import json
import pathlib

from geoarrow_fields import Finding
from geoarrow_fields.__main__ import main

TOP = pathlib.Path(__file__).resolve().parent.parent.parent
DATA = TOP / "crates/geoarrow_check/data"

POINT = '{"metadata":{"ARROW:extension:name":"geoarrow.point"},"name":"p","nullable":true,"type":{"fixed_size_list":{"name":"xy","nullable":true,"type":"float64"},"size":2}}'
CANON = '{"metadata":{"ARROW:extension:name":"geoarrow.point"},"name":"p","nullable":true,"type":{"fixed_size_list":{"name":"xy","nullable":false,"type":"float64"},"size":2}}'
TEXT = '{"name":"t","nullable":true,"type":"utf8"}'
WKT = '{"name":"wkt","nullable":true,"type":"utf8"}'
OTHER = '{"name":"at","nullable":true,"type":{"other":"timestamp[ms, tz=UTC]"}}'
BROKEN = '{"metadata":{"ARROW:extension:metadata":"{\\"edges\\":1}","ARROW:extension:name":"geoarrow.linestring"},"name":"b","nullable":true,"type":{"list":{"name":"v","nullable":true,"type":{"struct":[]}}}}'
CRS = '{"metadata":{"ARROW:extension:metadata":"{\\"crs\\":{\\"type\\":\\"GeographicCRS\\",\\"name\\":\\"WGS 84\\",\\"id\\":{\\"authority\\":\\"OGC\\",\\"code\\":\\"CRS84\\"},\\"scope\\":1.50},\\"crs_type\\":\\"projjson\\",\\"edges\\":\\"spherical\\"}","ARROW:extension:name":"geoarrow.wkb"},"name":"g","nullable":true,"type":"binary"}'

# Why BROKEN is invalid, in words (docs/FORMAT.md, 2.6).
BROKEN_FOUND = (
    "error[BadFieldCount] at v, field: found struct<>; expected list<coordinates>. The number of the fields is that of no dimension.",
    "error[UnknownEdges] extension metadata /edges: found 1; expected andoyer, karney, spherical, thomas or vincenty. Leave it out where edges are planar.")
# What is noted of CRS, in words (docs/FORMAT.md, 2.6).
NOT_WHOLE = "note[CrsNotWhole] extension metadata /crs/scope: found 1.50; expected whole numbers. For this alone read and canon of geoarrow_fields refuse the field; other readers do not."
# Why sources are refused, and a line is none, in words (docs/FORMAT.md, 2.8).
READ = "an Arrow file, an Arrow stream, a Parquet file or lines of fields"
IS_EMPTY = f"error[EmptyFile] byte 0: found 0 bytes, or blanks alone; expected {READ}. The writing or the copy broke off before its first byte"
IS_TEXT = f"error[ForeignFormat]: found text; expected {READ}. Lines have one JSON object each"
NO_NAME = 'error[BadLine] line 1: found no string at "name"; expected a string at "name"'
NO_GEO_METADATA = Finding("warning", "NoGeoMetadata", source="file", expected="metadata of GeoParquet at the key geo")
# What is found in the columns of geo.parquet, in words (docs/FORMAT.md, 5.1).
TYPES = "Point, LineString, Polygon, MultiPoint, MultiLineString, MultiPolygon or GeometryCollection"
FOUND = [
    f'error[GeoTypes] geo /columns/geom/geometry_types/1: found "Dot"; expected {TYPES}, alone or with " Z", each at most once',
    "error[GeoBboxOrder] geo /columns/geom/bbox/1: found ymin 3, ymax 2; expected at most the greatest bound (2)",
    'warning[GeoColumnUndeclared] geo /columns: found "place"; expected a member for the column. Readers of GeoParquet do not see the column.',
    'warning[GeoColumnUndeclared] geo /columns: found "region"; expected a member for the column. Readers of GeoParquet do not see the column.']


def said_of(finding, is_line=False):
    """The object of a finding, made of what it says: its keys in their order, those that are absent left out (docs/FORMAT.md, 5.1). One that is a line has its
    kind."""
    members = {
        "kind": "finding" if is_line else None, "severity": finding.severity, "code": finding.code, "index": finding.index, "column": finding.column,
        "path": list(finding.path) or None, "in": finding.source, "pointer": finding.pointer, "byte": finding.byte, "line": finding.line,
        "found": finding.found, "expected": finding.expected, "help": finding.help, "more": finding.more or None}
    return json.dumps({key: value for key, value in members.items() if value is not None}, ensure_ascii=False, separators=(",", ":"))


def with_crs(crs):
    """The line of a column of well-known binary with this text as its CRS."""
    text = ('{"crs":%s}' % crs).replace("\\", "\\\\").replace('"', '\\"')
    return '{"metadata":{"ARROW:extension:metadata":"%s","ARROW:extension:name":"geoarrow.wkb"},"name":"g","nullable":true,"type":"binary"}' % text


def printed(words):
    """What the command prints on both outputs, and its status."""
    out, err = io.StringIO(), io.StringIO()
    with contextlib.redirect_stdout(out), contextlib.redirect_stderr(err):
        status = main(words)
    return out.getvalue(), err.getvalue(), status
