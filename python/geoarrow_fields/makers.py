"""Columns of geometries that are made, and schemas of columns.

What is made is what the library says: the data type and the extension metadata that GeoArrow writes (docs/FORMAT.md, 2.11).
"""
import dataclasses
import json
from typing import Any, Dict, Iterable, List, Optional, Sequence, Tuple

from . import capsules, library, objects
from .refusals import SchemaError
from .schema_lines import Schema, lines

DIMENSIONS = ("XY", "XYZ", "XYM", "XYZM")
CRS_TYPES = ("projjson", "wkt2:2019", "authority_code", "srid")
EDGES = ("planar", "andoyer", "karney", "spherical", "thomas", "vincenty")
_WKB: Dict[str, str] = {"binary": "wkb", "large_binary": "large_wkb", "binary_view": "wkb_view"}
_WKT: Dict[str, str] = {"utf8": "wkt", "large_utf8": "large_wkt", "utf8_view": "wkt_view"}

_Words = Tuple[str, bytes, str, str]  # of the kind, the CRS, its type and the edges


@dataclasses.dataclass(frozen=True)
class Field:
    """A column of geometries that one of the calls below has made: its name, whether values may be null, and its line, which has all of it (docs/FORMAT.md, 2.7). Two
    are equal where their lines are. Any library that imports Arrow's C data interface takes it as a field."""

    name: str
    nullable: bool
    line: str
    _words: _Words = dataclasses.field(repr=False, compare=False)

    def with_name(self, name: str) -> "Field":
        """The same column under another name."""
        return _field(name, self.nullable, self._words)

    def __arrow_c_schema__(self) -> Any:
        """A capsule with the structure of the field, which is the taker's to consume."""
        return capsules.export_column(self.line.encode())


def point(
        dimension: str = "XY", *, interleaved: bool = False, name: str = "", nullable: bool = True, crs: Any = None, crs_type: Optional[str] = None,
        edges: Optional[str] = None) -> Field:
    """A column of points, `geoarrow.point`, of the dimension XY, XYZ, XYM or XYZM, whose coordinates are structs, or lists where they are `interleaved`.

    `crs` is a text, as EPSG:4326 or WKT, the text of a PROJJSON, which begins with `{`, or an object whose `to_json()` gives one, as a CRS of pyproj: what it gives is
    taken as it is, but for blanks. `crs_type` is projjson, wkt2:2019, authority_code or srid; without it, it is the one that the form of the CRS tells, if one is. `edges`
    are andoyer, karney, spherical, thomas or vincenty, or planar without them. All calls below take these.

    Raises `ValueError` where a word is none of these, or a text is not Unicode; `SchemaError`, which is one too, where a text that begins with `{` is no PROJJSON, where there
    is a CRS type without a CRS, and where the name has a character 0; `TypeError` where the CRS is neither a text nor gives one; and `MemoryError`.
    """
    return _native("point", dimension, interleaved, name, nullable, crs, crs_type, edges)


def linestring(
        dimension: str = "XY", *, interleaved: bool = False, name: str = "", nullable: bool = True, crs: Any = None, crs_type: Optional[str] = None,
        edges: Optional[str] = None) -> Field:
    """A column of line strings, `geoarrow.linestring`, as `point`."""
    return _native("linestring", dimension, interleaved, name, nullable, crs, crs_type, edges)


def polygon(
        dimension: str = "XY", *, interleaved: bool = False, name: str = "", nullable: bool = True, crs: Any = None, crs_type: Optional[str] = None,
        edges: Optional[str] = None) -> Field:
    """A column of polygons, `geoarrow.polygon`, as `point`."""
    return _native("polygon", dimension, interleaved, name, nullable, crs, crs_type, edges)


def multipoint(
        dimension: str = "XY", *, interleaved: bool = False, name: str = "", nullable: bool = True, crs: Any = None, crs_type: Optional[str] = None,
        edges: Optional[str] = None) -> Field:
    """A column of multipoints, `geoarrow.multipoint`, as `point`."""
    return _native("multipoint", dimension, interleaved, name, nullable, crs, crs_type, edges)


def multilinestring(
        dimension: str = "XY", *, interleaved: bool = False, name: str = "", nullable: bool = True, crs: Any = None, crs_type: Optional[str] = None,
        edges: Optional[str] = None) -> Field:
    """A column of multilinestrings, `geoarrow.multilinestring`, as `point`."""
    return _native("multilinestring", dimension, interleaved, name, nullable, crs, crs_type, edges)


def multipolygon(
        dimension: str = "XY", *, interleaved: bool = False, name: str = "", nullable: bool = True, crs: Any = None, crs_type: Optional[str] = None,
        edges: Optional[str] = None) -> Field:
    """A column of multipolygons, `geoarrow.multipolygon`, as `point`."""
    return _native("multipolygon", dimension, interleaved, name, nullable, crs, crs_type, edges)


def geometrycollection(
        dimension: str = "XY", *, interleaved: bool = False, name: str = "", nullable: bool = True, crs: Any = None, crs_type: Optional[str] = None,
        edges: Optional[str] = None) -> Field:
    """A column of collections of geometries, `geoarrow.geometrycollection`, as `point`."""
    return _native("geometrycollection", dimension, interleaved, name, nullable, crs, crs_type, edges)


def geometry(
        *, interleaved: bool = False, name: str = "", nullable: bool = True, crs: Any = None, crs_type: Optional[str] = None,
        edges: Optional[str] = None) -> Field:
    """A column of geometries of any kind and dimension, `geoarrow.geometry`, as `point`."""
    return _made(f"geometry {_coord_type(interleaved)} -", name, nullable, crs, crs_type, edges)


def box(
        dimension: str = "XY", *, name: str = "", nullable: bool = True, crs: Any = None, crs_type: Optional[str] = None,
        edges: Optional[str] = None) -> Field:
    """A column of boxes, `geoarrow.box`, as `point`."""
    return _made(f"box separated {_one_of(dimension, DIMENSIONS, 'dimension')}", name, nullable, crs, crs_type, edges)


def wkb(
        storage: str = "binary", *, name: str = "", nullable: bool = True, crs: Any = None, crs_type: Optional[str] = None,
        edges: Optional[str] = None) -> Field:
    """A column of well-known binary, `geoarrow.wkb`, in the type binary, large_binary or binary_view, as `point`."""
    return _made(f"{_WKB[_one_of(storage, tuple(_WKB), 'storage')]} - -", name, nullable, crs, crs_type, edges)


def wkt(
        storage: str = "utf8", *, name: str = "", nullable: bool = True, crs: Any = None, crs_type: Optional[str] = None,
        edges: Optional[str] = None) -> Field:
    """A column of well-known text, `geoarrow.wkt`, in the type utf8, large_utf8 or utf8_view, as `point`."""
    return _made(f"{_WKT[_one_of(storage, tuple(_WKT), 'storage')]} - -", name, nullable, crs, crs_type, edges)


def schema(columns: Iterable[Any]) -> Schema:
    """The schema of these columns, in order. Each is a `Field`; an object that gives an Arrow schema, whose columns are those of `lines`, as a field of pyarrow; or a pair of a
    name and such an object, which is one column of that name, as a data type of pyarrow.

    Raises `TypeError` where one is none of these, and `SchemaError` where what it gives is wrong.
    """
    return Schema([line for column in columns for line in _lines_of(column)])


def _lines_of(column: Any) -> List[str]:
    """The lines of what is given as a column."""
    if isinstance(column, Field):
        return [column.line]
    if not isinstance(column, tuple):
        return lines(column)
    if len(column) != 2 or not isinstance(column[0], str):
        raise TypeError("a column is a field, or a pair of a name and one")
    name, given = column
    return [given.with_name(name).line if isinstance(given, Field) else _named(name, given)]


def _named(name: str, given: Any) -> str:
    """The line of the one column that an object gives, under another name."""
    status, text = objects.read(given, lambda at, may_have_name: library.line_of_structure(at))
    if status == library.REFUSED:
        raise SchemaError(text.rstrip("\n"))
    return json.dumps({**json.loads(text), "name": name}, ensure_ascii=False)


def _native(
        kind: str, dimension: str, interleaved: bool, name: str, nullable: bool, crs: Any, crs_type: Optional[str], edges: Optional[str]) -> Field:
    words = f"{kind} {_coord_type(interleaved)} {_one_of(dimension, DIMENSIONS, 'dimension')}"
    return _made(words, name, nullable, crs, crs_type, edges)


def _coord_type(interleaved: bool) -> str:
    return "interleaved" if interleaved else "separated"


def _made(kind: str, name: str, nullable: bool, crs: Any, crs_type: Optional[str], edges: Optional[str]) -> Field:
    of_crs = "" if crs_type is None else _one_of(crs_type, CRS_TYPES, "CRS type")
    of_edges = "" if edges is None else _one_of(edges, EDGES, "edges")
    return _field(name, bool(nullable), (kind, _text_of(crs).encode(), of_crs, of_edges))


def _text_of(crs: Any) -> str:
    """The text of a CRS; an empty one where there is none."""
    if crs is None or isinstance(crs, str):
        return crs or ""
    text = crs.to_json() if hasattr(crs, "to_json") else None
    if not isinstance(text, str):
        raise TypeError(f"a CRS is a text, or an object whose to_json() gives one, not {capsules.shown(type(crs).__name__)}")
    return text


def _one_of(given: Any, words: Sequence[str], what: str) -> str:
    if not isinstance(given, str) or given not in words:
        raise ValueError(f"{what} {capsules.shown(repr(given))}: expected {', '.join(words[:-1])} or {words[-1]}")
    return given


def _field(name: str, nullable: bool, words: _Words) -> Field:
    """The column that the library makes of these words. Its structure is made to be tried, and dropped."""
    kind, crs, crs_type, edges = words
    status, text = library.make(name.encode(), kind, nullable, crs, crs_type, edges)
    line = text.rstrip("\n")
    if status == library.REFUSED:
        raise SchemaError(line)
    capsules.export(line.encode())
    return Field(name, nullable, line, words)
