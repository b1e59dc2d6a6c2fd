"""Columns of geometries as they are written: by the tables of docs/FORMAT.md, 1.3, 1.4 and 1.6, in plain Python, without the library.

A kind is told by its words in a report (2.5), as `point interleaved XY`. A field is here what one line of the program holds, as Python's `json` reads it.
"""
import json
from typing import Any, Dict, Iterator, List, Optional, Tuple

Field = Dict[str, Any]

DIMENSIONS = ("XY", "XYZ", "XYM", "XYZM")
SUFFIXES = ("", " Z", " M", " ZM")  # of the names of a union's members
COORD_TYPES = ("interleaved", "separated")
# The native kinds in the order of their type ids: the name of a member, and the list fields from the outermost.
NATIVE: Tuple[Tuple[str, Tuple[str, ...]], ...] = (
    ("Point", ()), ("LineString", ("vertices",)), ("Polygon", ("rings", "vertices")), ("MultiPoint", ("points",)), ("MultiLineString", ("linestrings", "vertices")),
    ("MultiPolygon", ("polygons", "rings", "vertices")), ("GeometryCollection", ("geometries",)))
BOUNDS = {
    "XY": "xmin ymin xmax ymax", "XYZ": "xmin ymin zmin xmax ymax zmax", "XYM": "xmin ymin mmin xmax ymax mmax",
    "XYZM": "xmin ymin zmin mmin xmax ymax zmax mmax"}
SERIALIZED = {
    "wkb": ("wkb", "binary"), "large_wkb": ("wkb", "large_binary"), "wkb_view": ("wkb", "binary_view"), "wkt": ("wkt", "utf8"), "large_wkt": ("wkt", "large_utf8"),
    "wkt_view": ("wkt", "utf8_view")}


def all_words() -> Iterator[str]:
    """The words of the 68 kinds."""
    for name, _ in NATIVE:
        yield from (f"{name.lower()} {coord_type} {dimension}" for coord_type in COORD_TYPES for dimension in DIMENSIONS)
    yield from (f"geometry {coord_type} -" for coord_type in COORD_TYPES)
    yield from (f"box separated {dimension}" for dimension in DIMENSIONS)
    yield from (f"{word} - -" for word in SERIALIZED)


def inner(name: str, kind: Any, nullable: bool = False) -> Field:
    return {"name": name, "nullable": nullable, "type": kind}


def coordinate(coord_type: str, dimension: str) -> Any:
    """The data type of a coordinate (1.3)."""
    if coord_type == "interleaved":
        return {"fixed_size_list": inner(dimension.lower(), "float64"), "size": len(dimension)}
    return {"struct": [inner(one, "float64") for one in dimension.lower()]}


def union(coord_type: str, dimensions: Tuple[str, ...], count: int) -> Any:
    """The data type of a union of so many kinds in each of these dimensions."""
    members: List[Any] = []
    for dimension in dimensions:
        order = DIMENSIONS.index(dimension)
        for number, (name, _) in enumerate(NATIVE[:count], 1):
            members.append([10 * order + number, inner(name + SUFFIXES[order], native(name, coord_type, dimension), True)])
    return {"mode": "dense", "union": members}


def native(name: str, coord_type: str, dimension: str) -> Any:
    """The data type of a native kind."""
    found = union(coord_type, (dimension,), 6) if name == "GeometryCollection" else coordinate(coord_type, dimension)
    for one in reversed(dict(NATIVE)[name]):
        found = {"list": inner(one, found)}
    return found


def data_type(words: str) -> Tuple[str, Any]:
    """The extension name and the data type of a kind."""
    kind, coord_type, dimension = words.split(" ")
    if kind in SERIALIZED:
        name, found = SERIALIZED[kind]
        return f"geoarrow.{name}", found
    if kind == "geometry":
        return "geoarrow.geometry", union(coord_type, DIMENSIONS, 7)
    if kind == "box":
        return "geoarrow.box", {"struct": [inner(bound, "float64") for bound in BOUNDS[dimension].split(" ")]}
    (name,) = (name for name, _ in NATIVE if name.lower() == kind)
    return f"geoarrow.{kind}", native(name, coord_type, dimension)


def metadata_text(crs: str, crs_type: str, edges: str) -> Optional[str]:
    """The text of the extension metadata (1.6), of a CRS that is a text of JSON without blanks, or is empty where there is none; so are the others."""
    if not crs and not edges:
        return None
    parts = [f'"crs":{crs or "null"}', *([f'"crs_type":"{crs_type}"'] if crs_type else []), *([f'"edges":"{edges}"'] if edges else [])]
    return "{" + ",".join(parts) + "}"


def column(name: str, words: str, nullable: bool, crs: str = "", crs_type: str = "", edges: str = "") -> Field:
    """The field of a column of a kind, with these values of its extension metadata."""
    extension, found = data_type(words)
    text = metadata_text(crs, crs_type, edges)
    metadata = {"ARROW:extension:name": extension, **({} if text is None else {"ARROW:extension:metadata": text})}
    return {"name": name, "nullable": nullable, "type": found, "metadata": metadata}


def line_of(field: Field) -> str:
    """The line of a field (2.1): compact JSON, the keys in the order of their bytes."""
    return json.dumps(field, ensure_ascii=False, sort_keys=True, separators=(",", ":"))
