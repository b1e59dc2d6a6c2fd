"""What is found in the metadata of GeoParquet, by the tables of docs/FORMAT.md, 5, in plain Python.

    python3 -m interop.geo_findings [FILE ..]

A model of its own, which shares no code with the crates: `findings` says the version by which
metadata are judged, and what is found in them beside the columns of a file and what the elements
of a Parquet file say of these. The command answers the rows of `check_geo`, `check_missing` and
`check_unasked` in crates/file_rows/data/geo, or in the files that are named, and prints each whose
answer is another; the last line is `N rows, M differ`, and the status is 1 where M is not 0.
"""
import collections
import itertools
import json
import pathlib
import re
import sys

from . import geo_crs, geo_layouts
from .finding_words import shown, shown_bytes
from .geo_json import ABSENT, Members, NotJson, Number, at, read, text_of

ROWS = pathlib.Path(__file__).resolve().parent.parent / "crates/file_rows/data/geo"
NAME, METADATA = "ARROW:extension:name", "ARROW:extension:metadata"
# The rule, the key of `columns`, a JSON pointer, what stands at that place, and what is wanted; and
# the source that it is found in.
GEO, ELEMENT, FIELD = "geo", "element", "field"
Finding = collections.namedtuple("Finding", "code column pointer found wanted more source", defaults=(0, GEO))
MOST = 16  # (findings of one code in a column that are told one by one)

# What a file has at `geo` where it has no value: nothing is missing, or it is a Parquet file.
UNASKED, MISSING = (type(name, (), {})() for name in ("Unasked", "Missing"))
# How the edges of an element are said: by itself, by default, as those of a GEOGRAPHY without an
# algorithm, or not at all, by an algorithm that is not known.
SAID, DEFAULT, BROKEN = "said", "by default", "not known"
# What the element of a column says beside it: nothing; all that the column has, where it may name a
# CRS or not; or extension metadata, beside those of a column that has an extension name of its own;
# how its edges are said; and its layout. A column of no Parquet file has none.
Silent = collections.namedtuple("Silent", "layout", defaults=(geo_layouts.BYTES,))
Given = collections.namedtuple("Given", "names_crs edges layout", defaults=(SAID, geo_layouts.BYTES))
Beside = collections.namedtuple("Beside", "metadata edges layout", defaults=(SAID, geo_layouts.BYTES))
SILENT, NO_ELEMENT = Silent(), None
# What a source says of a column: an encoding, a CRS, edges; each None where it says none; and whether
# the edges are the format's default, which nobody wrote.
Claims = collections.namedtuple("Claims", "encoding crs edges edges_are_default")

CODES = (
    "NoGeoMetadata",
    "GeoNotJson", "GeoNotObject", "RepeatedKey", "GeoVersion", "GeoOldVersion", "GeoNewVersion",
    "GeoColumns", "GeoColumnMissing", "GeoColumnRepeated", "GeoMember", "GeoColumnUndeclared", "GeoPrimaryColumn",
    "GeoEncoding", "GeoLayout", "GeoTypes", "GeoTypesVersion", "TypesContradict", "GeoCrs",
    "CrsMalformed", "GeoEdges", "GeoOrientation", "GeoEpoch", "GeoBbox", "GeoBboxOrder",
    "GeoBboxRange", "GeoBboxDimension", "GeoCovering", "GeoCoveringName", "GeoCoveringColumn",
    "GeoCoveringType", "GeoCoveringShape", "GeoCoveringAbsent", "EncodingContradicts",
    "CrsContradicts", "CrsNotCompared", "EdgesContradict", "EdgesOnProjected")
KINDS = ("Point", "LineString", "Polygon", "MultiPoint", "MultiLineString", "MultiPolygon",
         "GeometryCollection")
SUFFIXES = ("", " Z", " M", " ZM")
# The encodings that are native: the lists around a coordinate, and the kinds of the geometry types.
NATIVE = {
    "point": (0, ("Point",)),
    "linestring": (1, ("LineString",)),
    "polygon": (2, ("Polygon",)),
    "multipoint": (1, ("MultiPoint", "Point")),
    "multilinestring": (2, ("MultiLineString", "LineString")),
    "multipolygon": (3, ("MultiPolygon", "Polygon")),
}
# What each version has. Of old ones only some rules are judged.
Version = collections.namedtuple("Version", "name encodings suffixes edges sizes")
ALL = ("WKB", *NATIVE)
PLANAR = ("planar", "spherical")
OLD = Version("Old", ("WKB",), SUFFIXES, PLANAR, ())
V1_0 = Version("V1_0", ("WKB",), SUFFIXES[:2], PLANAR, (4, 6))
V1_1 = Version("V1_1", ALL, SUFFIXES[:2], PLANAR, (4, 6))
V2 = Version("V2", ALL, SUFFIXES, (*PLANAR, "vincenty", "thomas", "andoyer", "karney"), (4, 6, 8))
# Texts of versions, the first row that fits: the version, and the code that is said of it.
VERSIONS = (
    (r"1\.0\.0", V1_0, None),
    (r"1\.1\.0", V1_1, None),
    (r"1\.0\.0[-+].*", V1_0, "GeoNewVersion"),
    (r"1\.\d{1,3}\.\d{1,3}([-+].*)?", V1_1, "GeoNewVersion"),
    (r"0\.\d{1,3}\.\d{1,3}(\D.*)?", OLD, "GeoOldVersion"),
    (r"([2-9]|[1-9]\d{1,2})\.\d{1,3}\.\d{1,3}(\D.*)?", V2, "GeoNewVersion"),
    (r".*", V1_1, "GeoVersion"),
)
# The bounds of a covering, and those of boxes of four, six and eight numbers.
FLAT, HIGH = ("xmin", "ymin", "xmax", "ymax"), ("xmin", "ymin", "xmax", "ymax", "zmin", "zmax")
AXES = {4: "xy", 6: "xyz", 8: "xyzm"}
LIMITS = {"x": 180, "y": 90}


class Judged:
    """Metadata while they are judged: their value, the columns of the file, what their elements say
    beside them, and what is found."""

    def __init__(self, value, columns, elements):
        self.value, self.columns, self.found = value, columns, []
        self.elements = [*elements, *[NO_ELEMENT] * (len(columns) - len(elements))]

    def column(self, name):
        """The first column of a name and its element, if there is one."""
        pairs = zip(self.columns, self.elements)
        return next((pair for pair in pairs if pair[0]["name"] == name), (None, NO_ELEMENT))

    def add(self, code, column, path, wanted=None, name=None, words=None):
        there = at(self.value, *path) if name is None else name
        found = None if there is ABSENT else shown(text_of(there))
        found = found if words is None else shown(words)
        self.found.append(Finding(code, column, pointer_to(path), found, wanted))


class Member:
    """A member of `columns` while it is judged, with the first column of its name, if there is."""

    def __init__(self, judged, version, key, value):
        self.judged, self.version, self.key, self.value = judged, version, key, value
        self.column, self.element = judged.column(key)
        self.codes = set()

    def add(self, code, *path, wanted=None, name=None, words=None):
        self.codes.add(code)
        self.judged.add(code, self.key, ("columns", self.key, *path), wanted, name, words)

    def at(self, *path):
        return at(self.value, *path)

    def has(self, *codes):
        return not self.codes.isdisjoint(codes)

    def claims(self):
        """What the element, the member and the field say, in the order in which they count."""
        element, field = claims_of(self.column, self.element) if self.column else (NOTHING, NOTHING)
        return element, claims_of_member(self), field


def pointer_to(path):
    return "".join("/" + str(it).replace("~", "~0").replace("/", "~1") for it in path)


def findings(geo, columns, elements=()):
    """The version by which the metadata are judged, and what is found of what a file has at `geo`:
    a text, bytes that are no UTF-8, or nothing; beside its columns and what their elements say."""
    judged = Judged(ABSENT, columns, elements)
    if geo is MISSING:
        add_missing(judged)
    if geo in (MISSING, UNASKED):
        add_elements(judged, ())
        return V1_1, judged.found
    try:
        judged.value = value = read(geo if isinstance(geo, str) else geo.decode())
    except UnicodeDecodeError:
        judged.found.append(Finding("GeoNotJson", None, "", shown_bytes(geo), None))
    except NotJson:
        judged.found.append(Finding("GeoNotJson", None, "", shown(geo), None))
    else:
        if not isinstance(value, Members):
            judged.add("GeoNotObject", None, ())
    if judged.found:
        add_elements(judged, ())
        return V1_1, judged.found
    judged.found.extend(itertools.islice(repeated(value, ()), 100))
    version = add_version(judged)
    members = value.get("columns")
    is_whole = isinstance(members, Members) and len(members) > 0
    add_columns(judged, members, is_whole)
    for key in sorted(members.keys(), key=str.encode) if is_whole else ():
        add_member(Member(judged, version, key, members.get(key)))
    if is_whole:
        add_undeclared(judged, members)
    add_elements(judged, members.keys() if isinstance(members, Members) else ())
    return version, judged.found


def add_missing(judged):
    """That a Parquet file has no metadata, where a column is one of geometries by its field alone."""
    pairs = zip(judged.columns, judged.elements)
    if any(not says(element) and encoding_claim(column) not in (None, "box") for column, element in pairs):
        judged.found.append(Finding("NoGeoMetadata", None, "", None, None))


def repeated(value, path):
    """The keys that stand several times in an object: of an object its own ones in the order of
    their bytes, then those in its values."""
    if isinstance(value, list):
        for place, it in enumerate(value):
            yield from repeated(it, (*path, place))
    if isinstance(value, Members):
        texts = collections.defaultdict(list)
        for key, it in value.pairs:
            texts[key].append(text_of(it))
        for key in sorted(texts, key=str.encode):
            if len(texts[key]) > 1:
                yield several((*path, key), texts[key])
        for key, it in value.pairs:
            yield from repeated(it, (*path, key))


def several(path, texts):
    """That a key has these values."""
    column = path[1] if path[0] == "columns" and isinstance((*path, 0)[1], str) else None
    word = "are equal" if len(set(texts)) == 1 else "differ"
    return Finding("RepeatedKey", column, pointer_to(path), f"{len(texts)} values, which {word}", None)


def add_elements(judged, keys):
    """What elements say beside the fields of columns that have no member of these keys."""
    for column, element in zip(judged.columns, judged.elements):
        if column["name"] not in keys:
            add_alone(judged, column, element)


def add_version(judged):
    """The version, by `version` and `schema_version`."""
    text = judged.value.get("version")
    if text is ABSENT and isinstance(judged.value.get("schema_version"), str):
        judged.add("GeoOldVersion", None, ("version",))
        return OLD
    if not isinstance(text, str):
        text = ""
    fits = (it for it in VERSIONS if re.fullmatch(it[0], text, re.ASCII | re.DOTALL))
    _, version, code = next(fits)
    if code:
        judged.add(code, None, ("version",))
    return version


def add_columns(judged, members, is_whole):
    """What is found of `columns` as a whole, and of `primary_column`."""
    if not is_whole:
        judged.add("GeoColumns", None, ("columns",))
    primary = judged.value.get("primary_column")
    if not isinstance(primary, str) or is_whole and primary not in members.keys():
        judged.add("GeoPrimaryColumn", None, ("primary_column",))


def names_of_coverings(members):
    """What stands first in the paths of coverings, where something does."""
    return [at(members.get(key), "covering", "bbox", bound, 0) for key in members.keys() for bound in HIGH]


def add_undeclared(judged, members):
    """The columns that hold geometries by their element or their field, and have no member, but for
    boxes and the columns of coverings."""
    paths = names_of_coverings(members)
    for column, element in zip(judged.columns, judged.elements):
        is_geometry = says(element) or encoding_claim(column) not in (None, "box")
        name = column["name"]
        if is_geometry and name not in members.keys() and name not in paths:
            judged.add("GeoColumnUndeclared", name, ("columns",), name=name)


def add_member(it):
    """What is found of a member, in the order of the codes."""
    count = sum(column["name"] == it.key for column in it.judged.columns)
    if count != 1:
        it.add("GeoColumnRepeated" if count else "GeoColumnMissing", name=it.key)
    if not isinstance(it.value, Members):
        it.add("GeoMember")
        if it.column:
            add_alone(it.judged, it.column, it.element)
        return
    is_old = it.version is OLD
    if not is_old:
        add_encoding(it)
    add_layout(it)
    if not is_old:
        add_types(it)
        add_crs(it)
        add_words(it)
        add_box(it)
        add_covering(it)
    add_contradictions(it)
    if not is_old:
        add_on_projected(it.judged, it.key, *it.claims())


def add_encoding(it):
    if encoding_of(it) is None:
        it.add("GeoEncoding", "encoding")


def encoding_of(it):
    """The encoding of a member, if it is one of the version."""
    text = it.at("encoding")
    return text if isinstance(text, str) and text in it.version.encodings else None


def add_layout(it):
    encoding = encoding_of(it)
    if it.column and encoding:
        layout = geo_layouts.of_column(it.column, it.element)
        if layout not in (geo_layouts.UNJUDGED, *strict_layouts(encoding)):
            found = shown(geo_layouts.shown_of(it.column, it.element))
            it.codes.add("GeoLayout")
            place = pointer_to(("columns", it.key, "encoding"))
            it.judged.found.append(Finding("GeoLayout", it.key, place, found, encoding))


def strict_layouts(encoding):
    """The strict layouts of an encoding, each with what it is: `wkb`, or `xy` or `xyz`."""
    return {geo_layouts.BYTES: "wkb"} if encoding == "WKB" else geo_layouts.native(NATIVE[encoding][0])


def layout_of(it):
    """What the column of a member is by the strict layout of its encoding: `wkb`, or `xy` or `xyz`;
    None where it has no encoding or no column, or another layout, or where that is not judged."""
    encoding = encoding_of(it)
    if not (it.column and encoding):
        return None
    return strict_layouts(encoding).get(geo_layouts.of_column(it.column, it.element))


def split_type(text):
    """The kind and the suffix of the name of a type, if it is one of some version."""
    return next(((kind, suffix) for kind in KINDS for suffix in SUFFIXES
                 if isinstance(text, str) and text == kind + suffix), None)


def add_types(it):
    """What is found of `geometry_types`: of each item, by the version, and by the layout."""
    types = it.at("geometry_types")
    if not isinstance(types, list):
        is_old = types is ABSENT and it.at("geometry_type") is not ABSENT
        it.add("GeoTypes", "geometry_types", words="geometry_type" if is_old else None)
        return
    names = [split_type(item) for item in types]
    add_items(it, "GeoTypes", [place for place, name in enumerate(names)
                               if name is None or name in names[:place]])
    add_items(it, "GeoTypesVersion", [place for place, name in enumerate(names)
                                      if name and name[1] not in it.version.suffixes])
    suffix = {"xy": "", "xyz": " Z"}.get(layout_of(it))
    if suffix is not None:
        kinds = NATIVE[encoding_of(it)][1]
        add_items(it, "TypesContradict", [place for place, name in enumerate(names)
                                          if name and (name[0] not in kinds or name[1] != suffix)])


def add_items(it, code, places):
    """What is found of the types at these places, of which the last that is told one by one stands
    for those behind it."""
    for place in places[:MOST]:
        it.add(code, "geometry_types", place)
    if len(places) > MOST:
        found = it.judged.found
        found[-1] = found[-1]._replace(more=len(places) - MOST)


def add_crs(it):
    crs = it.at("crs")
    if isinstance(crs, Members):
        for path in geo_crs.malformed(crs):
            it.add("CrsMalformed", "crs", *path)
    elif crs not in (ABSENT, None):
        it.add("GeoCrs", "crs")


def add_words(it):
    """What is found of `edges`, `orientation` and `epoch`."""
    edges = it.at("edges")
    if edges is not ABSENT and not (isinstance(edges, str) and edges in it.version.edges):
        it.add("GeoEdges", "edges")
    if it.at("orientation") not in (ABSENT, "counterclockwise"):
        it.add("GeoOrientation", "orientation")
    if not (it.at("epoch") is ABSENT or isinstance(it.at("epoch"), Number)):
        it.add("GeoEpoch", "epoch")


def add_box(it):
    """What is found of `bbox`."""
    box = it.at("bbox")
    if box is ABSENT:
        return
    if not isinstance(box, list) or len(box) not in it.version.sizes:
        it.add("GeoBbox", "bbox")
        return
    for place, item in enumerate(box):
        if not isinstance(item, Number):
            it.add("GeoBbox", "bbox", place)
    if it.has("GeoBbox"):
        return
    axes = AXES[len(box)]
    for place, axis in enumerate(axes):
        most = box[place + len(axes)]
        is_judged = axis != "x" or class_of(*it.claims()) == "projected"
        if is_judged and float(box[place].text) > float(most.text):
            words = f"{axis}min {shown(box[place].text)}, {axis}max {most.text}"
            it.add("GeoBboxOrder", "bbox", place, wanted=most.text, words=words)
    add_range(it, box, axes)
    add_dimension(it, len(box))


def add_range(it, box, axes):
    """Longitudes and latitudes that are out of range, where the CRS is one of the pairs."""
    crs = effective_crs(*it.claims())
    if it.has("GeoCrs", "CrsMalformed") or crs is None or not geo_crs.is_paired(crs):
        return
    for place, item in enumerate(box):
        limit = LIMITS.get((axes + axes)[place])
        number = float(item.text)
        if limit and abs(number) > limit + 0.001:
            it.add("GeoBboxRange", "bbox", place, wanted=str(limit if number > 0 else -limit))


def add_dimension(it, size):
    types = it.at("geometry_types")
    names = [split_type(item) for item in types] if isinstance(types, list) else []
    high = ["Z" in name[1] for name in names if name]
    if high and size == 6 and not any(high):
        it.add("GeoBboxDimension", "bbox", wanted="4")
    if high and size == 4 and all(high):
        it.add("GeoBboxDimension", "bbox", wanted="6")


def add_covering(it):
    """What is found of `covering`."""
    if it.at("covering") is ABSENT:
        boxes = [column["name"] for column in it.judged.columns if is_box_group(column["type"])]
        if it.column and boxes:
            it.add("GeoCoveringAbsent", name=boxes[0])
        return
    bounds = it.at("covering", "bbox")
    if not isinstance(it.at("covering"), Members):
        it.add("GeoCovering", "covering")
    elif not isinstance(bounds, Members):
        it.add("GeoCovering", "covering", "bbox")
    else:
        add_bounds(it, bounds)


def add_bounds(it, bounds):
    """What is found of the paths of a covering: of their form, their names, and their group."""
    is_high = "zmin" in bounds.keys() or "zmax" in bounds.keys()
    paths = [(bound, bounds.get(bound)) for bound in (HIGH if is_high else FLAT)]
    for bound, path in paths:
        if not is_path(path):
            it.add("GeoCovering", "covering", "bbox", bound)
    if it.has("GeoCovering"):
        return
    for bound, path in paths:
        if path[1] != bound:
            it.add("GeoCoveringName", "covering", "bbox", bound, 1, wanted=bound)
    code, bound, kind = fault_of_group(it, paths)
    if code == "GeoCoveringType":
        place = pointer_to(("columns", it.key, "covering", "bbox", bound))
        found = shown(geo_layouts.notation(kind))
        it.judged.found.append(Finding(code, it.key, place, found, None))
    elif code:
        it.add(code, "covering", "bbox", bound)


def is_path(value):
    """Whether a value is an array of two texts."""
    return isinstance(value, list) and [type(it) for it in value] == [str, str]


def fault_of_group(it, paths):
    """The first fault of the group that paths lead to, the first bound that shows it, and the type to
    which that leads."""
    name = paths[0][1][0]
    of_name = [column for column in it.judged.columns if column["name"] == name]
    children = fields_of(of_name[0]["type"]) if len(of_name) == 1 else {}
    for bound, path in paths:
        if path[0] != name or path[1] not in children:
            return "GeoCoveringColumn", bound, None
    kind = children[paths[0][1][1]]
    for bound, path in paths:
        if children[path[1]] not in ("float32", "float64") or children[path[1]] != kind:
            return "GeoCoveringType", bound, children[path[1]]
    is_other = set(children) - set(HIGH) - {path[1] for _, path in paths}
    if is_other or it.column and it.column["nullable"] != of_name[0]["nullable"]:
        return "GeoCoveringShape", paths[0][0], None
    return None, None, None


def fields_in(kind):
    """The fields of a struct; of one of other types they stand beside its notation."""
    return kind.get("struct", ()) if isinstance(kind, dict) else ()


def fields_of(kind):
    """The types of the fields of a struct, by their names: of the first of each name."""
    return {field["name"]: field["type"] for field in reversed(fields_in(kind))}


def is_box_group(kind):
    """Whether a type is a struct of the bounds of a covering, each once, and of no others."""
    fields = fields_in(kind)
    names = sorted(field["name"] for field in fields)
    kinds = [field["type"] for field in fields]
    return names in (sorted(FLAT), sorted(HIGH)) and kinds in (
        ["float32"] * len(kinds), ["float64"] * len(kinds))


def encoding_claim(column):
    """The encoding that the extension name of a column says, if it says one."""
    name = column.get("metadata", {}).get(NAME, "")
    kinds = [*NATIVE, "geometrycollection", "geometry", "box"]
    words = {**{"geoarrow." + kind: kind for kind in kinds},
             "geoarrow.wkb": "WKB", "ogc.wkb": "WKB", "geoarrow.wkt": "WKT", "ogc.wkt": "WKT"}
    return words.get(name)


def metadata_in(text):
    """The extension metadata that a text is, where they are an object."""
    try:
        value = read(text or "")
    except NotJson:
        return None
    return value if isinstance(value, Members) else None


def is_broken(value, crs_type):
    """Whether a CRS of extension metadata is an object that is no PROJJSON, or should be one and is such a text."""
    if isinstance(value, str) and crs_type == "projjson":
        try:
            value = read(value)
        except NotJson:
            return False
    return isinstance(value, Members) and bool(geo_crs.malformed(value))


def crs_in(metadata, default=None):
    """The CRS that extension metadata say: its value, and whether it is one of a database; the default where they say none, and nothing where it is broken."""
    value = metadata.get("crs") if metadata else ABSENT
    if value in (ABSENT, None, ""):
        return default
    crs_type = metadata.get("crs_type")
    return None if is_broken(value, crs_type) else geo_crs.Claim(value, crs_type == "srid")


EDGES = ("planar", "andoyer", "karney", "spherical", "thomas", "vincenty")


def edges_in(metadata):
    """The edges that extension metadata say, planar without any; None where they are no edges of GeoArrow."""
    edges = metadata.get("edges") if metadata else None
    return "planar" if edges in (ABSENT, None) else edges if edges in EDGES else None


def crs_of_element(metadata):
    """The CRS that an element says by its metadata: the default where they name none, and nothing where null stands for a key without PROJJSON."""
    is_missing = metadata is not None and metadata.get("crs") is None
    return None if is_missing else crs_in(metadata, DEFAULT_CRS)


def own_metadata(column):
    """The extension metadata of a column under an extension name that says an encoding; others say nothing."""
    return metadata_in(column.get("metadata", {}).get(METADATA)) if encoding_claim(column) else None


DEFAULT_CRS = geo_crs.Claim("OGC:CRS84", False, True)
NOTHING = Claims(None, None, None, False)


def says(element):
    """Whether an element says something: it is of a geometry type."""
    return isinstance(element, (Given, Beside))


def claims_of(column, element):
    """What the element of a column says, and what its field says by itself."""
    metadata = own_metadata(column)
    edges = None if metadata is None else edges_in(metadata)
    has_none = metadata is not None and metadata.get("edges") in (ABSENT, None)
    field = Claims(encoding_claim(column), crs_in(metadata), edges, has_none)
    if not says(element):
        return NOTHING, field
    if isinstance(element, Given):
        crs = crs_of_element(metadata) if element.names_crs else DEFAULT_CRS
        return claims_of_element(element, crs, edges), NOTHING
    beside = metadata_in(element.metadata)
    return claims_of_element(element, crs_of_element(beside), edges_in(beside)), field


def claims_of_element(element, crs, edges):
    """What an element says that has such a CRS and such edges."""
    return Claims("WKB", crs, None if element.edges == BROKEN else edges, element.edges == DEFAULT)


# The facts on which sources may not agree, in the order of the codes of each verdict.
FACTS = (("encoding", "EncodingContradicts", None), ("crs", "CrsContradicts", "CrsNotCompared"),
         ("edges", "EdgesContradict", None))


def verdict(fact, one, other):
    if fact == "crs":
        return geo_crs.verdict(one, other)
    return "Agree" if one == other else "Contradict"


def claim_text(fact, claims):
    """What a source says, as JSON, and as it is wanted; the default by its word."""
    claim = getattr(claims, fact)
    if isinstance(claim, geo_crs.Claim):
        return (f"{claim.value}, the default" if claim.is_default else shown(text_of(claim.value)),) * 2
    if fact == "edges" and claims.edges_are_default:
        return (f"{claim}, the default",) * 2
    return text_of(claim), claim


def disagreements(element, field, member):
    """What the sources of a column do not agree on, by the first pair of sources that contradict, or
    else by the first that are not compared: the code, the fact, what the second of the pair says,
    whether that is the field, and what is wanted, which the first says."""
    for fact, *codes in FACTS:
        pairs = (("element", element, member), ("element", element, field), ("field", field, member))
        claims = [(it, [getattr(source, fact) for source in it[1:]]) for it in pairs]
        judged = [(*it, verdict(fact, *said)) for it, said in claims if None not in said]
        for code, asked in zip(codes, ("Contradict", "NotCompared")):
            found = next((it for it in judged if it[3] == asked), None)
            if found:
                first, one, other, _ = found
                wanted = f"{claim_text(fact, one)[1]} of the {first}"
                yield code, fact, claim_text(fact, other)[0], other is field, wanted
                break


def add_alone(judged, column, element):
    """What an element says beside the field of a column, without a member, and what both say."""
    name = column["name"]
    of_element, field = claims_of(column, element)
    for code, _, found, _, wanted in disagreements(of_element, field, NOTHING):
        judged.found.append(Finding(code, name, "", found, wanted, source=FIELD))
    add_on_projected(judged, name, of_element, NOTHING, field)


def add_contradictions(it):
    """What the element, the field and the member of a column say of one fact."""
    if it.column is None:
        return
    element, field = claims_of(it.column, it.element)
    for code, fact, found, is_field, wanted in disagreements(element, field, claims_of_member(it)):
        place = "" if is_field else pointer_to(("columns", it.key, fact))
        source = FIELD if is_field else GEO
        it.judged.found.append(Finding(code, it.key, place, found, wanted, source=source))


def claims_of_member(it):
    """What a member of `columns` says: what is wrong by itself says nothing, nor does an encoding
    where it is not known that the column has its layout."""
    encoding = encoding_of(it) if layout_of(it) else None
    return Claims(encoding, said_crs(it), said_edges(it), it.at("edges") is ABSENT)


def said_crs(it):
    """The CRS that a member says, a default included; None where it is broken or says none."""
    crs = it.at("crs")
    if it.has("GeoCrs", "CrsMalformed"):
        return None
    if it.version is OLD and not (crs is None or isinstance(crs, (Members, str))):
        return None
    return DEFAULT_CRS if crs is ABSENT else geo_crs.Claim(crs)


def said_edges(it):
    """The edges that a member says, planar without any; None where they are none of the version."""
    edges = it.at("edges")
    if edges is ABSENT:
        return "planar"
    return edges if isinstance(edges, str) and edges in it.version.edges else None


def effective_crs(*claims):
    """The CRS that counts: the first that is said, in the order of these claims; or else the first
    default."""
    said = [it.crs for it in claims if it.crs]
    return next((crs for crs in said if not crs.is_default), said[0] if said else None)


def class_of(*claims):
    crs = effective_crs(*claims)
    return geo_crs.class_of(crs) if crs else None


def effective_edges(element, member, field):
    """The source of the edges that count, by the same rule, and these; planar where none are said."""
    said = [it for it in ((ELEMENT, element), (GEO, member), (FIELD, field)) if it[1].edges]
    written = [it for it in said if not it[1].edges_are_default]
    return next(((source, claims.edges) for source, claims in written + said), (None, "planar"))


def add_on_projected(judged, key, *claims):
    """That the edges that count are not planar, and the CRS that counts is projected: in the source of
    the edges, whose place is known in a member."""
    source, edges = effective_edges(*claims)
    if edges != "planar" and class_of(*claims) == "projected":
        place = pointer_to(("columns", key, "edges")) if source == GEO else ""
        found = f"{edges}, {crs_word(effective_crs(*claims).value)}"
        judged.found.append(Finding("EdgesOnProjected", key, place, found, None, source=source))


def crs_word(crs):
    """The name of a CRS: the authority and the code of its id, or else its name, or a text itself."""
    authority, code = at(crs, "id", "authority"), at(crs, "id", "code")
    code = code.text if isinstance(code, Number) else code
    if isinstance(authority, str) and isinstance(code, str):
        return shown(f"{authority}:{code}")
    names = [it for it in (at(crs, "name"), crs) if isinstance(it, str)]
    return shown(names[0] if names else "a CRS")


def element_of(words):
    """The element that a row names, behind the line of its column: `silent`, `given`, `given CRS` or
    extension metadata; then how its edges are said, as `, edges not known`, where it does not say
    them; then `; layout` and its layout, where it is not bytes."""
    words, _, layout = words.partition("; layout ")
    layout = geo_layouts.of_words(layout or geo_layouts.WORD_OF_BYTES)
    behind = re.search(f", edges ({DEFAULT}|{BROKEN})$", words)
    words, edges = (words[:behind.start()], behind[1]) if behind else (words, SAID)
    if words == "silent":
        return Silent(layout)
    given = words in ("given", "given CRS")
    return Given(words == "given CRS", edges, layout) if given else Beside(words, edges, layout)


def asked(command, text):
    """What a row asks: what there is at `geo`, the columns, and their elements, each behind the line
    of its column and the word `element`."""
    parts = text.split(" & ")
    geo = {"check_missing": MISSING, "check_unasked": UNASKED}.get(command) or parts.pop(0)
    geo = bytes.fromhex(geo) if command == "check_bytes" else geo
    columns, elements = [], []
    for part in filter(None, parts):
        if part.startswith("element "):
            elements[-1] = element_of(part.partition(" ")[2])
        else:
            columns.append(json.loads(part))
            elements.append(NO_ELEMENT)
    return geo, columns, elements


def words_of(finding):
    """A finding as a row spells it: the source that it is found in, where that is not `geo`, in place
    of a pointer; how many more it stands for only where there are some."""
    place = finding.pointer if finding.source == GEO else finding.source
    parts = (finding.code, finding.column, place, finding.found, finding.wanted)
    said = "|".join("-" if part is None else part for part in parts)
    return f"{said}|{finding.more} more" if finding.more else said


def answer(command, text):
    """The answer of a row: its version, and each finding."""
    version, found = findings(*asked(command, text))
    said = " & ".join(map(words_of, found))
    return version.name + (" " + said if said else "")


def spelled(text):
    """A text in which `<<1000|,|f%>>` stands for f0 to f999 with commas between them, and
    `<<10..20|,|f%>>` for f10 to f19."""
    def numbered(found):
        numbers = range(int(found[1] or 0), int(found[2]))
        return found[3].join(found[4].replace("%", str(it)) for it in numbers)
    return re.sub(r"<<(?:(\d+)\.\.)?(\d+)\|([^|]*)\|(.*?)>>", numbered, text)


def rows_of(file):
    """Each row of these commands in a file: its line, the command, its text and its answer."""
    lines = file.read_text(encoding="utf-8").split("\n")
    place = 0
    while place + 1 < len(lines):
        question = re.fullmatch(r"(?:\* )?(check_\w+) (.*)", lines[place], re.DOTALL)
        if question:
            yield place + 1, question[1], spelled(question[2]), spelled(lines[place + 1])
        place += 2 if lines[place] and lines[place][0] not in "#=" else 1


def main(words):
    count = wrong = 0
    for file in map(pathlib.Path, words or sorted(ROWS.glob("*.rows"))):
        for line, command, question, wanted in rows_of(file):
            said = answer(command, question)
            count, wrong = count + 1, wrong + (said != wanted)
            if said != wanted:
                print(f"{file.name}:{line}: {command} {question[:400]}\n  {wanted[:600]}\n  {said[:600]}")
    print(f"{count} rows, {wrong} differ")
    return 1 if wrong or not count else 0


if __name__ == "__main__":
    sys.exit(main(sys.argv[1:]))
