"""The words of what is found in GeoParquet metadata, by the tables of docs/FORMAT.md, 5 and 5.1.

A model of its own, which shares no code with the crates: `line` is the line of JSON of a finding
that `geo_findings` gives, `words` what a table says of it.
"""
import re

from . import finding_words
from .finding_words import tables, text_in

VERSIONS = ("Old", "V1_0", "V1_1", "V2")
ENCODINGS = ("WKB", "point", "linestring", "polygon", "multipoint", "multilinestring", "multipolygon")
KINDS = ("Point", "LineString", "Polygon", "MultiPoint", "MultiLineString", "MultiPolygon",
         "GeometryCollection")
EDGES = ("planar", "spherical", "vincenty", "thomas", "andoyer", "karney")
CRS = ("GeographicCRS", "ProjectedCRS", "CompoundCRS", "BoundCRS", "GeodeticCRS", "VerticalCRS",
       "EngineeringCRS", "ParametricCRS", "TemporalCRS")


ROWS = {text_in(row[0]): row[1:] for row in tables("code | severity | found where | pointer")}
BY_VERSION = {}
for _words, *_cells in tables("words by version"):
    for _code in re.findall("`(\\w+)`", _words):
        _said = [text_in(cell) for cell in _cells]
        BY_VERSION[_code, _words.split(", ")[-1]] = [one or _said[2] for one in _said]


def said(code, kind, cell, version):
    """The words of a cell of the table, or those by the version."""
    return text_in(cell) or BY_VERSION.get((code, kind), [None] * 4)[VERSIONS.index(version)]


def severity(code):
    return ROWS[code][0]


def expected(code, version, wanted):
    words = said(code, "expected", ROWS[code][3], version)
    return words if wanted is None else f"{words} ({wanted})"


def names(code, version):
    """The names that are expected where a code is found, as JSON."""
    listed = {
        "GeoEncoding": ENCODINGS if version in ("V1_1", "V2") else ENCODINGS[:1],
        "GeoTypes": KINDS + tuple(f"{kind} Z" for kind in KINDS),
        "GeoEdges": EDGES if version == "V2" else EDGES[:2],
        "GeoOrientation": ("counterclockwise",),
        "CrsMalformed": CRS}
    return [f'"{name}"' for name in listed.get(code, ())]


def edits(one, other):
    """How many insertions, deletions and substitutions lead from one text to the other."""
    above = list(range(len(other) + 1))
    for at, letter in enumerate(one, 1):
        row = [at]
        for place, each in enumerate(other, 1):
            row.append(min(row[-1] + 1, above[place] + 1, above[place - 1] + (letter != each)))
        above = row
    return above[-1]


def lowered(text):
    return "".join(each.lower() if each.isascii() else each for each in text)


def nearest(found, listed):
    if found in listed:
        return None
    for limit in range(3):
        for name in listed:
            count = edits(lowered(found), lowered(name))
            if count <= limit and 5 * count < len(name.encode()):
                return name
    return None


def help_of(code, version, found):
    near = None if found is None else nearest(found, names(code, version))
    if near:
        return f"Did you mean {near}?"
    said_of_code = said(code, "help", ROWS[code][4], version)
    return said_of_code if found is None else by_found(code, found, said_of_code)


def by_found(code, found, said_of_code):
    """What helps by what is found, where that decides (docs/FORMAT.md, 5)."""
    if code == "GeoBboxOrder":
        return said_of_code if found.startswith("x") else None
    if code == "GeoTypes":
        return "The member has geometry_type, the name of 0.4." if found == "geometry_type" else None
    if code == "GeoCoveringAbsent" and len(found.encode()) <= 120:
        paths = ",".join(f'"{bound}":[{found},"{bound}"]' for bound in ("xmin", "ymin", "xmax", "ymax"))
        return f'Add "covering":{{"bbox":{{{paths}}}}}.'
    return said_of_code


# Where findings are in what an element or a field says.
OWN = {"EncodingContradicts": None, "CrsContradicts": "/crs", "CrsNotCompared": "/crs",
       "EdgesContradict": "/edges", "EdgesOnProjected": "/edges"}


def place(finding):
    """The part that a finding is in, and its pointer there: in the metadata of GeoParquet, in the file
    where it has none, in the elements, or in a field."""
    if finding.source == "geo":
        return ("file", None) if finding.code == "NoGeoMetadata" else ("geo", finding.pointer)
    pointer = OWN[finding.code]
    if finding.source == "element":
        return "elements", pointer
    return "field" if pointer is None else "extension metadata", pointer


def parts(version, finding):
    """The parts of a finding, by the rules of a version."""
    code = finding.code
    part, pointer = place(finding)
    return {
        "severity": severity(code), "code": code, "column": finding.column, "in": part,
        "pointer": pointer, "found": finding.found,
        "expected": expected(code, version, finding.wanted),
        "help": help_of(code, version, finding.found), "more": finding.more}


def line(file, version, finding):
    """The line of a finding of a file (5.1)."""
    return finding_words.line({**parts(version, finding), "file": file})


def words(version, finding):
    """What a table says of a finding (5.1)."""
    return finding_words.words(parts(version, finding))
