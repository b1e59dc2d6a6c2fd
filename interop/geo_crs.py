"""Coordinate reference systems for the model of GeoParquet: what is PROJJSON, and when two are one.

Each form of a value has identifiers and a class, and `verdict` compares two by them.
"""
import collections
import decimal
import re

from .geo_json import ABSENT, Members, NotJson, Number, at, read

# A CRS that is said: its value, None for one not known; whether it is a number of a database; and
# whether it is the format's default, which nobody wrote.
Claim = collections.namedtuple("Claim", "value is_srid is_default", defaults=(False, False))
# What is compared: identifiers, a class, and what is equal of equal values.
Identity = collections.namedtuple("Identity", "identifiers area equal")

DERIVABLE = (
    "Geodetic", "Geographic", "Projected", "Vertical", "Engineering", "Parametric", "Temporal")
TYPES = {*(front + it + "CRS" for it in DERIVABLE for front in ("", "Derived")),
         "CompoundCRS", "BoundCRS", "CoordinateMetadata"}
NAMELESS = ("BoundCRS", "CoordinateMetadata")
AREAS = {front + it + "CRS": area for front in ("", "Derived") for it, area in (
    ("Geographic", "geographic"), ("Geodetic", "geographic"), ("Projected", "projected"))}
GEOGRAPHIC = ("GEOGCRS", "GEODCRS", "GEOGRAPHICCRS", "GEODETICCRS", "GEOGCS")
WORDS = {**dict.fromkeys(GEOGRAPHIC, "geographic"),
         **dict.fromkeys(("PROJCRS", "PROJECTEDCRS", "PROJCS"), "projected")}
# The pairs of identifiers that are one CRS.
PAIRS = ((("OGC", "CRS84"), ("EPSG", "4326")), (("OGC", "CRS84H"), ("EPSG", "4979")),
         (("OGC", "CRS83"), ("EPSG", "4269")), (("OGC", "CRS27"), ("EPSG", "4267")))
TWINS = {one: other for pair in PAIRS for one, other in (pair, pair[::-1])}
TOKEN = re.compile(r'"((?:[^"]|"")*)"|([\[(])|([\])])|(,)|([^\s"\[\](),]+)')


def is_code(value):
    """Whether a number is written with digits alone."""
    return isinstance(value, Number) and re.fullmatch(r"\d+", value.text) is not None


def malformed(crs):
    """The paths of the parts of an object that keep it from being PROJJSON."""
    paths = []
    kind = crs.get("type")
    if not (isinstance(kind, str) and kind in TYPES):
        paths.append(("type",))
    elif kind not in NAMELESS and not isinstance(crs.get("name"), str):
        paths.append(("name",))
    if crs.get("id") is not ABSENT and identifier(crs.get("id")) is None:
        paths.append(("id",))
    ids = crs.get("ids")
    for place, it in enumerate(ids if isinstance(ids, list) else ()):
        if identifier(it) is None:
            paths.append(("ids", place))
    if ABSENT not in (crs.get("id"), ids):
        paths.append(("ids",))
    return paths


def identifier(value):
    """The authority and the code of an `id`, in capitals, if it has both."""
    authority, code = at(value, "authority"), at(value, "code")
    if not isinstance(authority, str) or not (isinstance(code, str) or is_code(code)):
        return None
    return authority.upper(), (code if isinstance(code, str) else code.text).upper()


def identity(claim):
    """What is compared of a CRS, by its form."""
    value = claim.value
    if claim.is_srid:
        return Identity(frozenset(), None, ("srid", value))
    if isinstance(value, Members):
        return of_object(value)
    if not isinstance(value, str):
        return Identity(frozenset(), None, equal(value))
    try:
        of_text = read(value)
    except NotJson:
        of_text = None
    if isinstance(of_text, Members):
        return of_object(of_text)
    code = re.fullmatch(r"([A-Za-z][A-Za-z0-9_.-]*):([A-Za-z0-9_.-]+)", value)
    if code:
        own = (code[1].upper(), code[2].upper())
        return Identity(with_twins([own]), "geographic" if own in TWINS else None, ("text", value))
    if re.match(r"[A-Za-z_][A-Za-z0-9_]*\s*[\[(]", value):
        return of_well_known(value)
    return Identity(frozenset(), None, ("text", value))


def of_object(crs):
    ids = crs.get("ids")
    found = [identifier(it) for it in [crs.get("id"), *(ids if isinstance(ids, list) else [])]]
    return Identity(with_twins([it for it in found if it]), area_of(crs), equal(crs))


def area_of(crs):
    """The class of PROJJSON: of a compound CRS its first part's, of a bound one its source's."""
    kind = at(crs, "type")
    if kind == "CompoundCRS":
        return area_of(at(crs, "components", 0))
    if kind == "BoundCRS":
        return area_of(at(crs, "source_crs"))
    return AREAS.get(kind) if isinstance(kind, str) else None


def of_well_known(text):
    """What is compared of well-known text: the members of its outermost bracket, and its word."""
    depth, parts, found = 0, None, []
    tokens = [it for it in TOKEN.finditer(text)]
    for place, (quoted, opens, closes, comma, word) in enumerate(it.groups() for it in tokens):
        before = tokens[place - 1][5] if place else None
        if opens:
            depth += 1
            if depth == 2:
                parts = [] if before and before.upper() in ("ID", "AUTHORITY") else None
        elif closes:
            if depth == 2 and parts is not None and len(parts) > 1:
                found.append((parts[0].upper(), parts[1].upper()))
            depth -= 1
        elif not comma and depth == 2 and parts is not None:
            parts.append(word if quoted is None else quoted.replace('""', '"'))
    bare = "".join(it if it.startswith('"') else re.sub(r"\s", "", it)
                   for it in re.split(r'("(?:[^"]|"")*")', text))
    return Identity(with_twins(found), WORDS.get(tokens[0][0].upper()), ("text", bare))


def with_twins(identifiers):
    """The identifiers, and those of the table of pairs that are the same CRS."""
    return frozenset([*identifiers, *(TWINS[it] for it in identifiers if it in TWINS)])


def equal(value):
    """What two JSON values have in common exactly where they are equal."""
    if isinstance(value, Members):
        return "object", {key: equal(value.get(key)) for key in value.keys()}
    if isinstance(value, list):
        return "array", [equal(it) for it in value]
    if isinstance(value, Number):
        exponent = re.search(r"[eE][+-]?(\d{10,})", value.text)
        return ("number", value.text) if exponent else ("number", decimal.Decimal(value.text))
    return type(value).__name__, value


def class_of(claim):
    return None if claim.value is None else identity(claim).area


def is_paired(claim):
    """Whether a CRS has an identifier of the table of pairs."""
    return claim.value is not None and any(it in TWINS for it in identity(claim).identifiers)


def verdict(one, other):
    """Whether two CRSs agree: the first row of the table that applies."""
    if one.value is None or other.value is None:
        is_default = one.is_default or other.is_default
        return "Agree" if one.value is other.value else "NotCompared" if is_default else "Contradict"
    a, b = identity(one), identity(other)
    if a.identifiers & b.identifiers or a.equal == b.equal:
        return "Agree"
    authorities = {it[0] for it in a.identifiers} & {it[0] for it in b.identifiers}
    if authorities or a.area and b.area and a.area != b.area:
        return "Contradict"
    return "NotCompared"
