"""The facts of columns, by docs/FORMAT.md, 5, in plain Python: of the CRS, the edges and the encoding
of each what counts, by which source, and what the other sources say against it.

It shares no code with the crates; what each source says, says the model of `geo_findings`.
"""
import json

from . import geo_findings
from .geo_findings import ABSENT, MISSING, NOTHING, OLD, UNASKED, Beside, Given, Members
from .geo_json import NotJson, Number, read, text_of

ELEMENT, GEO, FIELD = SOURCES = ("element", "geo", "field")
WORDS = {"Agree": "agree", "Contradict": "contradict", "NotCompared": "not compared"}
compact = json.JSONEncoder(ensure_ascii=False, separators=(",", ":")).encode


def value_at_geo(geo):
    """The JSON that a file has at `geo`; None where there is none."""
    if geo in (MISSING, UNASKED):
        return None
    try:
        return read(geo if isinstance(geo, str) else geo.decode())
    except (UnicodeDecodeError, NotJson):
        return None


def members_of(geo, columns, elements):
    """The member of each column, judged by itself; None where it has none, or one that is no object."""
    value = value_at_geo(geo)
    members = value.get("columns") if isinstance(value, Members) else None
    if not isinstance(members, Members):
        return [None] * len(columns)
    judged = geo_findings.Judged(value, columns, elements)
    version = geo_findings.add_version(judged)
    names = [column["name"] for column in columns]
    return [member_of(judged, version, name, members.get(name) if name not in names[:place] else ABSENT)
            for place, name in enumerate(names)]


def covered_names(geo):
    """The names of columns that paths of coverings name."""
    value = value_at_geo(geo)
    members = value.get("columns") if isinstance(value, Members) else None
    return geo_findings.names_of_coverings(members) if isinstance(members, Members) else []


def member_of(judged, version, name, value):
    if not isinstance(value, Members):
        return None
    it = geo_findings.Member(judged, version, name, value)
    geo_findings.add_layout(it)
    if version is not OLD:
        geo_findings.add_crs(it)
    return it


def metadata_of(column, element):
    """The extension metadata of the element of a column, and those of its field."""
    own = geo_findings.own_metadata(column)
    if isinstance(element, Given):
        return own, None
    return geo_findings.metadata_in(element.metadata) if isinstance(element, Beside) else None, own


def counting(claims, defaults, order=SOURCES):
    """The source that counts: the first that says something and no default, or else the first that
    says something."""
    there = [source for source in order if claims[source] is not None]
    return next((source for source in there if not defaults[source]), there[0] if there else None)


def against(fact, claims, counts):
    """What the sources say against the one that counts."""
    return {source: WORDS[geo_findings.verdict(fact, claims[source], claims[counts])]
            for source in sorted(SOURCES) if source != counts and claims[source] is not None}


def crs_of(claims, metadata):
    """The members of the CRS: its value, its type and its source; and the verdicts."""
    counts = counting(claims, {source: claims[source] and claims[source].is_default for source in SOURCES})
    if counts is None:
        return {}, {}
    said = claims[counts]
    crs_type = metadata[counts].get("crs_type") if counts != GEO and metadata[counts] else None
    if said.is_default:
        crs_type = "authority_code"
    elif counts == GEO and isinstance(said.value, Members):
        crs_type = "projjson"
    parts = {"crs": text_of(said.value), "crs_from": compact(counts)}
    if isinstance(crs_type, str):
        parts["crs_type"] = compact(crs_type)
    return parts, against("crs", claims, counts)


def edges_of(claims, defaults):
    """The members of the edges, planar where no source says any; and the verdicts."""
    counts = counting(claims, defaults)
    if counts is None:
        return {"edges": '"planar"'}, {}
    return {"edges": compact(claims[counts]), "edges_from": compact(counts)}, against("edges", claims, counts)


def encoding_of(claims):
    """The member of the source of the encoding; and the verdicts."""
    counts = counting(claims, dict.fromkeys(SOURCES, False), (FIELD, GEO, ELEMENT))
    return ({}, {}) if counts is None else ({"type_from": compact(counts)}, against("encoding", claims, counts))


def is_bbox(value, version):
    return isinstance(value, list) and len(value) in version.sizes and all(isinstance(it, Number) for it in value)


def are_types(value, version):
    names = list(map(geo_findings.split_type, value)) if isinstance(value, list) else []
    return bool(names) and None not in names and len(set(names)) == len(names)


# What a member alone says: each key of a line, with the rule that its value keeps.
ALONE = {"bbox": is_bbox, "epoch": lambda value, version: isinstance(value, Number), "geometry_types": are_types,
         "orientation": lambda value, version: value == "counterclockwise"}


def alone_of(it):
    """The members that say what the member of `columns` alone does, of a version that has rules for it."""
    if it is None or it.version is OLD:
        return {}
    return {key: text_of(it.at(key)) for key, keeps in ALONE.items() if keeps(it.at(key), it.version)}


def column_facts(it, column, element):
    """The facts of a column with a member or none: members of its line (2.5), each as its JSON."""
    said = dict(zip(SOURCES, (NOTHING, geo_findings.claims_of_member(it) if it else NOTHING, NOTHING)))
    said[ELEMENT], said[FIELD] = geo_findings.claims_of(column, element)
    metadata = dict(zip((ELEMENT, FIELD), metadata_of(column, element)))
    of_fact = {fact: {source: getattr(said[source], fact) for source in SOURCES} for fact in ("crs", "edges", "encoding")}
    defaults = {source: said[source].edges_are_default for source in SOURCES}
    crs, edges = crs_of(of_fact["crs"], metadata), edges_of(of_fact["edges"], defaults)
    encoding = encoding_of(of_fact["encoding"])
    verdicts = {fact: found for fact, (_, found) in (("crs", crs), ("edges", edges), ("encoding", encoding)) if found}
    whole = {"verdicts": compact(verdicts)} if verdicts else {}
    return {**crs[0], **edges[0], **encoding[0], **alone_of(it), **whole}


def facts(geo, columns, elements=()):
    """The facts of the columns of a file by what it has at `geo` and what their elements say."""
    elements = [*elements, *[geo_findings.NO_ELEMENT] * (len(columns) - len(elements))]
    return [column_facts(it, column, element)
            for it, column, element in zip(members_of(geo, columns, elements), columns, elements)]
