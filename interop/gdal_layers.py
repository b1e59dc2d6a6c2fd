"""The schemas of the layers of a file that GDAL opens, through `ctypes` on GDAL's own library (3.6 or later).

GDAL's stream of Arrow gives the columns of a layer. Until GDAL 3.8 it says nothing of the CRS, and never of the
geometry type: both are then asked of the layer. A CRS is written into the column's extension metadata as the code of an
authority or, where it has none, as WKT2; not as PROJJSON, since most have a fraction in it, which a line cannot hold.
"""
import ctypes
import ctypes.util
import json
from typing import Any, Dict, Iterator, List, NamedTuple, Optional, Tuple

from . import structures
from .making import EXTENSION_NAME, Field, SchemaError, shown

VECTOR = 4  # GDAL_OF_VECTOR; reading alone is the default
FAILURE = 3  # CE_Failure: what is worse than a warning
UNKNOWN = 0  # wkbUnknown: the type of a layer that may hold any
# From GDAL 3.8 on: the names and metadata of GeoArrow, in the place of the older `ogc.wkb`. Earlier ones pass it by.
OPTIONS = [b"GEOMETRY_METADATA_ENCODING=GEOARROW"]
WKT_OPTIONS = [b"FORMAT=WKT2_2019", b"MULTILINE=NO"]
EXTENSION_METADATA = "ARROW:extension:metadata"
POINTER, TEXT, NUMBER = ctypes.c_void_p, ctypes.c_char_p, ctypes.c_int
CALLS = {  # name: result, arguments
    "GDALAllRegister": (None, []),
    "GDALOpenEx": (POINTER, [TEXT, ctypes.c_uint, POINTER, POINTER, POINTER]),
    "GDALDatasetGetLayerCount": (NUMBER, [POINTER]),
    "GDALDatasetGetLayer": (POINTER, [POINTER, NUMBER]),
    "GDALClose": (None, [POINTER]),
    "OGR_L_GetName": (TEXT, [POINTER]),
    "OGR_L_GetArrowStream": (ctypes.c_bool, [POINTER, POINTER, POINTER]),
    "OGR_L_GetSpatialRef": (POINTER, [POINTER]),
    "OGR_L_GetGeomType": (NUMBER, [POINTER]),
    "OGR_L_GetLayerDefn": (POINTER, [POINTER]),
    "OGR_FD_GetGeomFieldCount": (NUMBER, [POINTER]),
    "OGR_FD_GetGeomFieldDefn": (POINTER, [POINTER, NUMBER]),
    "OGR_GFld_GetSpatialRef": (POINTER, [POINTER]),
    "OGR_GFld_GetType": (NUMBER, [POINTER]),
    "OGRGeometryTypeToName": (TEXT, [NUMBER]),
    "OSRGetAuthorityName": (TEXT, [POINTER, TEXT]),
    "OSRGetAuthorityCode": (TEXT, [POINTER, TEXT]),
    "OSRExportToWktEx": (NUMBER, [POINTER, POINTER, POINTER]),
    "VSIFree": (None, [POINTER]),
    "CPLGetLastErrorType": (NUMBER, []),
    "CPLGetLastErrorMsg": (TEXT, []),
    "CPLErrorReset": (None, []),
    "CPLPushErrorHandler": (None, [POINTER]),
    "CPLPopErrorHandler": (None, []),
}


class FileError(Exception):
    """A file that cannot be read; the text says why, in one line."""


class Layer(NamedTuple):
    """A layer of a file; or a file that has no layers, which is then one without a name."""

    name: Optional[str]
    lines: List[str]
    geometry_types: List[Optional[str]]  # one for each line, as `ogrinfo` names it; none where GDAL knows none


class Geometry(NamedTuple):
    """What GDAL knows of a geometry field."""

    crs: Dict[str, str]  # its members of extension metadata; none where there is no CRS
    type: Optional[str]


def places() -> Iterator[str]:
    """Where GDAL's library may be: where the system has it, or below GDAL's own package for Python."""
    found = ctypes.util.find_library("gdal")
    if found:
        yield found
    try:
        from osgeo import _gdal
    except ImportError:
        return
    yield _gdal.__file__


def library() -> Any:
    """GDAL's library, with the calls that are needed."""
    fault = "there is none"
    for place in places():
        try:
            gdal = ctypes.CDLL(place)
            for name, (result, arguments) in CALLS.items():
                call = getattr(gdal, name)
                call.restype, call.argtypes = result, arguments
        except (OSError, AttributeError) as error:
            fault = str(error)
        else:
            gdal.GDALAllRegister()
            return gdal
    raise FileError(f"GDAL's library, 3.6 or later, is needed for such a file: {fault}")


def layers_and_names(path: str, layer: Optional[str] = None, every: bool = False) -> Tuple[List[Layer], List[str]]:
    """The layer of this name, all layers or else the first, in a list; and the names of all layers of the file."""
    gdal = library()
    gdal.CPLPushErrorHandler(ctypes.cast(gdal.CPLQuietErrorHandler, POINTER))
    try:
        gdal.CPLErrorReset()
        file = gdal.GDALOpenEx(path.encode("utf-8", "surrogateescape"), VECTOR, None, None, None)
        if not file:
            raise FileError(_said(gdal, "GDAL cannot open it as vector data"))
        try:
            _refuse_failure(gdal)
            return _layers_and_names(gdal, file, layer, every)
        finally:
            gdal.GDALClose(file)
    finally:
        gdal.CPLPopErrorHandler()


def _layers_and_names(gdal: Any, file: int, layer: Optional[str], every: bool) -> Tuple[List[Layer], List[str]]:
    found = [gdal.GDALDatasetGetLayer(file, at) for at in range(gdal.GDALDatasetGetLayerCount(file))]
    names = [_decoded(gdal.OGR_L_GetName(one)) for one in found]
    if not found:
        raise FileError("it has no layers")
    if layer is not None and layer not in names:
        listed = ", ".join(shown(name) for name in names)
        raise FileError(f"it has no layer {shown(layer)}, but {listed}")
    if every:
        return [_named_layer(gdal, one, name) for one, name in zip(found, names)], names
    at = 0 if layer is None else names.index(layer)
    return [_layer(gdal, found[at], names[at])], names


def _named_layer(gdal: Any, layer: int, name: str) -> Layer:
    """A layer of several, which a fault then names."""
    try:
        return _layer(gdal, layer, name)
    except (FileError, SchemaError) as error:
        raise type(error)(f"layer {shown(name)}: {error}") from None


def _layer(gdal: Any, layer: int, name: str) -> Layer:
    stream = structures.ArrowArrayStream()
    if not gdal.OGR_L_GetArrowStream(layer, ctypes.addressof(stream), _texts(OPTIONS)):
        raise FileError(_said(gdal, "GDAL gives no schema of it"))
    columns = structures.columns_of_stream_at(ctypes.addressof(stream))
    geometries = list(_geometries(gdal, layer))
    _refuse_failure(gdal)
    columns, types = with_geometries(columns, geometries)
    return Layer(name, structures.lines_of_columns(columns), types)


def _geometries(gdal: Any, layer: int) -> Iterator[Geometry]:
    """What GDAL knows of each geometry field of a layer, in order."""
    definition = gdal.OGR_L_GetLayerDefn(layer)
    for at in range(gdal.OGR_FD_GetGeomFieldCount(definition)):
        if at == 0:  # some formats know more of the layer than of its field
            crs, kind = gdal.OGR_L_GetSpatialRef(layer), gdal.OGR_L_GetGeomType(layer)
        else:
            field = gdal.OGR_FD_GetGeomFieldDefn(definition, at)
            crs, kind = gdal.OGR_GFld_GetSpatialRef(field), gdal.OGR_GFld_GetType(field)
        yield Geometry(_crs(gdal, crs), None if kind == UNKNOWN else _decoded(gdal.OGRGeometryTypeToName(kind)))


def _crs(gdal: Any, crs: Optional[int]) -> Dict[str, str]:
    """A CRS as the metadata of GeoArrow has it."""
    if not crs:
        return {}
    authority, code = gdal.OSRGetAuthorityName(crs, None), gdal.OSRGetAuthorityCode(crs, None)
    if authority and code:
        return {"crs": f"{_decoded(authority)}:{_decoded(code)}", "crs_type": "authority_code"}
    text = ctypes.c_char_p()
    status = gdal.OSRExportToWktEx(crs, ctypes.addressof(text), _texts(WKT_OPTIONS))
    try:
        return {"crs": _decoded(text.value), "crs_type": "wkt2:2019"} if status == 0 and text.value else {}
    finally:
        gdal.VSIFree(ctypes.cast(text, POINTER))


def with_geometries(columns: List[Field], geometries: List[Geometry]) -> Tuple[List[Field], List[Optional[str]]]:
    """The columns, with GDAL's CRS where they have none, and by GeoArrow's name for WKB where they have GDAL's older one;
    and the geometry type of each, where it knows one.

    The geometry fields of a layer stand in its stream in their order; if some were left out, nothing is said of any.
    """
    places = [at for at, column in enumerate(columns) if _is_geometry(column)]
    columns = [_renamed(column) for column in columns]
    types: List[Optional[str]] = [None] * len(columns)
    if len(places) == len(geometries):
        for at, geometry in zip(places, geometries):
            columns[at], types[at] = _with_crs(columns[at], geometry.crs), geometry.type
    return columns, types


def _is_geometry(column: Field) -> bool:
    name = column.get("metadata", {}).get(EXTENSION_NAME, "")
    return name == "ogc.wkb" or name.startswith("geoarrow.")


def _renamed(column: Field) -> Field:
    """The column, which has GeoArrow's name for WKB where GDAL gave it the older `ogc.wkb`."""
    metadata = column.get("metadata", {})
    if metadata.get(EXTENSION_NAME) != "ogc.wkb":
        return column
    return {**column, "metadata": {**metadata, EXTENSION_NAME: "geoarrow.wkb"}}


def _with_crs(column: Field, crs: Dict[str, str]) -> Field:
    """The column with this CRS, where its extension metadata is an object without one, or is missing."""
    metadata = column["metadata"]
    try:
        said = json.loads(metadata.get(EXTENSION_METADATA) or "{}")
    except (ValueError, RecursionError):
        return column
    if not crs or not isinstance(said, dict) or said.get("crs") is not None:
        return column
    text = json.dumps({**said, **crs}, sort_keys=True, separators=(",", ":"))
    return {**column, "metadata": {**metadata, EXTENSION_METADATA: text}}


def _texts(texts: List[bytes]) -> Any:
    """A list of texts as GDAL takes one."""
    return ctypes.cast((TEXT * (len(texts) + 1))(*texts, None), POINTER)


def _decoded(text: bytes) -> str:
    return text.decode("utf-8", "replace")


def _refuse_failure(gdal: Any) -> None:
    """Refuses a file in which GDAL met a fault and went on, as where the rest of a file or a pipe is missing."""
    if gdal.CPLGetLastErrorType() >= FAILURE:
        raise FileError(_said(gdal, "GDAL met a fault in it"))


def _said(gdal: Any, else_this: str) -> str:
    """What GDAL says of its last error, in one line."""
    return shown(_decoded(gdal.CPLGetLastErrorMsg()).split("\n")[0], 200) or else_this
