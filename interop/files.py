"""The lines of files: by pyarrow or, whatever else it is, by GDAL."""
import os
import pathlib
from typing import Any, List, Optional, Tuple

from .making import shown
from .structures import lines

from . import gdal_layers
from .gdal_layers import FileError, Layer

OF_PYARROW = {".parquet", ".arrow", ".feather"}


def layers_of_file(path: str, layer: Optional[str] = None, every: bool = False) -> Tuple[List[Layer], List[str]]:
    """The layer of this name, all layers or else the first, in a list; and the names of all layers of the file.

    A path that begins with `/vsi` and names nothing here is one of GDAL's virtual file systems.
    """
    virtual = False
    try:
        os.stat(path)
    except OSError as error:
        virtual = path.startswith("/vsi")
        if not virtual:
            raise FileError(error.strerror or str(error)) from None
    if not virtual and pathlib.PurePath(path).suffix.lower() in OF_PYARROW:
        if layer is not None:
            raise FileError("a file of this kind has no layers")
        found = lines(_schema_by_pyarrow(path))
        return [Layer(None, found, [None] * len(found))], []
    return gdal_layers.layers_and_names(path, layer, every)


def lines_of_file(path: str, layer: Optional[str] = None) -> Tuple[List[str], Optional[str], List[str]]:
    """The lines of a file; the name of the layer that they are of, where it has layers; and the names of all."""
    (found,), names = layers_of_file(path, layer)
    return found.lines, found.name, names


def _schema_by_pyarrow(path: str) -> Any:
    try:
        import pyarrow
        from pyarrow import ipc, parquet
    except ImportError as error:
        raise FileError(f"pyarrow is needed for such a file: {shown(str(error), 200)}") from None
    try:
        if path.lower().endswith(".parquet"):
            return parquet.read_schema(path)
        try:
            with open(path, "rb") as file:
                return ipc.open_file(file).schema
        except pyarrow.ArrowInvalid:
            with open(path, "rb") as file:
                return ipc.open_stream(file).schema
    except (pyarrow.ArrowException, OSError) as error:
        raise FileError(shown(str(error).split("\n")[0], 200)) from None
