"""From Arrow schemas to the lines of geoarrow_fields, and back: a package that needs only Python 3.8 and its library.

    lines(schema)           a line a column, of an object with `__arrow_c_schema__` or with `__arrow_c_stream__` (whose
                            rows are not read), and of the others that `structures.columns_of` names
    Schema(lines)           an object with `__arrow_c_schema__`, of such lines
    lines_of_file(path)     the lines of a file or of a layer of it, the name of that layer, and the names of all layers
    layers_of_file(path)    the layers of a file with their lines and geometry types, and the names of all layers

A schema or a line that is wrong is a `SchemaError`, which is a `ValueError` and counts columns from 0; an object that
gives no schema is a `TypeError`, an address among them, and a file that cannot be read a `FileError`. The same names stand in `interop.arrow_lines`, which is also the command;
`python3 -m interop` runs it too.
"""
from . import making, structures
from .files import layers_of_file, lines_of_file
from .gdal_layers import FileError, Layer
from .making import Schema, SchemaError
from .structures import lines

__all__ = ["FileError", "Layer", "Schema", "SchemaError", "layers_of_file", "lines", "lines_of_file"]
