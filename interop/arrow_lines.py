#!/usr/bin/env python3
"""The names of the package, and its command, which starts from any folder as interop/arrow_lines.py.

    interop/arrow_lines.py FILE | bin/geoarrow_check -
    interop/arrow_lines.py --check FILE

`interop.command` says what the command does, and `interop` what its functions do.
"""
import pathlib
import sys

if not __package__:  # started or imported by its own path, and so not known as a part of the package
    sys.path.insert(0, str(pathlib.Path(__file__).resolve().parent.parent))

from interop import FileError, Layer, Schema, SchemaError, layers_of_file, lines, lines_of_file  # noqa: E402
from interop.command import main  # noqa: E402

__all__ = ["FileError", "Layer", "Schema", "SchemaError", "layers_of_file", "lines", "lines_of_file", "main"]

if __name__ == "__main__":
    sys.exit(main())
