"""What the columns of an Arrow schema hold of GeoArrow's geometry types, and why they are invalid.

    check(source)          what each column holds: a list of `Column`, shown as a table
    same(first, *others)   in what the columns of each other source are not those of the first: a list of `Finding` for each
    canonical(source)      the line of each column of a source, those of geometries in normal form
    read(line)             the GeoArrow type that a field says it holds
    canon(line)            the field as GeoArrow writes it
    write_schema(lines)    the Arrow stream of a schema of these columns
    lines(source)          the line of each column of a source; `Schema(lines)` is an object of these columns, as pyarrow, polars and others take
    point(crs=..), ..      a column of geometries, as pyarrow, polars and others take it; `schema([..])` is a schema of such columns

The answers are those of the proved programs `geoarrow_fields` and `geoarrow_check`, by the library that include/geoarrow.h
declares. It needs Python 3.8 or later, and nothing else.
"""
from typing import Any, Callable, Iterable, List, Tuple, Union

from . import library, objects, schema_lines, sources
from .columns import Column, Columns, Finding, columns_of
from .compared import Differences, differences_of
from .library import Command
from .makers import (
    Field, box, geometry, geometrycollection, linestring, multilinestring, multipoint, multipolygon, point, polygon, schema, wkb, wkt)
from .refusals import GeoArrowError, InvalidColumns, RefusedSource, SchemaError, moved, moved_lines, named
from .schema_lines import Schema, line_bytes, of_lines
from .weights import Weights, Words

__all__ = [
    "Column", "Columns", "Differences", "Field", "Finding", "GeoArrowError", "InvalidColumns", "RefusedSource", "Schema", "SchemaError", "box", "canon", "canonical", "check",
    "geometry", "geometrycollection", "lines", "linestring", "multilinestring", "multipoint", "multipolygon", "point", "polygon", "read", "same", "schema", "wkb", "wkt",
    "write_schema"]

__version__ = "2.0.0"


def check(source: Any, infer: bool = False, strict: bool = False, notes: bool = False, deny: Words = (), allow: Words = ()) -> Columns:
    """What each column of a source holds.

    `source` is
    - the path of an Arrow file (Feather), an Arrow stream, a Parquet file or lines, as a str or an `os.PathLike`;
    - such a file that is open in binary mode: an object with `read`. One that can seek is read as a whole, wherever it stands, and then stands there again;
      any other is read from where it stands;
    - the bytes of one, or an object whose buffer they are, as an array of bytes;
    - lines in a list or a tuple;
    - an object that gives a schema, a field or an array over Arrow's C data interface, such as one of pyarrow or polars (`lines`).
    Of a file only the bytes that say what its columns are are read. What is found in a column are its `findings`, also why it is invalid; `findings` of what is answered
    are what is found beside the columns, in the footer of a Parquet file, in the schema that it stores and in its GeoParquet metadata. With `infer`, a column without an
    extension name is taken for what is inferred from its data type. With `strict`, `InvalidColumns` is raised where one is invalid, and `RefusedSource` where a line is bad. With `notes`, what is only
    worth to know is among the findings. Findings of the codes in `deny` are errors, notes too, and those of the codes in `allow` are left out; each is a code or several,
    where "warnings" stands for all that are warnings and not named themselves (docs/FORMAT.md, 2.7).

    Of lines, those that are not blank and denote no column are the `bad_lines` of what is answered, each a `Finding`, and the others are columns. `RefusedSource` is raised only where
    the first line that is not blank is `{` or `[` alone, or GeoJSON, and where there is neither a column nor a bad line.

    A list without lines and a schema without columns have no columns; a file or bytes that are empty, or blank lines alone, are refused.

    Raises `TypeError` where the source is none of these; `ValueError` where a code is none, stands in both, or is allowed and always counts; `RefusedSource`, a `ValueError` with the `Finding` that says why, where the bytes are not read;
    `SchemaError`, which is one too, where the schema of the object is wrong; `OSError` for the file; and `MemoryError`.
    """
    weights = Weights(notes, deny, allow)
    columns = columns_of(weights.weighed(_report_of(source, infer, weights.with_notes)))
    if strict and columns.bad_lines:
        raise RefusedSource(columns.bad_lines[0].json)
    invalid = [one for one in columns if one.is_invalid and one.is_error] if strict else []
    if invalid:
        raise InvalidColumns(invalid)
    return columns


def _report_of(source: Any, infer: bool, notes: bool) -> str:
    """The report of a source. Of an object that gives a schema the structure itself is reported, and not its lines, which have no metadata of the schema."""
    if sources.is_schema_object(source):
        status, text = objects.read(source, lambda at, may_have_name: library.report_of_structure(at, may_have_name, infer, notes))
        if status == library.REFUSED:
            raise SchemaError(text.rstrip("\n"))
        return text
    given = sources.given_of(source)
    if given.is_schema and not given.content:
        return ""
    status, text = library.report(given.name, given.content, infer, notes)
    if status == library.REFUSED:
        raise RefusedSource(moved(text.rstrip("\n"), given.left_out))
    return moved_lines(text, given.left_out)


def same(first: Any, *others: Any, infer: bool = False, notes: bool = False) -> List[Differences]:
    """In what the columns of each other source are not those of the first, as `geoarrow_check --same` tells it (docs/FORMAT.md, 2.9): for each a list of `Finding`, which is
    empty where nothing differs.

    Sources are those of `check`, of which the first is read once, and each other when the ones before it are compared. A column is compared with that of its name in the
    first, the second of a name with the second: by its type, its encoding, its edges and its CRS; the order of columns does not matter. With `infer`, types that are inferred
    are compared. With `notes`, a CRS of which nothing tells whether it is that of the first is told. Of lines, those that denote no column are passed over.

    An other source that is refused is not compared: its list has the one finding that says why, and its `refused` is the `RefusedSource`. Raises that error where the first is
    refused; and otherwise what `check` raises of sources.
    """
    of_first = sources.given_of(first)
    return [differences_of(of_first, sources.given_of(other), infer, notes) for other in others]


def canonical(source: Any) -> List[str]:
    """The line of each column of a source in normal form, in order, as `geoarrow_check --canonical --lines` prints it (docs/FORMAT.md, 2.10): a column that holds geometries by
    its extension name with the data type, the extension name and the metadata that GeoArrow writes for them, and any other as it is. `write_schema` makes an Arrow stream of
    these lines, and `Schema` an object that gives their schema.

    Sources are those of `check`, and the columns are those that it finds in them, of a GeoParquet file by its metadata, where no types are inferred. Of lines, those that denote
    no column are left out. It says how columns are to be written, and what is found in them is not told.

    Raises `RefusedSource` where the source is not read, and otherwise what `check` raises of sources.
    """
    return _lines_of(source, library.canonical)


def lines(source: Any) -> List[str]:
    """The line of each column of a source, in order, as `geoarrow_check --lines` prints it (docs/FORMAT.md, 2.7). `Schema` makes an object of the lines that gives their schema.

    Sources are those of `check`; of a file the columns are those of `canonical`, as they stand in it. An object that gives a field, a data type or an array has one column.
    `objects.read` says which objects do, and what each is asked for.

    The interface of Arrow has one structure for a schema, a field and a data type, so the structure decides: one of the format `+s` without a name, without the name of an
    extension type and without a dictionary is a schema, whose columns are its children; any other is one column. So a data type that is a struct is taken for a schema, as is a
    field of a struct without a name, and a schema with a name for a column; but that of a stream may have a name.

    Raises `RefusedSource` where the source is not read, and otherwise what `check` raises of sources.
    """
    if sources.is_schema_object(source):
        return schema_lines.lines(source)
    return _lines_of(source, library.lines)


def _lines_of(source: Any, call: Callable[[bytes], Tuple[int, str]]) -> List[str]:
    """The lines that a call writes of the bytes of a source."""
    given = sources.given_of(source)
    if given.is_schema and not given.content:
        return []
    status, text = call(given.content)
    found = text.split("\n")[:-1]
    if status == library.REFUSED:
        raise RefusedSource(moved(named(found[0], given.name.decode()), given.left_out))
    return found


def read(line: Union[str, bytes]) -> str:
    """The answer of `read` to the line of one field: its type, as `point separated XY -`, `none`, or why it is refused (docs/FORMAT.md, 2.2)."""
    return library.answer(Command.READ, line_bytes(line))


def canon(line: Union[str, bytes]) -> str:
    """The answer of `canon` to the line of one field: the line of the field as GeoArrow writes it, `none`, or why it is refused."""
    return library.answer(Command.CANON, line_bytes(line))


def write_schema(lines: Iterable[Union[str, bytes]]) -> bytes:
    """An Arrow stream of the schema whose columns the lines denote (docs/FORMAT.md, 2.7 and 3.6). It has the schema alone: no batches, and no
    mark of the stream's end.

    Raises `RefusedSource` where a line denotes no column, no message can hold its type, or the schema is too large; and `MemoryError`.
    """
    if isinstance(lines, (str, bytes)):
        raise TypeError("lines are a list of texts")
    status, found = library.stream(of_lines(lines))
    if status == library.REFUSED:
        raise RefusedSource(str(found, "utf-8").rstrip("\n"))
    return found
