"""Arrow's C data interface, read without the library of C: the fields of `ArrowSchema` structures.

A field is here what one line of the program holds, as Python's `json` reads it: a dict of `name`, `nullable`, `type`
and, where there is some, `metadata` (docs/FORMAT.md, 2.1). Nothing but Python's own library is used. The package in
python/ has the library read structures; what is read here is what the tests compare that with.

What is taken from others is moved into a structure of ours first, which marks theirs as released, and is released from
there, once, however the reading ends.
"""
import ctypes
import json
import re
from typing import Any, Callable, Dict, List, Optional

from . import notation
from .making import EXTENSION_NAME, FORMATS, LISTS, ArrowSchema, SchemaError, release, shown, sweep

Field = Dict[str, Any]

LINE_BYTES = 1_048_576  # of a line at most, docs/FORMAT.md, 2.3
LINES = 1_000_000  # of an input at most
LEVELS = 64  # of fields in one another; more brackets than a line may nest stand in a line of 65
FIELD_BYTES = len('{"name":"","nullable":true,"type":"null"}')  # the least that a field takes in a line

SCHEMA_CAPSULE = ctypes.create_string_buffer(b"arrow_schema")
ARRAY_CAPSULE = ctypes.create_string_buffer(b"arrow_array")
STREAM_CAPSULE = ctypes.create_string_buffer(b"arrow_array_stream")
ORDERED, NULLABLE = 1, 2  # the flags

WORDS = {text: word for word, text in FORMATS.items()}
LIST_WORDS = {text: word for word, text in LISTS.items()}
MODE_WORDS = {"d": "dense", "s": "sparse"}
SIZED_LIST = re.compile(r"\+w:([0-9]{1,10})")
UNION = re.compile(r"\+u([ds]):((?:[0-9]{1,3}(?:,[0-9]{1,3})*)?)")


class ArrowArray(ctypes.Structure):
    """The structure of an array, which is released and never read."""

    _fields_ = [
        ("length", ctypes.c_int64),
        ("null_count", ctypes.c_int64),
        ("offset", ctypes.c_int64),
        ("n_buffers", ctypes.c_int64),
        ("n_children", ctypes.c_int64),
        ("buffers", ctypes.c_void_p),
        ("children", ctypes.c_void_p),
        ("dictionary", ctypes.c_void_p),
        ("release", ctypes.c_void_p),
        ("private_data", ctypes.c_void_p),
    ]


class ArrowArrayStream(ctypes.Structure):
    """The structure of Arrow's C stream interface."""

    _fields_ = [
        ("get_schema", ctypes.c_void_p),
        ("get_next", ctypes.c_void_p),
        ("get_last_error", ctypes.c_void_p),
        ("release", ctypes.c_void_p),
        ("private_data", ctypes.c_void_p),
    ]


GET_SCHEMA = ctypes.CFUNCTYPE(ctypes.c_int, ctypes.c_void_p, ctypes.c_void_p)
GET_LAST_ERROR = ctypes.CFUNCTYPE(ctypes.c_char_p, ctypes.c_void_p)
_api = ctypes.pythonapi
_capsule_address = ctypes.PYFUNCTYPE(ctypes.c_void_p, ctypes.py_object, ctypes.c_void_p)(
    ("PyCapsule_GetPointer", _api))
_capsule_is_valid = ctypes.PYFUNCTYPE(ctypes.c_int, ctypes.py_object, ctypes.c_void_p)(("PyCapsule_IsValid", _api))


def moved(kind: type, address: int) -> Any:
    """The structure at an address, moved into one of ours; the one at the address is then a released one."""
    if not address:
        raise SchemaError("no address of a structure")
    source = kind.from_address(address)
    if not source.release:
        raise SchemaError("the structure was released before")
    ours = kind.from_buffer_copy(source)
    source.release = None
    return ours


def columns_at(address: int) -> List[Field]:
    """The columns of the schema, or the one column of the field or data type, at an address. What stands there is released, however this ends.

    A wrong address cannot be noticed. So this call is for who has the address from code of C that is trusted, and nothing that a caller of the package
    gives to it is taken for an address.
    """
    return _taken(address, False)


def columns_of_stream_at(address: int) -> List[Field]:
    """The columns of the stream of arrays at an address, which is released, however this ends. No array is read."""
    ours = moved(ArrowArrayStream, address)
    try:
        if not ours.get_schema:
            raise SchemaError("the stream has no call that gives its schema")
        schema = ArrowSchema()
        status = GET_SCHEMA(ours.get_schema)(ctypes.addressof(ours), ctypes.addressof(schema))
        if status != 0:
            said = GET_LAST_ERROR(ours.get_last_error)(ctypes.addressof(ours)) if ours.get_last_error else None
            why = shown(said.decode("utf-8", "replace"), 200) if said else f"error {status}"
            raise SchemaError(f"the stream gives no schema: {why}")
        return _taken(ctypes.addressof(schema), True)
    finally:
        release(ours)


def columns_of(given: Any) -> List[Field]:
    """The columns of an object that gives an Arrow schema; the one column of one that gives a field, a data type or an array. `TypeError` where it gives
    neither, and `SchemaError` where what it gives is wrong.

    It is asked for the first of these that it has: `__arrow_c_schema__`; `__arrow_c_stream__`, whose batches are not read; a `schema` that has the first
    or is one of pyarrow; `_export_to_c`, if it is a schema, a field or a data type of pyarrow; `__arrow_c_array__`, whose array is not read.

    The interface has one structure for a schema, a field and a data type, so the structure decides: one of the format `+s` without a name, without the name of
    an extension type and without a dictionary is a schema, whose columns are its children; any other is one column. So a data type that is a struct is taken
    for a schema, as is a field of a struct without a name, and a schema with a name for a column. The structure of a stream may have a name, since its arrays are
    rows of a table, and some libraries give them one.
    """
    way = _way_of(given)
    if way is None:
        raise TypeError(f"{shown(type(given).__name__)} gives no Arrow schema")
    try:
        return way(given)
    finally:
        sweep()  # of what the package has given out


def gives_columns(given: Any) -> bool:
    """Whether `columns_of` takes an object. Nothing is exported."""
    return _way_of(given) is not None


def _way_of(given: Any) -> Optional[Callable[[Any], List[Field]]]:
    if hasattr(given, "__arrow_c_schema__"):
        return _of_schema
    if hasattr(given, "__arrow_c_stream__"):
        return _of_stream
    schema = getattr(given, "schema", None)
    if hasattr(schema, "__arrow_c_schema__"):
        return lambda one: _of_schema(schema)
    if _is_of_pyarrow(schema):
        return lambda one: _of_pyarrow(schema)
    if _is_of_pyarrow(given):
        return _of_pyarrow
    return _of_array if hasattr(given, "__arrow_c_array__") else None


def _of_schema(given: Any) -> List[Field]:
    capsule = given.__arrow_c_schema__()
    return columns_at(_address_in(capsule, SCHEMA_CAPSULE))


def _of_stream(given: Any) -> List[Field]:
    capsule = given.__arrow_c_stream__()
    return columns_of_stream_at(_address_in(capsule, STREAM_CAPSULE))


def _of_array(given: Any) -> List[Field]:
    """The column of an array, which is released, as the schema is."""
    pair = given.__arrow_c_array__()
    if not isinstance(pair, tuple) or len(pair) != 2:
        raise SchemaError("no pair of a schema and an array")
    schema, array = pair
    ours = moved(ArrowArray, _address_in(array, ARRAY_CAPSULE))
    try:
        return columns_at(_address_in(schema, SCHEMA_CAPSULE))
    finally:
        release(ours)


OF_PYARROW = frozenset(["Schema", "Field", "DataType"])


def _is_of_pyarrow(given: Any) -> bool:
    """Whether an object is a schema, a field or a data type of pyarrow, whose `_export_to_c` writes one `ArrowSchema` to an address. That of an array, of a
    batch and of a reader writes another structure, which is larger. The classes tell, so that pyarrow need not be there."""
    return hasattr(given, "_export_to_c") and any(
        one.__name__ in OF_PYARROW and str(one.__module__).partition(".")[0] == "pyarrow" for one in type(given).__mro__)


def _of_pyarrow(given: Any) -> List[Field]:
    """The columns by the older export of pyarrow; where it fails half way, what it left is released."""
    ours = ArrowSchema()
    try:
        given._export_to_c(ctypes.addressof(ours))
        return columns_at(ctypes.addressof(ours))
    finally:
        if ours.release:
            release(ours)


def _address_in(capsule: Any, name: Any) -> int:
    """The address in a capsule of that name."""
    if not _capsule_is_valid(capsule, ctypes.addressof(name)):
        raise SchemaError(f"no capsule of the name {name.value.decode()}")
    return _capsule_address(capsule, ctypes.addressof(name))


def _taken(address: int, may_have_name: bool) -> List[Field]:
    """What `columns_at` says, of a schema that may have a name or of one that may not."""
    ours = moved(ArrowSchema, address)
    try:
        if not _is_schema(ours, may_have_name):
            return [_Column("column 0").field(ours, 1)]
        children = _children(ours, LINES, "the schema")
        return [_Column(f"column {at}").field(child, 1) for at, child in enumerate(children)]
    finally:
        release(ours)


def _is_schema(schema: ArrowSchema, may_have_name: bool) -> bool:
    """Whether a structure is a schema, whose columns are its children, and not itself a column."""
    if schema.format != b"+s" or schema.dictionary or schema.name and not may_have_name:
        return False
    return EXTENSION_NAME not in _metadata(schema.metadata, "the schema")


class _Column:
    """The reading of one column, with no more fields in it than a line has room for."""

    def __init__(self, where: str) -> None:
        self.where = where
        self.left = LINE_BYTES // FIELD_BYTES

    def field(self, schema: ArrowSchema, level: int) -> Field:
        if not schema.release:
            raise SchemaError(f"{self.where}: a field was released before")
        self.left -= 1
        if self.left < 0:
            raise SchemaError(f"{self.where}: more fields than a line has room for")
        name = _text(schema.name, "name", self.where) if schema.name is not None else ""
        if level == 1:
            self.where += f" ({shown(name)})"
        kind = self.type(schema, level)
        if level == 1 and notation.has_other(kind):
            kind = {"other": notation.of_type(kind)}
        found = {"name": name, "nullable": bool(schema.flags & NULLABLE), "type": kind}
        metadata = _metadata(schema.metadata, self.where)
        if metadata:
            found["metadata"] = metadata
        return found

    def type(self, schema: ArrowSchema, level: int) -> Any:
        """The type as a line has it; another type as an object of its notation, or of its format string where it nests too deep."""
        text = _text(schema.format, "format string", self.where)
        plain = WORDS.get(text) or notation.of_format(text)
        if plain and schema.n_children != 0:
            raise SchemaError(f"{self.where}: format {shown(text)} with children")
        if level == LEVELS and (text.startswith("+") or schema.dictionary):
            return {"other": text}
        if schema.dictionary and plain:
            values = ArrowSchema.from_address(schema.dictionary)
            if not values.release:
                raise SchemaError(f"{self.where}: a dictionary that was released before")
            held = notation.of_type(self.type(values, level + 1))
            return {"other": notation.dictionary(held, plain, bool(schema.flags & ORDERED))}
        if text in WORDS:
            return plain
        return {"other": plain} if plain else self.nested(text, schema, level + 1)

    def nested(self, text: str, schema: ArrowSchema, level: int) -> Any:
        sized, union = SIZED_LIST.fullmatch(text), UNION.fullmatch(text)
        known = text in LIST_WORDS or text in notation.NESTED or sized or union or text == "+s"
        if not known or schema.dictionary:
            raise SchemaError(f"{self.where}: unknown format {shown(text)}")
        below = [self.field(child, level) for child in _children(schema, self.left, self.where)]
        if text in notation.NESTED:
            if len(below) != 1 + (text == "+r"):
                raise SchemaError(f"{self.where}: format {text} with {len(below)} children")
            return {"other": notation.nested(notation.NESTED[text], *map(notation.part, below))}
        if text == "+s":
            return {"struct": below}
        if union:
            return self.union(MODE_WORDS[union.group(1)], union.group(2), below)
        if len(below) != 1:
            raise SchemaError(f"{self.where}: a list with {len(below)} children")
        if not sized:
            return {LIST_WORDS[text]: below[0]}
        if int(sized.group(1)) > 2**31 - 1:
            raise SchemaError(f"{self.where}: a list of the size {sized.group(1)}")
        return {"fixed_size_list": below[0], "size": int(sized.group(1))}

    def union(self, mode: str, listed: str, below: List[Field]) -> Any:
        ids = [int(one) for one in listed.split(",")] if listed else []
        if len(ids) != len(below) or len(set(ids)) != len(ids) or any(one > 127 for one in ids):
            raise SchemaError(f"{self.where}: a union of {len(below)} children with the type ids {shown(listed)}")
        return {"mode": mode, "union": [[one, field] for one, field in zip(ids, below)]}


def _text(given: Optional[bytes], what: str, where: str) -> str:
    if given is None:
        raise SchemaError(f"{where}: no {what}")
    try:
        return given.decode("utf-8")
    except UnicodeDecodeError:
        raise SchemaError(f"{where}: a {what} that is not UTF-8") from None


def _children(schema: ArrowSchema, most: int, where: str) -> List[ArrowSchema]:
    count = schema.n_children
    if count < 0 or count > most:
        raise SchemaError(f"{where}: {count} children")
    if count and not schema.children:
        raise SchemaError(f"{where}: {count} children, and no address of them")
    addresses = schema.children[:count] if count else []
    if not all(addresses):
        raise SchemaError(f"{where}: a child without an address")
    return [ArrowSchema.from_address(address) for address in addresses]


def _metadata(address: Optional[int], where: str) -> Dict[str, str]:
    """The metadata at an address: a count, and so many keys and values, each behind its length. Of a key that stands
    twice the last value counts. No length tells how much memory is there, so only what is past a line is refused."""
    if not address:
        return {}
    end = address + LINE_BYTES

    def number(what: str) -> int:
        nonlocal address
        found = ctypes.c_int32.from_address(address).value
        address += 4
        if found < 0 or found > end - address:
            raise SchemaError(f"{where}: metadata with the {what} {found}")
        return found

    def text() -> str:
        nonlocal address
        length = number("length")
        found = ctypes.string_at(address, length)
        address += length
        return _text(found, "text in the metadata", where)

    pairs = ((text(), text()) for _ in range(number("count")))
    return dict(pairs)


def lines(schema: Any) -> List[str]:
    """The line of each column of an object that gives an Arrow schema, in order, as the program prints such a line; one that gives a field, a data type or an
    array has one column.

    Raises `TypeError` for an object that gives neither, an integer among them, and `SchemaError`, a `ValueError`, where what it gives is wrong.
    """
    return lines_of_columns(columns_of(schema))


def lines_of_columns(columns: List[Field]) -> List[str]:
    """The line of each of these columns."""
    found = [json.dumps(one, ensure_ascii=False, sort_keys=True, separators=(",", ":")) for one in columns]
    for at, line in enumerate(found):
        length = len(line.encode("utf-8"))
        if length > LINE_BYTES:
            raise SchemaError(f"column {at} ({shown(columns[at]['name'])}): a line of {length} bytes, of {LINE_BYTES} at most")
    return found
