"""Arrow's C data interface, made without the library of C: `ArrowSchema` structures out of fields.

A field is here what one line of the program holds, as Python's `json` reads it: a dict of `name`, `nullable`, `type`
and, where there is some, `metadata` (docs/FORMAT.md, 2.1). `export` makes a structure of ours in a capsule. Nothing but
Python's own library is used.

Each structure of a tree holds what it points at by itself, until its release callback is called, so that a consumer may
move a child out of its parent. What stands in a capsule that nobody else holds any more is released by `sweep`.
"""
import collections
import ctypes
import itertools
import json
import struct
import sys
import threading
from typing import Any, Callable, Deque, Dict, Iterable, List, NamedTuple, NoReturn, Optional, Tuple, Union

from . import notation

Field = Dict[str, Any]

LEVELS = 64  # of fields in one another; more brackets than a line may nest stand in a line of 65

SCHEMA_CAPSULE = ctypes.create_string_buffer(b"arrow_schema")
EXTENSION_NAME = "ARROW:extension:name"
NULLABLE = 2  # the flag

# Each plain type that a line can hold, and its format string.
FORMATS = {
    "null": "n", "boolean": "b", "int8": "c", "int16": "s", "int32": "i", "int64": "l", "uint8": "C", "uint16": "S",
    "uint32": "I", "uint64": "L", "float16": "e", "float32": "f", "float64": "g", "date32": "tdD", "date64": "tdm",
    "binary": "z", "large_binary": "Z", "binary_view": "vz", "utf8": "u", "large_utf8": "U", "utf8_view": "vu",
}
LISTS = {"list": "+l", "large_list": "+L"}
MODES = {"dense": "+ud:", "sparse": "+us:"}


class SchemaError(ValueError):
    """A schema or a line that is not what it should be; the text says where and why."""


class ArrowSchema(ctypes.Structure):
    """The structure of Arrow's C data interface; its children are addresses of `ArrowSchema`s."""

    _fields_ = [
        ("format", ctypes.c_char_p),
        ("name", ctypes.c_char_p),
        ("metadata", ctypes.c_void_p),
        ("flags", ctypes.c_int64),
        ("n_children", ctypes.c_int64),
        ("children", ctypes.POINTER(ctypes.c_void_p)),
        ("dictionary", ctypes.c_void_p),
        ("release", ctypes.c_void_p),
        ("private_data", ctypes.c_void_p),
    ]


# Addresses come and go as plain numbers: to make any other argument, ctypes calls a type, which fails where a callback
# is called with an exception under way.
RELEASE = ctypes.CFUNCTYPE(None, ctypes.c_void_p)
_api = ctypes.pythonapi
_capsule_new = ctypes.PYFUNCTYPE(ctypes.py_object, ctypes.c_void_p, ctypes.c_void_p, ctypes.c_void_p)(
    ("PyCapsule_New", _api))
_error_occurred = ctypes.PYFUNCTYPE(ctypes.c_void_p)(("PyErr_Occurred", _api))


def shown(text: str, most: int = 60) -> str:
    """A stranger's text for a message: what does not print is escaped, and what is long is cut."""
    cut = text if len(text) <= most else text[:most] + ".."
    return "".join(one if one.isprintable() else ascii(one)[1:-1] for one in cut)


def release(structure: Any) -> None:
    """Calls the release callback of a structure of ours."""
    callback = RELEASE(structure.release)
    callback(ctypes.addressof(structure))


class _Held:
    """What one structure of ours points at."""

    def __init__(self, text: bytes, name: bytes, metadata: Optional[bytes], children: int) -> None:
        self.text = text
        self.name = name
        self.metadata = None if metadata is None else ctypes.create_string_buffer(metadata, len(metadata))
        self.children = (ArrowSchema * children)()
        self.addresses = (ctypes.c_void_p * children)(*map(ctypes.addressof, self.children))


_numbers = itertools.count(1)
_held: Dict[int, _Held] = {}  # by the number in private_data, until the structure is released


def _fill(schema: ArrowSchema, field: Any, level: int, where: str) -> None:
    """Makes a structure that is in its place that of a field."""
    if level > LEVELS:
        raise SchemaError(f"{where}: fields nested deeper than a line may")
    if not isinstance(field, dict) or not {"name", "nullable", "type"} <= field.keys():
        raise SchemaError(f"{where}: no field")
    name, nullable, metadata = field["name"], field["nullable"], field.get("metadata", {})
    if not isinstance(name, str) or not isinstance(nullable, bool):
        raise SchemaError(f"{where}: a name that is no text, or nullable that is neither true nor false")
    text, below = _format(field["type"], where)
    held = _Held(_c_text(text, where), _c_text(name, where), _metadata_bytes(metadata, where), len(below))
    _hold(schema, held, NULLABLE if nullable else 0)
    for child, one in zip(held.children, below):
        _fill(child, one, level + 1, where)


def _hold(schema: ArrowSchema, held: _Held, flags: int) -> None:
    schema.format, schema.name = held.text, held.name
    schema.metadata = None if held.metadata is None else ctypes.addressof(held.metadata)
    schema.flags = flags
    schema.n_children = len(held.children)
    schema.children = ctypes.cast(held.addresses, ctypes.POINTER(ctypes.c_void_p)) if len(held.children) else None
    schema.private_data = next(_numbers)
    schema.release = _released_address
    _held[schema.private_data] = held


def _format(kind: Any, where: str) -> Tuple[str, List[Any]]:
    """The format string of a type and the fields in it."""
    if isinstance(kind, str):
        if kind in FORMATS:
            return FORMATS[kind], []
        raise SchemaError(f"{where}: the type {shown(kind)} stands for none")
    keys = frozenset(kind) if isinstance(kind, dict) else frozenset()
    if keys == {"other"} and isinstance(kind["other"], str):
        text = notation.format_of(kind["other"])
        if text is None:
            raise SchemaError(f"{where}: the type {shown(kind['other'])} is not said whole by its notation")
        return text, []
    if len(keys) == 1 and keys <= LISTS.keys():
        (word,) = keys
        return LISTS[word], [kind[word]]
    if keys == {"struct"} and isinstance(kind["struct"], list):
        return "+s", kind["struct"]
    if keys == {"fixed_size_list", "size"}:
        size = kind["size"]
        if type(size) is int and 0 <= size < 2**31:
            return f"+w:{size}", [kind["fixed_size_list"]]
        raise SchemaError(f"{where}: a list of the size {shown(str(size))}")
    if keys == {"mode", "union"} and isinstance(kind["mode"], str) and kind["mode"] in MODES:
        return _union_format(MODES[kind["mode"]], kind["union"], where)
    raise SchemaError(f"{where}: no type")


def _union_format(start: str, members: Any, where: str) -> Tuple[str, List[Any]]:
    if not isinstance(members, list) or not all(isinstance(one, list) and len(one) == 2 for one in members):
        raise SchemaError(f"{where}: a union whose members are no pairs")
    ids = [one for one, _ in members]
    if not all(type(one) is int and 0 <= one <= 127 for one in ids) or len(set(ids)) != len(ids):
        raise SchemaError(f"{where}: a union with the type ids {shown(str(ids))}")
    return start + ",".join(map(str, ids)), [field for _, field in members]


def _utf8(text: str, where: str) -> bytes:
    try:
        return text.encode("utf-8")
    except UnicodeEncodeError:
        raise SchemaError(f"{where}: a text that UTF-8 cannot hold") from None


def _c_text(text: str, where: str) -> bytes:
    found = _utf8(text, where)
    if b"\0" in found:
        raise SchemaError(f"{where}: a name or a format with a character 0, which ends a text of C")
    return found


def _metadata_bytes(metadata: Any, where: str) -> Optional[bytes]:
    if not isinstance(metadata, dict) or not all(isinstance(text, str) for text in metadata.values()):
        raise SchemaError(f"{where}: metadata that are no object of texts")
    if not metadata:
        return None
    parts = [struct.pack("=i", len(metadata))]
    for text in itertools.chain.from_iterable(metadata.items()):
        encoded = _utf8(text, where)
        parts += [struct.pack("=i", len(encoded)), encoded]
    return b"".join(parts)


def _under_way() -> Optional[BaseException]:
    """The exception under which a callback was called, which is then no longer set. ctypes raises it behind the first
    call of Python's C interface. A callback in Python cannot leave it set, so the C code that called loses it."""
    try:
        _error_occurred()
    except BaseException as told:
        return told
    return None


def _callback(function: Callable[[int], None]) -> Tuple[Any, int]:
    """A C function of a Python function, and its address. It stays for ever, since a consumer may call it late."""
    def called(address: int) -> None:
        under_way = _under_way()
        function(address)
        if under_way is not None:
            raise under_way  # ctypes prints it

    made = RELEASE(called)
    ctypes.pythonapi.Py_IncRef(ctypes.py_object(made))
    return made, ctypes.cast(made, ctypes.c_void_p).value or 0


def _on_release(address: int) -> None:
    """The release callback of each structure of ours: it releases the children that are still in their places."""
    schema = ArrowSchema.from_address(address)
    held = _held.pop(schema.private_data, None)
    schema.release = None
    for child in held.children if held is not None else ():
        if child.release:
            release(child)


_released, _released_address = _callback(_on_release)


class _Given(NamedTuple):
    """A capsule of ours, and the structure that stands in it."""

    capsule: Any
    schema: ArrowSchema


# The capsules that were given out. They have no destructor: one in Python would lose an exception under which a consumer drops its capsule. So each is held
# here, until nobody else holds it. (The list itself is never freed: at the end of a process others may still hold capsules.)
_given: Deque[_Given] = collections.deque()
ctypes.pythonapi.Py_IncRef(ctypes.py_object(_given))
_sweeping = threading.Lock()
_AT_ONCE = 16  # capsules that one sweep looks at, the next one at the next; so a sweep costs the same, however many others hold


def _capsule_of(schema: ArrowSchema) -> _Given:
    return _Given(_capsule_new(ctypes.addressof(schema), ctypes.addressof(SCHEMA_CAPSULE), None), schema)


_ALONE = _capsule_of(ArrowSchema())  # which nobody else holds


def _holders(one: _Given) -> int:
    """How often a capsule is held, and by this call."""
    return sys.getrefcount(one.capsule)


def sweep() -> None:
    """Releases what stands in capsules of ours that nobody else holds, and drops them. It is made when a capsule is given out, when a schema has been read,
    and when a `Schema` ends; so no more are kept than others hold, but for the last ones."""
    if not _sweeping.acquire(blocking=False):
        return  # another thread is at it, or this one is, which made the garbage collector run
    try:
        alone = _holders(_ALONE)
        for _ in range(min(_AT_ONCE, len(_given))):
            if _holders(_given[0]) != alone:
                _given.rotate(-1)
                continue
            if _given[0].schema.release:
                release(_given[0].schema)
            _given.popleft()
    finally:
        _sweeping.release()


def _schema_of(columns: List[Any]) -> ArrowSchema:
    """The schema of these columns, in a structure of ours that is to be released."""
    schema = ArrowSchema()
    held = _Held(b"+s", b"", None, len(columns))
    _hold(schema, held, 0)
    try:
        for at, (child, field) in enumerate(zip(held.children, columns)):
            _fill(child, field, 1, f"column {at}")
    except BaseException:
        release(schema)
        raise
    return schema


def refuse(columns: List[Any]) -> None:
    """Raises `SchemaError` where no schema has these columns."""
    release(_schema_of(columns))


def export(columns: List[Any]) -> Any:
    """A capsule with the schema of these columns. Its consumer may move the schema out of it, or release it there."""
    sweep()
    one = _capsule_of(_schema_of(columns))
    _given.append(one)
    return one.capsule


def held_count() -> int:
    """How many structures of ours are not released."""
    return len(_held)


class Schema:
    """The schema whose columns stand on lines, for any library that imports Arrow's C data interface.

    It takes the lines one by one, or a text with a line feed after each. It keeps nothing of what it gives out.
    """

    def __init__(self, given: Union[str, Iterable[str]]) -> None:
        if isinstance(given, str):
            given = given[:-1].split("\n") if given.endswith("\n") else given.split("\n") if given else []
        self._columns = [_parsed(line, at) for at, line in enumerate(given)]
        refuse(self._columns)

    def __arrow_c_schema__(self) -> Any:
        """A capsule with the schema, which is the taker's to consume."""
        return export(self._columns)

    def __del__(self, is_ending: Callable[[], bool] = sys.is_finalizing, sweep: Callable[[], None] = sweep) -> None:
        if not is_ending():
            sweep()


def _parsed(line: str, at: int) -> Any:
    """The JSON of a line."""
    def refused(text: str) -> NoReturn:
        raise SchemaError(f"column {at}: {shown(text)} is no JSON")

    def number(text: str) -> Union[int, float]:
        return float(text) if text == "-0" else int(text)  # -0 is not whole

    try:
        return json.loads(line, parse_constant=refused, parse_int=number)
    except SchemaError:
        raise
    except (ValueError, RecursionError):
        raise SchemaError(f"column {at}: the line is no JSON: {shown(line)}") from None
