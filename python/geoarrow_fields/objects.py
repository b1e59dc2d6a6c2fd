"""Objects that give an Arrow schema by Arrow's PyCapsule interface: which do, and the structure that each gives.

A structure is read by the library of C alone, in its place. It stays its capsule's, which releases it. Only the schema that a stream gives is ours, and is released here.
"""
import ctypes
from typing import Any, Callable, Optional, TypeVar

from .capsules import SCHEMA_CAPSULE, ArrowSchema, address_in, release, shown
from .refusals import SchemaError

Found = TypeVar("Found")
Reads = Callable[[int, bool], Found]  # the address of a structure, and whether that of a schema may have a name

_ARRAY_CAPSULE = ctypes.create_string_buffer(b"arrow_array")
_STREAM_CAPSULE = ctypes.create_string_buffer(b"arrow_array_stream")


class _ArrowArrayStream(ctypes.Structure):
    """The structure of Arrow's C stream interface."""

    _fields_ = [
        ("get_schema", ctypes.c_void_p),
        ("get_next", ctypes.c_void_p),
        ("get_last_error", ctypes.c_void_p),
        ("release", ctypes.c_void_p),
        ("private_data", ctypes.c_void_p),
    ]


_GET_SCHEMA = ctypes.CFUNCTYPE(ctypes.c_int, ctypes.c_void_p, ctypes.c_void_p)
_GET_LAST_ERROR = ctypes.CFUNCTYPE(ctypes.c_char_p, ctypes.c_void_p)


def gives_schema(given: Any) -> bool:
    """Whether `read` takes an object. Nothing is exported."""
    return _giver_of(given) is not None


def read(given: Any, reads: "Reads[Found]") -> Found:
    """What is read of the structure that an object gives; `TypeError` where it gives none, and `SchemaError` where what it gives is no capsule of one.

    It is asked for the first of these that it has: `__arrow_c_schema__`; `__arrow_c_stream__`, whose batches are not read; a `schema` that has the first;
    `__arrow_c_array__`, whose array is not read.
    """
    giver = _giver_of(given)
    if giver is None:
        raise TypeError(f"{shown(type(given).__name__)} gives no Arrow schema")
    found: Found = giver(reads)
    return found


def _giver_of(given: Any) -> Optional[Callable[["Reads[Any]"], Any]]:
    """What has the structure of an object read."""
    if hasattr(given, "__arrow_c_schema__"):
        return lambda reads: _of_schema(given, reads)
    if hasattr(given, "__arrow_c_stream__"):
        return lambda reads: _of_stream(given, reads)
    schema = getattr(given, "schema", None)
    if hasattr(schema, "__arrow_c_schema__"):
        return lambda reads: _of_schema(schema, reads)
    return (lambda reads: _of_array(given, reads)) if hasattr(given, "__arrow_c_array__") else None


def _of_schema(given: Any, reads: "Reads[Found]") -> Found:
    capsule = given.__arrow_c_schema__()
    return reads(address_in(capsule, SCHEMA_CAPSULE), False)


def _of_array(given: Any, reads: "Reads[Found]") -> Found:
    pair = given.__arrow_c_array__()
    if not isinstance(pair, tuple) or len(pair) != 2:
        raise SchemaError("no pair of a schema and an array")
    address_in(pair[1], _ARRAY_CAPSULE)
    return reads(address_in(pair[0], SCHEMA_CAPSULE), False)


def _of_stream(given: Any, reads: "Reads[Found]") -> Found:
    """Of the schema of a stream of arrays, which may have a name: its arrays are rows of a table, and some libraries give them one."""
    capsule = given.__arrow_c_stream__()
    address = address_in(capsule, _STREAM_CAPSULE)
    stream = _ArrowArrayStream.from_address(address)
    if not stream.release:
        raise SchemaError("the stream was released before")
    if not stream.get_schema:
        raise SchemaError("the stream has no call that gives its schema")
    schema = ArrowSchema()
    status = _GET_SCHEMA(stream.get_schema)(address, ctypes.addressof(schema))
    if status != 0:
        said = _GET_LAST_ERROR(stream.get_last_error)(address) if stream.get_last_error else None
        why = shown(said.decode("utf-8", "replace"), 200) if said else f"error {status}"
        raise SchemaError(f"the stream gives no schema: {why}")
    try:
        return reads(ctypes.addressof(schema), True)
    finally:
        release(schema)
