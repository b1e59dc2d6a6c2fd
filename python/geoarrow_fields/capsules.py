"""Structures of Arrow's C data interface in capsules: those that the library makes, and the address of any.

A capsule of ours is made by the library, whose destructor in C releases what stands in it, unless its consumer has taken it. So nothing is kept here for the life of
one, and no Python runs where it is dropped.
"""
import ctypes
from typing import Any

from . import library
from .refusals import SchemaError

SCHEMA_CAPSULE = ctypes.create_string_buffer(b"arrow_schema")


class ArrowSchema(ctypes.Structure):
    """The structure of Arrow's C data interface, which is not read here; whether it is released says its release callback."""

    _fields_ = [
        ("format", ctypes.c_void_p),
        ("name", ctypes.c_void_p),
        ("metadata", ctypes.c_void_p),
        ("flags", ctypes.c_int64),
        ("n_children", ctypes.c_int64),
        ("children", ctypes.c_void_p),
        ("dictionary", ctypes.c_void_p),
        ("release", ctypes.c_void_p),
        ("private_data", ctypes.c_void_p),
    ]


_RELEASE = ctypes.CFUNCTYPE(None, ctypes.c_void_p)
_pointer = ctypes.PYFUNCTYPE(ctypes.c_void_p, ctypes.py_object, ctypes.c_void_p)(("PyCapsule_GetPointer", ctypes.pythonapi))
_is_valid = ctypes.PYFUNCTYPE(ctypes.c_int, ctypes.py_object, ctypes.c_void_p)(("PyCapsule_IsValid", ctypes.pythonapi))


def shown(text: str, most: int = 60) -> str:
    """A stranger's text for a message: what does not print is escaped, and what is long is cut."""
    cut = text if len(text) <= most else text[:most] + ".."
    return "".join(one if one.isprintable() else ascii(one)[1:-1] for one in cut)


def release(schema: ArrowSchema) -> None:
    """Releases a structure that is not released yet."""
    if schema.release:
        _RELEASE(schema.release)(ctypes.addressof(schema))


def address_in(capsule: Any, name: Any) -> int:
    """The address in a capsule of that name."""
    if not _is_valid(capsule, ctypes.addressof(name)):
        raise SchemaError(f"no capsule of the name {name.value.decode()}")
    return int(_pointer(capsule, ctypes.addressof(name)))


def export(lines: bytes) -> Any:
    """A capsule with the schema whose columns lines denote. Its consumer may move the schema out of it, or release it there. `SchemaError` where there is none."""
    capsule = library.capsule()
    status, text = library.schema_of_lines(lines, address_in(capsule, SCHEMA_CAPSULE))
    if status == library.REFUSED:
        raise SchemaError(text.rstrip("\n"))
    return capsule


def export_column(line: bytes) -> Any:
    """A capsule with the structure of the column that one line denotes, likewise. It is moved out of that of its schema, as any consumer may do."""
    schema, capsule = export(line), library.capsule()
    children = ArrowSchema.from_address(address_in(schema, SCHEMA_CAPSULE)).children
    child = ArrowSchema.from_address(ctypes.c_void_p.from_address(children).value or 0)
    ctypes.memmove(address_in(capsule, SCHEMA_CAPSULE), ctypes.addressof(child), ctypes.sizeof(child))
    child.release = None
    return capsule
