"""The library of C (include/geoarrow.h): where it is found, and how it is called.

It is the file that GEOARROW_C_LIBRARY names; or libgeoarrow_c.so beside this file, where a wheel has it, or in build/ of the
repository, where bin/native leaves it; or else the one that the system finds. It is loaded at the first call.
"""
import ctypes
import ctypes.util
import enum
import functools
import mmap
import os
import pathlib
from typing import Any, Optional, Sequence, Tuple, Union

NAME = "libgeoarrow_c.so"
VERSION = 20000

DONE, SHORT, MEMORY = range(3)
REFUSED, FIRST_REFUSED = 5, 6
INFER_TYPES, NOTES = 1, 2
ALL = (1 << 64) - 1  # bytes: so many are wanted where all are; as a size it is one that is not known
_ROOM_OF_ANSWERS = 4096  # at first
_ROOM_OF_COLUMNS = 16384  # at first, and twice the bytes of the CRS: enough for nearly all
_ROOM_OF_REPORTS = 65536  # at first, and twice the bytes of the source, up to 64 MiB: enough for nearly all
_MOST_ROOM = 1 << 26
_MUCH_ROOM = 1 << 20
_ROOM_OF_SCHEMAS = 1 << 23  # at first, for the lines of some 50,000 columns


class Command(enum.IntEnum):
    """What is asked of a line."""

    READ = 0
    INFER = 1
    CANON = 2
    COLUMNS = 3


def path() -> str:
    """Where the library is."""
    given = os.environ.get("GEOARROW_C_LIBRARY")
    if given:
        return given
    here = pathlib.Path(__file__).resolve().parent
    for folder in (here, here.parent.parent / "build"):
        if (folder / NAME).is_file():
            return str(folder / NAME)
    found = ctypes.util.find_library("geoarrow_c")
    if not found:
        raise ImportError(f"{NAME} is not found: bin/native builds it, and GEOARROW_C_LIBRARY may name it")
    return found


@functools.lru_cache(maxsize=None)
def _library() -> Any:
    try:
        library = ctypes.CDLL(path())
    except OSError as error:
        raise ImportError(f"{NAME} cannot be loaded: {error}") from None
    library.geoarrow_version.restype = ctypes.c_uint32
    library.geoarrow_version.argtypes = []
    if library.geoarrow_version() != VERSION:
        raise ImportError(f"{NAME} has the version {library.geoarrow_version()}, not {VERSION}")
    return library


@functools.lru_cache(maxsize=None)
def _call(name: str, texts: Tuple[bool, ...], structures: int = 0) -> Any:
    """A call of the header, which takes texts and numbers of a byte in an order, then so many structures, and then room for what it writes."""
    call = getattr(_library(), name)
    call.restype = ctypes.c_uint8
    call.argtypes = [
        *(kind for is_text in texts for kind in ([ctypes.c_char_p, ctypes.c_size_t] if is_text else [ctypes.c_uint8])), *[ctypes.c_void_p] * structures,
        ctypes.c_void_p, ctypes.c_size_t, ctypes.POINTER(ctypes.c_size_t)]
    return call


def _called(name: str, given: Sequence[Union[int, bytes]], size: int, *structures: int) -> Tuple[int, memoryview]:
    """The status of a call, DONE, REFUSED or FIRST_REFUSED, with room of this size at first, and what it writes. Structures are given by their addresses.

    The room is this call's own, so any number of threads may call at once.
    """
    call = _call(name, tuple(isinstance(one, bytes) for one in given), len(structures))
    parts = [part for one in given for part in ((one, len(one)) if isinstance(one, bytes) else (one,))]
    length = ctypes.c_size_t()
    while True:
        room = _room(size)
        status = call(*parts, *structures, room, size, ctypes.byref(length))
        if status in (DONE, REFUSED, FIRST_REFUSED):
            return status, memoryview(room)[: length.value]
        if status == MEMORY:
            raise MemoryError
        if status != SHORT:
            raise RuntimeError(f"{name} of {NAME} answers the status {status}")
        size = length.value


def _room(size: int) -> Any:
    """Room of that many bytes; much of it is pages that cost nothing until they are written."""
    if size < _MUCH_ROOM:
        return ctypes.create_string_buffer(size)
    try:
        return (ctypes.c_char * size).from_buffer(mmap.mmap(-1, size, flags=mmap.MAP_PRIVATE))
    except OSError:
        raise MemoryError from None


def _first_room(given: bytes) -> int:
    return _ROOM_OF_REPORTS + min(2 * len(given), _MOST_ROOM)


def answer(command: Command, line: bytes) -> str:
    """The answer to one line under a command."""
    return str(_called("geoarrow_answer", [command, line], _ROOM_OF_ANSWERS)[1], "utf-8")


def wanted(head: bytes, tail: bytes, size: Optional[int]) -> Tuple[int, int]:
    """How many bytes of the begin and of the end of a file are wanted for its report, whose first and last bytes are given, and its size, where that is known."""
    call = _library().geoarrow_wanted
    call.restype = ctypes.c_uint8
    call.argtypes = [*[ctypes.c_char_p, ctypes.c_size_t] * 2, ctypes.c_uint64, *[ctypes.POINTER(ctypes.c_uint64)] * 2]
    of_begin, of_end = ctypes.c_uint64(), ctypes.c_uint64()
    call(head, len(head), tail, len(tail), ALL if size is None else size, ctypes.byref(of_begin), ctypes.byref(of_end))
    return of_begin.value, of_end.value


def report(name: bytes, given: bytes, infer: bool, notes: bool) -> Tuple[int, str]:
    """The status of a check of bytes, DONE or REFUSED, with the report, or the line that says why. The name is that of the file, in UTF-8; an empty one is none."""
    options = (INFER_TYPES if infer else 0) | (NOTES if notes else 0)
    status, text = _called("geoarrow_report", [options, name, given], _first_room(given))
    return status, str(text, "utf-8")


def same(first: bytes, other: bytes, name: bytes, infer: bool, notes: bool) -> Tuple[int, str]:
    """The status of a comparison of the bytes of two files, with the lines of what differs; or REFUSED, where the other is refused, or FIRST_REFUSED, with the line that says
    why. The name is that of the other, in UTF-8; an empty one is none."""
    options = (INFER_TYPES if infer else 0) | (NOTES if notes else 0)
    status, text = _called("geoarrow_same", [options, first, other, name], _ROOM_OF_REPORTS)
    return status, str(text, "utf-8")


def canonical(given: bytes) -> Tuple[int, str]:
    """The status of the bytes of a file, DONE or REFUSED, with the lines of its columns in normal form, or the line that says why."""
    status, text = _called("geoarrow_canonical", [given], _first_room(given))
    return status, str(text, "utf-8")


def lines(given: bytes) -> Tuple[int, str]:
    """The status of the bytes of a file, DONE or REFUSED, with the lines of its columns, or the line that says why."""
    status, text = _called("geoarrow_lines", [given], _first_room(given))
    return status, str(text, "utf-8")


def stream(lines: bytes) -> Tuple[int, bytes]:
    """The status of a schema that is written, DONE or REFUSED, with its Arrow stream or the line that says why."""
    status, found = _called("geoarrow_write_schema", [lines], _first_room(lines))
    return status, bytes(found)


def make(name: bytes, kind: str, nullable: bool, crs: bytes, crs_type: str, edges: str) -> Tuple[int, str]:
    """The status of a column that is made, DONE or REFUSED, with its line, or the line that says why it is none. Name and CRS are in UTF-8; empty texts are none."""
    given: Sequence[Union[int, bytes]] = (name, kind.encode(), nullable, crs, crs_type.encode(), edges.encode())
    status, text = _called("geoarrow_make", given, _ROOM_OF_COLUMNS + 2 * len(crs))
    return status, str(text, "utf-8")


def _is_schema(structure: int, may_have_name: bool) -> bool:
    """Whether the structure at an address is to be read as a schema, and not as one column."""
    call = _library().geoarrow_is_schema
    call.restype = ctypes.c_uint8
    call.argtypes = [ctypes.c_uint8, ctypes.c_void_p, ctypes.POINTER(ctypes.c_uint8)]
    found = ctypes.c_uint8()
    if call(may_have_name, structure, ctypes.byref(found)) != DONE:
        raise MemoryError
    return bool(found.value)


def report_of_structure(structure: int, may_have_name: bool, infer: bool, notes: bool) -> Tuple[int, str]:
    """The status of a check of the structure at an address, DONE or REFUSED, with the report, or the line that says why. A wrong address cannot be noticed."""
    options = (INFER_TYPES if infer else 0) | (NOTES if notes else 0)
    name = "geoarrow_read_schema" if _is_schema(structure, may_have_name) else "geoarrow_read_field"
    status, text = _called(name, [options], _ROOM_OF_SCHEMAS, structure)
    return status, str(text, "utf-8")


def lines_of_structure(structure: int, may_have_name: bool) -> Tuple[int, str]:
    """The status of the structure at an address, DONE or REFUSED, with the lines of its columns, or the line that says why. A wrong address cannot be noticed."""
    name = "geoarrow_lines_of_schema" if _is_schema(structure, may_have_name) else "geoarrow_lines_of_field"
    status, text = _called(name, [], _ROOM_OF_SCHEMAS, structure)
    return status, str(text, "utf-8")


def line_of_structure(structure: int) -> Tuple[int, str]:
    """The same of the structure of one column, whatever its format is."""
    status, text = _called("geoarrow_lines_of_field", [], _ROOM_OF_ANSWERS, structure)
    return status, str(text, "utf-8")


def schema_of_lines(lines: bytes, structure: int) -> Tuple[int, str]:
    """The status of a schema that is made at an address, DONE or REFUSED, with nothing, or the line that says why. At DONE it is the caller's to release."""
    status, text = _called("geoarrow_schema_of_lines", [lines], _ROOM_OF_ANSWERS, structure)
    return status, str(text, "utf-8")


@functools.lru_cache(maxsize=None)
def _capsule() -> Any:
    """The call that makes a capsule, with Python's own calls that it takes by their addresses."""
    call = ctypes.PYFUNCTYPE(ctypes.py_object, ctypes.c_void_p, ctypes.c_void_p)(("geoarrow_capsule", _library()))
    python = (ctypes.pythonapi.PyCapsule_New, ctypes.pythonapi.PyCapsule_GetPointer)
    return functools.partial(call, *(ctypes.cast(one, ctypes.c_void_p) for one in python))


def capsule() -> Any:
    """A capsule with the name `arrow_schema`, in whose structure no schema is yet. Its destructor, which is the library's, releases what then stands there."""
    try:
        return _capsule()()
    except ValueError:  # of no structure
        raise MemoryError from None
