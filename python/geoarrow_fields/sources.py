"""The bytes of a source that say what its columns are: those of the begin and the end of a file that the library asks for (docs/FORMAT.md, 2.7)."""
import os
from typing import Any, List, NamedTuple, Optional, Union

from . import library, objects
from .capsules import shown
from .schema_lines import lines, of_lines

_AT_ONCE = 1 << 20  # bytes that are asked for at once: a size that a file tells is not believed


class Given(NamedTuple):
    """What is given to `geoarrow_report`, `geoarrow_same` and `geoarrow_canonical` of the library for a source."""

    content: bytes
    left_out: int = 0  # bytes of a file between its head and its end
    is_schema: bool = False  # whether these are the lines of a schema, which may have no columns
    name: bytes = b""  # of a file that is named by its path


def given_of(source: Any) -> Given:
    """What is given to the library for a source; `TypeError` where it is none."""
    if isinstance(source, Given):
        return source
    if isinstance(source, (str, os.PathLike)):
        with open(source, "rb") as file:
            return _of_file(file, file.seekable())._replace(name=file_name(source).encode())
    if isinstance(source, (bytes, bytearray, memoryview)):
        return Given(bytes(source))
    if isinstance(source, (list, tuple)):
        return Given(of_lines(source), is_schema=True)
    if is_schema_object(source):
        return Given(of_lines(lines(source)), is_schema=True)
    return _of_open_file(source) if callable(getattr(source, "read", None)) else Given(_of_buffer(source))


def is_schema_object(source: Any) -> bool:
    """Whether a source is an object that gives a schema, and none of the others."""
    return not isinstance(source, (str, os.PathLike, bytes, bytearray, memoryview, list, tuple)) and objects.gives_schema(source)


def file_name(path: Union[str, bytes, "os.PathLike[Any]"]) -> str:
    """The name of a file as reports have it; what is not UTF-8 is replaced."""
    return os.fsencode(path).decode("utf-8", "replace")


def _of_buffer(source: Any) -> bytes:
    try:
        view = memoryview(source)
    except TypeError:
        raise TypeError(
            f"{_kind(source)} is no source: a path, bytes, a list of lines, a binary file that is open, or an object that gives an Arrow schema") from None
    if not view.c_contiguous:
        raise TypeError(f"{_kind(source)} is no source: its buffer is not contiguous")
    return view.tobytes()


def _of_open_file(file: Any) -> Given:
    """A file that can seek is read as a whole, and then stands where it stood; any other is read from where it stands."""
    if not _can_seek(file):
        return _of_file(file, False)
    place = file.tell()
    try:
        file.seek(0)
        return _of_file(file, True)
    finally:
        file.seek(place)


def _can_seek(file: Any) -> bool:
    if hasattr(file, "seekable"):
        return bool(file.seekable())
    return hasattr(file, "seek") and hasattr(file, "tell")  # as mmap before Python 3.13


def _of_file(file: Any, can_seek: bool) -> Given:
    """What the library asks for, in rounds. The size of a file is looked at where all of one that can seek would be read; it is not believed where more was read, and where
    its end lacks bytes a second time what is there is given."""
    head, tail, has_shrunk = b"", b"", False
    size: Optional[int] = None
    while True:
        of_begin, of_end = library.wanted(head, tail, size)
        if of_begin > len(head):
            if can_seek and of_begin == library.ALL:
                can_seek, size = False, _size_behind(file, len(head))
                continue
            head += _read(file, of_begin - len(head))
            if len(head) < of_begin:  # it has ended
                size = len(head)
        elif of_end > len(tail) and size is not None:
            file.seek(size - of_end)
            tail = _read(file, of_end)
            lacking = of_end - len(tail)  # (it has become shorter, if any)
            size -= lacking
            if lacking and has_shrunk:
                return Given(head + tail, max(size - len(head) - len(tail), 0))
            has_shrunk = has_shrunk or lacking > 0
        else:
            return Given(head + tail, size - len(head) - len(tail) if tail and size is not None else 0)


def _size_behind(file: Any, place: int) -> Optional[int]:
    """The size of a file, which stands there and then does so again; none where it tells that it ends there or before."""
    file.seek(0, os.SEEK_END)
    size = int(file.tell())
    file.seek(place)
    return size if size > place else None


def _read(file: Any, size: int) -> bytes:
    """So many bytes of a file, or fewer where it ends before."""
    parts: List[bytes] = []
    while size > 0:
        part = _bytes_read(file.read(min(size, _AT_ONCE)))
        if not part:
            break
        parts.append(part)
        size -= len(part)
    return b"".join(parts)


def _bytes_read(part: Any) -> bytes:
    if isinstance(part, (bytes, bytearray, memoryview)):
        return bytes(part)
    raise TypeError(f"a file whose read gives {_kind(part)} is no source: it is to be open in binary mode, and to wait for its bytes")


def _kind(given: Any) -> str:
    return shown(type(given).__name__)
