"""Lines of a schema, and a schema of lines."""
from typing import Any, Iterable, List, Union

from . import capsules, library, objects
from .refusals import SchemaError

Line = Union[str, bytes]


def lines(schema: Any) -> List[str]:
    """The line of each column of an object that gives an Arrow schema, in order; one that gives a field, a data type or an array has one column.

    Raises `TypeError` for an object that gives neither, an integer among them, and `SchemaError`, a `ValueError`, where what it gives is wrong.
    """
    status, text = objects.read(schema, library.lines_of_structure)
    found = text.split("\n")[:-1]
    if status == library.REFUSED:
        raise SchemaError(found[0])
    return found


class Schema:
    """The schema whose columns stand on lines, for any library that imports Arrow's C data interface.

    It takes the lines one by one, or a text with a line feed after each; blank lines are passed over. It keeps nothing of what it gives out.

    Raises `SchemaError` where a line denotes no column, or one that no structure can have: of a type that is none of the 26 of a line, but for those that their
    notation says whole, as `timestamp[ms]`.
    """

    def __init__(self, given: Union[str, Iterable[Line]]) -> None:
        self._lines = given.encode("utf-8", "surrogatepass") if isinstance(given, str) else of_lines(given)
        capsules.export(self._lines)  # tries them

    def __arrow_c_schema__(self) -> Any:
        """A capsule with the schema, which is the taker's to consume."""
        return capsules.export(self._lines)


def of_lines(given: Iterable[Line]) -> bytes:
    """Lines as bytes, each with a line feed behind it."""
    return b"".join(line_bytes(one) + b"\n" for one in given)


def line_bytes(line: Line) -> bytes:
    """A line as bytes. A lone surrogate, which UTF-8 cannot hold, becomes bytes that are no UTF-8, and so no line."""
    if isinstance(line, str):
        return line.encode("utf-8", "surrogatepass")
    if isinstance(line, (bytes, bytearray, memoryview)):
        return bytes(line)
    raise TypeError(f"a line is a str or bytes, not {capsules.shown(type(line).__name__)}")
