"""In what the columns of files are not those of a first one (docs/FORMAT.md, 2.9)."""
from typing import List, Optional

from . import library
from .columns import Finding, finding_of
from .refusals import RefusedSource, moved, named
from .sources import Given


class Differences(List[Finding]):
    """In what the columns of a file are not those of the first: a `Finding` for each difference, first of its columns, in their order, then of those that it lacks;
    none where nothing differs. Of a file that is not read it is the one that says why, and `refused` is the error, which is None otherwise. `str()` has them in words, each on a line."""

    refused: Optional[RefusedSource] = None

    @property
    def is_error(self) -> bool:
        """Whether one counts for the status, as that of a file that is not read does."""
        return any(one.is_error for one in self)

    def __str__(self) -> str:
        return "\n".join(map(str, self))


def differences_of(first: Given, other: Given, infer: bool, notes: bool) -> Differences:
    """In what the columns of a source are not those of the first. `RefusedSource` is raised where the first is not read."""
    status, text = library.same(_content(first), _content(other), other.name, infer, notes)
    lines = text.split("\n")[:-1]
    if status == library.FIRST_REFUSED:
        raise RefusedSource(moved(named(lines[0], first.name.decode()), first.left_out))
    if status == library.REFUSED:
        refused = RefusedSource(moved(lines[0], other.left_out))
        found = Differences([refused.finding])
        found.refused = refused
        return found
    return Differences(map(finding_of, lines))


def _content(given: Given) -> bytes:
    """The bytes that are compared: of a schema without columns, which no lines denote, the stream."""
    return library.stream(b"")[1] if given.is_schema and not given.content else given.content
