"""Why a source is not read, why a schema is not written, and why columns are not taken."""
import dataclasses
import json
import re
from typing import Any, List, Optional, Tuple

from .columns import Column, Finding, finding_of

_FINDING = '{"kind":"finding",'  # with which the line of one begins


class GeoArrowError(ValueError):
    """What this package raises where what is given to it is refused: a `ValueError` whose `finding` says why, or None where nothing does.

    `code` says why, as `Truncated`; `place` says where, in words, and is empty where all that is given is at fault; `path` has the names of the child fields down
    from the column. `found` says what stands there, `expected` what is expected, and `help` what to try, or is None. `source` is the part of the file, as `footer`, and its
    numbers are `byte`, `line` and `index`, that of a column; those that the place does not have are None. `json` is the line of the finding (docs/FORMAT.md, 2.8).
    """

    def __init__(self, line: str, finding: Optional[Finding] = None) -> None:
        super().__init__(line)
        self.json = line
        self.finding = finding
        self.code = finding.code if finding else ""
        self.place = finding.place if finding else ""
        self.path = finding.path if finding else ()
        self.index = finding.index if finding else None
        self.source = finding.source if finding else None
        self.byte = finding.byte if finding else None
        self.line = finding.line if finding else None
        self.found = finding.found if finding else None
        self.expected = finding.expected if finding else None
        self.help = finding.help if finding else None

    def __str__(self) -> str:
        return str(self.finding) if self.finding else super().__str__()


class RefusedSource(GeoArrowError):
    """A source that is not read, or a schema that is not written. `file` is the name of the file, where the source is a path."""

    finding: Finding

    def __init__(self, line: str) -> None:
        super().__init__(line, finding_of(line))
        self.file: Optional[str] = json.loads(line).get("file")


class SchemaError(GeoArrowError):
    """A schema, or a line of one, that is not what it should be: what the library found of a structure, or else words that say where and why, whose code is
    `BadSchema` too."""

    def __init__(self, text: str) -> None:
        super().__init__(text, finding_of(text) if text.startswith(_FINDING) else None)
        self.code = self.code or "BadSchema"


def moved(line: str, left_out: int) -> str:
    """The line of a finding of a file, of which so many bytes were left out before those of its end that the library was told of: its byte is counted with these, unless
    it is one of what is decoded; and they may be part of a footer, of whose size the greatest is expected."""
    said = json.loads(line)
    if not left_out or "byte" not in said or said.get("in") == "ARROW:schema":
        return line
    said["byte"] += left_out
    if said["code"] == "FooterLength":
        most = re.fullmatch("1 to ([0-9]+)", said["expected"])
        said["expected"] = f"1 to {left_out + (int(most[1]) if most else 0)}"
    return json.dumps(said, ensure_ascii=False, separators=(",", ":"))


def moved_lines(text: str, left_out: int) -> str:
    """The lines of a report, of which those of findings are moved."""
    if not left_out:
        return text
    return "".join(f"{moved(line, left_out)}\n" if line.startswith('{"kind":"finding"') else f"{line}\n" for line in text.split("\n")[:-1])


def named(line: str, name: str) -> str:
    """The line of a refused file with its name, if it has one: it stands behind the code."""
    if not name:
        return line
    said = json.loads(line)
    before = {key: said.pop(key) for key in ("kind", "severity", "code")}
    return json.dumps({**before, "file": name, **said}, ensure_ascii=False, separators=(",", ":"))


class InvalidColumns(GeoArrowError):
    """Columns of which some are invalid: these are `columns`, and its `finding` is the first error of the first."""

    def __init__(self, columns: List[Column]) -> None:
        first = next((dataclasses.replace(found, index=one.index) for one in columns for found in one.findings if found.is_error), None)
        super().__init__("; ".join(f"{one.name!r}: {', '.join(str(found) for found in one.findings if found.is_error)}" for one in columns), first)
        self.columns = columns

    def __str__(self) -> str:
        return str(self.args[0])

    def __reduce__(self) -> Tuple[Any, ...]:
        return InvalidColumns, (self.columns,)
