"""The command: python -m geoarrow_fields check [--infer] [--notes] [--json] [--same] FILE..

Prints what each column of each file holds, as `geoarrow_check` does with these options; the others
are that program's alone. Why a file cannot be read, and which of its lines are no columns, is said on
standard output, with --json in lines of JSON. With --json a line stands behind each file, with how
many columns and findings it has; and such a line behind two files and more, for all. The status is 1 where a column is invalid or a finding, of a column or of a
file, is an error, and 2 where a file is refused, a line is no column, a file or the words cannot be
read, or the output fails. Where nobody reads the output any more, the command ends without a word,
with the status of the files so far. A folder stands for its files with one of seven endings. With
--same the status is 1, too, where the columns of a file are not those of the first that is read.
"""
import argparse
import io
import json
import os
import sys
from typing import Any, Dict, List, NoReturn, Optional, Union

from . import Columns, Differences, RefusedSource, check, same
from .files import paths_of
from .sources import Given, file_name, given_of
from .tables import shown

INVALID, FAILED = 1, 2
ENDINGS = (".parquet", ".geoparquet", ".arrow", ".feather", ".arrows", ".jsonl", ".ndjson")  # of the files of a folder
OF_THE_PROGRAM = ("--allow", "--canonical", "--codes", "--color", "--deny", "--expect", "--explain", "--format", "--ipc", "--lines", "--problems", "--quiet", "--require-geometry", "-q")


class _OfTheProgram(argparse.Action):
    """An option that is refused, since the report of the library says nothing of it."""

    def __call__(self, parser: argparse.ArgumentParser, namespace: Any, values: Any, option: Optional[str] = None) -> NoReturn:
        parser.error(f"{option} is an option of the program geoarrow_check alone")


def main(words: Optional[List[str]] = None) -> int:
    parser = argparse.ArgumentParser(prog="python -m geoarrow_fields")
    commands = parser.add_subparsers(dest="command", required=True)
    of_check = commands.add_parser(
        "check", help="say what each column holds, and why it is invalid",
        epilog=f"{', '.join(OF_THE_PROGRAM[:-1])} and {OF_THE_PROGRAM[-1]} are options of the program geoarrow_check alone.")
    of_check.add_argument(
        "files", metavar="FILE", nargs="+", help="an Arrow file (Feather), an Arrow stream, a Parquet file, or lines of fields; - is standard input, and a folder stands for its files")
    of_check.add_argument("--infer", action="store_true", help="infer a type for columns without an extension name")
    of_check.add_argument("--notes", action="store_true", help="print notes too: of what is allowed, and only worth to know")
    of_check.add_argument("--json", action="store_true", help="a line of JSON for each column, in place of a table")
    of_check.add_argument("--same", action="store_true", help="give the status 1, too, where a file has other columns than the first")
    for word in OF_THE_PROGRAM:
        of_check.add_argument(word, action=_OfTheProgram, nargs="?", help=argparse.SUPPRESS)
    asked = parser.parse_args(words)
    if sys.stdout is None:
        _say("standard output: it is closed")
        return FAILED
    asked.files = list(paths_of(asked.files, ENDINGS))
    status = 0
    try:
        tally = Tally()
        for file in asked.files:
            of_file = tally.counted(_checked(file, asked, tally))
            status = max(of_file, status)
            if asked.json:
                print(tally.line_of_last(file, of_file))
        if len(asked.files) > 1:
            print(tally.line(status) if asked.json else tally)
        sys.stdout.flush()
    except OSError as error:  # of the output: that of a file is said, and the next one is checked
        os.dup2(os.open(os.devnull, os.O_WRONLY), sys.stdout.fileno())  # where Python writes once more, at its end
        if isinstance(error, BrokenPipeError):
            return status
        _say(f"standard output: {error.strerror or error}")
        return FAILED
    return status


def _say(text: str) -> None:
    """Writes a line on standard error, where there is one."""
    if sys.stderr is not None:
        print(text, file=sys.stderr)


class Tally:
    """How many columns and findings there are in all files, as the line behind the last says it (docs/FORMAT.md, 2.7)."""

    def __init__(self) -> None:
        self.files = self.unread = self.failed = self.columns = self.geometries = self.found_in = 0
        self.severities = {"error": 0, "warning": 0, "note": 0}
        self.of_last: Optional[Dict[str, int]] = None  # how many columns and findings the last file has, if it is read
        self.first: Optional[Given] = None  # with --same

    def add(self, columns: Columns, differences: Differences) -> None:
        """Adds a file that is read, and in what it is not as the first."""
        severities = {"error": sum(1 + one.more for one in columns.bad_lines), "warning": 0, "note": 0}
        for one in (*columns.findings, *(each for one in columns for each in one.findings), *differences):
            severities[one.severity] += 1
        geometries = sum(one.state in ("geometry", "inferred") for one in columns)
        self.files, self.columns, self.geometries = self.files + 1, self.columns + len(columns), self.geometries + geometries
        self.found_in += any(severities.values())
        for severity, count in severities.items():
            self.severities[severity] += count
        self.of_last = {"columns": len(columns), "geometries": geometries, **_plural(severities)}

    def add_unread(self) -> None:
        """Adds a file that is not read."""
        self.files, self.unread, self.of_last = self.files + 1, self.unread + 1, None

    def counted(self, status: int) -> int:
        """Counts the status of a file. The status."""
        self.failed += status == INVALID
        return status

    def line_of_last(self, file: str, status: int) -> str:
        """The line of JSON behind a file, with its status."""
        named = {} if file == "-" else {"file": file_name(file)}
        return _json({"kind": "file", **named, "read": self.of_last is not None, **(self.of_last or {}), "status": status})

    def line(self, status: int) -> str:
        """The line of JSON, with the status of all."""
        files = {"files": self.files, "unread": self.unread, "failed": self.failed}
        return _json({"kind": "summary", **files, **_plural(self.severities), "status": status})

    def __str__(self) -> str:
        unread = f"; {_counted(self.unread, 'file')} not read" if self.unread else ""
        columns = f"{_counted(self.columns, 'column')}, {self.geometries} of geometries"
        return f"{_counted(self.files, 'file')}: {columns}; {self._found()}{unread}"

    def _found(self) -> str:
        """What is found in how many files."""
        parts = [_counted(count, severity) for severity, count in self.severities.items() if count]
        if not parts:
            return "no findings"
        before = f"{', '.join(parts[:-1])} and " if parts[1:] else ""
        return f"{before}{parts[-1]} in {_counted(self.found_in, 'file')}"


def _plural(severities: Dict[str, int]) -> Dict[str, int]:
    """How many findings there are of each severity, by the keys of the lines."""
    return {f"{severity}s": count for severity, count in severities.items()}


def _json(said: Dict[str, Any]) -> str:
    """An object as a line of JSON."""
    return json.dumps(said, ensure_ascii=False, separators=(",", ":"))


def _counted(count: int, word: str) -> str:
    """A number of things."""
    return f"{count} {word}" if count == 1 else f"{count} {word}s"


def _checked(file: str, asked: argparse.Namespace, tally: Tally) -> int:
    """Prints what the columns of a file hold, or why it cannot be read, and counts it. The status."""
    name = shown(file_name(file))
    try:
        source: Any = _input() if file == "-" else file
        if asked.same:
            source = given_of(source)  # which is read once
        columns = check(source, infer=asked.infer, notes=asked.notes)
        differences = _differences(source, asked, tally) if asked.same else Differences()
    except (OSError, RefusedSource, MemoryError) as error:
        tally.add_unread()
        refused = error if isinstance(error, RefusedSource) else _refused(file, error)
        print(refused.json if asked.json else f"{name}: {shown(str(refused))}")
        return FAILED
    tally.add(columns, differences)
    if asked.json:
        for one in (*columns, *columns.bad_lines, *columns.findings, *differences):
            print(one.json)
    else:
        bad = [f"{name}: {words}" for words in columns.bad_words()]
        behind = [f"{name}: {shown(str(one))}" for one in differences]
        print(*([f"{name}:"] if len(asked.files) > 1 else []), columns.table(bad), *behind, sep="\n")
    if columns.bad_lines:
        return FAILED
    return INVALID if any(one.is_error for one in (*columns, *columns.findings, *differences)) else 0


def _differences(source: Given, asked: argparse.Namespace, tally: Tally) -> Differences:
    """In what a file that is read is not as the first that was, which is kept."""
    if tally.first is None:
        tally.first = source
        return Differences()
    return same(tally.first, source, infer=asked.infer, notes=asked.notes)[0]


def _refused(file: str, error: Union[OSError, MemoryError]) -> RefusedSource:
    """Why a file is not read that the system does not give, in its words, or for which memory does not suffice (docs/FORMAT.md, 2.8)."""
    code, found, expected = "OutOfMemory", "out of memory", "more memory"
    if isinstance(error, OSError):
        found = f"{error.strerror} (os error {error.errno})" if error.strerror else str(error)
        code, expected = "CannotRead", "a file that can be read"
    named = {} if file == "-" else {"file": file_name(file)}
    said = {"kind": "finding", "severity": "error", "code": code, **named, "found": found, "expected": expected}
    return RefusedSource(_json(said))


def _input() -> bytes:
    """All of standard input."""
    if sys.stdin is None:
        raise OSError("it is closed")
    return bytes(sys.stdin.buffer.read())


def script() -> int:
    """What the script `geoarrow-fields` does, and `python -m geoarrow_fields`: the status."""
    for stream in (sys.stdout, sys.stderr):
        if isinstance(stream, io.TextIOWrapper):
            stream.reconfigure(encoding="utf-8", errors="backslashreplace")  # whatever the locale is, as the program does
    return main()


if __name__ == "__main__":
    sys.exit(script())
