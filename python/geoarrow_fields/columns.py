"""What is said of columns."""
import collections
import dataclasses
import importlib
import itertools
import json
from typing import Any, Callable, Dict, Iterable, Iterator, List, Optional, SupportsIndex, Tuple, Type, Union, overload

from . import tables


@dataclasses.dataclass(frozen=True)
class Finding:
    """What is found in a file or in one of its columns: its severity, `error`, `warning` or `note`, and its code; the place, that is the name of the
    column, or its index where it is not written, the names of the child fields down from it, the source, as `geo` or `footer`, the JSON pointer into it, the byte
    and the line; what stands there, what is expected, and what helps; and how many more there are of its code that are not told one by one, or of a
    line that is no column how many more lines are none. What does not apply is None, or empty, or 0. The `findings` of a column do not name it. `json` is the
    object of the report (docs/FORMAT.md, 5.1)."""

    severity: str
    code: str
    column: Optional[str] = None
    path: Tuple[str, ...] = ()
    source: Optional[str] = None
    pointer: Optional[str] = None
    byte: Optional[int] = None
    found: Optional[str] = None
    expected: Optional[str] = None
    help: Optional[str] = None
    more: int = 0
    index: Optional[int] = None
    line: Optional[int] = None
    json: str = dataclasses.field(default="", repr=False, compare=False)

    @property
    def is_error(self) -> bool:
        """Whether it counts for the status."""
        return self.severity == "error"

    @property
    def place(self) -> str:
        """The place, in words; empty where all that is given is at fault."""
        return ", ".join(self._places())

    def __str__(self) -> str:
        place = self.place
        found = "" if self.found is None else f"found {self.found}; "
        help = "" if self.help is None else f". {self.help}"
        return f"{self.severity}[{self.code}]{' ' if place else ''}{place}: {found}expected {self.expected}{help}"

    def _places(self) -> Iterator[str]:
        """The parts of the place, in words, and how many more there are; of a line that is no column they are said behind all of these."""
        if self.column is not None:
            yield f"column {self.column}"
        elif self.index is not None:
            yield f"column {self.index}"
        if self.path:
            yield f"at {'.'.join(self.path)}"
        if self.source is not None:
            yield f"{self.source} {self.pointer}" if self.pointer else self.source
        for word, number in (("byte", self.byte), ("line", self.line)):
            if number is not None:
                yield f"{word} {number}"
        if self.more and self.line is None:
            yield f"and {self.more} more"


def _none() -> None:
    """The default of what a column may lack. (A factory, so that the class itself has no such attribute.)"""


class _OfALine:
    """What has a line. It stands in a slot, which is written faster than an attribute."""

    __slots__ = ("json",)


_put_line = _OfALine.__dict__["json"].__set__


@dataclasses.dataclass(frozen=True)
class Column(_OfALine):
    """What is said of a column (docs/FORMAT.md, 2.5 and 2.6). `json` is the line of the report, which has the CRS as it is written, without
    blanks; `crs` is that as Python's json reads it. It is None too where the CRS is not known, which `crs_from` tells: the source of the CRS that counts,
    `element`, `geo` or `field`; so do `edges_from` and `type_from` of the edges and of the encoding. `verdicts` has for each of `crs`, `edges` and `encoding` what
    the other sources say against it: `agree`, `contradict` or `not compared` (docs/FORMAT.md, 5.7). `bbox`, `epoch` and `orientation` are what
    the GeoParquet metadata alone say of it, and `geometry_types` those that they say, or else the one that its field says by its kind. The line of a column that `check` gives is read when an attribute is first asked for."""

    name: str
    index: int
    state: str
    type: str
    extension: Optional[str] = dataclasses.field(default_factory=_none)
    edges: Optional[str] = dataclasses.field(default_factory=_none)
    crs_type: Optional[str] = dataclasses.field(default_factory=_none)
    crs: Any = dataclasses.field(default_factory=_none)
    findings: Tuple[Finding, ...] = dataclasses.field(default_factory=tuple)
    crs_from: Optional[str] = dataclasses.field(default_factory=_none)
    edges_from: Optional[str] = dataclasses.field(default_factory=_none)
    type_from: Optional[str] = dataclasses.field(default_factory=_none)
    verdicts: Dict[str, Dict[str, str]] = dataclasses.field(default_factory=dict, hash=False)
    bbox: Tuple[float, ...] = dataclasses.field(default_factory=tuple)
    epoch: Optional[float] = dataclasses.field(default_factory=_none)
    geometry_types: Tuple[str, ...] = dataclasses.field(default_factory=tuple)
    orientation: Optional[str] = dataclasses.field(default_factory=_none)
    json: str = dataclasses.field(default_factory=str, repr=False, compare=False)

    @property
    def is_geometry(self) -> bool:
        return self.state == "geometry"

    @property
    def is_invalid(self) -> bool:
        return self.state == "invalid"

    @property
    def is_error(self) -> bool:
        """Whether it counts for the status: one of its findings is an error, as why it is invalid is."""
        return any(one.is_error for one in self.findings)

    @property
    def crs_text(self) -> Optional[str]:
        """The CRS as a text: one that is a text as it is, and any other as its JSON is written, without blanks. None where there is none, and where it is not known."""
        if self.crs is None or isinstance(self.crs, str):
            return self.crs
        return _member_text(self.json, "crs") if self.json else json.dumps(self.crs, ensure_ascii=False, separators=(",", ":"))

    def to_pyproj(self) -> Any:
        """The CRS as a `pyproj.CRS`, for which pyproj is needed; None where there is none, and where it is not known.

        Raises `ValueError` where its type says that it is the number of a database, and what pyproj raises of a CRS that it does not know.
        """
        text = self.crs_text
        if text is None or text == "":
            return None
        if self.crs_type is not None and self.crs_type.startswith("srid"):
            raise ValueError(f"the CRS of column {self.name} is the number of a database: {tables.shown(text)}")
        pyproj: Any = importlib.import_module("pyproj")
        return pyproj.CRS.from_user_input(text) if isinstance(self.crs, str) else pyproj.CRS.from_json(text)

    def __getattr__(self, name: str) -> Any:
        """An attribute that is not there yet: those of the line are made."""
        if name not in _ATTRIBUTES:
            raise AttributeError(f"a column has no attribute {name!r}")
        held = vars(self)
        held.update(_attributes(self.json))
        return held[name]

    def __getstate__(self) -> Dict[str, Any]:
        return {"json": self.json, **vars(self)}

    def __setstate__(self, state: Dict[str, Any]) -> None:
        _put_line(self, state.pop("json"))
        vars(self).update(state)


_ATTRIBUTES = frozenset(field.name for field in dataclasses.fields(Column) if field.name != "json")


class Columns(List[Column]):
    """Columns, which are shown as a table: of text, and in a notebook of HTML. `findings` are what is found in the file beside its columns, as in the footer
    and in the GeoParquet metadata of a Parquet file; they stand behind the table. `bad_lines` are what is found of the lines of a file of lines that are no
    columns, at most a hundred, of which the last says how many more there are; they stand there too. `columns["geom"]` is the column of that name."""

    findings: Tuple[Finding, ...] = ()
    bad_lines: Tuple[Finding, ...] = ()

    @overload
    def __getitem__(self, at: Union[str, SupportsIndex]) -> Column: ...

    @overload
    def __getitem__(self, at: slice) -> List[Column]: ...

    def __getitem__(self, at: Union[str, SupportsIndex, slice]) -> Union[Column, List[Column]]:
        """The column of that name, or at that place. `KeyError` where no column has the name, or more than one."""
        if not isinstance(at, str):
            return super().__getitem__(at)
        named = [one for one in self if one.name == at]
        if len(named) != 1:
            raise KeyError(f"{len(named)} columns are named {at!r}" if named else f"no column is named {at!r}")
        return named[0]

    def table(self, said: Iterable[str] = ()) -> str:
        """The table of text as `geoarrow_check` prints it, and behind it lines of what else is said, as of bad lines, before the findings of the file."""
        return tables.text(map(_row, self), [*said, *map(str, self.findings)])

    def bad_words(self) -> Iterator[str]:
        """Why lines are bad, in words, and behind these how many more there are."""
        for one in self.bad_lines:
            yield str(one)
            if one.more:
                words = "1 more line is no column" if one.more == 1 else f"{one.more} more lines are no columns"
                yield f"{one.severity}[{one.code}]: {words}"

    def __repr__(self) -> str:
        return self.table(self.bad_words())

    def _repr_html_(self) -> str:
        return tables.html(map(_row, self), [*self.bad_words(), *map(str, self.findings)])


_json = json.JSONDecoder().raw_decode
COLUMN = '{"kind":"column",'  # with which the line of a column begins
_BARE: Callable[[Type[Column]], Column] = object.__new__


def columns_of(report: str) -> Columns:
    """The columns of a report, of which each line is one, and is not read yet; behind them stand the findings, first those of bad lines."""
    lines = report.split("\n")
    lines.pop()  # behind the last line feed
    behind: List[str] = []
    while lines and not lines[-1].startswith(COLUMN):
        behind.append(lines.pop())
    columns = Columns(map(_BARE, itertools.repeat(Column, len(lines))))
    collections.deque(map(_put_line, columns, lines), maxlen=0)  # (a loop, without a step of Python for each)
    found = [finding_of(line) for line in reversed(behind)]
    columns.bad_lines = tuple(one for one in found if one.line is not None)
    columns.findings = tuple(one for one in found if one.line is None)
    return columns


def _attributes(line: str) -> Dict[str, Any]:
    """The attributes of the column of a line."""
    said = _json(line)[0]
    known = said.get
    return {
        "name": said["column"], "index": said["index"], "state": said["state"], "type": said["type"], "extension": known("extension"),
        "edges": known("edges"), "crs_type": known("crs_type"), "crs": known("crs"), "crs_from": known("crs_from"), "edges_from": known("edges_from"),
        "type_from": known("type_from"), "verdicts": known("verdicts", {}), "bbox": tuple(known("bbox", ())), "epoch": known("epoch"),
        "geometry_types": tuple(known("geometry_types", ())), "orientation": known("orientation"), "findings": tuple(map(finding_of, parts_of(line)[1])) if "findings" in said else ()}


def _member_text(line: str, wanted: str) -> str:
    """The text of a member of the object that a line is."""
    at = 1
    while True:
        key, end = _json(line, at)
        _, behind = _json(line, end + 1)
        if key == wanted:
            return line[end + 1:behind]
        at = behind + 1


_FINDINGS = ',"findings":['


def parts_of(line: str) -> Tuple[str, List[str], str]:
    """The line of a column before its findings, the texts of these, and what stands behind them. Behind their array no member has such a key in it, as the CRS before
    it may."""
    texts: List[str] = []
    if "findings" not in _json(line)[0]:
        return line, texts, ""
    before, at = line.rindex(_FINDINGS), line.rindex(_FINDINGS) + len(_FINDINGS)
    while line[at - 1] != "]":
        end = _json(line, at)[1]
        texts.append(line[at:end])
        at = end + 1  # behind a comma, or the bracket
    return line[:before], texts, line[at:]


def finding_of(text: str) -> Finding:
    """The finding of an object, of which this is the text."""
    said = _json(text)[0]
    known = said.get
    return Finding(
        said["severity"], said["code"], known("column"), tuple(known("path", ())), known("in"), known("pointer"), known("byte"), known("found"),
        known("expected"), known("help"), known("more", 0), known("index"), known("line"), text)


def _row(column: Column) -> tables.Row:
    """What a table shows of a column: how much the worst counts of what is found of it, its cells, and the lines below them."""
    holds = column.type
    if column.state in ("geometry", "inferred"):
        holds = holds.replace(" -", "")  # which its coordinate type and its dimension are where it has none
    if column.state in ("invalid", "extension"):
        holds = f"{column.state} {column.extension}"
    elif column.state == "inferred":
        holds = f"taken for {holds}"
    found = {one.severity for one in column.findings}
    mark = next((severity[0].upper() for severity in ("error", "warning", "note") if severity in found), " ")
    crs = "unknown" if column.crs is None and column.crs_from else tables.crs_name(column.crs)
    return mark, (column.name, holds, crs, column.edges or ""), [str(one) for one in column.findings]
