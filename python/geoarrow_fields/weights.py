"""How much findings count, by what is asked of their codes (docs/FORMAT.md, 2.7)."""
import difflib
from typing import FrozenSet, Iterable, Optional, Union

from .columns import COLUMN, finding_of, parts_of

# The codes of findings by their severities, as `geoarrow_check --codes` lists them.
ERRORS = frozenset("""
    ArrowSchemaContradicts ArrowSchemaUnreadable AxisOrder BadFieldCount BadFieldNames BadFooter BadInterleavedName BadLine BadMessage BadSize BadTree
    BadTypeId CannotRead CoordinatesNotFloat CrsContradicts CrsKeyMissing CrsMalformed CrsTypeContradicts EdgesContradict ElementInvalid EmptyFile
    EmptyUnion EncodingContradicts Encrypted Expect FooterLength ForeignFormat GeoBbox GeoBboxOrder GeoColumnMissing GeoColumnRepeated GeoColumns
    GeoCovering GeoCoveringColumn GeoCoveringName GeoCoveringType GeoCrs GeoEdges GeoEncoding GeoEpoch GeoLayout GeoMember GeoNotJson GeoNotObject
    GeoOrientation GeoPrimaryColumn GeoTypes GeoTypesVersion GeoVersion LogicalTypeInvalid LongLine MemberDimension MetadataNotJson MetadataNotObject
    MixedWidths NameNotText NoGeometry NoSchema NotSame ReportTooLarge SeveralCoordTypes SeveralDimensions Truncated TypesContradict UnexpectedType
    UnknownCrsType UnknownEdges UnknownExtension WrongStorage
""".split())
WARNINGS = frozenset("""
    ArrowSchemaNames AxisNames CoordinatesNotDouble CrsEmpty CrsNumber CrsWithoutType CrsWkt1 EdgesOnProjected EdgesPlanar EmptyGroup GeoBboxDimension
    GeoBboxRange GeoColumnUndeclared GeoCoveringShape GeoNotInFooter GeoOldVersion MetadataEmpty MetadataKeyCase NestedGeometry NoGeoMetadata
    NullableInner OldExtensionName RepeatedKey UnionMode UnknownAlgorithm
""".split())
NOTES = frozenset("""
    ByteOrderMark CrsNotCompared CrsNotWhole GeoCoveringAbsent GeoNewVersion KeyNotText
""".split())
# Those that always count: of files that are refused, of lines that are no columns, and of what is asked and not met.
ALWAYS = frozenset("""
    BadFooter BadLine BadMessage BadTree CannotRead EmptyFile Encrypted Expect FooterLength ForeignFormat LongLine NoGeometry NoSchema ReportTooLarge
    Truncated
""".split())
_ALL = "warnings"  # in place of a code: all that are warnings

Words = Union[str, Iterable[str]]


class Weights:
    """What is asked of findings: the codes that are denied, which count as errors, and those that are allowed, which are left out; and whether notes are
    shown. What is asked of a code counts before what is asked of all warnings."""

    def __init__(self, notes: bool, deny: Words, allow: Words) -> None:
        """Raises `ValueError` where a word is no code, is one that always counts and is allowed, or stands in both."""
        self.notes, self.denied, self.allowed = notes, _words(deny), _words(allow)
        for word in sorted(self.denied & self.allowed):
            raise ValueError(f"{word!r} is denied and allowed")
        for word in sorted(self.allowed & ALWAYS):
            raise ValueError(f"{word!r} cannot be allowed")

    @property
    def with_notes(self) -> bool:
        """Whether notes are to be looked at: they are shown, or one of their codes is denied."""
        return self.notes or not self.denied.isdisjoint(NOTES)

    def severity_of(self, code: str, severity: str) -> Optional[str]:
        """How much a finding counts; None where it is left out."""
        for word in (code, _ALL) if severity == "warning" else (code,):
            if word in self.denied:
                return "error"
            if word in self.allowed:
                return None
        return severity if self.notes or severity != "note" else None

    def weighed(self, report: str) -> str:
        """A report whose findings count so."""
        if not self.denied and not self.allowed:
            return report
        lines = (self._column(line) if line.startswith(COLUMN) else self._finding(line) for line in report.split("\n")[:-1])
        return "".join(f"{line}\n" for line in lines if line is not None)

    def _column(self, line: str) -> str:
        """The line of a column."""
        before, findings, behind = parts_of(line)
        kept = ",".join(one for one in map(self._finding, findings) if one is not None)
        return f'{before},"findings":[{kept}]{behind}' if kept else before + behind

    def _finding(self, text: str) -> Optional[str]:
        """The text of a finding, if it is not left out."""
        one = finding_of(text)
        severity = self.severity_of(one.code, one.severity)
        return severity and text.replace(f'"severity":"{one.severity}"', f'"severity":"{severity}"', 1)


def _words(given: Words) -> FrozenSet[str]:
    """The words that are given, one or several, each a code or the word for all warnings."""
    words = [given] if isinstance(given, str) else list(given)
    known = [_ALL, *sorted(ERRORS | WARNINGS | NOTES)]
    for word in words:
        if not isinstance(word, str):
            raise TypeError(f"a code is a str, not {type(word).__name__}")
        if word not in known:
            near = difflib.get_close_matches(word, known, 1)
            raise ValueError(f"{word!r} is no code of a finding{f': did you mean {near[0]!r}?' if near else ''}")
    return frozenset(words)
