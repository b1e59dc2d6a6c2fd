"""Tables of columns, as `geoarrow_check` prints them (docs/FORMAT.md, 2.7), and in HTML."""
import html as markup
import re
import unicodedata
from typing import Any, Iterable, List, Tuple

Row = Tuple[str, Tuple[str, str, str, str], List[str]]  # the mark, the cells, and the lines below them

HEAD = ("column", "holds", "CRS", "edges")
_CELL = 40  # columns of a cell at most, as a terminal shows it
_CONTROL = re.compile("[\x00-\x1f\x7f-\x9f]")
_HIDDEN = re.compile("[\x00-\x1f\x7f-\x9f\u200b-\u200f\u202a-\u202e\u2066-\u2069\ufeff]")


def text(rows: Iterable[Row], behind: Iterable[str] = ()) -> str:
    """A table of text: a line for each row, with its mark before it and its cells below one another, and the lines below it set in; and the lines behind the
    table. A long cell is cut, so that one long text does not make each line long."""
    listed: List[Row] = [(" ", HEAD, []), *((mark, _shown_cells(cells), notes) for mark, cells, notes in rows)]
    widths = [max(map(_width, column)) for column in zip(*(cells for _, cells, _ in listed))]
    lines = []
    for mark, cells, notes in listed:
        line = "  ".join(cell + " " * (width - _width(cell)) for cell, width in zip(cells, widths))
        lines.append(f"{mark} {line}".rstrip())
        lines.extend(f"    {shown(note).rstrip()}" for note in notes)
    lines.extend(map(shown, behind))
    return "\n".join(lines)


def html(rows: Iterable[Row], behind: Iterable[str] = ()) -> str:
    """A table of HTML, and the lines behind it as its last rows; every text is escaped."""
    parts = ["<table><thead><tr>", *(f"<th>{name}</th>" for name in ("", *HEAD)), "</tr></thead><tbody>"]
    for mark, cells, notes in rows:
        parts.append("<tr>" + "".join(f"<td>{markup.escape(cell)}</td>" for cell in (mark.strip(), *_shown_cells(cells))) + "</tr>")
        parts.extend(f'<tr><td></td><td colspan="{len(HEAD)}">{_escaped(note)}</td></tr>' for note in notes)
    parts.extend(f'<tr><td colspan="{len(HEAD) + 1}">{_escaped(line)}</td></tr>' for line in behind)
    return "".join(parts) + "</tbody></table>"


def crs_name(crs: Any) -> str:
    """What a CRS is called for people: the authority and code of a PROJJSON, else its name; a text itself."""
    if crs is None:
        return ""
    if isinstance(crs, str):
        return _blanked(crs)
    if isinstance(crs, dict):
        known = crs.get("id")
        if isinstance(known, dict) and isinstance(known.get("authority"), str):
            return _code_name(known)
        if isinstance(crs.get("name"), str):
            return _blanked(crs["name"])
    return "a CRS"


def shown(given: str) -> str:
    """A text with the number of each control character, and of each that is not seen or turns the direction of a text, so that it stands on one line and
    changes nothing of a terminal."""
    return _HIDDEN.sub(lambda found: f"\\u{{{ord(found[0]):x}}}", given)


def _code_name(known: Any) -> str:
    if "code" not in known:
        return shown(known["authority"])
    code = known["code"]
    if isinstance(code, bool) or not isinstance(code, (str, int)) or isinstance(code, int) and not 0 <= code < 2**64:
        code = "?"
    return f"{shown(known['authority'])}:{shown(str(code))}"


def _blanked(given: str) -> str:
    return shown(_CONTROL.sub(" ", given))


def _shown_cells(cells: Tuple[str, str, str, str]) -> Tuple[str, str, str, str]:
    column, holds, crs, edges = map(_cell, cells)
    return column, holds, crs, edges


def _cell(given: str) -> str:
    """A text as a cell: of a wide one the first characters that have room, and two points."""
    text = shown(given)
    if _width(text) <= _CELL:
        return text
    left = _CELL - 2
    for place, one in enumerate(text):
        left -= _width(one)
        if left < 0:
            return text[:place] + ".."
    return text


def _width(given: str) -> int:
    """How many columns of a terminal a text has."""
    return len(given) if given.isascii() else sum(map(_character_width, given))


def _character_width(one: str) -> int:
    """How many columns a character has: U+FE0F widens the one before it."""
    if one == "\ufe0f":
        return 1
    if unicodedata.category(one) in ("Mn", "Me", "Cf"):
        return 0
    return 2 if unicodedata.east_asian_width(one) in "WF" else 1


def _escaped(given: str) -> str:
    return markup.escape(shown(given))
