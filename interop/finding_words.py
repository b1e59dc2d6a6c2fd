"""What is said of a finding, by the tables of docs/FORMAT.md, 2.6, 4.5 and 5.1: a line of JSON, and words.

A model of its own, which shares no code with the crates. `said` gives the parts of a finding by the
tables of its code, `value` is the JSON of such parts, `line` their line, and `words` what a table says
of them; `column_line` is the line of a column (2.5).
"""
import collections
import json
import pathlib
import re

FORMAT = pathlib.Path(__file__).resolve().parent.parent / "docs/FORMAT.md"
# The keys of a finding, in order (5.1), and those of a column (2.5); `kind` stands before those of a
# finding where it is a line.
KEYS = ("severity", "code", "file", "column", "path", "in", "pointer", "byte", "found", "expected",
        "help", "more")
COLUMN_KEYS = (
    "kind", "file", "index", "column", "state", "type", "type_from", "extension", "crs", "crs_type",
    "crs_from", "edges", "edges_from", "epoch", "orientation", "geometry_types", "bbox", "verdicts",
    "findings")
SHOWN = 120
# How many findings of one code are told: of a column (2.6), and of a file (5.1).
OF_COLUMN, OF_FILE = 16, 100


def tables(head):
    """The rows below each line of a table that begins so, each as its cells."""
    lines = FORMAT.read_text(encoding="utf-8").split("\n")
    rows, is_within = [], False
    for at, line in enumerate(lines):
        is_within = line.startswith("|") and (is_within or line.startswith(f"| {head} |"))
        if is_within and not line.startswith(f"| {head} |") and not re.fullmatch("[|-]+", line):
            rows.append([cell.strip() for cell in line.strip("|").split(" | ")])
    return rows


def text_in(cell):
    """The text between backticks with which a cell begins, if it does."""
    found = re.match("`([^`]*)`", cell)
    return found and found[1]


# How much each code weighs, but for those of `geo`; what is expected, and what helps: of a column (2.6), and of a file.
WEIGHS = {text_in(row[0]): row[1] for head in ("code | weighs", "code | severity")
          for row in tables(head)}
WORDS = {}
for row in tables("code | expected | help"):
    WORDS.setdefault(text_in(row[0]), []).append([text_in(cell) for cell in row[1:]])


# The layout of each extension name, which the findings of a layout expect.
LAYOUTS = {text_in(row[0]): text_in(row[1]) for row in tables("extension name | its layout in words")}


# The codes that expect one of some names, and how each stands in what is found.
NAMED = {"UnknownExtension": "{}", "UnknownCrsType": '"{}"', "UnknownEdges": '"{}"'}


def edits(one, other):
    """How many insertions, deletions and substitutions lead from some bytes to others."""
    above = list(range(len(other) + 1))
    for at, each in enumerate(one, 1):
        row = [at]
        for place, its in enumerate(other, 1):
            row.append(min(row[-1] + 1, above[place] + 1, above[place - 1] + (each != its)))
        above = row
    return above[-1]


def meant(code, found, expected):
    """The name that is expected and that what is found is like, if there is one."""
    names = [NAMED[code].format(name) for name in re.split(", | or ", expected)]
    for limit in range(3):
        for name in names:
            data = name.encode()
            if edits(found.encode().lower(), data) <= limit and (limit < 2 or len(data) > 10):
                return name
    return None


def advice_of(code, found, expected, advice):
    """What helps where that is found."""
    if code == "CrsTypeContradicts" and found.startswith("{"):
        return "The crs_type of an object is projjson."
    name = meant(code, found, expected) if code in NAMED else None
    return f"Did you mean {name}?" if name else advice


def said(code, wanted=None, **parts):
    """A finding by the tables of its code, with what its rule wants there, and the parts that are its
    own."""
    expected, advice = WORDS[code][0 if parts.get("in") in ("field", "extension metadata") else -1]
    if parts.get("found") is not None:
        advice = advice_of(code, parts["found"], expected, advice)
    expected = expected if wanted is None else f"{expected} ({wanted})"
    return {"severity": WEIGHS[code], "code": code, "expected": expected, "help": advice, **parts}


def first_of(most, key, found):
    """Of findings with one key the first so many, of which the last stands for the others, too; those
    without a key stay."""
    counts, kept, last = collections.Counter(), [], {}
    for it in found:
        counts[key(it)] += 1
        if key(it) is None or counts[key(it)] <= most:
            kept.append(dict(it))
            last[key(it)] = kept[-1]
        else:
            last[key(it)]["more"] = last[key(it)].get("more", 0) + 1 + it.get("more", 0)
    return kept


def kept_of_column(found):
    """What is told of findings of a column."""
    return first_of(OF_COLUMN, lambda it: it["code"], found)


def kept_of_file(found):
    """What is told of findings of a file, of which some name a column."""
    named = first_of(OF_COLUMN, lambda it: None if it.get("column") is None else (it["code"], it["column"]), found)
    return first_of(OF_FILE, lambda it: it["code"], named)


def there(parts):
    """The parts that there are, in the order of their keys."""
    assert set(parts) <= set(KEYS), parts
    return {key: parts[key] for key in KEYS
            if parts.get(key) is not None and parts[key] not in ([], ()) and (key, parts[key]) != ("more", 0)}


def value(parts):
    """A finding as JSON, as it stands in the line of a column."""
    return json.dumps(there(parts), ensure_ascii=False, separators=(",", ":"))


def line(parts):
    """The line of JSON of a finding of a file."""
    return f'{{"kind":"finding",{value(parts)[1:]}'


def column_line(parts):
    """The line of JSON of a column, of which each part is the JSON of its key."""
    assert set(parts) < set(COLUMN_KEYS), parts
    its = {"kind": '"column"', **parts}
    return "{%s}" % ",".join(f'"{key}":{its[key]}' for key in COLUMN_KEYS if key in its)


def words(parts):
    """What a table says of a finding."""
    its = there(parts)
    pointer = f" {its['pointer']}" if its.get("pointer") else ""
    places = {"column": "column {column}", "path": "at {path}", "in": "{in}{pointer}",
              "byte": "byte {byte}", "more": "and {more} more"}
    held = {**its, "path": ".".join(its.get("path", ())), "pointer": pointer}
    place = ", ".join(form.format_map(held) for key, form in places.items() if key in its)
    found = f"found {its['found']}; " if "found" in its else ""
    advice = f". {its['help']}" if "help" in its else ""
    return f"{its['severity']}[{its['code']}]{place and ' ' + place}: {found}expected {its['expected']}{advice}"


def shown(text):
    """The first 120 characters of a text, and two points where there are more."""
    return text[:SHOWN] + ".." if len(text) > SHOWN else text


def shown_bytes(data):
    """Bytes that are no UTF-8: those of ASCII as they are, any other as its digits."""
    return shown("".join(chr(byte) if byte < 128 else f"\\x{byte:02x}" for byte in data))
