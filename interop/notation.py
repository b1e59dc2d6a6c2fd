"""Types in Arrow's usual notation (docs/FORMAT.md, 3.4), and the other types of a line.

A type that a line cannot hold is there an object with the single key `other` and the notation: `{"other":"timestamp[ms]"}`. One
that has such a type anywhere below is another type as a whole.
"""
import re
from typing import Any, Optional

UNITS = {"s": "s", "m": "ms", "u": "us", "n": "ns"}
TIMES = {"s": "time32[s]", "m": "time32[ms]", "u": "time64[us]", "n": "time64[ns]"}
INTERVALS = {"M": "month_interval", "D": "day_time_interval", "n": "month_day_nano_interval"}

FIXED = {f"tt{unit}": text for unit, text in TIMES.items()}
FIXED.update({f"ti{unit}": text for unit, text in INTERVALS.items()})
FIXED.update({f"tD{unit}": f"duration[{text}]" for unit, text in UNITS.items()})
FIXED_FORMATS = {text: given for given, text in FIXED.items()}
NESTED = {"+m": "map", "+vl": "list_view", "+vL": "large_list_view", "+r": "run_end_encoded"}
BINARY = re.compile(r"w:([0-9]+)")
DECIMAL = re.compile(r"d:([0-9]+),(-?[0-9]+)(?:,([0-9]+))?")
TIMESTAMP = re.compile(r"ts([smun]):(.*)", re.DOTALL)
BINARY_TEXT = re.compile(r"fixed_size_binary\[([0-9]+)\]")
DECIMAL_TEXT = re.compile(r"decimal([0-9]+)\(([0-9]+), (-?[0-9]+)\)")
TIMESTAMP_TEXT = re.compile(r"timestamp\[(s|ms|us|ns)(?:, tz=(.+))?\]", re.DOTALL)


def of_format(text: str) -> Optional[str]:
    """The notation of an other type that its format string says whole; none of any other format string."""
    binary, decimal, timestamp = BINARY.fullmatch(text), DECIMAL.fullmatch(text), TIMESTAMP.fullmatch(text)
    if binary:
        return f"fixed_size_binary[{binary.group(1)}]"
    if decimal:
        return f"decimal{decimal.group(3) or '128'}({decimal.group(1)}, {decimal.group(2)})"
    if timestamp:
        zone = f", tz={timestamp.group(2)}" if timestamp.group(2) else ""
        return f"timestamp[{UNITS[timestamp.group(1)]}{zone}]"
    return FIXED.get(text)


def format_of(text: str) -> Optional[str]:
    """The format string of an other type of this notation, where it says the type whole."""
    binary, decimal, timestamp = BINARY_TEXT.fullmatch(text), DECIMAL_TEXT.fullmatch(text), TIMESTAMP_TEXT.fullmatch(text)
    if binary:
        return f"w:{binary.group(1)}"
    if decimal:
        width = "" if decimal.group(1) == "128" else f",{decimal.group(1)}"
        return f"d:{decimal.group(2)},{decimal.group(3)}{width}"
    if timestamp:
        unit = timestamp.group(1)
        return f"ts{'m' if unit == 'ms' else unit[0]}:{timestamp.group(2) or ''}"
    return FIXED_FORMATS.get(text)


def of_type(kind: Any) -> str:
    """The notation of a type as a line has it."""
    if isinstance(kind, str):
        return kind
    if "other" in kind:
        return str(kind["other"])
    if "union" in kind:
        return nested(f"{kind['mode']}_union", *(f"{part(field)}={one}" for one, field in kind["union"]))
    if "struct" in kind:
        return nested("struct", *map(part, kind["struct"]))
    (word,) = kind.keys() - {"size"}
    return nested(word, part(kind[word])) + (f"[{kind['size']}]" if "size" in kind else "")


def nested(word: str, *parts: str) -> str:
    return f"{word}<{', '.join(parts)}>"


def part(field: Any) -> str:
    """A field as a part of a nested type."""
    return f"{field['name']}: {of_type(field['type'])}" + ("" if field["nullable"] else " not null")


def dictionary(values: str, indices: str, ordered: bool) -> str:
    return f"dictionary<values={values}, indices={indices}, ordered={int(ordered)}>"


def has_other(kind: Any) -> bool:
    """Whether a type is another, or has one anywhere below."""
    if isinstance(kind, str):
        return False
    if "other" in kind:
        return True
    below = [field for _, field in kind["union"]] if "union" in kind else kind.get("struct", [])
    below = below + [kind[word] for word in ("list", "large_list", "fixed_size_list") if word in kind]
    return any(has_other(field["type"]) for field in below)
