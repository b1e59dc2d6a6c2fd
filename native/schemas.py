"""Trees of ArrowSchema for native/test, as values of JSON, and as the bytes of which native/lent.h builds them.

A structure is an object, of which all keys but `format` may be left out: `format`, `name` and `metadata`, which are NULL where they are null; `nullable`,
true where it is not given; `flags` in its place; `children`, a list, or null for a NULL; `n_children`, where it is not as many; `dictionary`, a structure; and
`released`. A text is a string, or an object with the key `hex`; metadata are an object, a list of pairs, or bytes in hexadecimal. A structure that is NULL is null,
and "outermost" is the outermost one once more. An object with the key `levels` is so many structures in one another, each of these keys, the last around `children`.
"""
import json
import re
import struct

# The format strings of the types that a line can hold, and of others by their notation (docs/FORMAT.md, 2.1 and 3.4).
PLAIN = {
    "null": "n", "boolean": "b", "int8": "c", "int16": "s", "int32": "i", "int64": "l", "uint8": "C", "uint16": "S", "uint32": "I", "uint64": "L",
    "float16": "e", "float32": "f", "float64": "g", "date32": "tdD", "date64": "tdm", "binary": "z", "large_binary": "Z", "binary_view": "vz", "utf8": "u",
    "large_utf8": "U", "utf8_view": "vu"}
OTHER = {
    "timestamp[s]": "tss:", "timestamp[ms]": "tsm:", "timestamp[us]": "tsu:", "timestamp[ns]": "tsn:", "time32[s]": "tts", "time32[ms]": "ttm",
    "time64[us]": "ttu", "time64[ns]": "ttn", "duration[s]": "tDs", "duration[ms]": "tDm", "duration[us]": "tDu", "duration[ns]": "tDn", "month_interval": "tiM",
    "day_time_interval": "tiD", "month_day_nano_interval": "tin"}
WORDS = {text: word for word, text in PLAIN.items()}
IS_NULL, IS_OUTERMOST, IS_RELEASED, NO_FORMAT, NO_NAME, HAS_METADATA, HAS_DICTIONARY, NO_CHILDREN = (1 << bit for bit in range(8))


def bytes_of(text):
    return bytes.fromhex(text["hex"]) if isinstance(text, dict) else text.encode("utf-8", "surrogatepass")


def metadata_of(given):
    """Metadata as they stand in memory."""
    if isinstance(given, str):
        return bytes.fromhex(given)
    pairs = list(given.items()) if isinstance(given, dict) else given
    texts = [bytes_of(text) for pair in pairs for text in pair]
    return struct.pack("<i", len(pairs)) + b"".join(struct.pack("<i", len(text)) + text for text in texts)


def described(tree):
    """The bytes of which native/lent.h builds a tree."""
    found, left = [], [tree]
    while left:
        one = left.pop()
        if one is None or one == "outermost":
            found.append(bytes([IS_NULL if one is None else IS_OUTERMOST]))
            continue
        children = one.get("children", [])
        if one.get("levels", 1) > 1:
            children = [{**one, "levels": one["levels"] - 1}]
        below = (children or []) + ([one["dictionary"]] if "dictionary" in one else [])
        marks = NO_FORMAT * (one["format"] is None) | NO_NAME * (one.get("name", "") is None) | NO_CHILDREN * (children is None)
        marks |= IS_RELEASED * one.get("released", False) | HAS_METADATA * (one.get("metadata") is not None) | HAS_DICTIONARY * ("dictionary" in one)
        count = len(children or [])
        found.append(struct.pack("<BqqI", marks, one.get("flags", 2 * one.get("nullable", True)), one.get("n_children", count), count))
        texts = [bytes_of(text) for text in (one["format"], one.get("name", "")) if text is not None]
        if marks & HAS_METADATA:
            texts.append(metadata_of(one["metadata"]))
        found += [struct.pack("<I", len(text)) + text for text in texts]
        left += reversed(below)
    return b"".join(found)


def of_columns(columns):
    """The tree of a schema of columns, each as a line has it; None where one has a type that has none here, or a text that C cannot hold."""
    trees = [of_column(column) for column in columns]
    return None if None in trees else {"format": "+s", "children": trees}


def of_column(column):
    texts = [column["name"], *(text for pair in column.get("metadata", {}).items() for text in pair)]
    found = of_type(column["type"])
    if found is None or "\0" in column["name"] or any("\ud800" <= one <= "\udfff" for text in texts for one in text):
        return None
    metadata = {"metadata": column["metadata"]} if "metadata" in column else {}
    return {**found, "name": column["name"], "nullable": column["nullable"], **metadata}


def noted(text):
    """The format string of an other type of this notation, where it says the type whole."""
    size = re.fullmatch(r"fixed_size_binary\[(0|[1-9][0-9]*)\]", text)
    decimal = re.fullmatch(r"decimal(32|64|128|256)\(([1-9][0-9]*), (0|-?[1-9][0-9]*)\)", text)
    zoned = re.fullmatch(r"(timestamp\[(?:s|ms|us|ns)), tz=(.+)\]", text, re.DOTALL)
    if size:
        return f"w:{size[1]}" if int(size[1]) < 2**31 else None
    if decimal:
        return f"d:{decimal[2]},{decimal[3]}" + ("" if decimal[1] == "128" else f",{decimal[1]}")
    return OTHER[f"{zoned[1]}]"] + zoned[2] if zoned else OTHER.get(text)


def of_type(kind):
    """What the structure of a type has beside its name, or None."""
    if isinstance(kind, str):
        return {"format": PLAIN[kind]}
    if "other" in kind:
        text = noted(kind["other"])
        return None if text is None or "\0" in text else {"format": text}
    if "union" in kind:
        ids, members = [one for one, _ in kind["union"]], [member for _, member in kind["union"]]
        text, below = f"+u{kind['mode'][0]}:{','.join(map(str, ids))}", members
    elif "struct" in kind:
        text, below = "+s", kind["struct"]
    else:
        (word,) = kind.keys() - {"size"}
        text, below = {"list": "+l", "large_list": "+L", "fixed_size_list": f"+w:{kind.get('size')}"}[word], [kind[word]]
    children = [of_column(one) for one in below]
    return None if None in children else {"format": text, "children": children}


def line_of(tree, notation):
    """The line of the column of a structure, whose type has this notation; None where a part of it is bytes, or has levels."""
    kind = type_of(tree) or {"other": notation}
    metadata = tree.get("metadata") or {}
    if isinstance(metadata, str) or isinstance(tree.get("name"), dict) or "hex" in json.dumps(tree) or "levels" in json.dumps(tree):
        return None
    return json.dumps(field_of(tree, kind), ensure_ascii=False, sort_keys=True, separators=(",", ":"))


def field_of(tree, kind):
    """The field of a structure, and of its type."""
    metadata = dict(tree.get("metadata") or {})
    nullable = bool(tree.get("flags", 2 * tree.get("nullable", True)) & 2)
    return {"name": tree.get("name") or "", "nullable": nullable, "type": kind, **({"metadata": metadata} if metadata else {})}


def type_of(tree):
    """The type of a structure as a line has it; None of one that no line has."""
    text, kinds = tree["format"], list(map(type_of, tree.get("children") or []))
    if "dictionary" in tree or None in kinds:
        return None
    below = [field_of(child, kind) for child, kind in zip(tree.get("children") or [], kinds)]
    if text in WORDS:
        return WORDS[text]
    if text == "+s":
        return {"struct": below}
    if text in ("+l", "+L"):
        return {"list" if text == "+l" else "large_list": below[0]}
    if text.startswith("+w:"):
        return {"fixed_size_list": below[0], "size": int(text[3:])}
    if text.startswith("+u"):
        ids = map(int, text[4:].split(",")) if text[4:] else []
        return {"mode": {"d": "dense", "s": "sparse"}[text[2]], "union": [[one, field] for one, field in zip(ids, below)]}
    return None
