"""The layouts of columns, by docs/FORMAT.md, 5.5, in plain Python: of a column of a Parquet file by
its element, of any other by its type.

A layout is a text, as a finding shows that of an element: `BYTE_ARRAY`, `group of x, y`,
`LIST of x, y, z`, `LIST of LIST of x, y`, .., or two words of the element that is in the way.
"""
BYTES, UNJUDGED = "BYTE_ARRAY", "not judged"
BINARY = ("binary", "large_binary", "binary_view")
LISTS = ("list", "large_list")
ORDINATES = {("x", "y"): "xy", ("x", "y", "z"): "xyz"}
# The spelling of bytes in a row, of which others are spelled as a finding shows them.
WORD_OF_BYTES = "bytes"


def of_words(words):
    """The layout that a row names."""
    return BYTES if words == WORD_OF_BYTES else words


def native(lists):
    """The layouts of a coordinate below so many lists, each with its ordinates."""
    front = "LIST of " * lists or "group of "
    return {front + ", ".join(names): word for names, word in ORDINATES.items()}


def of_type(kind):
    """The layout of a type; None where it has none of those of an encoding."""
    if isinstance(kind, str):
        return BYTES if kind in BINARY else None
    lists = 0
    while isinstance(kind, dict) and any(word in kind for word in LISTS):
        kind, lists = next(kind[word]["type"] for word in LISTS if word in kind), lists + 1
    fields = kind.get("struct", ()) if isinstance(kind, dict) else ()
    if any(field["nullable"] or field["type"] != "float64" for field in fields):
        return None
    word = ORDINATES.get(tuple(field["name"] for field in fields))
    return word and next(text for text, it in native(lists).items() if it == word)


def notation(kind):
    """A type in text (3.4)."""
    if isinstance(kind, str):
        return kind
    if "other" in kind:
        return kind["other"]
    if "union" in kind:
        parts = [f"{part(field)}={number}" for number, field in kind["union"]]
        return f"{kind['mode']}_union<{', '.join(parts)}>"
    word = next(it for it in (*LISTS, "fixed_size_list", "struct") if it in kind)
    fields = kind[word] if word == "struct" else [kind[word]]
    size = f"[{kind['size']}]" if word == "fixed_size_list" else ""
    return f"{word}<{', '.join(map(part, fields))}>{size}"


def part(field):
    """A field of a nested type in text."""
    return f"{field['name']}: {notation(field['type'])}{'' if field['nullable'] else ' not null'}"


def is_read(column):
    """Whether the elements of a column are read (4.4)."""
    return column["type"] != {"other": "unreadable"}


def of_column(column, element):
    """The layout of a column: of its element, if it has one, and else of its type; nothing that is
    judged where its elements are not read."""
    if not is_read(column):
        return UNJUDGED
    return of_type(column["type"]) if element is None else element.layout


def shown_of(column, element):
    """The layout of a column as a finding shows it: of a type its notation."""
    return notation(column["type"]) if element is None else element.layout
