"""JSON for the models of GeoParquet: numbers keep their digits, objects their members in order."""
import json
import math

ABSENT = type("Absent", (), {"__bool__": lambda self: False})()  # what no value stands for
LEVELS = 127
ESCAPES = {
    '"': '\\"', "\\": "\\\\", "\b": "\\b", "\f": "\\f", "\n": "\\n", "\r": "\\r", "\t": "\\t"}


class NotJson(ValueError):
    """A text that is no JSON within 127 levels, or has a number that is out of range."""


class Number:
    """A number by its text."""

    def __init__(self, text):
        self.text = text
        if math.isinf(float(text)):
            raise NotJson(text)


class Members:
    """The members of an object, in order; of a repeated key the last value counts."""

    def __init__(self, pairs):
        self.pairs = pairs
        self._last = dict(pairs)

    def __len__(self):
        return len(self._last)

    def __bool__(self):
        return True

    def keys(self):
        return self._last.keys()

    def get(self, key):
        return self._last.get(key, ABSENT)


def read(text):
    """The value that a text is."""
    def refused(word):
        raise NotJson(word)
    try:
        value = json.loads(text, parse_int=Number, parse_float=Number, parse_constant=refused,
                           object_pairs_hook=Members)
        text_of(value).encode()  # refuses half a character
    except (ValueError, RecursionError) as error:
        raise NotJson(str(error)) from None
    if depth(value) > LEVELS:
        raise NotJson("too deep")
    return value


def depth(value):
    """How many levels of arrays and objects a value has."""
    if isinstance(value, Members):
        return 1 + max([depth(it) for _, it in value.pairs], default=0)
    return 1 + max(map(depth, value), default=0) if isinstance(value, list) else 0


def at(value, *path):
    """What stands below a value at a path of keys and places, or ABSENT."""
    for step in path:
        if isinstance(value, Members) and isinstance(step, str):
            value = value.get(step)
        elif isinstance(value, list) and isinstance(step, int) and step < len(value):
            value = value[step]
        else:
            return ABSENT
    return value


def text_of(value):
    """The text of a value, without blanks and with the shortest escapes."""
    if isinstance(value, Members):
        return "{" + ",".join(f"{text_of(key)}:{text_of(it)}" for key, it in value.pairs) + "}"
    if isinstance(value, list):
        return "[" + ",".join(map(text_of, value)) + "]"
    if isinstance(value, str):
        return '"' + "".join(escaped(it) for it in value) + '"'
    if isinstance(value, Number):
        return value.text
    return {None: "null", True: "true", False: "false"}[value]


def escaped(character):
    code = ord(character)
    return ESCAPES.get(character) or (f"\\u{code:04x}" if code < 32 else character)
