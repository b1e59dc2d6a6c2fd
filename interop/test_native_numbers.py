"""Tests of the numbers that C and the proved code share: those of native/ and of include/geoarrow.h are those of the definitions and of the sources.

Run by interop/test, or alone by `python3 -m unittest interop.test_native_numbers`, at the top of the repository.
"""
import pathlib
import re
import unittest

TOP = pathlib.Path(__file__).resolve().parent.parent
WALKS = {"DONE": "Done", "MEMORY": "OutOfMemory", "LARGE": "Size", "DEEP": "Depth", "NULL": "Null", "RELEASED": "Released", "FORMAT": "Format", "COUNT": "Count",
         "CHILDREN": "Children", "METADATA": "Metadata"}


def text(path):
    return (TOP / path).read_text(encoding="utf-8")


def constants(path, name):
    """The numbers of the constants of a source whose names begin so."""
    return {key: int(number.replace("_", "")) for key, number in re.findall(f"const ({name}\\w*): \\w+ = ([0-9_]+);", text(path))}


def enumerators(path, name):
    """The numbers of the enumerators of a header whose names begin so, as they are given or counted."""
    found = {}
    for body in re.findall(r"enum\s*\w*\s*\{([^}]*)\}", re.sub(r"/\*.*?\*/", "", text(path), flags=re.S)):
        number = 0
        for one in filter(None, map(str.strip, body.split(","))):
            key, _, given = map(str.strip, one.partition("="))
            number = eval(given, {"__builtins__": {}}) if given else number
            if key.startswith(name):
                found[key[len(name):]] = number
            number += 1
    return found


class Numbers(unittest.TestCase):
    def test_how_a_walk_ends(self):
        wanted = {rule: int(number) for rule, number in re.findall(r"^(?:rule|walk)_number (?:rules\.)?(\w+) = (\d+)$", text("crates/geoarrow_c/specs/Walks.antt"), re.M)}
        found = enumerators("native/records.h", "RECORDS_")
        self.assertEqual({WALKS[key]: found[key] for key in WALKS}, wanted)
        self.assertEqual(found["BROKEN"], len(wanted))  # which no walk ends in

    def test_limits(self):
        found = enumerators("native/records.h", "RECORDS_")
        limits = constants("crates/record_wire/src/trees.rt", "")
        self.assertEqual(found["STRUCTURES"], limits["STRUCTURE_LIMIT"])
        self.assertGreater(found["LEVELS"], limits["LEVEL_LIMIT"])  # those above are refused by what reads the records
        self.assertEqual({int(power) for power in re.findall(r"2 \^ (\d+)", text("crates/record_wire/specs/Write.antt"))}, {32, found["MOST"].bit_length() - 1})
        marks = enumerators("native/records.h", "RECORD_")
        self.assertEqual((marks["DICTIONARY"], marks["NO_NAME"], marks["METADATA"], marks["MARKS"]), (1, 2, 4, 8))
        numbers = re.search(r"^struct record \{ uint32_t (.*); \};$", text("native/records.h"), re.M)[1]
        self.assertEqual(numbers, "size, n_children, marks, flags, level, metadata, format, name")  # docs/FORMAT.md, 6.1

    def test_statuses(self):
        found = enumerators("include/geoarrow.h", "GEOARROW_")
        self.assertEqual({key: found[key] for key in ("DONE", "SHORT", "MEMORY", "UNKNOWN", "LIMIT", "REFUSED", "FIRST_REFUSED")},
                         constants("crates/geoarrow_c/src/status.rt", ""))


if __name__ == "__main__":
    unittest.main()
