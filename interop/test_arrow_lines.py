"""Tests of `lines` and `Schema`: both ways round, who releases what and how often, and what is refused.

The structures that are read here come from a producer of these tests, which counts its release callbacks, and the
structures that `Schema` makes are looked at byte by byte. Run by interop/test, or alone by
`python3 -m unittest interop.test_arrow_lines`, at the top of the repository.
"""
import ctypes
import json
import struct
import subprocess
import sys
import threading
import unittest

from . import arrow_lines, making, structures
from .structures import ArrowArrayStream, lines_of_columns
from .making import ArrowSchema, SchemaError
from .testing import HERE, TOP

# From the format's page "The Arrow C data interface", "Data type description".
PLAIN = {
    "n": "null", "b": "boolean", "c": "int8", "C": "uint8", "s": "int16", "S": "uint16", "i": "int32", "I": "uint32",
    "l": "int64", "L": "uint64", "e": "float16", "f": "float32", "g": "float64", "z": "binary", "Z": "large_binary",
    "vz": "binary_view", "u": "utf8", "U": "large_utf8", "vu": "utf8_view", "tdD": "date32", "tdm": "date64",
}
# Types that a line cannot hold, with their usual notation.
OTHER = {
    "w:42": "fixed_size_binary[42]", "d:19,10": "decimal128(19, 10)", "d:19,10,256": "decimal256(19, 10)",
    "d:5,-2": "decimal128(5, -2)", "tts": "time32[s]", "ttm": "time32[ms]", "ttu": "time64[us]", "ttn": "time64[ns]",
    "tss:": "timestamp[s]", "tsm:UTC": "timestamp[ms, tz=UTC]", "tsu:Europe/Zürich": "timestamp[us, tz=Europe/Zürich]",
    "tsn:+01:00": "timestamp[ns, tz=+01:00]", "tDs": "duration[s]", "tDm": "duration[ms]", "tDu": "duration[us]",
    "tDn": "duration[ns]", "tiM": "month_interval", "tiD": "day_time_interval", "tin": "month_day_nano_interval",
}
FLOAT = '{"name":"xy","nullable":false,"type":"float64"}'


def pairs(*texts):
    """Metadata as the C data interface has it, of keys and values in turn."""
    parts = [struct.pack("=i", len(texts) // 2)]
    for text in texts:
        one = text if isinstance(text, bytes) else text.encode()
        parts += [struct.pack("=i", len(one)), one]
    return b"".join(parts)


def lines_at(structure):
    """The lines of a structure."""
    return lines_of_columns(structures.columns_at(ctypes.addressof(structure)))


class Producer:
    """Makes structures, and counts the calls of the release callback of each root, and of each child."""

    def __init__(self):
        self.kept, self.roots, self.children = [], 0, 0
        self.on_root = making.RELEASE(self.release_root)
        self.on_child = making.RELEASE(self.release_child)

    def release_root(self, address):
        self.roots += 1
        ArrowSchema.from_address(address).release = None

    def release_child(self, address):
        self.children += 1
        ArrowSchema.from_address(address).release = None

    def keep(self, given):
        self.kept.append(given)
        return given

    def child(self, text, name="f", flags=2, metadata=None, children=(), **other):
        made = self.keep(ArrowSchema())
        made.format = text if text is None or isinstance(text, bytes) else text.encode()
        made.name = name if name is None or isinstance(name, bytes) else name.encode()
        made.metadata = None if metadata is None else ctypes.addressof(
            self.keep(ctypes.create_string_buffer(metadata, max(len(metadata), 1))))
        made.flags = flags
        made.n_children = len(children)
        addresses = [one if one is None or isinstance(one, int) else ctypes.addressof(one) for one in children]
        made.children = self.keep((ctypes.c_void_p * len(addresses))(*addresses)) if addresses else None
        made.release = ctypes.cast(self.on_child, ctypes.c_void_p).value
        for key, value in other.items():
            setattr(made, key, value)
        return made

    def root(self, *children, text="+s", **other):
        made = self.child(text, name="", flags=0, children=children, **other)
        made.release = ctypes.cast(self.on_root, ctypes.c_void_p).value
        return made

    def lines(self, *children, **other):
        return lines_at(self.root(*children, **other))


def of_type(text, name="f", nullable="true"):
    return '{"name":"%s","nullable":%s,"type":%s}' % (name, nullable, text)


def of_other(notation):
    """The line of a column of another type."""
    return of_type(json.dumps({"other": notation}, ensure_ascii=False, separators=(",", ":")))


class OutOfStructures(unittest.TestCase):
    def setUp(self):
        self.of = Producer()

    def test_layout_of_structures(self):
        word = ctypes.sizeof(ctypes.c_void_p)
        if word != 8:
            self.skipTest("the places below are those of addresses of 64 bits")
        places = [getattr(ArrowSchema, name).offset for name, _ in ArrowSchema._fields_]
        self.assertEqual((places, ctypes.sizeof(ArrowSchema)), ([0, 8, 16, 24, 32, 40, 48, 56, 64], 72))
        self.assertEqual(ctypes.sizeof(ArrowArrayStream), 40)

    def test_each_plain_type(self):
        self.assertEqual(len(PLAIN), 21)
        found = self.of.lines(*(self.of.child(text) for text in PLAIN))
        self.assertEqual(found, [of_type(f'"{word}"') for word in PLAIN.values()])

    def test_each_nested_type(self):
        number = self.of.child("g", "xy", 0)
        two = [self.of.child("n", "a"), self.of.child("b", "b", 0)]
        a, b = of_type('"null"', "a"), of_type('"boolean"', "b", "false")
        wanted = [
            ("+l", (number,), '{"list":%s}' % FLOAT),
            ("+L", (number,), '{"large_list":%s}' % FLOAT),
            ("+w:2", (number,), '{"fixed_size_list":%s,"size":2}' % FLOAT),
            ("+w:2147483647", (number,), '{"fixed_size_list":%s,"size":2147483647}' % FLOAT),
            ("+s", (), '{"struct":[]}'),
            ("+s", tuple(two), '{"struct":[%s,%s]}' % (a, b)),
            ("+s", tuple(two[::-1]), '{"struct":[%s,%s]}' % (b, a)),
            ("+ud:", (), '{"mode":"dense","union":[]}'),
            ("+us:127,0", tuple(two), '{"mode":"sparse","union":[[127,%s],[0,%s]]}' % (a, b)),
            ("+ud:1,2", tuple(two), '{"mode":"dense","union":[[1,%s],[2,%s]]}' % (a, b)),
        ]
        for text, children, line in wanted:
            with self.subTest(text):
                self.assertEqual(self.of.lines(self.of.child(text, children=children)), [of_type(line)])

    def test_types_that_lines_do_not_have(self):
        for text, notation in OTHER.items():
            with self.subTest(text):
                self.assertEqual(self.of.lines(self.of.child(text)), [of_other(notation)])
        entries = self.of.child("+s", "entries", 0, children=[self.of.child("u", "k", 0), self.of.child("u", "v")])
        part = "entries: struct<k: utf8 not null, v: utf8> not null"
        for text, word, children in (("+m", "map", 1), ("+vl", "list_view", 1), ("+vL", "large_list_view", 1),
                                     ("+r", "run_end_encoded", 2)):
            with self.subTest(text):
                line = of_other(f"{word}<{', '.join([part] * children)}>")
                self.assertEqual(self.of.lines(self.of.child(text, children=[entries] * children)), [line])
        values = self.of.child("u", "")
        for flags, ordered in ((2, 0), (3, 1)):
            line = of_other(f"dictionary<values=utf8, indices=int32, ordered={ordered}>")
            child = self.of.child("i", flags=flags, dictionary=ctypes.addressof(values))
            self.assertEqual(self.of.lines(child), [line])

    def test_types_with_such_a_type_below(self):
        at, x = self.of.child("tsm:", "at", 0), self.of.child("g", "x")
        for text, children, notation in (
                ("+s", [x, at], "struct<x: float64, at: timestamp[ms] not null>"),
                ("+l", [at], "list<at: timestamp[ms] not null>"),
                ("+w:2", [at], "fixed_size_list<at: timestamp[ms] not null>[2]"),
                ("+ud:5,1", [x, at], "dense_union<x: float64=5, at: timestamp[ms] not null=1>")):
            with self.subTest(text):
                self.assertEqual(self.of.lines(self.of.child(text, children=children)), [of_other(notation)])

    def test_names_and_flags(self):
        names = {
            "": "", None: "", "gé": "gé", "日本\U0001f5fe": "日本\U0001f5fe",
            'a"\\\n\x01\x7f': 'a\\"\\\\\\n\\u0001\x7f',
        }
        found = self.of.lines(*(self.of.child("n", name) for name in names))
        self.assertEqual(found, [of_type('"null"', name) for name in names.values()])
        found = self.of.lines(*(self.of.child("n", flags=flags) for flags in (0, 1, 2, 3, 4, 7)))
        wanted = ("false", "false", "true", "true", "false", "true")
        self.assertEqual(found, [of_type('"null"', "f", nullable) for nullable in wanted])

    def test_metadata(self):
        long = "é" * 200_000
        wanted = [
            (None, ""), (pairs(), ""), (pairs("k", "v"), '"k":"v"'), (pairs("", ""), '"":""'),
            (pairs("b", "2", "a", "1", "é", "\0\n"), '"a":"1","b":"2","é":"\\u0000\\n"'),
            (pairs("k", "1", "j", "2", "k", "3"), '"j":"2","k":"3"'), (pairs("k", long), f'"k":"{long}"'),
        ]
        found = self.of.lines(*(self.of.child("n", metadata=given) for given, _ in wanted))
        ends = ['{"metadata":{%s},' % texts if texts else "{" for _, texts in wanted]
        self.assertEqual(found, [start + of_type('"null"')[1:] for start in ends])
        inner = self.of.child("n", "x", metadata=pairs("k", "v"))
        self.assertEqual(
            self.of.lines(self.of.child("+l", children=[inner])),
            [of_type('{"list":{"metadata":{"k":"v"},"name":"x","nullable":true,"type":"null"}}')])

    def test_metadata_of_the_schema_itself_is_passed_by(self):
        self.assertEqual(self.of.lines(metadata=pairs("geo", "{}")), [])

    def test_released_once_by_the_root_alone(self):
        root = self.of.root(self.of.child("+l", children=[self.of.child("g")]))
        lines_at(root)
        self.assertEqual((self.of.roots, self.of.children, root.release), (1, 0, None))
        with self.assertRaisesRegex(SchemaError, "released before"):
            lines_at(root)
        self.assertEqual(self.of.roots, 1)

    def test_older_export_of_pyarrow(self):
        of, fault = self.of, None

        class Schema:
            def _export_to_c(self, address):
                if fault is not AttributeError:
                    ctypes.memmove(address, ctypes.addressof(of.root(of.child("g"))), ctypes.sizeof(ArrowSchema))
                if fault:
                    raise fault("half way")

        with self.assertRaises(TypeError):  # as it is of no class of pyarrow
            arrow_lines.lines(Schema())
        Schema.__module__ = "pyarrow.lib"
        self.assertEqual(arrow_lines.lines(Schema()), [of_type('"float64"')])
        self.assertEqual(of.roots, 1)
        fault = KeyError
        with self.assertRaises(KeyError):
            arrow_lines.lines(Schema())
        self.assertEqual(of.roots, 2)
        fault = AttributeError
        with self.assertRaises(AttributeError):
            arrow_lines.lines(Schema())
        self.assertEqual(of.roots, 2)


class OutOfCapsules(unittest.TestCase):
    def test_released_once_between_us_and_the_destructor(self):
        of, ended = Producer(), []
        # (as PyCapsule_GetPointer, for a capsule at its end, of which no Python object may be made)
        of_ending_capsule = ctypes.PYFUNCTYPE(ctypes.c_void_p, ctypes.c_void_p, ctypes.c_void_p)(("PyCapsule_GetPointer", ctypes.pythonapi))

        def end(capsule):
            address = of_ending_capsule(capsule, ctypes.addressof(making.SCHEMA_CAPSULE))
            ended.append(ArrowSchema.from_address(address).release)

        destructor = making.RELEASE(end)
        callback = making.RELEASE(lambda address: ended.append("released"))  # and does not say so, as it should

        class Exporter:
            def __arrow_c_schema__(self):
                address = ctypes.addressof(root)
                return making._capsule_new(address, ctypes.addressof(making.SCHEMA_CAPSULE), destructor)

        for column, message in ((of.child("g"), None), (of.child("nonsense"), "unknown format")):
            root = of.root(column, release=None)
            root.release = ctypes.cast(callback, ctypes.c_void_p).value
            del ended[:]
            if message is None:
                self.assertEqual(arrow_lines.lines(Exporter()), [of_type('"float64"')])
            else:
                with self.assertRaisesRegex(SchemaError, message):
                    arrow_lines.lines(Exporter())
            self.assertEqual(ended, ["released", None])


class Stream:
    """An object with `__arrow_c_stream__`, over a producer's schema; counts what is asked and released."""

    def __init__(self, of, status=0, said=b"no rows"):
        self.of, self.status, self.said, self.asked, self.released = of, status, said, 0, 0
        self.callbacks = (
            structures.GET_SCHEMA(self.get_schema), ctypes.CFUNCTYPE(ctypes.c_void_p, ctypes.c_void_p)(self.last_error),
            making.RELEASE(self.release))
        asked, error, release = (ctypes.cast(one, ctypes.c_void_p) for one in self.callbacks)
        self.stream = ArrowArrayStream(asked, None, error if said is not None else None, release, None)

    def get_schema(self, stream, address):
        self.asked += 1
        if not self.status:
            ctypes.memmove(address, ctypes.addressof(self.of.root(self.of.child("g"))), ctypes.sizeof(ArrowSchema))
        return self.status

    def last_error(self, stream):
        return ctypes.cast(ctypes.c_char_p(self.said), ctypes.c_void_p).value

    def release(self, stream):
        self.released += 1
        ArrowArrayStream.from_address(stream).release = None

    def __arrow_c_stream__(self, requested_schema=None):
        return making._capsule_new(ctypes.addressof(self.stream), ctypes.addressof(structures.STREAM_CAPSULE), None)


class OutOfStreams(unittest.TestCase):
    def test_schema_of_a_stream(self):
        stream = Stream(Producer())
        self.assertEqual(arrow_lines.lines(stream), [of_type('"float64"')])
        self.assertEqual((stream.asked, stream.released, stream.of.roots), (1, 1, 1))
        with self.assertRaisesRegex(SchemaError, "released before"):
            arrow_lines.lines(stream)
        self.assertEqual((stream.asked, stream.released, stream.of.roots), (1, 1, 1))

    def test_streams_without_a_schema(self):
        for said, message in ((b"no rows", "no rows"), (None, "error 5")):
            stream = Stream(Producer(), 5, said)
            with self.assertRaisesRegex(SchemaError, f"gives no schema: {message}"):
                arrow_lines.lines(stream)
            self.assertEqual((stream.asked, stream.released), (1, 1))


class Hostile(unittest.TestCase):
    def setUp(self):
        self.of = Producer()

    def refused(self, message, *children, **other):
        """A schema that is refused, with the message, and released once."""
        before = self.of.roots
        with self.assertRaisesRegex(SchemaError, message):
            self.of.lines(*children, **other)
        self.assertEqual(self.of.roots, before + 1)

    def column_refused(self, message, *children):
        """The same of a schema whose last column is at fault, and named in the message."""
        self.refused(r"column [01] \(f\): " + message, *children)

    def test_formats(self):
        formats = [
            "", "x", "float64", "utf8", "null", "w:", "w:-1", "w:x", "d:", "d:1", "d:1,", "t", "td", "ts", "tss",
            "tsx:", "+", "+w", "+w:", "+w:-1", "+w: 2", "+w:2 ", "+w:٢", "+w:12345678901", "+u", "+ud", "+ux:0",
            "+ud:,", "+ud:0,", "+ud:0,x", "+ud:-1", "+ud:0;1", "+sx", "gg", "g\n",
        ]
        for text in formats:
            with self.subTest(text):
                self.column_refused("unknown format", self.of.child("n"), self.of.child(text))
        self.column_refused("no format string", self.of.child(None))
        self.column_refused("a format string that is not UTF-8", self.of.child(b"tss:\xff"))
        long = self.of.child("+w:4294967298", children=[self.of.child("g")])
        self.column_refused("a list of the size 4294967298", long)

    def test_names(self):
        self.refused("column 0: a name that is not UTF-8", self.of.child("n", b"\xff"))

    def test_children(self):
        one = self.of.child("g")
        for text in ("+l", "+L", "+w:2"):
            self.column_refused("a list with 0 children", self.of.child(text))
            self.column_refused("a list with 2 children", self.of.child(text, children=[one, one]))
        for text in ("g", "z", "tss:"):
            self.column_refused("format .* with children", self.of.child(text, children=[one]))
        for count in (-1, -2**63, 2**63 - 1, 2**31):
            self.column_refused(f"{count} children$", self.of.child("+s", n_children=count))
            self.column_refused(f"{count} children$", self.of.child("+s", children=[one], n_children=count))
            self.refused(f"the schema: {count} children$", n_children=count)
        self.column_refused("3 children, and no address", self.of.child("+s", n_children=3))
        self.refused("the schema: 3 children, and no address", n_children=3)
        self.column_refused("a child without an address", self.of.child("+s", children=[one, None]))
        self.refused("the schema: a child without an address", one, None)
        gone = self.of.child("g", release=None)
        self.column_refused("a field was released before", self.of.child("+l", children=[gone]))
        self.refused("column 0: a field was released before", gone)

    def test_unions(self):
        one = self.of.child("g")
        for text, count in (("+ud:0", 0), ("+ud:", 1), ("+ud:0,1", 1), ("+us:1,1", 2), ("+ud:128", 1), ("+us:999", 1)):
            with self.subTest(text):
                self.column_refused("a union of", self.of.child(text, children=[one] * count))

    def test_metadata(self):
        number = struct.Struct("=i").pack
        faults = {
            number(-1): "count -1", number(-2**31): "count -2147483648", number(2**31 - 1): "count 2147483647",
            number(1) + number(-1): "length -1", number(1) + number(2**31 - 1): "length 2147483647",
            number(1) + number(1) + b"k" + number(-5): "length -5",
            number(1) + number(1) + b"k" + number(1_048_577): "length 1048577",
        }
        for given, message in faults.items():
            with self.subTest(message):
                self.column_refused(f"metadata with the {message}", self.of.child("n", metadata=given))
        self.refused("the schema: metadata with the count -1", metadata=number(-1))
        for given in (pairs("k", b"\xff"), pairs(b"\xff", "v")):
            self.column_refused("a text in the metadata that is not UTF-8", self.of.child("n", metadata=given))

    def test_what_is_itself_a_column(self):
        number = self.of.child("g", "xy", 0)
        two = [self.of.child("n", "a"), self.of.child("b", "b", 0)]
        a, b = of_type('"null"', "a"), of_type('"boolean"', "b", "false")
        for column, children, wanted in (
                ({"text": "g"}, [], '"float64"'), ({"text": "+l"}, [number], '{"list":%s}' % FLOAT), ({"text": "tsm:"}, [], '{"other":"timestamp[ms]"}')):
            self.assertEqual(self.of.lines(*children, **column), [of_type(wanted, "", "false")])
        named = pairs("ARROW:extension:name", "geoarrow.point")
        line = '{"metadata":{"ARROW:extension:name":"geoarrow.point"},' + of_type('{"struct":[%s,%s]}' % (a, b), "", "false")[1:]
        self.assertEqual(self.of.lines(*two, metadata=named), [line])
        root = self.of.root(*two)
        root.name = b"place"
        self.assertEqual(lines_at(root), [of_type('{"struct":[%s,%s]}' % (a, b), "place", "false")])
        self.refused("column 0 .*unknown format", dictionary=ctypes.addressof(self.of.child("u")))
        self.refused("column 0 .*a list with 0 children", text="+l")

    def test_what_gives_no_schema(self):
        for given in (None, "schema", 1.5, True, object(), ctypes.addressof(self.of.root())):
            with self.assertRaisesRegex(TypeError, "gives no Arrow schema"):
                arrow_lines.lines(given)
        with self.assertRaisesRegex(SchemaError, "no address"):
            structures.columns_at(0)
        stream = Stream(self.of)

        class Mistaken:
            def __arrow_c_schema__(self):
                return stream.__arrow_c_stream__()

        with self.assertRaisesRegex(SchemaError, "no capsule of the name arrow_schema"):
            arrow_lines.lines(Mistaken())
        Mistaken.__arrow_c_schema__ = lambda self: None
        with self.assertRaisesRegex(SchemaError, "no capsule of the name arrow_schema"):
            arrow_lines.lines(Mistaken())

    def test_lists_in_one_another(self):
        column = self.of.child("g")
        for level in range(2, 65):
            column = self.of.child("+l", children=[column])
        (line,) = self.of.lines(column)
        self.assertEqual((line.count("{"), line.count('"float64"'), line.count("+l")), (127, 1, 0))
        for _ in range(20_000):
            column = self.of.child("+l", children=[column])
        (line,) = self.of.lines(column)
        self.assertEqual((line.count("list<"), line.count("{"), line.count(": +l")), (63, 2, 1))

    def test_more_fields_than_a_line_has_room_for(self):
        column = self.of.child("g")
        for _ in range(40):
            column = self.of.child("+s", children=[column, column])
        self.column_refused("more fields than a line has room for", column)
        self.column_refused("a line of 1800062 bytes", self.of.child("n", metadata=pairs("k", "\1" * 300_000)))


class IntoStructures(unittest.TestCase):
    def setUp(self):
        making.sweep()
        self.before = making.held_count()

    def tearDown(self):
        making.sweep()
        self.assertEqual(making.held_count(), self.before)

    def there_and_back(self, lines):
        self.assertEqual(arrow_lines.lines(arrow_lines.Schema(lines)), lines)
        self.assertEqual(making.held_count(), self.before)

    def test_each_kind_of_column_as_written(self):
        rows = (TOP / "crates/file_rows/data/lines/written.rows").read_text(encoding="utf-8").split("\n")
        lines = [answer for asked, answer in zip(rows, rows[1:]) if asked.startswith("canon ")]
        self.assertEqual(len(lines), 68)
        self.there_and_back(lines)
        for line in lines:
            self.there_and_back([line])

    def test_lines_as_they_are_written(self):
        rows = (TOP / "crates/file_rows/data/lines/fields.rows").read_text(encoding="utf-8").split("\n")
        lines = [answer for asked, answer in zip(rows, rows[1:]) if asked.startswith("field ")]
        fits = [line for line in lines if '"size":-' not in line]
        self.assertEqual((len(lines), len(fits)), (45, 44))
        self.there_and_back(fits)
        self.there_and_back((TOP / "examples/schema.jsonl").read_text().split("\n")[:-1])

    def test_types_that_lines_do_not_have(self):
        self.there_and_back([of_other(notation) for notation in OTHER.values()])

    def test_metadata_and_names(self):
        metadata = '{"":"","k":"%s","é":"\\u0000"}' % ("é" * 300_000)
        line = '{"metadata":%s,"name":"日本\\n","nullable":true,"type":"utf8"}' % metadata
        self.there_and_back([line, of_type('"null"', "")])
        self.there_and_back([])

    def test_forms_of_lines(self):
        wanted = [of_type('"int8"'), of_type('"utf8"', "g")]
        text = "\n".join(wanted)
        for given in (text, text + "\n", wanted, iter(wanted)):
            self.assertEqual(arrow_lines.lines(arrow_lines.Schema(given)), wanted)
        self.assertEqual(arrow_lines.lines(arrow_lines.Schema("")), [])
        spaced = ' { "type" : "int8", "other": 1.5, "nullable":false, "nullable":true, "metadata":{}, "name":"f" } \r'
        self.assertEqual(arrow_lines.lines(arrow_lines.Schema([spaced])), wanted[:1])

    def test_structures_as_a_consumer_sees_them(self):
        kind = '{"fixed_size_list":%s,"size":2}' % FLOAT
        line = '{"metadata":{"a":"é","k":""},"name":"gé","nullable":true,"type":%s}' % kind
        given = arrow_lines.Schema([line, of_type('"null"', "", "false")]).__arrow_c_schema__()
        root = ArrowSchema.from_address(structures._address_in(given, making.SCHEMA_CAPSULE))
        self.assertEqual((root.format, root.name, root.flags, root.n_children), (b"+s", b"", 0, 2))
        self.assertEqual((root.metadata, root.dictionary), (None, None))
        first, second = (ArrowSchema.from_address(root.children[at]) for at in range(2))
        self.assertEqual((first.format, first.name, first.flags, first.n_children), (b"+w:2", "gé".encode(), 2, 1))
        metadata = pairs("a", "é", "k", "")
        self.assertEqual(ctypes.string_at(first.metadata, len(metadata)), metadata)
        self.assertEqual((second.format, second.name, second.flags, second.metadata), (b"n", b"", 0, None))
        self.assertEqual((second.n_children, bool(second.children)), (0, False))
        inner = ArrowSchema.from_address(first.children[0])
        self.assertEqual((inner.format, inner.name, inner.flags), (b"g", b"xy", 0))
        self.assertTrue(all(one.release for one in (root, first, second, inner)))

    def test_child_moved_out_of_its_parent(self):
        given = arrow_lines.Schema([of_type('{"list":%s}' % FLOAT), of_type('"null"')]).__arrow_c_schema__()
        root = ArrowSchema.from_address(structures._address_in(given, making.SCHEMA_CAPSULE))
        child = structures.moved(ArrowSchema, root.children[0])
        making.release(root)
        self.assertEqual((root.release, making.held_count()), (None, self.before + 2))
        del given
        self.assertEqual((child.format, child.name), (b"+l", b"f"))
        self.assertEqual(ArrowSchema.from_address(child.children[0]).name, b"xy")
        making.release(child)
        self.assertIsNone(child.release)

    def test_capsule_that_nobody_consumes(self):
        schema = arrow_lines.Schema([of_type('{"list":%s}' % FLOAT)])
        capsule = schema.__arrow_c_schema__()
        self.assertEqual(making.held_count(), self.before + 3)
        del schema
        self.assertEqual(making.held_count(), self.before + 3)
        del capsule
        making.sweep()
        self.assertEqual(making.held_count(), self.before)
        schema = arrow_lines.Schema([of_type('"null"')])
        for _ in range(3):  # each when the next one is given out
            schema.__arrow_c_schema__()
            self.assertEqual(making.held_count(), self.before + 2)

    def test_capsule_is_consumed_once(self):
        schema = arrow_lines.Schema([of_type('"null"')])
        capsule = schema.__arrow_c_schema__()

        class Again:
            def __arrow_c_schema__(self):
                return capsule

        self.assertEqual(len(arrow_lines.lines(Again())), 1)
        with self.assertRaisesRegex(SchemaError, "released before"):
            arrow_lines.lines(Again())
        self.assertEqual((len(arrow_lines.lines(schema)), len(arrow_lines.lines(schema))), (1, 1))

    def test_moved_schema_outlives_its_capsule(self):
        schema = arrow_lines.Schema([of_type('"null"', "gé")])
        ours = structures.moved(ArrowSchema, structures._address_in(schema.__arrow_c_schema__(), making.SCHEMA_CAPSULE))
        del schema
        self.assertEqual(making.held_count(), self.before + 2)
        self.assertEqual(ArrowSchema.from_address(ours.children[0]).name, "gé".encode())
        making.release(ours)

    def test_consumer_that_fails(self):
        schemas = [arrow_lines.Schema([of_type('"null"')])]
        with self.assertRaises(TypeError):
            int(schemas[0].__arrow_c_schema__())
        self.assertEqual(making.held_count(), self.before + 2)
        with self.assertRaises(TypeError):
            int(schemas.pop())  # which ends with the exception under way
        self.assertEqual(making.held_count(), self.before)
        told = []
        sys.unraisablehook, hook = lambda one: told.append(one.exc_type), sys.unraisablehook
        try:
            for _ in range(50):  # by then Python has specialized the code
                with self.assertRaises(TypeError):
                    int(arrow_lines.Schema([of_type('"null"')]).__arrow_c_schema__())
        finally:
            sys.unraisablehook = hook
        self.assertEqual(told, [])
        making.sweep()

    def test_lines_that_are_refused(self):
        deep = FLOAT
        for _ in range(64):
            deep = of_type('{"list":%s}' % deep)
        refused = {
            "none": "no JSON", "error field": "no JSON", "": "no JSON", "[" * 100_000: "no JSON",
            '{"name":NaN}': "no JSON", "1": "no field", "[]": "no field", '{"name":"f","nullable":true}': "no field",
            deep: "nested deeper",
            '{"name":1,"nullable":true,"type":"null"}': "a name that is no text",
            '{"name":"f","nullable":1,"type":"null"}': "nullable that is neither",
            '{"name":"a\\u0000","nullable":true,"type":"null"}': "a character 0",
            '{"name":"\\ud800","nullable":true,"type":"null"}': "UTF-8 cannot hold",
            '{"metadata":null,"name":"f","nullable":true,"type":"null"}': "no object of texts",
            '{"metadata":{"k":1},"name":"f","nullable":true,"type":"null"}': "no object of texts",
        }
        types = {
            '"Null"': "stands for none", '"g"': "stands for none", '"i"': "stands for none", '"+l"': "stands for none",
            '"+m"': "stands for none", '"tsm:"': "stands for none", "null": "no type", "{}": "no type",
            '{"other":"timestamp[s, tz=\\u0000]"}': "a character 0", '{"other":1}': "no type",
            '{"other":"map<entries: null>"}': "not said whole", '{"other":"tsm:"}': "not said whole",
            '{"list":1}': "no field", '{"list":%s,"size":1}' % FLOAT: "no type", '{"struct":{}}': "no type",
            '{"struct":[%s,1]}' % FLOAT: "no field", '{"mode":"other","union":[]}': "no type",
            '{"mode":[],"union":[]}': "no type",
            '{"mode":"dense","union":{}}': "no pairs", '{"mode":"dense","union":[[1]]}': "no pairs",
        }
        for size in ("-1", "2147483648", "1.0", "-0", "true", '"2"', "9" * 5000):
            types['{"fixed_size_list":%s,"size":%s}' % (FLOAT, size)] = "the size|no JSON"
        for ids in ("-1", "128", "1.0", "-0", "true", "1,1"):
            members = ",".join("[%s,%s]" % (one, FLOAT) for one in ids.split(","))
            types['{"mode":"dense","union":[%s]}' % members] = "the type ids"
        refused.update((of_type(text), message) for text, message in types.items())
        for line, message in refused.items():
            with self.subTest(line[:100]):
                with self.assertRaisesRegex(SchemaError, f"column 1: .*({message})"):
                    arrow_lines.Schema([of_type('{"list":%s}' % FLOAT), line])
                self.assertEqual(making.held_count(), self.before)

    def test_several_threads(self):
        lines, wrong = [of_type('{"list":%s}' % FLOAT)] * 5, []

        def work():
            for _ in range(100):
                if arrow_lines.lines(arrow_lines.Schema(lines)) != lines:
                    wrong.append(1)

        threads = [threading.Thread(target=work) for _ in range(8)]
        for one in threads:
            one.start()
        for one in threads:
            one.join()
        self.assertEqual(wrong, [])

    def test_what_is_held_at_the_end_of_a_process(self):
        script = (
            "import sys; sys.path.insert(0, sys.argv[1]); import arrow_lines\n"
            "schema = arrow_lines.Schema([sys.argv[2]]); capsule = schema.__arrow_c_schema__()\n"
            "sys.held = arrow_lines.Schema([sys.argv[2]]).__arrow_c_schema__()\n")
        command = [sys.executable, "-c", script, str(HERE), of_type('"null"')]
        ran = subprocess.run(command, stdout=subprocess.PIPE, stderr=subprocess.PIPE)
        self.assertEqual((ran.returncode, ran.stdout, ran.stderr), (0, b"", b""))
