"""What is asked of each object that gives a schema, a field or an array. Each case runs in a process of its own, whose allocator finds what is written past a
block or used after its end: `test_objects` runs them."""
import concurrent.futures
import ctypes
import gc
import os
import subprocess
import sys
import unittest
from unittest import mock

from geoarrow_fields import GeoArrowError, Schema, SchemaError, capsules, check, library, lines

from . import stand_ins
from .shared import TOP
from .stand_ins import FLOAT, POINT, SCHEMA, XY, Newer, Older, Other, Type


def line(kind, name="", metadata=""):
    return '{%s"name":"%s","nullable":true,"type":%s}' % (metadata, name, kind)


def moved(structure):
    """A structure of ours, to which that one is moved."""
    ours = type(structure).from_buffer_copy(structure)
    structure.release = None
    return ours


def resident():
    """How many bytes of this process are in memory."""
    gc.collect()
    with open("/proc/self/statm", encoding="ascii") as found:
        return int(found.read().split()[1]) * os.sysconf("SC_PAGE_SIZE")


def text_at(address):
    return ctypes.string_at(address)


ID = Type("l", "id")
TEXT = Type("u", "t")
TWO = Type("+s", "", ID, TEXT)
TWO_LINES = [line('"int64"', "id"), line('"utf8"', "t")]
X_AND_Y = '{"name":"x","nullable":false,"type":"float64"},{"name":"y","nullable":false,"type":"float64"}'
OF_POINT = '"metadata":{"ARROW:extension:name":"geoarrow.point"},'
DICTIONARY = Type("i", "", dictionary=Type("u"))
DICTIONARY_LINE = line('{"other":"dictionary<values=utf8, indices=int32, ordered=0>"}')


class Cases(unittest.TestCase):
    def tearDown(self):
        """What was lent is unchanged, and what was given is released, each once."""
        gc.collect()
        self.assertTrue(stand_ins.is_lent_unchanged())
        self.assertEqual(stand_ins.released, stand_ins.given)

    def refused(self, given, error, message):
        with self.assertRaisesRegex(error, message) as caught:
            lines(given)
        self.assertIs(type(caught.exception), error)

    # --- schemas ---

    def test_schemas(self):
        for given in (Newer.Schema(TWO), Other.Schema(TWO)):
            self.assertEqual(lines(given), TWO_LINES)

    def test_schemas_without_columns(self):
        for given in (Newer.Schema(Type("+s")), Other.Stream(Type("+s", "result"))):
            self.assertEqual(lines(given), [])
            self.assertEqual(check(given), [])

    def test_what_only_an_address_would_take(self):
        for of in (Older.Schema, Older.Field, Older.DataType, Older.RecordBatch, Older.RecordBatchReader, Older.Table, Older.Array, Older.DictionaryArray):
            self.refused(of(TWO), TypeError, f"^{of.__name__} is no source: ")
            with self.assertRaises(TypeError):
                check(of(TWO))

    def test_a_schema_without_a_name_at_all(self):
        self.assertEqual(lines(Other.Schema(Type("+s", None, ID))), TWO_LINES[:1])

    # --- batches, tables, readers ---

    def test_record_batches(self):
        self.assertEqual(lines(Newer.RecordBatch(TWO)), TWO_LINES)

    def test_readers(self):
        self.assertEqual(lines(Newer.RecordBatchReader(TWO)), TWO_LINES)

    def test_tables_and_datasets(self):
        for given in (Newer.Table(TWO), Newer.Dataset(TWO)):
            self.assertEqual(lines(given), TWO_LINES)

    def test_a_stream_whose_rows_have_a_name(self):
        self.assertEqual(lines(Other.Stream(Type("+s", "query_result", ID, TEXT))), TWO_LINES)

    def test_a_stream_of_a_column(self):
        self.assertEqual(lines(Newer.ChunkedArray(Type("g"))), [line('"float64"')])
        self.assertEqual(lines(Newer.ChunkedArray(Type("+s", "", *XY, metadata=POINT))), [line('{"struct":[%s]}' % X_AND_Y, metadata=OF_POINT)])

    def test_a_stream_that_fails(self):
        class Stream:
            def __arrow_c_stream__(self, requested_schema=None):
                return stand_ins.capsule(stand_ins.STREAM, stand_ins.stream_bytes(TWO, 5))

        self.refused(Stream(), SchemaError, "gives no schema: error 5")

    # --- fields and data types ---

    def test_fields(self):
        for kind, text in (
                (Type("g", "f"), line('"float64"', "f")), (Type("z", "f", metadata=POINT), line('"binary"', "f", OF_POINT)),
                (Type("+w:2", "f", FLOAT), line('{"fixed_size_list":{"name":"xy","nullable":false,"type":"float64"},"size":2}', "f")),
                (Type("+s", "f", *XY), line('{"struct":[%s]}' % X_AND_Y, "f")), (Type("+s", "f"), line('{"struct":[]}', "f")),
                (Type("+s", "f", *XY, metadata=POINT), line('{"struct":[%s]}' % X_AND_Y, "f", OF_POINT)),
                (Type("+s", "", *XY, metadata=POINT), line('{"struct":[%s]}' % X_AND_Y, "", OF_POINT))):
            for of in (Newer.Field, Other.Schema):
                with self.subTest(text=text, of=of):
                    self.assertEqual(lines(of(kind)), [text])

    def test_data_types(self):
        for of in (Newer.DataType, stand_ins.OfAnExtension):
            self.assertEqual(lines(of(Type("g"))), [line('"float64"')])
            self.assertEqual(lines(of(DICTIONARY)), [DICTIONARY_LINE])
        self.assertEqual(lines(Newer.StructType(TWO)), TWO_LINES)  # as a schema

    # --- arrays ---

    def test_arrays(self):
        for of in (Newer.Array, Other.Array):
            self.assertEqual(lines(of(Type("g"))), [line('"float64"')])
            self.assertEqual(lines(of(Type("+s", "", *XY, metadata=POINT))), [line('{"struct":[%s]}' % X_AND_Y, metadata=OF_POINT)])
        self.assertEqual(lines(Other.Array(TWO)), TWO_LINES)

    def test_dictionary_arrays(self):
        self.assertEqual(lines(Newer.DictionaryArray(DICTIONARY)), [DICTIONARY_LINE])

    def test_an_array_whose_schema_is_wrong(self):
        self.refused(Other.Array(Type("nonsense")), SchemaError, "column 0: found an unknown type; expected a format string of Arrow's C data interface$")

    # --- what is refused, and what is said of it ---

    def test_schemas_that_are_wrong(self):
        for given, words, place in (
                (Other.Schema(Type("+s", "", ID, Type("nonsense"))), "an unknown type", "column 1"),
                (Other.Schema(Type("+s", "", ID, Type("+l"))), "a type with a wrong number of children", "column 1"),
                (Other.Stream(Type("+s", "", Type("+s", "a", Type("?")))), "an unknown type", "column 0"),
                (Other.Schema(Type("?")), "an unknown type", "column 0")):
            for call in (lines, check):
                with self.assertRaisesRegex(SchemaError, words) as caught:
                    call(given)
                self.assertIsInstance(caught.exception, GeoArrowError)
                self.assertEqual((caught.exception.code, caught.exception.place), ("BadSchema", place))

    # --- what the report says of a structure, and not of its lines ---

    def test_the_metadata_of_a_schema(self):
        given = Other.Schema(Type("+s", "", Type("z", "g"), metadata={"geo": '{"version":"1.1.0"}'}))
        self.assertEqual([one.code for one in check(given).findings if one.source == "geo"], ["GeoColumns", "GeoPrimaryColumn"])
        self.assertEqual(check(lines(given)).findings, ())
        self.assertEqual(check(Other.Schema(Type("z", "g", metadata=POINT)))[0].extension, "geoarrow.point")

    def test_an_export_of_that_name_that_is_not_of_pyarrow(self):
        self.refused(Other.Exporter(TWO), TypeError, "is no source: ")

    def test_pairs_that_are_none(self):
        for pair in (None, (), (1,), "ab", (1, 2), [1, 2]):
            self.refused(type("Array", (), {"__arrow_c_array__": lambda self: pair})(), SchemaError, "no pair|no capsule")

    # --- none of these ---

    def test_integers_are_no_addresses(self):
        for given in (3, 0, -1, True, 2**70):
            self.refused(given, TypeError, "is no source: ")

    def test_objects_that_give_no_schema(self):
        class OfAText:
            schema = "a text"

        class OfItself:
            @property
            def schema(self):
                return self

        for given in (None, object(), 1.5, {"a": 1}, OfAText(), OfItself(), Newer.Schema, lambda: 1):
            with self.assertRaises(TypeError):
                lines(given)

    def test_capsules_that_are_none(self):
        class Gives:
            def __init__(self, found):
                self.found = found

            def __arrow_c_schema__(self):
                return self.found

        for found in (None, 3, "a text", stand_ins.capsule(SCHEMA, bytes(SCHEMA), stand_ins.ARRAY)):
            self.refused(Gives(found), SchemaError, "no capsule of the name arrow_schema")
        self.refused(Gives(stand_ins.capsule(SCHEMA, bytes(SCHEMA))), SchemaError, "found a structure that is released")

    # --- what the package gives out ---

    def test_what_is_given_out_and_taken(self):
        schema = Schema(TWO_LINES)
        for _ in range(100):
            self.assertEqual(lines(schema), TWO_LINES)

    def test_what_others_hold(self):
        held = [Schema(TWO_LINES).__arrow_c_schema__() for _ in range(100)]
        for one in held[::2]:
            self.assertEqual(lines(type("Gives", (), {"__arrow_c_schema__": lambda self: one})()), TWO_LINES)

    def test_what_nobody_takes_is_released(self):
        """The release callback is another here, which the destructor calls once, with the structure in its place."""
        for _ in range(100):
            capsule, called = Schema(TWO_LINES).__arrow_c_schema__(), []
            address = capsules.address_in(capsule, capsules.SCHEMA_CAPSULE)
            schema = capsules.ArrowSchema.from_address(address)
            ours = moved(schema)
            note = stand_ins.RELEASE(called.append)
            schema.release = ctypes.cast(note, ctypes.c_void_p).value
            self.assertEqual(called, [])
            del capsule
            self.assertEqual(called, [address])
            capsules.release(ours)

    def test_memory_of_what_nobody_takes(self):
        """Of 100,000 capsules, whose schemas would hold some 100 MB, nothing is left."""
        schema = Schema(TWO_LINES[:1])
        for _ in range(1000):
            schema.__arrow_c_schema__()
        before = resident()
        for _ in range(100000):
            schema.__arrow_c_schema__()
        self.assertLess(resident() - before, 1 << 20)

    def test_memory_of_what_is_made_to_be_tried(self):
        Schema(TWO_LINES * 1000)
        before = resident()
        for _ in range(50):  # each some 500 KB
            Schema(TWO_LINES * 1000)
        self.assertLess(resident() - before, 4 << 20)

    def test_a_capsule_of_no_schema(self):
        """Of lines that are none the capsule is dropped with nothing in it."""
        for _ in range(100):
            with self.assertRaises(SchemaError):
                Schema(["{}"])
        self.assertRegex(repr(library.capsule()), 'capsule object "arrow_schema"')
        new = ctypes.PYFUNCTYPE(ctypes.py_object, ctypes.c_void_p, ctypes.c_void_p, ctypes.c_void_p)(("PyCapsule_New", ctypes.pythonapi))
        with mock.patch.object(library, "_capsule", lambda: lambda: new(None, None, None)):
            with self.assertRaises(MemoryError):  # as where the library has no memory for a structure
                library.capsule()

    def test_what_a_consumer_moves_out(self):
        """A schema, and a child of it, outlive their capsule and one another, and are released once."""
        capsule = Schema(TWO_LINES).__arrow_c_schema__()
        schema = moved(capsules.ArrowSchema.from_address(capsules.address_in(capsule, capsules.SCHEMA_CAPSULE)))
        child = moved(capsules.ArrowSchema.from_address(ctypes.c_void_p.from_address(schema.children + 8).value))
        del capsule
        self.assertEqual((text_at(schema.format), schema.n_children), (b"+s", 2))
        capsules.release(schema)
        self.assertEqual((text_at(child.format), text_at(child.name), child.flags, schema.release), (b"u", b"t", 2, None))
        capsules.release(child)
        capsules.release(child)  # which is released
        self.assertIsNone(child.release)

    def test_what_a_consumer_releases_in_its_place(self):
        for _ in range(100):
            capsule = Schema(TWO_LINES).__arrow_c_schema__()
            schema = capsules.ArrowSchema.from_address(capsules.address_in(capsule, capsules.SCHEMA_CAPSULE))
            capsules.release(schema)
            self.assertIsNone(schema.release)

    def test_capsules_in_threads(self):
        schema = Schema(TWO_LINES)
        with concurrent.futures.ThreadPoolExecutor(8) as pool:
            given = list(pool.map(lambda _: schema.__arrow_c_schema__(), range(400)))
            del given[::3]
            self.assertEqual(list(pool.map(lambda _: lines(schema), range(100))), [TWO_LINES] * 100)

    def test_capsules_in_another_interpreter(self):
        """Those that it drops, those that it still holds at its end, and those of this one behind that."""
        try:
            import _xxsubinterpreters as interpreters
        except ImportError:
            self.skipTest("no interpreters in this Python")
        script = f"""
import sys
sys.path[:0] = {sys.path!r}
from geoarrow_fields import Schema, lines
held = [Schema({TWO_LINES!r}) for _ in range(50)]
assert [lines(one) for one in held] == [{TWO_LINES!r}] * 50
kept = [one.__arrow_c_schema__() for one in held]
del kept[::2]
try:
    int(held[0].__arrow_c_schema__())
except TypeError:
    pass
"""
        for _ in range(2):
            one = interpreters.create()
            interpreters.run_string(one, script)
            interpreters.destroy(one)
            self.assertEqual(lines(Schema(TWO_LINES)), TWO_LINES)

    def test_capsules_at_the_end_of_a_process(self):
        """What lives as long as the process does not keep it from ending well."""
        script = f"from geoarrow_fields import Schema; import sys; sys.kept = Schema({TWO_LINES!r}).__arrow_c_schema__()"
        ran = subprocess.run([sys.executable, "-c", script], stderr=subprocess.PIPE, cwd=TOP / "python")
        self.assertEqual((ran.returncode, ran.stderr), (0, b""))

    def test_schemas_that_are_none(self):
        for given, code, place in (
                (["{}"], "BadLine", "line 1"), (["", "x"], "BadLine", "byte 1, line 2"), ([*TWO_LINES, '{"name":"m","nullable":true,"type":{"other":"map"}}'], "BadSchema", "column 2"),
                ([line('"utf8"', "a\\u0000")], "BadSchema", "column 0"), ("\ud800", "BadLine", "byte 1, line 1")):
            with self.assertRaises(SchemaError) as caught:
                Schema(given)
            self.assertEqual((caught.exception.code, caught.exception.place), (code, place))
        for given in ([1], 1, None, [None]):
            with self.assertRaises(TypeError):
                Schema(given)

    def test_forms_of_lines(self):
        text = "\n".join(TWO_LINES)
        for given in (text, text + "\n", "\n" + text, TWO_LINES, iter(TWO_LINES), [one.encode() for one in TWO_LINES], tuple(TWO_LINES)):
            self.assertEqual(lines(Schema(given)), TWO_LINES)
        for given in ("", [], "\n \n"):
            self.assertEqual(lines(Schema(given)), [])
        self.assertEqual(lines(Schema([' { "type" : "int8", "other": 1.5, "nullable":true, "metadata":{}, "name":"f" } \r'])), [line('"int8"', "f")])

    def test_a_consumer_that_fails(self):
        """The capsule is dropped under an exception, which stays as it was."""
        before = resident()
        for _ in range(1000):
            with self.assertRaisesRegex(TypeError, "^int.. argument must be"):
                int(Schema(TWO_LINES).__arrow_c_schema__())
            with self.assertRaisesRegex(KeyError, "^'mine'$") as caught:
                fail_over(Schema(TWO_LINES).__arrow_c_schema__())
            self.assertIsNone(caught.exception.__context__)
        self.assertLess(resident() - before, 4 << 20)


def fail_over(_capsule):
    """Drops a capsule while an exception is on its way."""
    try:
        raise KeyError("mine")
    finally:
        del _capsule
