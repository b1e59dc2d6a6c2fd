"""The calls over a stand-in for the library (stand_in.c), which writes to all the room that it is told of. Run by `test_library`, each in a process of its own,
whose allocator finds what is written past a block."""
import ctypes
import io
import os
import pathlib
import tempfile
import unittest
from unittest import mock

import geoarrow_fields
from geoarrow_fields import RefusedSource, canonical, check, library, read, same, write_schema

SIZES = (0, 1, 4095, 4096, 4097, 65535, 65536, 65537, (1 << 20) - 1, 1 << 20, (1 << 20) + 1, 5_000_000)
KEYS = ("code", "file", "index", "source", "byte", "line", "found", "expected", "help")


def said_of(error):
    """What is said of a refused source, but for what is not."""
    return {key: getattr(error, key) for key in KEYS if getattr(error, key) is not None}


def arrow_file(words, left_out):
    """An Arrow file whose footer are these words, behind so many bytes that are not read."""
    return b"ARROW1\0\0" + bytes(left_out) + words + len(words).to_bytes(4, "little") + b"ARROW1"


class Cases(unittest.TestCase):
    def setUp(self):
        there = tempfile.TemporaryDirectory()
        self.addCleanup(there.cleanup)
        self.path = pathlib.Path(there.name, "file")

    def file(self, content):
        self.path.write_bytes(content)
        return self.path

    def refused(self, call, *given):
        with self.assertRaises(RefusedSource) as caught:
            call(*given)
        return caught.exception

    def test_room_that_is_written_to_its_end(self):
        for size in SIZES:
            self.assertEqual(read(f"n{size}"), "x" * size)
            self.assertEqual(write_schema([f"n{size}"]), b"x" * size)
            self.assertEqual(library.report(b"", b"n%d" % size, False, False), (library.DONE, "x" * size))
            self.assertEqual(library.same(b"", b"n%d" % size, b"", False, False), (library.DONE, "x" * size))
            self.assertEqual(library.canonical(b"n%d" % size), (library.DONE, "x" * size))

    def test_large_inputs(self):
        for size in (1 << 19, 1 << 20, 3_000_000):
            given = b"n7" + b" " * size
            self.assertEqual(write_schema([given]), b"x" * 7)
            self.assertEqual(library.report(b"", given, False, False), (library.DONE, "x" * 7))
            self.assertEqual(library.canonical(given), (library.DONE, "x" * 7))

    def test_room_of_each_size(self):
        """No call is told of more room than there is, and no more than two are made: a text for which there is no room is asked for again, also the line of what
        is refused."""
        real = library._call

        def watched(name, texts, structures):
            call = real(name, texts, structures)

            def watching(*given):
                room, told = given[-3:-1]
                self.assertGreaterEqual(ctypes.sizeof(room), told)
                parts = iter(given)
                for is_text in texts:
                    one = next(parts)
                    if is_text:
                        self.assertEqual(len(one), next(parts))
                calls.append(told)
                return call(*given)

            return watching

        with mock.patch.object(library, "_call", watched):
            for size in SIZES:
                for ask in (
                        lambda: read(f"n{size}"), lambda: write_schema([f"n{size}"]), lambda: library.report(b"name", b"n%d" % size, True, True),
                        lambda: library.same(b"n1", b"n%d" % size, b"name", True, True), lambda: same(b"n1", b"r%d" % size), lambda: self.refused(same, b"r%d" % size, b"n1"),
                        lambda: library.canonical(b"n%d" % size), lambda: self.refused(canonical, b"r%d" % size),
                        lambda: self.refused(check, b"r%d" % size), lambda: self.refused(write_schema, [b"r%d" % size])):
                    calls = []
                    ask()
                    self.assertIn(len(calls), (1, 2))
                    self.assertGreaterEqual(calls[-1], size)

    def test_options(self):
        found = {library.report(b"", b"o", infer, notes)[1]: (infer, notes) for infer in (False, True) for notes in (False, True)}
        self.assertEqual(found, {"0": (False, False), "1": (True, False), "2": (False, True), "3": (True, True)})
        asked = []
        with mock.patch.object(library, "report", lambda name, given, infer, notes: asked.append((infer, notes)) or (library.DONE, "")):
            check(b"o")
            check(b"o", infer=True)
            check(b"o", notes=True)
            check(b"o", True, False, True)
        self.assertEqual(asked, [(False, False), (True, False), (False, True), (True, True)])
        self.assertEqual([read("o"), geoarrow_fields.canon("o")], ["0", "2"])

    def test_files_that_are_compared(self):
        """Each with its options, the name of the other, and which of both is refused, with its name and its byte."""
        found = {library.same(b"n1", b"o", b"", infer, notes)[1]: (infer, notes) for infer in (False, True) for notes in (False, True)}
        self.assertEqual(found, {"0": (False, False), "1": (True, False), "2": (False, True), "3": (True, True)})
        asked = []
        with mock.patch.object(library, "same", lambda first, other, name, *options: asked.append((first, other, name, options)) or (library.DONE, "")):
            self.assertEqual(same(b"a", self.file(b"b"), b"c", infer=True), [[], []])
            self.assertEqual(same(self.path, b"a", notes=True), [[]])
        name = str(self.path).encode()
        self.assertEqual(asked, [(b"a", b"b", name, (True, False)), (b"a", b"c", b"", (True, False)), (b"b", b"a", b"", (False, True))])
        self.assertEqual(library.same(b"n1", b"f", "\u00e9".encode(), False, False), (library.DONE, "\u00e9"))
        path = self.file(arrow_file(b"r1b12", 1000))
        other, = same(b"n1", path)
        for error in (other.refused, self.refused(same, path, b"n1")):
            self.assertEqual(said_of(error), {"code": "Code", "file": str(path), "byte": 1012, "found": "x", "expected": "y"})
            self.assertEqual(error.json, f'{{"kind":"finding","severity":"error","code":"Code","file":"{path}","byte":1012,"found":"x","expected":"y"}}')
        self.assertIs(self.refused(same, b"r1", path).file, None)

    def test_columns_in_normal_form(self):
        """Each line of what is written is one of the list; of a file that is refused the line has its name and its byte."""
        asked = []
        with mock.patch.object(library, "canonical", lambda given: asked.append(given) or (library.DONE, "a\n\u2028\u0085b\r\n\n")):
            for source in (b"a", self.file(b"b"), ["c"], io.BytesIO(b"d")):
                self.assertEqual(canonical(source), ["a", "\u2028\u0085b\r", ""])
        self.assertEqual(asked, [b"a", b"b", b"c\n", b"d"])
        path = self.file(arrow_file(b"r1b12", 1000))
        error = self.refused(canonical, path)
        self.assertEqual(error.json, f'{{"kind":"finding","severity":"error","code":"Code","file":"{path}","byte":1012,"found":"x","expected":"y"}}')
        self.assertEqual(self.refused(canonical, io.BytesIO(path.read_bytes())).json, '{"kind":"finding","severity":"error","code":"Code","byte":1012,"found":"x","expected":"y"}')
        self.assertEqual(said_of(self.refused(canonical, path.read_bytes())), {"code": "Code", "byte": 12, "found": "x", "expected": "y"})

    def test_names(self):
        """Of a path its name is given, of what is open none, and none of bytes and of lines."""
        for name in ("a", "\u00e9\u65e5", "a b"):
            path = self.path.with_name(name)
            path.write_bytes(b"r1")
            for source in (path, str(path)):
                self.assertEqual(self.refused(check, source).file, str(path))
            with open(path, "rb") as file:
                for source in (file, io.BytesIO(b"r1"), b"r1", [b"r1"]):
                    self.assertIs(self.refused(check, source).file, None)
        self.assertEqual(library.report("\u00e9".encode(), b"f", False, False), (library.DONE, "\u00e9"))
        self.assertEqual(library.report(b"x" * 200_000, b"f", False, False), (library.DONE, "x" * 200_000))

    @unittest.skipUnless(os.supports_bytes_environ, "names of files are no bytes here")
    def test_a_name_that_is_not_utf_8(self):
        path = os.fsencode(self.path) + b"\xff\xc3"
        try:
            with open(path, "wb") as file:
                file.write(b"r1")
        except OSError:
            self.skipTest("no file has such a name here")
        self.assertEqual(self.refused(check, os.fsdecode(path)).file, f"{self.path}\ufffd\ufffd")

    def test_what_is_refused(self):
        x = {"code": "Code", "found": "x", "expected": "y"}
        for words, wanted, place in (
                ("r1", x, ""), ("r1l7", {**x, "line": 7}, " line 7"), ("r1l7b30", {**x, "line": 7, "byte": 30}, " byte 30, line 7"),
                ("r1i2", {**x, "index": 2}, " column 2"), ("r1b0", {**x, "byte": 0}, " byte 0"),
                ("r3", {**x, "found": "xxx"}, ""), ("r200000", {**x, "found": "x" * 200_000}, ""),
                ("r3000000b4", {**x, "found": "x" * 3_000_000, "byte": 4}, " byte 4")):
            for call, given in (
                    (check, words.encode()), (check, [words]), (check, io.BytesIO(words.encode())), (canonical, words.encode()), (canonical, [words]), (write_schema, [words])):
                error = self.refused(call, given)
                self.assertEqual(said_of(error), wanted)
                self.assertEqual(str(error), f"error[Code]{place}: found {wanted['found']}; expected y")
                self.assertEqual((error.json[:1], error.json[-1:]), ("{", "}"))  # (without a line feed)
            for call in (check, canonical):
                self.assertEqual(said_of(self.refused(call, self.file(words.encode()))), {**wanted, "file": str(self.path)})

    def test_other_statuses(self):
        for call in (
                lambda words: read(words), lambda words: check(words.encode()), lambda words: same(b"n1", words.encode()), lambda words: canonical(words.encode()),
                lambda words: write_schema([words])):
            with self.assertRaises(MemoryError):
                call("s2")
            for status in (3, 4, 7, 16, 255):
                with self.assertRaisesRegex(RuntimeError, f"^geoarrow_(answer|report|same|canonical|write_schema) of libgeoarrow_c.so answers the status {status}$"):
                    call(f"s{status}")

    def test_the_byte_of_an_arrow_file(self):
        """The library counts from the first byte that it is given; it is told of the first eight bytes of a file and of its end."""
        self.path = self.path.with_name("\u00e9")
        for left_out in (0, 5, 1000, 1 << 20):
            for words in (b"r1b12", b"r1b0", b"r70000b1"):
                whole = arrow_file(words, left_out)
                first = int(words.partition(b"b")[2])
                for source, byte in ((self.file(whole), first + left_out), (io.BytesIO(whole), first + left_out), (whole, first)):
                    error = self.refused(check, source)
                    self.assertEqual((error.byte, str(error)), (byte, f"error[Code] byte {byte}: found {error.found}; expected y"))
                    named = f'"file":"{self.path}",' if source is self.path else ""
                    wanted = f'{{"kind":"finding","severity":"error","code":"Code",{named}"byte":{byte},"found":"{error.found}","expected":"y"}}'
                    self.assertEqual(error.json, wanted)
        error = self.refused(check, self.file(arrow_file(b"r1l3", 1000)))  # of which no byte is named
        self.assertEqual(said_of(error), {"code": "Code", "found": "x", "expected": "y", "line": 3, "file": str(self.path)})

    def test_the_byte_of_another_file(self):
        """Of a Parquet file the end is given too, behind its first eight bytes; a stream is given up to the end of its first message, and lines as a whole."""
        for whole, left_out in (
                (b"PAR1" + bytes(1000) + b"r1b12" + (5).to_bytes(4, "little") + b"PAR1", 996), (b"PARE" + bytes(1000) + b"r1b12" + (5).to_bytes(4, "little") + b"PARE", 996),
                (b"\xff\xff\xff\xff" + (8).to_bytes(4, "little") + b"r1b12   " + bytes(1000), 0), (b"r1b12" + bytes(1000), 0)):
            for source, byte in ((whole, 12), (self.file(whole), 12 + left_out), (io.BytesIO(whole), 12 + left_out)):
                error = self.refused(check, source)
                self.assertEqual(error.byte, byte)
