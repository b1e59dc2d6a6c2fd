"""Tests of sources: which bytes of each kind are read and given to the library, and what is no source."""
import array
import io
import mmap
import os
import pathlib
import tempfile
import threading
import unittest

from geoarrow_fields import Schema, SchemaError, canon, check, read, sources, write_schema
from geoarrow_fields.sources import given_of

from .shared import DATA, POINT, TEXT

LINES = f"{TEXT}\n{POINT}\n".encode()
MESSAGE = b"\xff\xff\xff\xff" + (24).to_bytes(4, "little") + bytes(range(24))
OLD = (100).to_bytes(4, "little") + b"\x10\0\0\0" + bytes(range(96))  # a stream as written before Arrow 0.15


def arrow_file(footer, before=b""):
    return b"ARROW1\0\0" + before + footer + len(footer).to_bytes(4, "little") + b"ARROW1"


def parquet_file(footer, before=b"", magic=b"PAR1"):
    return magic + before + footer + len(footer).to_bytes(4, "little") + magic


class InAFolder(unittest.TestCase):
    def setUp(self):
        there = tempfile.TemporaryDirectory()
        self.addCleanup(there.cleanup)
        self.path = pathlib.Path(there.name, "file")

    def file(self, found):
        self.path.write_bytes(found)
        return self.path


class ReadsAlone:
    """An object with `read` and nothing else, as of a network; it may give fewer bytes than it is asked for."""

    def __init__(self, found, most=5):
        self.file, self.most = io.BytesIO(found), most

    def read(self, size=-1):
        return self.file.read(size if size < 0 else min(size, self.most))


class SeeksToo(ReadsAlone):
    """One with `seek` and `tell` too, as mmap before Python 3.13."""

    def seek(self, place, whence=0):
        self.file.seek(place, whence)

    def tell(self):
        return self.file.tell()


LARGE = bytes(3_000_000)
XML = b"<?xml version='1.0'?>" + b" " * 3000


def begun(whole, count=64):
    """What is given of a content of which so many first bytes are wanted: by 64 of these its format is told (docs/FORMAT.md, 2.7)."""
    return whole, whole[:max(count, 64)], 0


def ended(whole, count):
    """What is given of one of which so many last bytes are wanted, too."""
    return whole, whole[:64] + whole[64:][-count:], max(len(whole) - 64 - count, 0)


# Each content, what is given to the library of it, and how many bytes are left out.
CONTENTS = {
    "empty": begun(b""),
    "short": begun(b"{}"),
    "lines": begun(LINES, len(LINES)),
    "large lines": begun(LINES * 20_000, len(LINES) * 20_000),
    "blanks": begun(b" " * 200, 200),
    "stream": begun(MESSAGE, 32),
    "stream and batches": begun(MESSAGE + LARGE, 32),
    "stream that is cut": begun(MESSAGE[:-1], 31),
    "stream that tells a size of 4 GiB": begun(b"\xff" * 8 + b"rest", 12),
    "large message": begun(b"\xff" * 4 + len(LARGE).to_bytes(4, "little") + LARGE + b"rest", 8 + len(LARGE)),
    "stream without the marker": begun(OLD, 104),
    "stream without the marker and batches": begun(OLD + LARGE, 104),
    "short stream without the marker": begun(b"\x08\0\0\0\x08" + bytes(100), 12),
    "no stream without the marker": begun(b"\0\0\0\0\x08" + bytes(100)),
    "gzip": begun(b"\x1f\x8b" + LARGE),
    "XML": begun(XML, 1024),
    "Arrow file": ended(arrow_file(b"footer"), 16),
    "Arrow file that is cut": ended(arrow_file(b"footer", LARGE)[:-1], 10),
    "short Arrow file": begun(b"ARROW1\0"),
    "large Arrow file": ended(arrow_file(b"footer", LARGE), 16),
    "Arrow file of 64 bytes": ended(arrow_file(b"footer", bytes(40)), 16),
    "Arrow file of a byte more": ended(arrow_file(b"footer", bytes(41)), 16),
    "Arrow file whose footer begins in the head": ended(arrow_file(b"f" * 60, bytes(20)), 70),
    "Arrow file with a footer of 3 MB": ended(arrow_file(LARGE, b"12345" * 20), 10 + len(LARGE)),
    "Arrow file with a footer that is too large": ended(b"ARROW1\0\0" + b"f" * 100 + b"\xff\xff\xff\x7fARROW1", 10),
    "Arrow file with a footer that is as large as can be": ended(b"ARROW1\0\0" + b"f" * 100 + b"\x64\0\0\0ARROW1", 110),
    "Arrow file with a footer of a byte more": ended(b"ARROW1\0\0" + b"f" * 100 + b"\x65\0\0\0ARROW1", 10),
    "Parquet file": ended(parquet_file(b"footer", b"12345678"), 14),
    "large Parquet file": ended(parquet_file(b"footer", LARGE), 14),
    "Parquet file with a footer that is as large as can be": ended(b"PAR1" + b"f" * 100 + b"\x64\0\0\0PAR1", 108),
    "Parquet file with a footer of a byte more": ended(b"PAR1" + b"f" * 100 + b"\x65\0\0\0PAR1", 8),
    "encrypted Parquet file": ended(parquet_file(b"footer", LARGE, b"PARE"), 8),
}


class Counts(io.BytesIO):
    """A file that notes which of its bytes are read."""

    def __init__(self, found):
        super().__init__(found)
        self.places = []

    def read(self, size=-1):
        place = self.tell()
        found = super().read(size)
        self.places.append((place, place + len(found)))
        return found


class Files(InAFolder):
    def judge(self, name, found, content, seeks=True, file_name=b""):
        """What is given for a source: of one that cannot seek, the whole, but for what stands behind a message; the name of the file where it is a path."""
        whole, wanted, left_out = CONTENTS[name]
        if not seeks and left_out:
            wanted, left_out = whole, 0
        self.assertEqual((found.content == wanted, found.left_out, found.is_schema, found.name), (True, left_out, False, file_name), content)

    def test_paths(self):
        for name, (whole, _, _) in CONTENTS.items():
            path = self.file(whole)
            for given in (path, str(path)):
                self.judge(name, given_of(given), name, file_name=str(path).encode())
        with self.assertRaises(FileNotFoundError):
            check(TEXT)  # a str is a path
        with self.assertRaises(IsADirectoryError):
            check(DATA)

    def test_files_that_are_open(self):
        for name, (whole, _, _) in CONTENTS.items():
            path = self.file(whole)
            for buffering in (-1, 0):
                with open(path, "rb", buffering) as file:
                    for place in (0, min(3, len(whole)), len(whole)):  # wherever it stands
                        file.seek(place)
                        self.judge(name, given_of(file), name)
                        self.assertEqual(file.tell(), place)
                    self.assertFalse(file.closed)

    def test_other_objects_that_read(self):
        for name, (whole, _, _) in CONTENTS.items():
            with self.subTest(name):
                buffer = io.BytesIO(whole)
                buffer.seek(0, os.SEEK_END)
                self.judge(name, given_of(buffer), name)
                self.assertEqual(buffer.tell(), len(whole))
                for most in (1 << 30, 5 if len(whole) < 10_000 else 1 << 20):
                    self.judge(name, given_of(SeeksToo(whole, most)), name)
                    self.judge(name, given_of(ReadsAlone(whole, most)), name, seeks=False)
                with tempfile.SpooledTemporaryFile() as file:
                    file.write(whole)
                    self.judge(name, given_of(file), name)
                if whole:
                    with open(self.file(whole), "rb") as file, mmap.mmap(file.fileno(), 0, access=mmap.ACCESS_READ) as mapped:
                        mapped.seek(1)
                        self.judge(name, given_of(mapped), name)
                        self.assertEqual(mapped.tell(), 1)

    def test_a_reader_that_cannot_seek_is_read_from_where_it_stands(self):
        reader = ReadsAlone(b"passed" + LINES, 1 << 20)
        reader.read(6)
        self.assertEqual(given_of(reader).content, LINES)
        self.assertEqual(reader.read(), b"")

    @unittest.skipUnless(hasattr(os, "mkfifo"), "there are no FIFOs")
    def test_a_path_that_is_a_fifo(self):
        os.mkfifo(self.path)
        for name, (whole, _, _) in CONTENTS.items():
            for is_open in (False, True):
                def write():
                    try:
                        with open(self.path, "wb") as fifo:
                            fifo.write(whole)
                    except BrokenPipeError:
                        pass  # (of a stream the first message is read)

                writer = threading.Thread(target=write, daemon=True)
                writer.start()
                if is_open:
                    with open(self.path, "rb") as file:
                        found = given_of(file)
                else:
                    found = given_of(self.path)
                writer.join()
                self.judge(name, found, name, seeks=False, file_name=b"" if is_open else str(self.path).encode())

    def test_a_size_that_is_told_is_not_believed(self):
        asked = []

        class Told(ReadsAlone):
            def read(self, size=-1):
                asked.append(size)
                return super().read(size)

        given_of(Told(b"\xff" * 8 + b"rest"))
        self.assertLessEqual(max(asked), sources._AT_ONCE)

    def test_no_other_bytes_are_read(self):
        """The bytes that are given are read, once, and those behind a footer once more, but no others."""
        for name, (whole, wanted, left_out) in CONTENTS.items():
            with self.subTest(name):
                file = Counts(whole)
                given_of(file)
                begin = len(wanted)
                if left_out or whole[:4] in (b"ARRO", b"PAR1", b"PARE"):
                    begin = min(64, len(whole))
                for start, end in file.places:
                    self.assertTrue(end <= begin or start >= begin + left_out, (start, end))
                read = sum(end - start for start, end in file.places)
                self.assertIn(read - len(wanted), range(11))

    def test_a_size_that_is_less_than_what_is_read(self):
        """As of files of the system, which tell that they are empty."""
        class Tells(io.BytesIO):
            def seek(self, place, whence=0):
                return super().seek(0 if whence == os.SEEK_END else place)

        for whole in (LINES, b"{}" + b" " * 62, OLD):
            self.assertEqual(given_of(Tells(whole)), (whole, 0, False, b""))

    def test_a_size_that_no_bytes_come_up_to(self):
        """What is there is given, in a few reads, however many bytes the file says that it has."""
        class Claims(Counts):
            def tell(self):
                return 10**15 if self.at_end else super().tell()

            def seek(self, place, whence=0):
                self.at_end = whence == os.SEEK_END
                return super().seek(place, whence)

            def read(self, size=-1):
                if len(self.places) == 100:
                    raise AssertionError("the reads have no end")
                return super().read(size)

        for magic in (b"PAR1", b"ARROW1\0\0"):
            file = Claims(magic + b"\0" * 200)
            file.at_end = False
            self.assertEqual(given_of(file).content, magic + b"\0" * (64 - len(magic)))
            self.assertLess(len(file.places), 5)

    def test_a_file_that_becomes_shorter(self):
        """What is there is given, as of a file that was so short before."""
        class Shrinks(io.BytesIO):
            def seek(self, place, whence=0):
                found = super().seek(place, whence)
                if place > 64:
                    self.truncate(len(whole) - 3)
                return found

        whole = arrow_file(b"footer", LARGE)
        cut = given_of(whole[:-3])
        for found in (given_of(Shrinks(whole)), given_of(io.BytesIO(whole[:-3]))):
            self.assertEqual(found.content, cut.content[:64] + cut.content[-10:])
            self.assertEqual(found.left_out, len(whole) - 3 - 74)

    def test_files_of_text(self):
        with open(self.file(LINES), encoding="utf-8") as file:
            file.read(3)
            for source in (file, io.StringIO(TEXT)):
                with self.assertRaisesRegex(TypeError, "a file whose read gives str is no source: it is to be open in binary mode"):
                    check(source)
        nothing = type("Waits", (), {"read": lambda self, size=-1: None})()
        with self.assertRaisesRegex(TypeError, "read gives NoneType"):
            check(nothing)

    def test_a_file_that_fails_stands_where_it_stood(self):
        class Fails(io.BytesIO):
            def read(self, size=-1):
                if self.tell() > 20:
                    raise OSError("no more")
                return super().read(size)

        file = Fails(arrow_file(b"f" * 100, LARGE))
        file.seek(7)
        with self.assertRaisesRegex(OSError, "no more"):
            check(file)
        self.assertEqual(file.tell(), 7)


class Buffers(unittest.TestCase):
    def test_buffers(self):
        every_other = memoryview(b"".join(bytes([one, 0]) for one in LINES))[::2]
        for source in (LINES, bytearray(LINES), memoryview(LINES), every_other, array.array("B", LINES), (type("Bytes", (bytes,), {})(LINES))):
            self.assertEqual(given_of(source), (LINES, 0, False, b""))
        whole = arrow_file(b"footer", b"12345")
        self.assertEqual(given_of(whole), (whole, 0, False, b""))

    def test_a_buffer_that_is_not_contiguous(self):
        class Strided:  # (as an array of numpy; in Python itself a class may give a buffer from 3.12 on)
            def __buffer__(self, flags):
                return memoryview(b"abcd")[::2]

        with self.assertRaises(TypeError):
            given_of(Strided())


class Lines(unittest.TestCase):
    def test_lines(self):
        for source in ([TEXT, POINT], (TEXT.encode(), POINT), [bytearray(TEXT.encode()), memoryview(POINT.encode())], Schema(LINES.decode())):
            found = given_of(source)
            self.assertEqual(found, (LINES, 0, True, b""))

    def test_no_lines_are_no_columns(self):
        for source in ([], (), Schema([])):
            found = check(source, infer=True, strict=True)
            self.assertEqual((found, found.findings), ([], ()))
            self.assertEqual(repr(found), "  column  holds  CRS  edges")

    def test_what_is_no_line(self):
        for line in (3, 10**9, None, 1.5, {"name": "t"}, [TEXT], object(), array.array("B", b"{}")):
            for call in (read, canon, lambda one: check([one]), lambda one: write_schema([one])):
                with self.assertRaisesRegex(TypeError, f"a line is a str or bytes, not {type(line).__name__}"):
                    call(line)


class Others(unittest.TestCase):
    def test_what_is_no_source(self):
        for source in (3, 0, -1, True, None, 1.5, {}, {TEXT}, object(), iter([TEXT]), (line for line in [TEXT]), str, Schema):
            with self.subTest(source):
                with self.assertRaises(TypeError):
                    check(source)
        with self.assertRaisesRegex(TypeError, "^int is no source: a path, bytes, a list of lines, a binary file that is open, or an object that gives an Arrow schema$"):
            check(3)

    def test_a_schema_that_is_wrong(self):
        wrong = type("Wrong", (), {"__arrow_c_schema__": lambda self: None})()
        with self.assertRaises(SchemaError):
            check(wrong)

    def test_an_object_that_reads_and_gives_a_schema(self):
        class Reader(Schema):
            def read(self, size=-1):
                raise AssertionError("it is not read")

        self.assertTrue(given_of(Reader([TEXT])).is_schema)


if __name__ == "__main__":
    unittest.main()
