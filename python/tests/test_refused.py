"""Tests of refused sources: what is said of each, in the words of the program, however it is given."""
import copy
import io
import json
import pathlib
import pickle
import re
import tempfile
import traceback
import unittest

from geoarrow_fields import Finding, GeoArrowError, InvalidColumns, RefusedSource, Schema, SchemaError, check, files, write_schema

from .shared import BROKEN, DATA, NO_NAME, OTHER, POINT, READ, TEXT, TOP, printed

# The keys of a line in their order (docs/FORMAT.md, 2.8), and the attributes by their keys.
ORDER = ("kind", "severity", "code", "file", "index", "in", "byte", "line", "found", "expected", "help", "more")
KEYS = {"source": "in", **{key: key for key in ORDER if key not in ("kind", "severity", "in", "more")}}
# What is said by the tables of docs/FORMAT.md, 2.8.
CUT = {"help": "The file is cut off, or still being written"}
NO_JSON = "no JSON, or more than 127 levels of it", "a JSON object"
NO_OBJECT = "JSON that is no object", "a JSON object"
EMPTY = {
    "kind": "finding", "severity": "error", "code": "EmptyFile", "byte": 0, "found": "0 bytes, or blanks alone", "expected": READ,
    "help": "The writing or the copy broke off before its first byte"}
MAGICS = (b"ARROW1", b"\xff\xff\xff\xff", b"PAR1", b"PARE")


def cases(table="refused.rows"):
    """Each case of a table of native/, which all languages share: the bytes, and what is said of them, or of their one bad line."""
    content = None
    for line in (TOP / "native" / table).read_text(encoding="utf-8").split("\n"):
        if line.startswith("{"):
            yield content or b"", json.loads(line)
            content = None
        elif line and not line.startswith("#"):
            content = bytes.fromhex(line)


def lines_of(content):
    """The lines of a content, which are bytes."""
    return content[: -1 if content.endswith(b"\n") else None].split(b"\n")


def words_of(said):
    """What the program prints behind the name of a file."""
    words = {"index": "column ", "in": "", "byte": "byte ", "line": "line "}
    place = ", ".join(f"{word}{said[key]}" for key, word in words.items() if key in said)
    help = f". {said['help']}" if "help" in said else ""
    return f"error[{said['code']}]{place and ' ' + place}: found {said['found']}; expected {said['expected']}{help}"


def line_of(said):
    """The line of the library, without its line feed."""
    assert set(said) <= set(ORDER), said
    return json.dumps({key: said[key] for key in ORDER if key in said}, ensure_ascii=False, separators=(",", ":"))


class InAFolder(unittest.TestCase):
    def setUp(self):
        there = tempfile.TemporaryDirectory()
        self.addCleanup(there.cleanup)
        self.path = pathlib.Path(there.name, "file")

    def file(self, content):
        self.path.write_bytes(content)
        return self.path

    def refused(self, call, *given):
        with self.assertRaises(RefusedSource) as caught:
            call(*given)
        return caught.exception

    def judge(self, error, said):
        """What a refused source holds and says, here and in another process."""
        for one in (error, pickle.loads(pickle.dumps(error)), copy.copy(error)):
            self.assertIs(type(one), RefusedSource)
            self.assertIsInstance(one, ValueError)
            self.assertEqual({name: getattr(one, name) for name in KEYS}, {name: said.get(key) for name, key in KEYS.items()})
            self.assertEqual(str(one), words_of(said))
            self.assertEqual(one.json, line_of(said))
            self.assertEqual((one.finding.severity, one.finding.json, one.finding.more), ("error", one.json, said.get("more", 0)))
            self.assertEqual(vars(one), vars(error))
            self.assertEqual(vars(RefusedSource(*one.args)), vars(one))

    def judge_each(self, content, said):
        """What is said of a content, however it is given."""
        for source in (content, bytearray(content), io.BytesIO(content)):
            self.judge(self.refused(check, source), said)
        path = self.file(content)
        for source in (path, str(path)):
            self.judge(self.refused(check, source), {**said, "file": str(path)})
        with open(path, "rb") as file:
            self.judge(self.refused(check, file), said)
        if not content.startswith(MAGICS) and said["code"] != "Truncated":  # (of a line feed less is cut off)
            shown = said["found"]
            # (a line feed stands behind each line, and is among the first 16 bytes of less)
            is_more = shown.startswith("bytes of no known format") and len(content) < 16 and not content.endswith(b"\n")
            self.judge(self.refused(check, lines_of(content)), {**said, "found": f"{shown}0a"} if is_more else said)


class Shared(InAFolder):
    """The cases of all languages."""

    def test_each_case(self):
        keys = set()
        for content, said in cases():
            with self.subTest(content[:80], said=said):
                self.judge_each(content, said)
            keys |= said.keys()
        self.assertEqual(keys, set(ORDER) - {"file", "index", "more"})

    def test_the_words_of_the_command_and_of_many_files(self):
        for content, said in cases():
            with self.subTest(content[:80], said=said):
                path, words = str(self.file(content)), words_of(said)
                behind = json.dumps({"kind": "file", "file": path, "read": False, "status": 2}, ensure_ascii=False, separators=(",", ":"))
                self.assertEqual(printed(["check", path]), (f"{path}: {words}\n", "", 2))
                self.assertEqual(printed(["check", "--json", path]), (f"{line_of({**said, 'file': path})}\n{behind}\n", "", 2))
                self.assertEqual(files.report(path)["error"], words)

    def test_large_files(self):
        """Those of which what stands before the footer is not read: the byte is the same as where the library is given all, and so that of the file."""
        moved = 0
        for content, said in cases():
            if not content.startswith((b"ARROW1", b"PAR1", b"PARE")):
                continue
            for more in (1, 992, 1 << 20):
                whole = content[:8] + bytes(more) + content[8:]
                wanted = json.loads(self.refused(check, whole).json)
                self.judge_each(whole, wanted)
                moved += {**wanted, "byte": 0} == {**said, "byte": 0} and wanted["byte"] == said["byte"] + more
        self.assertGreater(moved, 20)


class BadLines(InAFolder):
    """Lines that are no columns, of files that are read."""

    def judge_bad(self, columns, said):
        """Of columns one line is bad, and this is said of it, here and in another process."""
        (bad,) = columns.bad_lines
        keys = {name: key for name, key in KEYS.items() if name != "file"}
        self.assertEqual({name: getattr(bad, name) for name in keys}, {name: said.get(key) for name, key in keys.items()})
        self.assertEqual((str(bad), bad.json, bad.more), (words_of(said), line_of(said), 0))
        self.assertEqual(pickle.loads(pickle.dumps(bad)), bad)

    def test_each_case(self):
        for content, said in cases("bad_lines.rows"):
            with self.subTest(content[:80], said=said):
                lines = content[3 * content.startswith(b"\xef\xbb\xbf"):].split(b"\n")
                count = sum(bool(line.strip(b" \t\r")) for line in lines) - 1
                for source in (content, io.BytesIO(content), lines_of(content)):
                    found = check(source)
                    self.assertEqual((len(found), found.findings), (count, ()))
                    self.judge_bad(found, said)
                self.judge_bad(check(self.file(content)), {**said, "file": str(self.path)})

    def test_the_words_of_the_command_and_of_many_files(self):
        for content, said in cases("bad_lines.rows"):
            with self.subTest(content[:80], said=said):
                path, words = str(self.file(content)), words_of(said)
                out, err, status = printed(["check", "--json", path])
                self.assertEqual((out.splitlines()[-2], err, status), (line_of({**said, "file": path}), "", 2))
                out, err, status = printed(["check", path])
                self.assertEqual((out, err, status), (f"{check(path).table()}\n{path}: {words}\n", "", 2))
                report = files.report(path)
                self.assertEqual((report["errors"], report["error"], report["columns"]), ([words], None, len(check(path))))

    def test_bad_lines_among_good_ones(self):
        for source in (f"{{}}\n{TEXT}\n\n[\n{POINT}\n".encode(), ["{}", TEXT, "", "[", POINT]):
            found = check(source)
            self.assertEqual([one.index for one in found], [0, 1])
            self.assertEqual([(one.code, one.line, one.byte) for one in found.bad_lines], [("BadLine", 1, None), ("BadLine", 4, 1)])
            self.assertEqual(found.bad_lines[1].help, "One object on each line: try jq -c '.[]' FILE")
            said = [
                NO_NAME,
                "error[BadLine] byte 1, line 4: found no JSON, or more than 127 levels of it; expected a JSON object. "
                "One object on each line: try jq -c '.[]' FILE"]
            self.assertEqual((repr(found).split("\n")[-2:], list(found.bad_words())), (said, said))
            self.assertNotIn(said[0], found.table())
            error = self.refused(check, source, False, True)
            self.assertEqual((error.code, error.line, error.json), ("BadLine", 1, found.bad_lines[0].json))
            self.assertEqual(error.finding, found.bad_lines[0])

    def test_a_hundred_are_told(self):
        for count, more in ((99, 0), (100, 0), (101, 1), (250, 150)):
            found = check(f"{TEXT}\n".encode() + b"1\n" * count)
            self.assertEqual((len(found), len(found.bad_lines)), (1, min(count, 100)))
            self.assertEqual([one.more for one in found.bad_lines], [0] * (min(count, 100) - 1) + [more])
            last = [f"error[BadLine] line {min(count, 100) + 1}: found JSON that is no object; expected a JSON object"]
            behind = {0: [], 1: ["error[BadLine]: 1 more line is no column"], 150: ["error[BadLine]: 150 more lines are no columns"]}[more]
            self.assertEqual(list(found.bad_words())[min(count, 100) - 1:], last + behind)

    def test_lines_none_of_which_is_a_column(self):
        found = check(b"{}\n\n1")
        self.assertEqual((found, [one.line for one in found.bad_lines]), ([], [1, 3]))
        self.assertIsInstance(found.bad_lines[0], Finding)
        self.assertIs(found.bad_lines[0].is_error, True)


class Refused(InAFolder):
    def said(self, code, found, expected, **more):
        return {"kind": "finding", "severity": "error", "code": code, "found": found, "expected": expected, **more}

    def test_lines(self):
        help = "One object on each line: try jq -c . FILE"
        for content, place in ((f"{{\n{TEXT}\n", {"line": 1, "byte": 1}), (f"\n \n  {{\n{TEXT}", {"line": 3, "byte": 3})):
            self.judge_each(content.encode(), self.said("BadLine", *NO_JSON, help=help, **place))
        (bad,) = check([TEXT, "\ud800"]).bad_lines
        self.assertEqual((bad.code, bad.found, bad.line, bad.byte), ("BadLine", "bytes that are not UTF-8", 2, 1))

    def test_files(self):
        for content, said in (
                (b"PAR1", self.said("Truncated", "50415231", "PAR1 at the end", byte=4, **CUT)),
                (b"ARROW1", self.said("Truncated", "4152524f5731", "ARROW1 at the end", byte=6, **CUT)),
                (b"\xff\xff\xff\xff", self.said(
                    "Truncated", "0 bytes", "4 bytes", byte=4, **CUT)),
                (b"\xff\xff\xff\xff" + bytes(4), self.said("NoSchema", "the end of the stream", "a schema", byte=8))):
            self.judge_each(content, said)
        stream = bytearray(write_schema([TEXT]))
        stream[8:12] = (2**31).to_bytes(4, "little")  # the root offset, which is the first of the message
        wanted = "an offset that leads nowhere", "an offset that is not 0 and leads no further than the end"
        self.judge_each(bytes(stream), self.said("BadMessage", *wanted, byte=8))

    def test_a_large_encrypted_file(self):
        footer = bytes(20)
        found = b"PARE" + bytes(100) + footer + len(footer).to_bytes(4, "little") + b"PARE"
        self.judge_each(found, self.said("Encrypted", "PARE", "PAR1", byte=len(found) - 4, help="A copy with a plain footer is needed"))

    def test_empty_sources(self):
        for content in (b"", b"\n", b" \t\r\n\n  "):
            self.judge_each(content, EMPTY)
        for source in ([""], ["", " "]):
            self.judge(self.refused(check, source), EMPTY)
        self.assertEqual(write_schema([]), write_schema([""]))

    def test_a_report_that_is_too_large(self):
        long = r"\u0001" * 30_000
        inside = ",".join(['{"metadata":{"ARROW:extension:name":"geoarrow.wkb"},"name":"k","nullable":true,"type":"binary"}'] * 16)
        struct = '{"struct":[{"name":"%s","nullable":true,"type":{"struct":[%s]}}]}' % (long, inside)
        stream = write_schema([TEXT.replace('"utf8"', struct)])  # each of its sixteen findings has the long name in its path
        self.judge_each(stream, self.said("ReportTooLarge", "a larger report", "a report of at most 1048576 bytes and 32 for each byte read"))

    def test_the_byte_of_an_arrow_file_is_that_of_the_file(self):
        """With each of its last bytes turned, however it is opened: the same place, which is that where all of the file is given to the library."""
        whole = bytearray((DATA / "file.arrow").read_bytes())
        refused = 0
        for at in range(len(whole) - 200, len(whole)):
            whole[at] ^= 0x81
            said = []
            for source in (bytes(whole), self.file(bytes(whole)), io.BytesIO(whole)):
                try:
                    said.append(check(source))
                except RefusedSource as error:
                    self.assertTrue(str(error).startswith(f"error[{error.code}] byte {error.byte}: found {error.found}; expected {error.expected}"))
                    said.append((error.code, error.found, error.byte))
                    refused += 1
            self.assertEqual(said[1:], said[:1] * 2, at)
            whole[at] ^= 0x81
        self.assertGreater(refused, 60)

    def test_a_file_that_is_cut_is_refused_at_its_end(self):
        whole = (DATA / "file.arrow").read_bytes()
        for length in range(6, len(whole)):
            for source in (whole[:length], self.file(whole[:length])):
                error = self.refused(check, source)
                self.assertEqual((error.code, error.found, error.byte), ("Truncated", whole[:length][-8:].hex(), length))

    def test_schemas_that_are_not_written(self):
        for given, said in (
                ([TEXT, "{}"], self.said("BadLine", 'no string at "name"', 'a string at "name"', line=2)), (["1"], self.said("BadLine", *NO_OBJECT, line=1)),
                ([TEXT, POINT, OTHER], self.said(
                    "ColumnType", "a type that no message can hold", "a type of Schema.fbs, nested at most 61 levels deep", index=2))):
            self.judge(self.refused(write_schema, given), said)

    def test_what_is_no_source(self):
        with self.assertRaises(TypeError):
            check(object())
        with self.assertRaises(FileNotFoundError):
            check("/nowhere/at/all")
        with self.assertRaises(IsADirectoryError):
            check(TOP)


class Errors(InAFolder):
    """What is raised."""

    def test_each_key(self):
        least = {"kind": "finding", "severity": "error", "code": "E", "found": "a", "expected": "b"}
        self.judge(RefusedSource(line_of(least)), least)
        said = {**least, "file": "f\u00e9", "index": 2, "in": "p", "byte": 1, "line": 4, "help": "H"}
        self.judge(RefusedSource(line_of(said)), said)
        self.assertEqual(str(RefusedSource(line_of(said))), "error[E] column 2, p, byte 1, line 4: found a; expected b. H")
        for key in ("byte", "index", "line"):
            some = {**least, key: 0}
            self.judge(RefusedSource(line_of(some)), some)
        for some in ({"in": "p"}, {"help": "H"}, {"in": "p", "help": "H"}, {"line": 7, "more": 5}):
            said = {**least, **some}
            self.judge(RefusedSource(line_of(said)), said)

    def test_unknown_keys_are_passed_over(self):
        line = line_of(EMPTY)
        error = RefusedSource(line[:-1] + ',"row":{"code":"no"}}')
        self.assertEqual((error.finding, str(error)), (RefusedSource(line).finding, str(RefusedSource(line))))

    def test_the_example_of_the_readme(self):
        (call, wanted), = re.findall(r"(?m)^    >>> (check\(b.*\))\n    Traceback .*\n    \.\.\.\n    (.*)$", (TOP / "python/README.md").read_text())
        error = self.refused(lambda: eval(call))
        self.assertEqual(traceback.format_exception_only(RefusedSource, error), [f"{wanted}\n"])

    def test_what_is_put_on_one_crosses_processes_too(self):
        error = RefusedSource(line_of(EMPTY))
        error.more = 7
        self.assertEqual(pickle.loads(pickle.dumps(error)).more, 7)

    def test_one_base(self):
        """Each error has the code, the place and the path of what it says."""
        column = {"name": "a", "nullable": True, "type": {"other": "map"}}
        for call, kind, code, place, path in (
                (lambda: check(b""), RefusedSource, "EmptyFile", "byte 0", ()),
                (lambda: write_schema([TEXT, json.dumps(column)]), RefusedSource, "ColumnType", "column 1", ()),
                (lambda: check([TEXT, BROKEN], strict=True), InvalidColumns, "BadFieldCount", "column 1, at v, field", ("v",)),
                (lambda: Schema([json.dumps(column)]), SchemaError, "BadSchema", "column 0", ())):
            with self.assertRaises(GeoArrowError) as caught:
                call()
            error = caught.exception
            self.assertEqual((type(error), error.code, error.place, error.path), (kind, code, place, path))
            other = pickle.loads(pickle.dumps(error))
            self.assertEqual((type(other), str(other), vars(other)), (type(error), str(error), vars(error)))

    def test_invalid_columns_cross_processes(self):
        error = InvalidColumns(check([BROKEN]))
        other = pickle.loads(pickle.dumps(error))
        self.assertEqual((type(other), str(other), vars(other)), (type(error), str(error), vars(error)))


if __name__ == "__main__":
    unittest.main()
