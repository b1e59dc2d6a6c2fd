"""Tests of findings: how each is read from its object, of a file or of a column, and its words."""
import dataclasses
import json
import pickle
import unittest
from unittest import mock

from geoarrow_fields import Finding, check, files
from geoarrow_fields.columns import columns_of

from .shared import TOP, said_of

# With a value of its own at each key.
WHOLE = (
    '{"severity":"warning","code":"One","column":"two","path":["three","fo.ur"],"in":"five","pointer":"/six","byte":7,"found":"eight","expected":"nine",'
    '"help":"ten.","more":11}')
SAID = Finding("warning", "One", "two", ("three", "fo.ur"), "five", "/six", 7, "eight", "nine", "ten.", 11)
LEAST = '{"severity":"note","code":"One","expected":"two"}'
COLUMN = '{"kind":"column","index":0,"column":"t","state":"plain","type":"utf8"%s}'
# What no finding of `WHOLE` has: a column by its index, and a line.
REFUSED = '{"kind":"finding","severity":"error","code":"One","index":2,"in":"three","byte":4,"line":5,"found":"seven","expected":"eight"}'


def line_of(said):
    """The line of a finding of a file, whose object this is: it begins with its kind."""
    return said.replace("{", '{"kind":"finding",', 1)


def of_file(*objects):
    """The findings of a report of the lines of these objects."""
    return columns_of("".join(f"{line_of(one)}\n" for one in objects)).findings


def of_column(*objects, **more):
    """The column whose findings are these objects."""
    members = json.dumps(more, separators=(",", ":"))[1:-1]
    (column,) = columns_of(COLUMN % f'{"," if more else ""}{members},"findings":[{",".join(objects)}]' + "\n")
    return column


def cases():
    """Each case of native/findings.rows, which all languages share: the bytes of a file, and of each finding whether it is of a column, its object and its
    words."""
    found = []
    for line in (TOP / "native/findings.rows").read_text(encoding="utf-8").split("\n"):
        said = line.strip()
        if said.startswith("{"):
            found[-1][1].append((said != line, said))
        elif said.startswith(("error[", "warning[", "note[")):
            found[-1][1][-1] += (said,)
        elif said and not said.startswith("#"):
            found.append((bytes.fromhex(said), []))
    return found


class Findings(unittest.TestCase):
    def test_each_key_is_what_it_says(self):
        for (one,), line in ((of_file(WHOLE), line_of(WHOLE)), (of_column(WHOLE).findings, WHOLE)):
            self.assertEqual((one, one.json), (SAID, line))
            self.assertEqual(said_of(one, line != WHOLE), line)
        self.assertEqual([field.name for field in dataclasses.fields(Finding)], [
            "severity", "code", "column", "path", "source", "pointer", "byte", "found", "expected", "help", "more", "index", "line", "json"])

    def test_the_keys_of_what_is_refused(self):
        columns = columns_of(f"{COLUMN % ''}\n{REFUSED}\n{line_of(LEAST)}\n")
        (one,) = columns.bad_lines
        self.assertEqual(one, Finding("error", "One", source="three", byte=4, found="seven", expected="eight", index=2, line=5))
        self.assertEqual((said_of(one, True), one.json), (REFUSED, REFUSED))
        self.assertEqual(str(one), "error[One] column 2, three, byte 4, line 5: found seven; expected eight")
        self.assertEqual([str(other) for other in columns.findings], ["note[One]: expected two"])
        self.assertEqual([other.name for other in columns], ["t"])

    def test_a_bad_line_says_apart_how_many_more_there_are(self):
        (one,) = columns_of(REFUSED.replace("}", ',"more":9}') + "\n").bad_lines
        self.assertEqual((one.more, str(one)), (9, "error[One] column 2, three, byte 4, line 5: found seven; expected eight"))

    def test_unknown_keys_are_passed_over(self):
        more = LEAST.replace('"expected"', '"bytes":7,"lines":[{"line":1}],"expected"')
        self.assertEqual(of_file(more), of_file(LEAST))
        column, other = of_column(LEAST, row={"findings": []}), of_column(LEAST)
        self.assertEqual(column, other)

    def test_what_is_absent(self):
        (one,) = of_file(LEAST)
        self.assertEqual(one, Finding("note", "One", expected="two"))
        self.assertEqual((one.column, one.path, one.source, one.pointer, one.byte, one.found, one.help, one.more), (None, (), None, None, None, None, None, 0))
        self.assertEqual((one.index, one.line), (None, None))
        self.assertEqual((said_of(one, True), str(one)), (line_of(LEAST), "note[One]: expected two"))

    def test_words(self):
        whole = "warning[One] column two, at three.fo.ur, five /six, byte 7, and 11 more: found eight; expected nine. ten."
        self.assertEqual(str(SAID), whole)
        for key, words in (
                ("column", "warning[One] at three.fo.ur, five /six, byte 7, and 11 more: found eight; expected nine. ten."),
                ("path", "warning[One] column two, five /six, byte 7, and 11 more: found eight; expected nine. ten."),
                ("pointer", "warning[One] column two, at three.fo.ur, five, byte 7, and 11 more: found eight; expected nine. ten."),
                ("byte", "warning[One] column two, at three.fo.ur, five /six, and 11 more: found eight; expected nine. ten."),
                ("more", "warning[One] column two, at three.fo.ur, five /six, byte 7: found eight; expected nine. ten."),
                ("found", "warning[One] column two, at three.fo.ur, five /six, byte 7, and 11 more: expected nine. ten."),
                ("help", "warning[One] column two, at three.fo.ur, five /six, byte 7, and 11 more: found eight; expected nine")):
            said = json.loads(WHOLE)
            del said[key]
            (one,) = of_file(json.dumps(said))
            self.assertEqual(str(one), words)

    def test_places_that_are_the_first(self):
        for members, words in (
                ('"path":["a"]', "at a"), ('"in":"footer","byte":0', "footer, byte 0"), ('"in":"geo","pointer":""', "geo"),
                ('"in":"geo","pointer":"/a"', "geo /a"), ('"column":"","path":["",""]', "column , at ."), ('"byte":7,"more":3', "byte 7, and 3 more"),
                ('"more":3', "and 3 more")):
            (one,) = of_file(f'{{"severity":"error","code":"One",{members},"expected":"two"}}')
            self.assertEqual(str(one), f"error[One] {words}: expected two")

    def test_severities(self):
        for severity, is_error in (("error", True), ("warning", False), ("note", False)):
            said = LEAST.replace("note", severity)
            (one,) = of_file(said)
            self.assertEqual((one.severity, one.is_error), (severity, is_error))
            self.assertEqual(of_column(said).is_error, is_error)
            self.assertEqual(of_column(LEAST, said, LEAST).is_error, is_error)

    def test_a_column_of_which_it_is_left_out_why_it_is_invalid(self):
        (invalid,) = columns_of(COLUMN.replace("plain", "invalid") % "" + "\n")
        self.assertEqual((invalid.is_invalid, invalid.is_error, invalid.findings), (True, False, ()))


class OfColumns(unittest.TestCase):
    """The findings of the line of a column."""

    def test_each_has_its_object(self):
        tricky = '{"severity":"error","code":"Two","path":["]}","\\"findings\\":["],"found":",\\"findings\\":[{}]","expected":"]"}'
        column = of_column(WHOLE, tricky, LEAST)
        self.assertEqual([one.json for one in column.findings], [WHOLE, tricky, LEAST])
        self.assertEqual([one.code for one in column.findings], ["One", "Two", "One"])
        self.assertEqual(column.findings[1].path, ("]}", '"findings":['))
        self.assertEqual(column.findings[1].found, ',"findings":[{}]')

    def test_a_crs_that_looks_like_findings(self):
        crs = {"id": [1], "findings": [json.loads(LEAST)]}
        self.assertEqual([one.json for one in of_column(WHOLE, crs=crs).findings], [WHOLE])
        (column,) = columns_of(COLUMN % (',"crs":{"a":1,"findings":[%s]}' % LEAST) + "\n")
        self.assertEqual((column.findings, column.crs), ((), {"a": 1, "findings": [json.loads(LEAST)]}))

    def test_they_cross_processes(self):
        column = of_column(WHOLE, LEAST)
        other = pickle.loads(pickle.dumps(column))
        self.assertEqual((other, [one.json for one in other.findings]), (column, [WHOLE, LEAST]))


class OfManyFiles(unittest.TestCase):
    def test_what_is_found_in_a_column_names_it(self):
        error, warning = LEAST.replace("note", "error"), LEAST.replace("note", "warning")
        lines = [one.json for one in (of_column(warning, error), of_column(warning))] + [line_of(error.replace("One", "Two")), line_of(WHOLE)]
        with mock.patch("geoarrow_fields.check", lambda path, infer: columns_of("".join(f"{line}\n" for line in lines))):
            found = files.report("a")
        self.assertEqual(found["errors"], ["error[One] column t: expected two", "error[Two]: expected two"])
        self.assertEqual(found["warnings"], ["warning[One] column t: expected two"] * 2 + [str(SAID)])


class Shared(unittest.TestCase):
    """The findings that all languages share."""

    def test_each_case(self):
        for content, wanted in cases():
            columns = check(content, notes=True)
            found = [(True, one) for column in columns for one in column.findings] + [(False, one) for one in columns.findings]
            self.assertEqual([(of, one.json, str(one)) for of, one in found], wanted)
            self.assertEqual([said_of(one, not of) for of, one in found], [said for _, said, _ in wanted])
            self.assertEqual([one.is_error for _, one in found], [json.loads(said)["severity"] == "error" for _, said, _ in wanted])

    def test_the_cases_are_many(self):
        findings = [one for _, wanted in cases() for one in wanted]
        self.assertGreater(len(findings), 20)
        self.assertEqual({of for of, _, _ in findings}, {True, False})
        keys = {key for _, said, _ in findings for key in json.loads(said)}
        self.assertEqual(keys, set(json.loads(line_of(WHOLE))) - {"column"})  # (which those of native/same.rows have)


if __name__ == "__main__":
    unittest.main()
