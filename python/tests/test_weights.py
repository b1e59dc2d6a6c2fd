"""Tests of what is asked of findings: codes that are denied and allowed, beside the program `geoarrow_check`, where that is built."""
import itertools
import re
import subprocess
import unittest

from geoarrow_fields import InvalidColumns, check
from geoarrow_fields.weights import ALWAYS, ERRORS, NOTES, WARNINGS, Weights

from .shared import BROKEN, CRS, DATA, TEXT, TOP, with_crs

PROGRAM = TOP / "crates/geoarrow_check/out/geoarrow_check"
FILES = [*(DATA / name for name in ("columns.jsonl", "stream.arrows", "file.arrow", "other.arrows", "stored.parquet", "plain.parquet", "geo.parquet")), TOP / "examples/schema.jsonl"]
NUMBER = with_crs("4326")  # a warning, `CrsNumber`


class Severities(unittest.TestCase):
    def test_how_much_a_finding_counts(self):
        for notes, deny, allow, wanted in (  # of an error, two warnings and a note
                (False, (), (), ("error", "warning", "warning", None)),
                (True, (), (), ("error", "warning", "warning", "note")),
                (False, "warnings", (), ("error", "error", "error", None)),
                (True, (), "warnings", ("error", None, None, "note")),
                (False, "warnings", "CrsNumber", ("error", None, "error", None)),
                (False, ["CrsNumber"], ["warnings"], ("error", "error", None, None)),
                (False, ("CrsNotWhole", "CrsNumber"), ("GeoTypes",), (None, "error", "warning", "error")),
                (True, iter(["CrsEmpty"]), {"CrsNotWhole", "warnings"}, ("error", None, "error", None)),
                (False, "EmptyFile", (), ("error", "warning", "warning", None))):
            with self.subTest(notes=notes, wanted=wanted):
                weights = Weights(notes, deny, allow)
                given = (("GeoTypes", "error"), ("CrsNumber", "warning"), ("CrsEmpty", "warning"), ("CrsNotWhole", "note"))
                self.assertEqual(tuple(weights.severity_of(*one) for one in given), wanted)

    def test_words_that_are_refused(self):
        for deny, allow, words in (
                ("GeoTyps", (), "'GeoTyps' is no code of a finding: did you mean 'GeoTypes'?"), ("", (), "'' is no code of a finding"),
                ((), ["CrsNumber", "warning"], "'warning' is no code of a finding: did you mean 'warnings'?"), ("crsnumber", (), None),
                ((), "EmptyFile", "'EmptyFile' cannot be allowed"), ((), "Expect", "'Expect' cannot be allowed"),
                (["CrsNumber", "GeoTypes"], "GeoTypes", "'GeoTypes' is denied and allowed"), ("warnings", "warnings", "'warnings' is denied and allowed")):
            with self.subTest(deny=deny, allow=allow), self.assertRaises(ValueError) as caught:
                check([TEXT], deny=deny, allow=allow)
            self.assertIn(words or "'crsnumber' is no code", str(caught.exception))
        for word in (b"GeoTypes", 1, None):
            with self.assertRaisesRegex(TypeError, f"a code is a str, not {type(word).__name__}"):
                check([TEXT], deny=[word])

    def test_columns(self):
        found = check([NUMBER, CRS], deny=["CrsNumber", "CrsNotWhole"])
        self.assertEqual([(one.code, one.severity) for column in found for one in column.findings], [("CrsNumber", "error"), ("CrsNotWhole", "error")])
        self.assertEqual(([one.is_error for one in found], [line[0] for line in repr(found).split("\n")[1::2]]), ([True, True], ["E", "E"]))
        found = check([NUMBER, CRS], notes=True, allow="CrsNumber")
        self.assertEqual([[one.code for one in column.findings] for column in found], [[], ["CrsNotWhole"]])
        self.assertNotIn("findings", found[0].json)
        self.assertEqual(found[0].crs, 4326)

    def test_why_a_column_is_invalid(self):
        allowed = check([BROKEN], allow=["BadFieldCount", "UnknownEdges"], strict=True)
        self.assertEqual((allowed[0].state, allowed[0].is_invalid, allowed[0].is_error, allowed[0].findings), ("invalid", True, False, ()))
        with self.assertRaises(InvalidColumns) as caught:
            check([BROKEN], allow=["BadFieldCount"], strict=True)
        self.assertEqual([one.code for one in caught.exception.columns[0].findings], ["UnknownEdges"])

    def test_a_crs_that_looks_like_findings(self):
        given = with_crs('{"type":"GeographicCRS","name":"x","findings":[{"severity":"warning","code":"CrsNumber"}],"scale":0.5}')
        for deny, count in (("CrsNotWhole", 1), ("CrsNumber", 0)):
            found = check([given], deny=deny)[0]
            self.assertEqual((len(found.findings), found.crs["findings"][0]["severity"]), (count, "warning"))


class Codes(unittest.TestCase):
    """The codes are those of the program."""

    @unittest.skipUnless(PROGRAM.is_file(), "the program is not built")
    def test_codes(self):
        listed = subprocess.run([str(PROGRAM), "--codes"], stdout=subprocess.PIPE, check=True).stdout.decode()
        found = {severity: set(re.findall(rf"(?m)^{severity}\[(\w+)\]", listed)) for severity in ("error", "warning", "note")}
        self.assertEqual(found, {"error": ERRORS, "warning": WARNINGS, "note": NOTES})
        refused = set()
        for code in ERRORS | WARNINGS | NOTES:
            ran = subprocess.run([str(PROGRAM), "--allow", code, str(TOP / "examples/points.jsonl")], stdout=subprocess.PIPE, stderr=subprocess.PIPE)
            if b"cannot be allowed" in ran.stderr:
                refused.add(code)
        self.assertEqual(refused, ALWAYS)

    @unittest.skipUnless(PROGRAM.is_file(), "the program is not built")
    def test_beside_the_program(self):
        asked = (
            ("warnings", ()), ((), "warnings"), ("warnings", ("NullableInner", "NoGeoMetadata")), (("CrsNumber", "GeoColumnUndeclared"), "warnings"), ("CrsNotWhole", ()),
            (NOTES, ()), (NOTES, ERRORS - ALWAYS), ((), (ERRORS - ALWAYS) | NOTES), (ALWAYS, "warnings"), ((), ("WrongStorage", "EmptyUnion", "GeoTypes")))
        for path, (deny, allow), notes in itertools.product(FILES, asked, (False, True)):
            with self.subTest(path=path.name, deny=deny, allow=allow, notes=notes):
                found = check(path, deny=deny, allow=allow, notes=notes)
                words = [f"--{word}={code}" for word, codes in (("deny", deny), ("allow", allow)) for code in ([codes] if isinstance(codes, str) else codes)]
                ran = subprocess.run([str(PROGRAM), "--json", *["--notes"] * notes, *words, str(path)], stdout=subprocess.PIPE, stderr=subprocess.PIPE)
                lines = ran.stdout.decode().split("\n")[:-2]
                self.assertEqual([one.json for one in (*found, *found.bad_lines, *found.findings)], lines)
                self.assertEqual(int(any(one.is_error for one in (*found, *found.findings))), ran.returncode)


if __name__ == "__main__":
    unittest.main()
