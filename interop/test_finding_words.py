"""Tests of the words of findings: the tables of docs/FORMAT.md have those of the definitions.

Run by interop/test, or alone by `python3 -m unittest interop.test_finding_words`, at the top of the
repository.
"""
import pathlib
import re
import unittest

from . import finding_words

CRATES = pathlib.Path(__file__).resolve().parent.parent / "crates"
# The definitions over codes: the file, and the names of that of the codes, of what they weigh, of
# what is expected and of what helps.
DEFINITIONS = (
    ("column_check/specs/WarningWords.antt", "warning_code", "severity_of", "warning_expected",
     "warning_help"),
    ("parquet_footer/specs/Codes.antt", "code_of", "severity_of", "expected_of", "help_of"),
    ("parquet_columns/specs/Codes.antt", "code_of", "severity_of", "expected_of", "help_of"))


LAYOUTS = "column_check/specs/LayoutWords.antt"


def rows(file, name):
    """The rows of a definition: the last word before `=`, and the text or the word behind it."""
    text = (CRATES / file).read_text(encoding="utf-8")
    found = re.findall(f"^{name} (\\S+) = (.*)$", text, re.M)
    return {left.split(".")[-1]: said_in(right) for left, right in found}


def of_layouts(file, name):
    """What a definition over codes has for the faults of layouts."""
    text = (CRATES / file).read_text(encoding="utf-8")
    (right,) = re.findall(f"^{name} \\(warnings.Layout fault\\) = (.*)$", text, re.M)
    return said_in(right)


def said_in(right):
    text = re.fullmatch(r'(?:Some \()?codes "(.*?)"\)?', right)
    return text[1].replace('\\"', '"') if text else None if right == "None" else right.lower()


class Words(unittest.TestCase):
    def test_codes(self):
        told = {}
        for file, *names in DEFINITIONS:
            codes, weights, expected, advice = (rows(file, name) for name in names)
            self.assertGreater(len(codes), 1)
            for key, code in codes.items():
                told.setdefault(code, []).append([expected[key], advice[key]])
                self.assertEqual(finding_words.WEIGHS[code], weights[key], code)
        for code, words in told.items():
            with self.subTest(code):
                self.assertEqual(finding_words.WORDS[code], words)

    def test_a_code_of_two_tables(self):
        expected = [finding_words.said("NestedGeometry", **{"in": part})["expected"] for part in ("field", "elements")]
        self.assertEqual(expected, ["the name of a column alone", "a column at the root that is not REPEATED"])

    def test_faults_of_layouts(self):
        file, code_of, severity_of, expected_of, help_of = DEFINITIONS[0]
        self.assertEqual(of_layouts(file, code_of), "fault_code fault")
        self.assertEqual(of_layouts(file, help_of), "some (fault_help fault)")
        advice = rows(LAYOUTS, "fault_help")
        codes = rows(LAYOUTS, "fault_code")
        self.assertEqual(len(codes), 11)
        for key, code in codes.items():
            with self.subTest(code):
                self.assertEqual(finding_words.WEIGHS[code], of_layouts(file, severity_of))
                words = [of_layouts(file, expected_of), advice[key]]
                self.assertEqual(finding_words.WORDS[code], [words])

    def test_layouts(self):
        lists, others = rows(LAYOUTS, "lists_text"), rows(LAYOUTS, "layout_text")
        told = {name.lower(): text for name, text in (*lists.items(), *others.items())}
        told["box"] = told.pop("rect")
        told = {f"geoarrow.{name}": text for name, text in told.items()}
        self.assertEqual(told, finding_words.LAYOUTS)

    def test_each_code_has_words(self):
        told = {code for file, name, *_ in DEFINITIONS for code in rows(file, name).values()}
        told |= set(rows(LAYOUTS, "fault_code").values())
        self.assertEqual(told, set(finding_words.WORDS))


class Lines(unittest.TestCase):
    MADE = {"more": 2, "severity": "error", "found": "x", "code": "C", "column": "g", "path": ["a", "b"],
            "in": "geo", "pointer": "/p", "byte": 7, "expected": "e", "help": "H.", "file": "f"}

    def test_all_parts(self):
        said = ('"severity":"error","code":"C","file":"f","column":"g","path":["a","b"],"in":"geo",'
                '"pointer":"/p","byte":7,"found":"x","expected":"e","help":"H.","more":2}')
        self.assertEqual(finding_words.line(self.MADE), '{"kind":"finding",' + said)
        self.assertEqual(finding_words.value(self.MADE), "{" + said)
        said = "error[C] column g, at a.b, geo /p, byte 7, and 2 more: found x; expected e. H."
        self.assertEqual(finding_words.words(self.MADE), said)

    def test_no_parts(self):
        made = {"severity": "note", "code": "C", "path": [], "pointer": None, "expected": "e", "more": 0}
        self.assertEqual(finding_words.line(made), '{"kind":"finding","severity":"note","code":"C","expected":"e"}')
        self.assertEqual(finding_words.words(made), "note[C]: expected e")

    def test_columns(self):
        said = ('{"kind":"column","file":1,"index":2,"column":3,"state":4,"type":5,"type_from":6,"extension":7,'
                '"crs":8,"crs_type":9,"crs_from":10,"edges":11,"edges_from":12,"epoch":13,"orientation":14,'
                '"geometry_types":15,"bbox":16,"verdicts":17,"findings":18}')
        made = {key: str(at) for at, key in enumerate(finding_words.COLUMN_KEYS) if at}
        self.assertEqual(finding_words.column_line(dict(sorted(made.items()))), said)
        self.assertEqual(finding_words.column_line({"type": "1", "column": "2"}), '{"kind":"column","column":2,"type":1}')

    def test_what_is_no_text(self):
        self.assertEqual(finding_words.shown_bytes(b"a\xe7\x82\n"), "a\\xe7\\x82\n")


def listed(file, name):
    """The texts of a definition that lists some."""
    text = (CRATES / file).read_text(encoding="utf-8")
    return re.findall('codes "([^"]*)"', re.search(f"^{name} =(.*?)\\[\\]", text, re.M | re.S)[1])


def in_backticks(file, begin, end):
    """The texts in backticks of a document between two phrases."""
    text = (CRATES.parent / file).read_text(encoding="utf-8")
    return re.findall("`([^`]*)`", text[text.index(begin):].split(end)[0])


class Lists(unittest.TestCase):
    def test_names_of_geometries(self):
        names = in_backticks("docs/FORMAT.md", "Columns of geometries are named", ", in any letters")
        self.assertEqual(names, listed("column_check/specs/GeometryNames.antt", "geometry_names"))

    def test_endings_of_files_in_folders(self):
        endings = listed("check_options/specs/Folder.antt", "endings")
        self.assertEqual(in_backticks("docs/FORMAT.md", "A folder stands for its files", ", and for"), endings)
        self.assertEqual(in_backticks("docs/USE.md", "end in `.parquet`", ", down all"), endings)
        program = (CRATES.parent / "python/geoarrow_fields/__main__.py").read_text(encoding="utf-8")
        self.assertEqual(re.findall('"([^"]*)"', re.search(r"^ENDINGS = \((.*)\)", program, re.M)[1]), endings)


if __name__ == "__main__":
    unittest.main()
