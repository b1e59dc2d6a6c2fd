"""Tests of the words of refusals: the tables of docs/FORMAT.md have those of the definitions.

Those of 2.8 and 2.9 are compared with what contracts cite of codes, of what is found and expected, and
of what helps; those of 3.7, 4.3, 4.4 and 6.4 with what is cited of the rules. Run by interop/test, or alone by
`python3 -m unittest interop.test_refusal_words`, at the top of the repository.
"""
import pathlib
import re
import unittest

from .finding_words import tables, text_in

CRATES = pathlib.Path(__file__).resolve().parent.parent / "crates"
IPC, FOOTER, ELEMENTS, FILES, ENDS = (
    (CRATES / crate / "specs" / file).read_text(encoding="utf-8")
    for crate, file in (("arrow_ipc", "Rules.antt"), ("parquet_footer", "Rules.antt"), ("parquet_columns", "Rules.antt"),
                        ("column_files", "Refusals.antt"), ("column_files", "Endings.antt")))
PRINTED = (CRATES / "file_check/specs/Printed.antt").read_text(encoding="utf-8")
RECORDS = (CRATES / "record_wire/specs/Fault.antt").read_text(encoding="utf-8")
WALKS, SCHEMAS, MADE, MAKERS = (
    (CRATES / "geoarrow_c/specs" / file).read_text(encoding="utf-8") for file in ("Walks.antt", "Records.antt", "SchemaRecords.antt", "MadeLines.antt"))
UNLIKE = (CRATES / "same_columns/specs/Unlike.antt").read_text(encoding="utf-8")
FORMAT = (CRATES.parent / "docs/FORMAT.md").read_text(encoding="utf-8")
BUDGET = (CRATES / "parquet_columns/specs/Budget.antt").read_text(encoding="utf-8")
TEXT = r'(?:Some \()?codes "((?:[^"\\]|\\.)*)"\)?'
# Texts that have a name.
NAMED = dict(re.findall(f"^(\\w+) = {TEXT}$", FILES + BUDGET, re.M))


def said(spec, name):
    """The texts of a definition by the variants on its left sides, and at "" that of any other."""
    found = {}
    for left, right in re.findall(f"^{name} (.+?) = (.+)$", spec, re.M):
        text, cited = re.fullmatch(TEXT, right), re.fullmatch("(?:Some )?(\\w+)", right)
        if text or right == "None" or cited and cited[1] in NAMED:
            text = None if right == "None" else text[1] if text else NAMED[cited[1]]
            variants = re.findall("\\b[A-Z]\\w*", left)
            found[variants[-1] if variants else ""] = text and text.replace('\\"', '"')
    return found


def rows(*parts):
    """The rows of the variants of which each part is said: a code, what is found, what is expected, and what helps."""
    variants = {variant for part in parts for variant in part}
    return {tuple(part.get(variant, part.get("")) for part in parts) for variant in variants
            if all(variant in part or "" in part for part in parts)}


def defined():
    """The rows of 2.8 by the definitions, but for those that stand for other tables."""
    parts, no_help = ("code", "found", "expected", "help"), {"": None}
    of_rules = {rule: code for rule, code in said(FILES, "rule_code").items() if rule}
    encrypted = re.findall(f"rule = Encrypted; .*found = {TEXT}; expected = {TEXT} ", ENDS)
    of_long_lines, = re.findall(
        f"^long_told .*\n  code = {TEXT};\n.*\n  found = {TEXT};\n  expected = {TEXT};\n  help = None;", FILES, re.M)
    return (
        rows(*(said(FILES, f"line_{part}") for part in parts)) | {(*of_long_lines, None)}
        | rows(*(said(FILES, f"fault_{part}") for part in parts))
        | {(said(FILES, "end_code")["Encrypted"], *it, said(FILES, "end_help")["Encrypted"]) for it in encrypted}
        | rows(of_rules, said(IPC, "rule_message"), said(IPC, "rule_wanted"), no_help)
        | rows(said(FILES, "ipc_code"), said(IPC, "error_message"), said(IPC, "error_wanted"), no_help)
        | rows(said(IPC, "write_code"), said(IPC, "write_message"), said(IPC, "write_wanted"), no_help)
        | rows({"": code_of(WALKS)}, said(WALKS, "walk_message"), said(WALKS, "walk_wanted"), no_help)
        | rows({"": code_of(MADE)}, said(MADE, "unwritten_message"), said(MADE, "unwritten_wanted"), no_help)
        | rows({"": code_of(MAKERS)}, said(MAKERS, "unmade_message"), said(MAKERS, "unmade_wanted"), no_help))


def code_of(spec):
    """The one code of a definition of what is told."""
    code, = re.findall(f"^  code = {TEXT};$", spec, re.M)
    return code


class Words(unittest.TestCase):
    def test_refusals(self):
        told = [tuple(map(text_in, row[:4])) for row in tables("code | found | expected | help | place")]
        whole = [row for row in told if row[1] is not None]
        self.assertEqual(len(whole), len(set(whole)))
        self.assertEqual(set(whole), defined())
        codes, ends = said(FILES, "fault_code"), said(FILES, "end_code")
        cut = [(ends["Truncated"], words, said(FILES, "end_help")["Truncated"]) for words in (*said(ENDS, "magic_words").values(), None)]
        self.assertEqual(sorted((row[0], row[2] or "", row[3]) for row in told if row[0] == ends["Truncated"]), sorted((code, words or "", help) for code, words, help in cut))
        others = [code_of(SCHEMAS), *re.findall(f"^  code = {TEXT};$", PRINTED, re.M), codes["Foreign"], codes["Footer"], codes["Tree"], said(FILES, "rule_code")[""],
                  ends["FooterLength"], *(code for code, _, _ in cut)]
        self.assertEqual(sorted(row[0] for row in told if row[1] is None), sorted(others))

    def test_codes(self):
        told = tables("code | found | expected | help | place")
        codes = dict.fromkeys(text_in(row[0]) for row in told)  # each once, in their order
        weighed = [text_in(row[0]) for row in tables("code | weighs | when")]
        # Memory, what is written and schemas in memory are no files.
        self.assertEqual(sorted(weighed), sorted(code for code in codes if code not in ("OutOfMemory", "ColumnType", "SchemaTooLarge", "BadSchema")))

    def test_same(self):
        told = tables("what differs | where | found | expected | help")
        helps = re.findall('codes "([A-Z][^"]*[.])"', UNLIKE)
        self.assertEqual(sorted(text_in(row[4]) for row in told), sorted(text for text in helps if not text.startswith("Nothing")))
        nothing = re.findall('codes "(no [^"]*)"', UNLIKE)
        self.assertEqual(sorted(set(nothing)), sorted(re.findall("`(no [^`]*)`", FORMAT[FORMAT.index("### 2.9"):FORMAT.index("## 3. ")])))

    def test_rules(self):
        heads = "rule | broken at | what is wrong", "rule | broken where | what is wrong"
        told = [tuple(text_in(row[at]) for at in (0, 2, 3)) for head in heads for row in tables(head)]
        wanted = [(rule, wrong, said(spec, "rule_wanted")[rule]) for spec in (IPC, FOOTER, ELEMENTS)
                  for rule, wrong in said(spec, "rule_message").items()]
        self.assertEqual(told, wanted)
        self.assertEqual(len(wanted), 18 + 11 + 10)
        of_records = [tuple(map(text_in, row)) for row in tables("rule | what is wrong | what the rule asks")]
        wanted = [(rule, wrong, said(RECORDS, "rule_wanted")[rule]) for rule, wrong in said(RECORDS, "rule_message").items()]
        self.assertEqual(of_records, wanted)
        self.assertEqual(len(wanted), 11)


if __name__ == "__main__":
    unittest.main()
