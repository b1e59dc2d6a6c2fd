"""Tests of what becomes of output: closed or full, a reader that has gone, and a reader that must see a failure.

Run by interop/test, or alone by `python3 -m unittest interop.test_output`, at the top of the repository.
"""
import os
import unittest

from . import arrow_lines
from .testing import BUILT, InAFolder, line

FULL = "/dev/full"
MISSING = "arrow_lines: missing: No such file or directory\n"


class Output(InAFolder):
    def setUp(self):
        super().setUp()
        self.with_pyarrow()
        self.file("f.parquet", line("null", "n"))
        self.file("large.parquet", *(line("null", "n" * 100_000) for _ in range(20)))
        self.program(["said"], words=["--infer", "-"])

    def test_closed(self):
        for words in ("f.parquet", "--check --program ./program f.parquet", "--help", "missing"):
            with self.subTest(words):
                self.assertEqual(
                    self.shell(f"run {words} >&-"), (2, "", "arrow_lines: standard output: it is closed\n"))
                self.assertEqual(self.shell(f"run {words} >&- 2>&-"), (2, "", ""))
        told = "arrow_lines: standard output: Bad file descriptor\n"
        self.assertEqual(self.shell("run f.parquet 1< f.parquet"), (2, "", told))

    @unittest.skipUnless(os.path.exists(FULL), f"there is no {FULL}")
    def test_full(self):
        told = "arrow_lines: standard output: No space left on device\n"
        for words in ("f.parquet", "large.parquet", "--check --program ./program f.parquet", "--help"):
            with self.subTest(words):
                self.assertEqual(self.shell(f"run {words} > {FULL}"), (2, "", told))
                self.assertEqual(self.shell(f"run {words} > {FULL} 2>&1"), (2, "", ""))

    def test_standard_error_that_cannot_be_written(self):
        ways = ["2>&-"] + [f"2> {FULL}"] * os.path.exists(FULL)
        for way in ways:
            with self.subTest(way):
                self.assertEqual(self.shell(f"run --check missing {way}"), (2, "", ""))
                self.assertEqual(self.shell(f"run f.parquet {way}"), (0, line("null", "n") + "\n", ""))
                self.assertEqual(self.shell(f"run --other --check {way} > output")[0], 2)

    def test_reader_that_has_gone(self):
        for words in ("large.parquet", "missing"):
            with self.subTest(words):
                status, text, told = self.shell(f"{{ run {words}; echo $? > status; }} | true")
                self.assertEqual((status, text), (0, ""))
                self.assertEqual((self.folder / "status").read_text(), "2\n" if words == "missing" else "141\n")
                self.assertEqual(told, MISSING if words == "missing" else "")

    def test_failure_is_seen_in_a_pipe(self):
        status, text, told = self.shell("run missing")
        self.assertEqual((status, text, told), (2, "error input\n", MISSING))
        with self.assertRaisesRegex(arrow_lines.SchemaError, "no JSON: error input"):
            arrow_lines.Schema(text)
        for words in ("--check missing", "--ask columns missing", "missing > output; cat output"):
            with self.subTest(words):
                status, text, told = self.shell(f"run {words}")
                self.assertEqual((status, text, told), (0 if "cat" in words else 2, "", MISSING))

    @unittest.skipUnless(BUILT.is_file(), "the program is not built")
    def test_failure_is_seen_by_the_real_program(self):
        for command in ("read", "infer", "canon", "columns"):
            with self.subTest(command):
                self.assertEqual(self.shell(f'run missing | "$program" {command}')[1:], ("error field\n", MISSING))
        self.assertEqual(self.shell('run f.parquet | "$program" columns'), (0, "other\n", ""))
