"""Tests of edits/: each edit of a body can be made in its crate, and docs/TESTS.md tells how many there are.

`bin/plants` tries whether the prover refuses them, which takes hours; what this tests, an edit loses with the next change of its line. Run by interop/test,
or alone by `python3 -m unittest interop.test_edits`, at the top of the repository.
"""
import pathlib
import re
import unittest

TOP = pathlib.Path(__file__).resolve().parent.parent
EDITS = sorted(TOP.glob("edits/*/*.edit"))


def changes(edit):
    """The changes of an edit, in order: the file, the text that goes, and that which comes."""
    file = old = None
    for line in edit.read_text(encoding="utf-8").splitlines():
        key, _, text = line.partition(":")
        text = text.removeprefix(" ")
        if key == "file":
            file = text
        elif key == "old":
            old = text
        elif key == "new":
            yield file, old, text


class Edits(unittest.TestCase):
    def test_each_can_be_made(self):
        for edit in EDITS:
            with self.subTest(edit.relative_to(TOP)):
                made = list(changes(edit))
                self.assertTrue(made)
                texts = {}
                for file, old, new in made:
                    text = texts.get(file) or (TOP / "crates" / edit.parent.name / file).read_text(encoding="utf-8")
                    self.assertEqual(text.count(old), 1, old)
                    self.assertNotEqual(old, new)
                    texts[file] = text.replace(old, new)

    def test_there_are_as_many_as_the_documents_say(self):
        (told,) = re.findall(r"The\s+(\d+)\s+of\s+all\s+other\s+crates\s+stand\s+in\s+`edits/CRATE`", (TOP / "docs/TESTS.md").read_text(encoding="utf-8"))
        self.assertEqual(len(EDITS), int(told))


if __name__ == "__main__":
    unittest.main()
