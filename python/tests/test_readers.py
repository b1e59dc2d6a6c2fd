"""Compares what the library reads of structures with what a reader reads that shares nothing with it, that of `interop`."""
import sys
import unittest

from geoarrow_fields import lines

from .shared import TOP
from .stand_ins import POINT, XY, Other, Type

sys.path.insert(0, str(TOP))
try:
    from interop import structures
finally:
    sys.path.remove(str(TOP))

PLAIN = "n b c C s S i I l L e f g z Z vz u U vu tdD tdm".split()
NAMED = (
    "w:16 d:19,10 d:19,10,256 d:5,-2 d:9,0,32 tts ttm ttu ttn tss: tsm:UTC tsu:Europe/Zürich tsn:+01:00 tDs tDm tDu tDn tiM tiD tin").split()
ENTRIES = Type("+s", "entries", Type("u", "key", nullable=False), Type("i", "value"), nullable=False)
NESTED = (
    Type("+l", "f", Type("g", "item")), Type("+L", "f", Type("i", "")), Type("+w:2", "f", Type("g", "xy", nullable=False)), Type("+s", "f", *XY),
    Type("+ud:0,5", "f", Type("u", "a"), Type("i", "b", nullable=False)), Type("+us:", "f"), Type("+m", "f", ENTRIES), Type("+vl", "f", Type("u", "item")),
    Type("+vL", "f", Type("u", "item")), Type("+r", "f", Type("i", "run_ends", nullable=False), Type("u", "values")),
    Type("+l", "f", Type("tsm:UTC", "item")), Type("+s", "f", Type("+m", "m", ENTRIES), Type("u", "t")),
    Type("i", "f", dictionary=Type("u")), Type("C", "f", dictionary=Type("+l", "", Type("tss:", "item"))), Type("+l", "f", Type("s", "item", dictionary=Type("u"))))
TEXTS = (Type("u", "Größe 😀"), Type("u", None), Type("z", "g", metadata={**POINT, "b": "ü\n\"", "a": "", "ARROW:extension:metadata": '{"edges":"spherical"}'}))
WRONG = (
    Type("x"), Type(""), Type("w:"), Type("w:-1"), Type("d:1"), Type("tsx:"), Type("+w:-1", "", Type("g")), Type("+l"), Type("+m", "", Type("u"), Type("u")),
    Type("+ud:0", "", Type("u"), Type("u")), Type("+ud:0,0", "", Type("u"), Type("u")), Type("u", "", Type("u")), Type("+s", "", dictionary=Type("u")))


class Readers(unittest.TestCase):
    def test_both_read_the_same(self):
        kinds = [*(Type(text, "f", nullable=at % 2) for at, text in enumerate([*PLAIN, *NAMED])), *NESTED, *TEXTS]
        for kind in [*kinds, Type("+s", "", *kinds), Type("+s", "s", *kinds), Type("+s", None), Type("+s", "", *XY, metadata=POINT)]:
            for of in (Other.Schema, Other.Stream, Other.Array):
                with self.subTest(form=kind.form, name=kind.name, of=of):
                    self.assertEqual(lines(of(kind)), structures.lines(of(kind)))

    def test_both_refuse_the_same(self):
        for kind in WRONG:
            for given in (kind, Type("+s", "", Type("u", "t"), kind)):
                for reads in (lines, structures.lines):
                    with self.subTest(form=kind.form, reads=reads), self.assertRaises(ValueError):
                        reads(Other.Schema(given))


if __name__ == "__main__":
    unittest.main()
