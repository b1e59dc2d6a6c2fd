"""Tests of the model of what counts of a column, by cases made by hand from docs/FORMAT.md, 5.7.

Run by interop/test, or alone by `python3 -m unittest interop.test_geo_facts`, at the top of the
repository.
"""
import json
import unittest

from . import geo_facts
from .geo_findings import BROKEN, DEFAULT, MISSING, UNASKED, Beside, Given, Silent

MERCATOR = '{"type":"ProjectedCRS","name":"n","id":{"authority":"EPSG","code":3857}}'


def column(metadata=None, name="geoarrow.wkb"):
    held = {"ARROW:extension:name": name, "ARROW:extension:metadata": metadata}
    held = {key: value for key, value in held.items() if value is not None}
    return {"name": "g", "nullable": True, "type": "binary", **({"metadata": held} if held else {})}


def geo(member):
    return '{"version":"1.1.0","primary_column":"g","columns":{"g":{"encoding":"WKB","geometry_types":[]%s}}}' % member


class Facts(unittest.TestCase):
    def facts(self, given, *columns, elements=()):
        return [{key: json.loads(text) for key, text in one.items()} for one in geo_facts.facts(given, columns, elements)]

    def test_the_crs_of_geo_beside_an_extension_without_one(self):
        (found,) = self.facts(geo(',"crs":' + MERCATOR), column("{}"))
        self.assertEqual(found, {
            "crs": json.loads(MERCATOR), "crs_from": "geo", "crs_type": "projjson", "edges": "planar", "edges_from": "geo",
            "type_from": "field", "verdicts": {"edges": {"field": "agree"}, "encoding": {"geo": "agree"}}})

    def test_what_is_said_counts_before_a_default(self):
        (found,) = self.facts(geo(""), column('{"crs":"EPSG:3857","edges":"spherical"}'), elements=[Beside("{}")])
        self.assertEqual((found["crs"], found["crs_from"]), ("EPSG:3857", "field"))
        self.assertEqual((found["edges"], found["edges_from"]), ("planar", "element"))
        self.assertEqual(found["verdicts"]["crs"], {"element": "contradict", "geo": "contradict"})
        self.assertEqual(found["verdicts"]["edges"], {"field": "contradict", "geo": "agree"})

    def test_a_crs_that_is_not_known(self):
        (found,) = self.facts(geo(',"crs":null'), column())
        self.assertEqual((found["crs"], found["crs_from"], "crs_type" in found), (None, "geo", False))

    def test_a_field_alone_and_a_column_of_nobody(self):
        (found,) = self.facts(UNASKED, column('{"crs":"4326","crs_type":"srid"}'))
        self.assertEqual(found, {"crs": "4326", "crs_from": "field", "crs_type": "srid", "edges": "planar", "edges_from": "field", "type_from": "field"})
        (found,) = self.facts(MISSING, column(name=None))
        self.assertEqual(found, {"edges": "planar"})

    def test_an_element_that_gives_its_column_all(self):
        given = column('{"crs":"EPSG:3857","crs_type":"authority_code","edges":"spherical"}')
        (found,) = self.facts(geo(',"edges":"spherical"'), given, elements=[Given(True)])
        self.assertEqual((found["crs_from"], found["crs_type"], found["edges_from"], found["type_from"]), ("element", "authority_code", "element", "geo"))
        self.assertEqual(found["verdicts"], {"crs": {"geo": "contradict"}, "edges": {"geo": "agree"}, "encoding": {"element": "agree"}})

    def test_edges_of_an_element_without_an_algorithm_count_behind_those_that_are_said(self):
        element = Beside('{"edges":"spherical"}', DEFAULT)
        for held, own, counts, source in (
                (',"edges":"planar"', "{}", "planar", "geo"), ("", '{"edges":"karney"}', "karney", "field"), ("", "{}", "spherical", "element"),
                (',"edges":"x"', None, "spherical", "element"), (',"edges":"spherical"', "{}", "spherical", "geo")):
            (found,) = self.facts(geo(held), column(own), elements=[element])
            self.assertEqual((found["edges"], found["edges_from"]), (counts, source))
        (found,) = self.facts(UNASKED, column('{"edges":"spherical"}'), elements=[Given(False, BROKEN)])
        self.assertEqual(found, {"crs": "OGC:CRS84", "crs_from": "element", "crs_type": "authority_code", "edges": "planar", "type_from": "element"})

    def test_the_encoding_of_a_member_by_the_layout_of_the_element(self):
        for layout, verdicts in (("BYTE_ARRAY", {"geo": "contradict"}), ("REQUIRED DOUBLE", None), ("not judged", None), ("group of x, y", None)):
            (found,) = self.facts(geo(""), {**column(name="geoarrow.wkt"), "type": "utf8"}, elements=[Silent(layout)])
            self.assertEqual(found.get("verdicts", {}).get("encoding"), verdicts)
            self.assertEqual(found["type_from"], "field")

    def test_what_a_member_alone_says(self):
        said = ',"bbox":[1,2,3.50,4],"epoch":2020.0,"geometry_types":["Point","Polygon Z"],"orientation":"counterclockwise"'
        (found,) = geo_facts.facts(geo(said).replace('"geometry_types":[],', ""), [column()])
        self.assertEqual([found[key] for key in geo_facts.ALONE], ["[1,2,3.50,4]", "2020.0", '["Point","Polygon Z"]', '"counterclockwise"'])
        for said in (',"bbox":[1,2,3]', ',"bbox":[1,2,3,"4"]', ',"bbox":[1,2,3,4,5,6,7,8]', ',"epoch":"2020"', ',"orientation":"clockwise"'):
            (found,) = geo_facts.facts(geo(said), [column()])
            self.assertEqual(found.keys() & geo_facts.ALONE.keys(), set())
        for types in ('["Point","Point"]', '["point"]', "[1]", "{}"):
            (found,) = geo_facts.facts(geo("").replace("[]", types), [column()])
            self.assertNotIn("geometry_types", found)
        (found,) = geo_facts.facts(geo(',"epoch":2020').replace("1.1.0", "0.4.0"), [column()])
        self.assertNotIn("epoch", found)

    def test_the_member_is_that_of_the_first_column_of_its_name(self):
        one, other = self.facts(geo(',"crs":' + MERCATOR), column(), column())
        self.assertEqual((one["crs_from"], other), ("geo", {"edges": "planar", "type_from": "field"}))


if __name__ == "__main__":
    unittest.main()
