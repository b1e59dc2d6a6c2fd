"""Tests with the real pyarrow, which are skipped where it is missing.

Run by interop/test, or alone by `python3 -m unittest interop.test_pyarrow`, at the top of the repository.
"""
import json
import unittest

from . import arrow_lines
from .testing import InAFolder

try:
    import pyarrow
    from pyarrow import feather, ipc, parquet
except ImportError as error:
    WHY_NOT = f"pyarrow is not there: {error}"
else:
    WHY_NOT = ""

LINES = [
    '{"name":"id","nullable":false,"type":"int64"}',
    '{"metadata":{"ARROW:extension:metadata":"{\\"crs\\":\\"OGC:CRS84\\"}","ARROW:extension:name":"geoarrow.wkb"},'
    '"name":"é","nullable":true,"type":"binary"}',
    '{"name":"xy","nullable":true,"type":{"struct":[{"name":"x","nullable":false,"type":"float64"},'
    '{"name":"y","nullable":false,"type":"float64"}]}}',
    '{"name":"seen","nullable":true,"type":{"other":"timestamp[ms, tz=UTC]"}}',
]


@unittest.skipIf(WHY_NOT, WHY_NOT)
class RealPyarrow(InAFolder):
    def setUp(self):
        super().setUp()
        number = pyarrow.float64()
        xy = pyarrow.struct([pyarrow.field("x", number, nullable=False), pyarrow.field("y", number, nullable=False)])
        extension = {"ARROW:extension:name": "geoarrow.wkb", "ARROW:extension:metadata": '{"crs":"OGC:CRS84"}'}
        self.schema = pyarrow.schema([
            pyarrow.field("id", pyarrow.int64(), nullable=False),
            pyarrow.field("é", pyarrow.binary(), metadata=extension),
            pyarrow.field("xy", xy),
            pyarrow.field("seen", pyarrow.timestamp("ms", "UTC")),
        ])

    def test_schemas(self):
        self.assertEqual(arrow_lines.lines(self.schema), LINES)
        self.assertEqual(arrow_lines.lines(self.schema.empty_table()), LINES)

    @unittest.skipUnless(hasattr(WHY_NOT or pyarrow.Schema, "_import_from_c_capsule"), "pyarrow is older than 14")
    def test_there_and_back(self):
        found = pyarrow.schema(arrow_lines.Schema(LINES))
        self.assertTrue(found.equals(self.schema, check_metadata=True), found)

    def test_files(self):
        table = self.schema.empty_table()
        feather.write_feather(table, str(self.folder / "a.feather"), compression="uncompressed")
        for name, writer in (("file.arrow", ipc.new_file), ("stream.arrow", ipc.new_stream)):
            with open(self.folder / name, "wb") as file, writer(file, self.schema) as written:
                written.write_table(table)
        for name in ("a.feather", "file.arrow", "stream.arrow"):
            with self.subTest(name):
                self.assertEqual(self.ran(name), (0, "".join(line + "\n" for line in LINES), ""))

    def test_parquet(self):
        parquet.write_table(self.schema.empty_table(), str(self.folder / "a.parquet"))
        status, text, told = self.ran("a.parquet")
        columns = [json.loads(line) for line in text.splitlines()]
        for column in columns:  # pyarrow adds the number of each column
            column.get("metadata", {}).pop("PARQUET:field_id", None)
            if not column.get("metadata", True):
                del column["metadata"]
        inner = columns[2]["type"]["struct"]
        columns[2]["type"]["struct"] = [{key: one[key] for key in ("name", "nullable", "type")} for one in inner]
        self.assertEqual((status, columns, told), (0, [json.loads(line) for line in LINES], ""))
