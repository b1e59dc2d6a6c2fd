"""Stand-ins for the objects of pyarrow, arro3, nanoarrow and DuckDB, with the names and signatures that those publish. The structures are laid out here after the
pages of Arrow's C data and C stream interface, and not by the package: an `ArrowSchema` has 72 bytes, an `ArrowArray` 80, an `ArrowArrayStream` 40.
"""
import ctypes
import struct

SCHEMA, ARRAY, STREAM = 72, 80, 40  # bytes
RELEASE = ctypes.CFUNCTYPE(None, ctypes.c_void_p)
GET_SCHEMA = ctypes.CFUNCTYPE(ctypes.c_int, ctypes.c_void_p, ctypes.c_void_p)
NAMES = {kind: ctypes.create_string_buffer(name) for kind, name in (
    (SCHEMA, b"arrow_schema"), (ARRAY, b"arrow_array"), (STREAM, b"arrow_array_stream"))}
AT = {SCHEMA: 56, ARRAY: 64, STREAM: 24}  # where the release callback stands

_new = ctypes.PYFUNCTYPE(ctypes.py_object, ctypes.c_void_p, ctypes.c_void_p, ctypes.c_void_p)(("PyCapsule_New", ctypes.pythonapi))
_kept = []  # for ever: what structures point at
released = {SCHEMA: 0, ARRAY: 0, STREAM: 0}  # how many were
given = {SCHEMA: 0, ARRAY: 0, STREAM: 0}  # how many are whoever takes them's to release: the schemas of streams
lent = []  # what stands in capsules, which is theirs: each structure, and its bytes as they were


def kept(given):
    _kept.append(given)
    return given


def address_of(given):
    return ctypes.cast(kept(given), ctypes.c_void_p).value


def _releasing(kind):
    def release(address):
        released[kind] += 1
        ctypes.c_void_p.from_address(address + AT[kind]).value = None

    return address_of(RELEASE(release))


_RELEASES = {kind: _releasing(kind) for kind in AT}
_OF_A_CHILD = address_of(RELEASE(lambda address: None))


def text(given):
    return 0 if given is None else ctypes.addressof(kept(ctypes.create_string_buffer(given.encode())))


def pairs(given):
    """Metadata of these keys and values."""
    parts = [struct.pack("=i", len(given))]
    for one in (one for pair in given.items() for one in pair):
        parts.append(struct.pack("=i", len(one.encode())) + one.encode())
    return ctypes.addressof(kept(ctypes.create_string_buffer(b"".join(parts))))


def addresses(given):
    return ctypes.addressof(kept((ctypes.c_void_p * len(given))(*given))) if given else 0


class Type:
    """A field or a schema before it is exported: a format string, a name, fields in it, and metadata."""

    def __init__(self, form, name="", *inside, metadata=None, dictionary=None, nullable=True):
        self.form, self.name, self.inside, self.metadata, self.dictionary, self.nullable = form, name, inside, metadata, dictionary, nullable

    def bytes(self, release):
        """The bytes of the structure."""
        return struct.pack(
            "=9q", text(self.form), text(self.name), pairs(self.metadata) if self.metadata else 0, 2 * self.nullable, len(self.inside),
            addresses([one.child() for one in self.inside]), self.dictionary.child() if self.dictionary else 0, release, 0)

    def child(self):
        return ctypes.addressof(kept(ctypes.create_string_buffer(self.bytes(_OF_A_CHILD), SCHEMA)))


FLOAT = Type("g", "xy", nullable=False)
XY = (Type("g", "x", nullable=False), Type("g", "y", nullable=False))
POINT = {"ARROW:extension:name": "geoarrow.point"}


def schema_bytes(of):
    return of.bytes(_RELEASES[SCHEMA])


def array_bytes(of):
    """An array without values: of a dictionary it has a dictionary, which is one of no type here."""
    dictionary = ctypes.addressof(kept(ctypes.create_string_buffer(ARRAY))) if of.dictionary else 0
    return struct.pack("=10q", 0, 0, 0, 0, 0, 0, 0, dictionary, _RELEASES[ARRAY], 0)


def stream_bytes(of, status=0):
    def get_schema(stream, address):
        if not status:
            given[SCHEMA] += 1
            ctypes.memmove(address, schema_bytes(of), SCHEMA)
        return status

    return struct.pack("=5q", address_of(GET_SCHEMA(get_schema)), 0, 0, _RELEASES[STREAM], 0)


def capsule(kind, found, named=None):
    """A capsule of a structure, which it lends. (Its destructor, which would release it, is left out.)"""
    structure = kept(ctypes.create_string_buffer(found, kind))
    lent.append((structure, structure.raw))
    return _new(ctypes.addressof(structure), ctypes.addressof(NAMES[named or kind]), None)


def is_lent_unchanged():
    """Whether all that capsules have lent is as it was."""
    return all(structure.raw == found for structure, found in lent)


# --- pyarrow: its classes say that they are of pyarrow.lib ---


def of_pyarrow(made_class):
    made_class.__module__ = "pyarrow.lib"
    return made_class


class _Of:
    def __init__(self, of):
        self.of = of


class _ExportsSchema(_Of):
    def _export_to_c(self, out_ptr):
        ctypes.memmove(out_ptr, schema_bytes(self.of), SCHEMA)


class _ExportsArray(_Of):
    def _export_to_c(self, out_ptr, out_schema_ptr=0):
        ctypes.memmove(out_ptr, array_bytes(self.of), ARRAY)
        if out_schema_ptr:
            ctypes.memmove(out_schema_ptr, schema_bytes(self.of), SCHEMA)


class _ExportsStream(_Of):
    def _export_to_c(self, out_ptr):
        ctypes.memmove(out_ptr, stream_bytes(self.of), STREAM)


class _GivesSchema(_Of):
    def __arrow_c_schema__(self):
        return capsule(SCHEMA, schema_bytes(self.of))


class _GivesArray(_Of):
    def __arrow_c_array__(self, requested_schema=None):
        return capsule(SCHEMA, schema_bytes(self.of)), capsule(ARRAY, array_bytes(self.of))


class _GivesStream(_Of):
    def __arrow_c_stream__(self, requested_schema=None):
        return capsule(STREAM, stream_bytes(self.of))


class Older:
    """pyarrow before version 14, which has the older export alone, to addresses."""

    Schema = of_pyarrow(type("Schema", (_ExportsSchema,), {}))
    Field = of_pyarrow(type("Field", (_ExportsSchema,), {}))
    DataType = of_pyarrow(type("DataType", (_ExportsSchema,), {}))
    Array = of_pyarrow(type("Array", (_ExportsArray,), {}))
    DictionaryArray = of_pyarrow(type("DictionaryArray", (Array,), {}))

    @of_pyarrow
    class RecordBatch(_ExportsArray):
        @property
        def schema(self):
            return Older.Schema(self.of)

    @of_pyarrow
    class RecordBatchReader(_ExportsStream):
        @property
        def schema(self):
            return Older.Schema(self.of)

    @of_pyarrow
    class Table(_Of):
        @property
        def schema(self):
            return Older.Schema(self.of)


class Newer:
    """pyarrow from version 14 on, which has the capsules too."""

    Schema = of_pyarrow(type("Schema", (Older.Schema, _GivesSchema), {}))
    Field = of_pyarrow(type("Field", (Older.Field, _GivesSchema), {}))
    DataType = of_pyarrow(type("DataType", (Older.DataType, _GivesSchema), {}))
    StructType = of_pyarrow(type("StructType", (DataType,), {}))
    Array = of_pyarrow(type("Array", (Older.Array, _GivesArray), {}))
    DictionaryArray = of_pyarrow(type("DictionaryArray", (Array,), {}))
    ChunkedArray = of_pyarrow(type("ChunkedArray", (_GivesStream,), {}))

    @of_pyarrow
    class RecordBatch(_ExportsArray, _GivesArray, _GivesStream):
        @property
        def schema(self):
            return Newer.Schema(self.of)

    @of_pyarrow
    class RecordBatchReader(_ExportsStream, _GivesStream):
        @property
        def schema(self):
            return Newer.Schema(self.of)

    @of_pyarrow
    class Table(_GivesStream):
        @property
        def schema(self):
            return Newer.Schema(self.of)

    @of_pyarrow
    class Dataset(_Of):
        @property
        def schema(self):
            return Newer.Schema(self.of)


class OfAnExtension(Newer.DataType):
    """A data type that a user derives from pyarrow's; its class is of the user's module."""


class Other:
    """Libraries that give the capsules alone: arro3, nanoarrow, DuckDB."""

    Schema, Array, Stream = _GivesSchema, _GivesArray, _GivesStream
    Exporter = _ExportsArray  # an export of this name, and no class of pyarrow
