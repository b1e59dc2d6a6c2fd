/* GeoArrow's schema types as calls of C: the answers of the program geoarrow_fields, and the
 * report, the differences of files, the columns in normal form and the Arrow stream of
 * geoarrow_check; columns that are made; the report, the lines and the stream of a schema in
 * memory.
 *
 * A call takes bytes as a pointer and a length, or a structure of Arrow's C data interface, and
 * writes text, or a stream's bytes, to the front of `out`. It returns a status; at GEOARROW_DONE,
 * and where bytes are refused, `*len` is the length of what is written. Where `out` is too small
 * nothing is written to it, and `*len` is what is needed, so a call with `out_len` 0 asks for the
 * length. The text has no NUL at its end.
 *
 * At GEOARROW_REFUSED, and at GEOARROW_FIRST_REFUSED of geoarrow_same, what is written is one
 * line, with a line feed behind it, which says why the bytes are refused. It is the line of a
 * finding: a JSON object without blanks, with these keys in this order, of which those that do not
 * apply are left out. `kind` is `finding`, and `severity` is `error`; `code` says what is wrong;
 * `file` is the name that was given; the place is `index`, that of a column, `in`, the part of the
 * file, `footer` or `elements`, and the numbers `byte` and `line`; `found` says what stands there,
 * `expected` what is expected, and `help` what to try. As
 * `{"kind":"finding","severity":"error","code":"Encrypted","byte":4092,"found":"PARE","expected":"PAR1","help":"A copy with a plain footer is needed"}`.
 * docs/FORMAT.md, 2.8, has all codes, and where lines, bytes and columns are counted from.
 *
 * What a caller owes:
 * - Each pointer is not null, also where its length is 0, and leads to so many bytes; `len` leads
 *   to a size_t. No length is greater than PTRDIFF_MAX.
 * - `out` and `*len` overlap nothing else that is passed. While a call runs, nobody else touches
 *   them, or writes to what it reads.
 * - An ArrowSchema is NULL, or a structure as Arrow's C data interface has it, down to its last
 *   child and dictionary: a format, a name and metadata that are not NULL lead to a text that ends
 *   in a NUL, or to metadata as long as their numbers say; `children` to `n_children` pointers,
 *   each to a structure or NULL. No reader of that interface can check this. What can be checked
 *   is, and refused: NULL where something is to stand, structures that are released, wrong counts,
 *   formats and texts, circles and what is too deep.
 * - The thread has GEOARROW_STACK bytes of stack left.
 * - No call is made from a signal handler, nor from the forked child of a process with threads.
 * - malloc, realloc and free are those of one allocator, with blocks that are aligned to 16 bytes.
 *
 * Nothing is kept from call to call, but that of Python which geoarrow_capsule is given; any
 * number of threads may call at once. */
#ifndef GEOARROW_H
#define GEOARROW_H

#include <stddef.h>
#include <stdint.h>

#ifdef __cplusplus
extern "C" {
#endif

#define GEOARROW_VERSION 20000
#define GEOARROW_STACK 262144

/* The structures of Arrow's C data interface, as each of its headers declares them; the calls here take the first. */
#ifndef ARROW_C_DATA_INTERFACE
#define ARROW_C_DATA_INTERFACE

#define ARROW_FLAG_DICTIONARY_ORDERED 1
#define ARROW_FLAG_NULLABLE 2
#define ARROW_FLAG_MAP_KEYS_SORTED 4

struct ArrowSchema {
    const char *format;
    const char *name;
    const char *metadata;
    int64_t flags;
    int64_t n_children;
    struct ArrowSchema **children;
    struct ArrowSchema *dictionary;
    void (*release)(struct ArrowSchema *);
    void *private_data;
};

struct ArrowArray {
    int64_t length;
    int64_t null_count;
    int64_t offset;
    int64_t n_buffers;
    int64_t n_children;
    const void **buffers;
    struct ArrowArray **children;
    struct ArrowArray *dictionary;
    void (*release)(struct ArrowArray *);
    void *private_data;
};

#endif

/* What is asked of a line. */
enum { GEOARROW_READ = 0, GEOARROW_INFER = 1, GEOARROW_CANON = 2, GEOARROW_COLUMNS = 3 };

/* Options of geoarrow_report, geoarrow_read_schema, geoarrow_read_field and geoarrow_same, 0 or a
 * sum of these: infer a type for columns without an extension name; notes among the findings, of
 * columns and of the file (docs/FORMAT.md, 2.6, 4.3 and 5). */
enum { GEOARROW_INFER_TYPES = 1, GEOARROW_NOTES = 2 };

/* Statuses. */
enum {
    GEOARROW_DONE = 0,    /* done */
    GEOARROW_SHORT = 1,   /* `out` is too small; `*len` is what is needed */
    GEOARROW_MEMORY = 2,  /* out of memory */
    GEOARROW_UNKNOWN = 3, /* no such command, no such options or no such word, or a name or a CRS that is not UTF-8 */
    GEOARROW_LIMIT = 4,   /* more than 1,000,000 lines, or a line of more than 1,048,576 bytes */
    GEOARROW_REFUSED = 5, /* the bytes, or the schema, are refused; the line that says why stands in `out` */
    GEOARROW_FIRST_REFUSED = 6 /* of two files the first is refused; the line that says why stands in `out` */
};

/* GEOARROW_VERSION, as the library has it. */
uint32_t geoarrow_version(void);

/* What a status says, for messages: a text that is never freed, with a NUL at its end; of a number
 * that is no status `no status`. */
const char *geoarrow_status_text(uint8_t status);

/* The answer to one line, without line feeds (docs/FORMAT.md, 2.1 and 2.2).
 * Statuses: DONE, SHORT, MEMORY, UNKNOWN; at the last two `out` and `*len` are unchanged. */
uint8_t geoarrow_answer(uint8_t command, const uint8_t *line, size_t line_len, uint8_t *out, size_t out_len, size_t *len);

/* The answers to all lines of an input, each with a line feed behind it.
 * Statuses: as geoarrow_answer, and LIMIT, at which `out` and `*len` are unchanged. */
uint8_t geoarrow_run(uint8_t command, const uint8_t *input, size_t input_len, uint8_t *out, size_t out_len, size_t *len);

/* The report of a file, from its bytes: a line of JSON for each of its columns (docs/FORMAT.md,
 * 2.5 to 2.7), and behind them one for each finding beside the columns, in the footer of a Parquet
 * file, in the schema that it stores and in GeoParquet metadata; each with a line feed behind it.
 * The first key of a line is its `kind`: `column` or `finding`. Where the file is refused, the
 * line that says why (2.8).
 *
 * Of a file of lines, a line that is no column has the line of a finding behind the columns, as
 * that of a refused file, and all other lines are columns: the status is DONE. It is told by its
 * key `line`. At most 100 of them are told; the last says at `more` how many more there are, if
 * there are any.
 *
 * A finding is an object, a line of its own, or of a column an item of the array `findings` of its
 * line, those first that say why it is invalid. Its keys are, in this order, but for those of the
 * place that 2.8 has beside these (5.1): `kind`; `severity`, that is `error`, `warning` or `note`,
 * and `code`; `file`; the place, that is `column`, `path`, an array of the names of child fields,
 * `in`, the part of the file, `pointer`, a JSON pointer into it, and `byte`, a number; `found`,
 * what stands there, `expected` and `help`, in words; and `more`, how many more of the code there
 * are. Those that do not apply are left out; those of a column have neither `kind` nor `file` nor
 * `column`, which its line has. As
 * `{"severity":"error","code":"GeoEpoch","in":"geo","pointer":"/columns/g/epoch","found":"\"2020\"","expected":"a number"}`
 * of a column g.
 *
 * `options` is 0 to 3, a sum of GEOARROW_INFER_TYPES and GEOARROW_NOTES. `name` is the name of the
 * file in UTF-8, which the lines have at `file`; where `name_len` is 0 they have none. The bytes
 * that geoarrow_wanted asks for may stand for the file, those of its end behind those of its
 * begin; a byte is then counted from the first byte given, as if nothing stood between them.
 * Statuses: DONE and REFUSED, with the lines in `out`; SHORT, of either; MEMORY and UNKNOWN, at
 * which `out` and `*len` are unchanged. */
uint8_t geoarrow_report(uint8_t options, const uint8_t *name, size_t name_len, const uint8_t *bytes, size_t bytes_len, uint8_t *out,
                        size_t out_len, size_t *len);

/* How many bytes of a file are wanted for its report: of its begin `*head_wanted`, and of its end
 * `*tail_wanted` (docs/FORMAT.md, 2.7). `head` are its first bytes, `tail` its last, which stand
 * behind these, both as many as are there already, also none. `size` is how many bytes it has, or
 * UINT64_MAX where that is not known, as of a pipe, whose `tail` is not looked at. Returns 0 where
 * all that is wanted is given: what the calls below and above read of these bytes, `tail` behind
 * `head`, is what they read of the file. Else 1: call again with as many bytes as are wanted;
 * where the file ends before, with all of them and its size. After three rounds nothing more is
 * wanted. No more is wanted than the file has, and of its end no more than stands behind `head`;
 * nothing is allocated. */
uint8_t geoarrow_wanted(const uint8_t *head, size_t head_len, const uint8_t *tail, size_t tail_len, uint64_t size,
                        uint64_t *head_wanted, uint64_t *tail_wanted);

/* An Arrow stream of the schema whose columns the lines denote, one a line, without metadata of
 * its own (docs/FORMAT.md, 2.7 and 3.6). It has the schema alone: no batches, and no mark of the
 * stream's end. Blank lines are passed over, and no lines denote a schema without columns. Where a
 * line denotes no column, or no message can hold the schema, the line that says so (2.8).
 * Statuses: DONE, with the stream in `out`; REFUSED, with the line; SHORT, of either; MEMORY, at
 * which `out` and `*len` are unchanged. */
uint8_t geoarrow_write_schema(const uint8_t *lines, size_t lines_len, uint8_t *out, size_t out_len, size_t *len);

/* In what the columns of a file are not those of the first, from the bytes of both
 * (docs/FORMAT.md, 2.9): a line of JSON for each difference, with a line feed behind it, and
 * nothing where there is none. It is the line of a finding of the other file, with `kind`,
 * `severity`, `code`, which is `NotSame`, or `CrsNotCompared`, a note, `file`, `column`, `found`,
 * `expected` and `help`. As
 * `{"kind":"finding","severity":"error","code":"NotSame","column":"id","found":"int32","expected":"int64","help":"The first file has another type."}`.
 * What else is found in the files is not told. Of a file of lines some of which are no columns the
 * others are compared.
 *
 * `options` is as for geoarrow_report: with GEOARROW_INFER_TYPES inferred types are compared, and
 * without GEOARROW_NOTES a CRS that cannot be compared is not told. `name` is the name of the
 * other file in UTF-8, which the lines have at `file`; where `name_len` is 0 they have none. The
 * bytes of each file are as for geoarrow_report. `first` and `other` may be the same.
 * Statuses: DONE, with the lines in `out`; REFUSED, where the other file is refused, with the line
 * that says why (2.8), and FIRST_REFUSED, where the first is, whose line names no file; SHORT, of
 * these; MEMORY and UNKNOWN, at which `out` and `*len` are unchanged. */
uint8_t geoarrow_same(uint8_t options, const uint8_t *first, size_t first_len, const uint8_t *other, size_t other_len,
                      const uint8_t *name, size_t name_len, uint8_t *out, size_t out_len, size_t *len);

/* The columns of a file, from its bytes, as lines: for each of them, in their order, the line of
 * its normal form (docs/FORMAT.md, 2.7 and 2.10), with a line feed behind it. A column that holds
 * geometries by its extension name has the data type, the extension name and the extension
 * metadata that GeoArrow writes for them; any other is as it is, also one for which a type would
 * be inferred. As
 * `{"metadata":{"ARROW:extension:name":"geoarrow.wkb"},"name":"g","nullable":true,"type":"binary"}`
 * for a column `ogc.wkb`. They are the columns of geoarrow_report, of a GeoParquet file by its
 * metadata; what is found in them is not told. geoarrow_write_schema makes an Arrow stream of the
 * lines. Of a file of lines, those that are no columns are left out.
 *
 * The bytes are as for geoarrow_report. Where the file is refused, the line that says why (2.8),
 * which names no file.
 * Statuses: DONE, with the lines in `out`; REFUSED, with the line; SHORT, of either; MEMORY, at
 * which `out` and `*len` are unchanged. */
uint8_t geoarrow_canonical(const uint8_t *bytes, size_t bytes_len, uint8_t *out, size_t out_len, size_t *len);

/* The columns of a file, from its bytes, as lines: of each, in their order, the line that denotes
 * it (docs/FORMAT.md, 2.7), with a line feed behind it. They are the columns of
 * geoarrow_canonical, as they stand in the file. geoarrow_schema_of_lines makes a schema of the
 * lines.
 *
 * The bytes are as for geoarrow_report. Where the file is refused, the line that says why (2.8),
 * which names no file.
 * Statuses: DONE, with the lines in `out`; REFUSED, with the line; SHORT, of either; MEMORY, at
 * which `out` and `*len` are unchanged. */
uint8_t geoarrow_lines(const uint8_t *bytes, size_t bytes_len, uint8_t *out, size_t out_len, size_t *len);

/* The line of a column of geometries (docs/FORMAT.md, 2.7 and 2.11), with a line feed behind it:
 * of that name, with the data type, the extension name and the extension metadata that GeoArrow
 * writes. geoarrow_schema_of_lines makes a schema of such lines, and geoarrow_write_schema a
 * stream. As
 * `{"metadata":{"ARROW:extension:metadata":"{\"crs\":\"EPSG:4326\",\"crs_type\":\"authority_code\"}","ARROW:extension:name":"geoarrow.wkb"},"name":"g","nullable":true,"type":"binary"}`
 * for `g`, `wkb - -`, 1 and `EPSG:4326`.
 *
 * `kind` has the words of a report at `type` (2.2 and 2.5): kind, coordinate type and dimension,
 * as `point interleaved XY`, `geometry separated -`, `box separated XYZ` or `large_wkb - -`.
 * `nullable` is 1 where values may be null, and 0 where not. `crs` is empty where there is none;
 * PROJJSON where its first byte that is no blank of JSON is `{`, which is kept as it is written,
 * without blanks; and any other text as it is. `crs_type` is `projjson`, `wkt2:2019`,
 * `authority_code` or `srid`, or empty: then it is the one that the form of the CRS tells (2.11),
 * if one is. `edges` is `andoyer`, `karney`, `spherical`, `thomas` or `vincenty`; `planar` and an
 * empty text stand for none, which are planar. `name` and `crs` are in UTF-8.
 *
 * Where `crs` begins with `{` and is no PROJJSON, or there is a CRS type without a CRS, the line
 * that says so (2.8), with the code `BadSchema`.
 * Statuses: DONE and REFUSED, with the line in `out`; SHORT, of either; MEMORY and UNKNOWN, at
 * which `out` and `*len` are unchanged. */
uint8_t geoarrow_make(const uint8_t *name, size_t name_len, const uint8_t *kind, size_t kind_len, uint8_t nullable, const uint8_t *crs,
                      size_t crs_len, const uint8_t *crs_type, size_t crs_type_len, const uint8_t *edges, size_t edges_len,
                      uint8_t *out, size_t out_len, size_t *len);

/* The report of a schema in memory (docs/FORMAT.md, 2.5 to 2.7), which has the format `+s` and no
 * dictionary: its columns are its children. It is that of an Arrow stream of this schema, in whose
 * metadata `geo` is looked at; its lines are those of geoarrow_report without the name of a file.
 * Where a key stands several times in metadata, its last text counts, and nothing is said of it.
 * The structure stays the caller's: it is read, not written to, and not released.
 *
 * Where the schema is refused, the line that says why (2.8), with the code `BadSchema`, and at
 * `index` the column that is broken, if one is; or with `ReportTooLarge`. As
 * `{"kind":"finding","severity":"error","code":"BadSchema","index":1,"found":"a structure that is released","expected":"a structure that is not released"}`.
 * `options` is as for geoarrow_report.
 * Statuses: DONE and REFUSED, with the lines in `out`; SHORT, of either; MEMORY and UNKNOWN, at
 * which `out` and `*len` are unchanged. */
uint8_t geoarrow_read_schema(uint8_t options, const struct ArrowSchema *schema, uint8_t *out, size_t out_len, size_t *len);

/* The same of one column, whatever its format is: the report of a schema with that one column and
 * without metadata. `index` is 0. */
uint8_t geoarrow_read_field(uint8_t options, const struct ArrowSchema *field, uint8_t *out, size_t out_len, size_t *len);

/* The columns of a schema in memory as lines: of each, in their order, the line that denotes it
 * (docs/FORMAT.md, 2.7), with a line feed behind it. The structure is as for geoarrow_read_schema;
 * its own metadata are not told.
 * Statuses: DONE, with the lines in `out`; REFUSED, with the line that says why (2.8); SHORT, of
 * either; MEMORY, at which `out` and `*len` are unchanged. */
uint8_t geoarrow_lines_of_schema(const struct ArrowSchema *schema, uint8_t *out, size_t out_len, size_t *len);

/* The same of one column, as for geoarrow_read_field: its line. */
uint8_t geoarrow_lines_of_field(const struct ArrowSchema *field, uint8_t *out, size_t out_len, size_t *len);

/* Whether a structure is to be read as a schema, where what gives it gives schemas and fields
 * alike, as objects of Python do: `*is` is 1 for one of the format `+s` without a dictionary,
 * without an extension name in its metadata and, unless `may_have_name` is not 0, without a name;
 * and 0 for a field. The first structure of an ArrowArrayStream may have a name. Nothing that lies
 * in it is looked at. Of a structure that is refused it is 1: geoarrow_read_schema says why.
 * Statuses: DONE; MEMORY, at which `*is` is unchanged. */
uint8_t geoarrow_is_schema(uint8_t may_have_name, const struct ArrowSchema *schema, uint8_t *is);

/* An Arrow stream of a schema in memory (docs/FORMAT.md, 2.7 and 3.6), with its metadata: bytes
 * which all other calls take as those of a file. As that of geoarrow_write_schema it has the
 * schema alone. The structure is as for geoarrow_read_schema.
 * Statuses: DONE, with the stream in `out`; REFUSED, with the line that says why (2.8), where the
 * schema is refused, or no message can hold it; SHORT, of either; MEMORY, at which `out` and
 * `*len` are unchanged. */
uint8_t geoarrow_stream_of_schema(const struct ArrowSchema *schema, uint8_t *out, size_t out_len, size_t *len);

/* The schema whose columns the lines denote, one a line, without metadata of its own
 * (docs/FORMAT.md, 2.7 and 6): blank lines are passed over, and no lines denote a schema without
 * columns. At DONE `*schema` is the caller's, whom nothing of it was before, to release, or to
 * hand on, and `*len` is 0. It is one block: a child may be moved out, and each released by any
 * thread. Where a line denotes no column, or no structures can have the columns, the line that
 * says so (2.8), which stands in `out`; at all statuses but DONE the release callback of `*schema`
 * is NULL.
 * Statuses: DONE; REFUSED, with the line; SHORT, where it has no room; MEMORY, at which `out` and
 * `*len` are unchanged. */
uint8_t geoarrow_schema_of_lines(const uint8_t *lines, size_t lines_len, struct ArrowSchema *schema, uint8_t *out,
                                 size_t out_len, size_t *len);

/* Calls of Python: PyCapsule_New and PyCapsule_GetPointer, whose objects are not looked at here. */
typedef void *geoarrow_capsule_new(void *pointer, const char *name, void (*destructor)(void *capsule));
typedef void *geoarrow_capsule_pointer(void *capsule, const char *name);

/* A capsule of Python with the name `arrow_schema`, by these two calls, for packages of Python
 * that give out a schema: its structure is all zeros, so nothing in it is to be released until
 * geoarrow_schema_of_lines, for one, has made a schema there. Whoever takes the schema out moves
 * it, and leaves its release callback NULL. When Python drops the capsule, what nobody has taken
 * is released, and the structure freed, in C alone; so this library stays loaded as long as
 * Python. The caller holds Python's lock. NULL where there is none, with what PyCapsule_New
 * raises: where memory is short a ValueError, since it is then given NULL. */
void *geoarrow_capsule(geoarrow_capsule_new *make, geoarrow_capsule_pointer *pointer);

#ifdef __cplusplus
}
#endif

#endif
