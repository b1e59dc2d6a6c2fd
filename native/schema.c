/* The calls of geoarrow.h on an ArrowSchema. Each copies the tree into records (records.c), hands
 * these to a proved call of the crate geoarrow_c, and frees them. What the walk came to, and in
 * which column it ended, is handed on too: the proved call makes the line that says so. The last
 * calls make a tree of the records that a proved call writes, and a capsule of Python for one. */
#include "records.h"
#include <stdlib.h>
#include <string.h>

/* What all calls take that read records, and that write. */
#define RECORDS const uint8_t *records, size_t records_len
#define ROOM uint8_t *out, size_t out_len, size_t *len

/* The proved calls: how the walk ended, the column in which it did, or -1, and the records. */
uint8_t schema_report(uint8_t options, uint8_t walk, int64_t column, RECORDS, ROOM);
uint8_t field_report(uint8_t options, uint8_t walk, RECORDS, ROOM);
uint8_t schema_lines(uint8_t walk, int64_t column, RECORDS, ROOM);
uint8_t field_lines(uint8_t walk, RECORDS, ROOM);
uint8_t schema_stream(uint8_t walk, int64_t column, RECORDS, ROOM);
uint8_t schema_rule(uint8_t may_have_name, uint8_t walk, RECORDS, uint8_t *is);
uint8_t schema_records(const uint8_t *lines, size_t lines_len, ROOM);

/* Which proved call is made. */
enum call { REPORT, FIELD_REPORT, LINES, FIELD_LINES, STREAM, RULE };

/* Copies a tree, hands its records to a proved call, if there are any, and frees them. */
static uint8_t called(enum call call, uint8_t number, const struct ArrowSchema *schema, ROOM) {
    struct records r = {.is_alone = call == RULE};
    const uint8_t walk = (uint8_t)records_of_schema(schema, &r), *at = r.bytes;
    const int64_t column = r.depth ? r.path[0] : -1;
    const size_t size = walk ? 0 : r.len;
    uint8_t is = GEOARROW_MEMORY;
    if (at) switch (call) {
    case REPORT: is = schema_report(number, walk, column, at, size, out, out_len, len); break;
    case FIELD_REPORT: is = field_report(number, walk, at, size, out, out_len, len); break;
    case LINES: is = schema_lines(walk, column, at, size, out, out_len, len); break;
    case FIELD_LINES: is = field_lines(walk, at, size, out, out_len, len); break;
    case STREAM: is = schema_stream(walk, column, at, size, out, out_len, len); break;
    case RULE: is = schema_rule(number, walk, at + 8, walk ? 0 : size - 8, out);
    }
    free(r.bytes);
    return is;
}

uint8_t geoarrow_read_schema(uint8_t options, const struct ArrowSchema *schema, ROOM) {
    return called(REPORT, options, schema, out, out_len, len);
}
uint8_t geoarrow_read_field(uint8_t options, const struct ArrowSchema *field, ROOM) {
    return called(FIELD_REPORT, options, field, out, out_len, len);
}
uint8_t geoarrow_lines_of_schema(const struct ArrowSchema *schema, ROOM) {
    return called(LINES, 0, schema, out, out_len, len);
}
uint8_t geoarrow_lines_of_field(const struct ArrowSchema *field, ROOM) {
    return called(FIELD_LINES, 0, field, out, out_len, len);
}
uint8_t geoarrow_stream_of_schema(const struct ArrowSchema *schema, ROOM) {
    return called(STREAM, 0, schema, out, out_len, len);
}
uint8_t geoarrow_is_schema(uint8_t may_have_name, const struct ArrowSchema *schema, uint8_t *is) {
    return called(RULE, may_have_name, schema, is, 1, NULL);
}

uint8_t geoarrow_schema_of_lines(const uint8_t *lines, size_t lines_len, struct ArrowSchema *schema,
                                 ROOM) {
    uint8_t is = GEOARROW_SHORT, *records = NULL;
    size_t size = 4096;
    schema->release = NULL;
    while (is == GEOARROW_SHORT) {
        free(records);
        records = malloc(size);
        if (!records) return GEOARROW_MEMORY;
        is = schema_records(lines, lines_len, records, size, &size);
    }
    if (is == GEOARROW_REFUSED && (*len = size) > out_len) is = GEOARROW_SHORT;
    else if (is == GEOARROW_REFUSED) memcpy(out, records, size);
    else if (is == GEOARROW_DONE && schema_of_records(records, size, schema)) is = GEOARROW_MEMORY;
    else if (is == GEOARROW_DONE) *len = 0;
    free(records);
    return is;
}

const char *geoarrow_status_text(uint8_t status) {
    static const char *const texts[] = {
        "done", "out is too small", "out of memory",
        "no such command, no such options or no such word, or a name or a CRS that is not UTF-8",
        "more than 1,000,000 lines, or a line of more than 1,048,576 bytes",
        "the bytes, or the schema, are refused", "of two files the first is refused"};
    return status < sizeof texts / sizeof *texts ? texts[status] : "no status";
}

/* Python's PyCapsule_GetPointer; the destructor of a capsule, which releases what nobody took. */
static _Atomic(geoarrow_capsule_pointer *) pointer_of;
static void end(void *capsule) {
    struct ArrowSchema *schema = pointer_of(capsule, "arrow_schema");
    if (schema && schema->release) schema->release(schema);
    free(schema);
}

void *geoarrow_capsule(geoarrow_capsule_new *make, geoarrow_capsule_pointer *pointer) {
    struct ArrowSchema *schema = calloc(1, sizeof *schema);
    pointer_of = pointer;
    void *capsule = make(schema, "arrow_schema", end); /* of NULL there is none */
    if (!capsule) free(schema);
    return capsule;
}
