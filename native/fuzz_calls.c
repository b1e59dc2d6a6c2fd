/* A harness of libFuzzer over the calls of geoarrow.h that take bytes, which bin/fuzz compiles and
 * runs with a library.
 *
 * The first byte says which call is made, the second its options, the third how long the first of
 * two texts is; the rest are the bytes. The status is one that the header names for the call. Made
 * again, with a buffer that just has room, a call gives the same; with a byte less SHORT and the
 * length, and changes nothing, as does a status without a text. A schema that is made is read, as
 * one and as its lines, and released. */
#include "geoarrow.h"
#include <stdio.h>
#include <stdlib.h>
#include <string.h>

#define CHECK(holds) ((holds) ? (void)0 : fail(#holds, __LINE__))
static void fail(const char *what, int line) {
    fprintf(stderr, "fuzz_calls.c:%d: %s\n", line, what);
    abort();
}

/* A call, and what it is given. */
enum { REPORT, CANONICAL, SAME, WRITE, MAKE, ANSWER, RUN, READ, FIELD, LINES, STREAM, CALLS };
struct given {
    uint8_t call, number;
    const uint8_t *bytes, *other;
    size_t size, other_size;
    const struct ArrowSchema *schema;
};

static uint8_t call(const struct given *g, uint8_t *out, size_t out_len, size_t *len) {
    const uint8_t n = g->number, *bytes = g->bytes, *other = g->other;
    const size_t size = g->size;
    struct ArrowSchema made;
    switch (g->call) {
    case REPORT: return geoarrow_report(n, other, g->other_size, bytes, size, out, out_len, len);
    case CANONICAL: return geoarrow_canonical(bytes, size, out, out_len, len);
    case SAME:
        return geoarrow_same(n, other, g->other_size, bytes, size, other, 0, out, out_len, len);
    case WRITE: return geoarrow_write_schema(bytes, size, out, out_len, len);
    case ANSWER: return geoarrow_answer(n, bytes, size, out, out_len, len);
    case RUN: return geoarrow_run(n, bytes, size, out, out_len, len);
    case READ: return geoarrow_read_schema(n, g->schema, out, out_len, len);
    case FIELD: return geoarrow_read_field(n, g->schema, out, out_len, len);
    case LINES: return geoarrow_lines_of_schema(g->schema, out, out_len, len);
    case STREAM: return geoarrow_stream_of_schema(g->schema, out, out_len, len);
    }
    memset(&made, 0x5a, sizeof made);
    uint8_t status = geoarrow_schema_of_lines(bytes, size, &made, out, out_len, len);
    CHECK(!made.release == (status != GEOARROW_DONE));
    if (made.release) made.release(&made);
    return status;
}

/* The statuses of a call, but SHORT and MEMORY. */
static int is_status(uint8_t of, uint8_t status) {
    if (status == GEOARROW_DONE) return 1;
    if (status == GEOARROW_UNKNOWN)
        return of == REPORT || of == SAME || of == ANSWER || of == RUN || of == READ || of == FIELD;
    if (status == GEOARROW_REFUSED) return of != ANSWER && of != RUN;
    return status == GEOARROW_FIRST_REFUSED ? of == SAME : of == RUN && status == GEOARROW_LIMIT;
}

/* Makes a call in all the ways. Its status. */
static uint8_t calls(const struct given *g) {
    static const size_t UNSET = (size_t)0x5a5a5a5a;
    size_t room = 4096, len, again;
    uint8_t status = GEOARROW_SHORT, *out = NULL;
    while (status == GEOARROW_SHORT) {
        free(out);
        out = malloc(room);
        len = UNSET;
        status = call(g, out, room, &len);
        CHECK(status != GEOARROW_SHORT || len > room);
        room = len;
    }
    CHECK(is_status(g->call, status));
    int has_text = status != GEOARROW_UNKNOWN && status != GEOARROW_LIMIT;
    CHECK(has_text || len == UNSET);
    uint8_t *just = malloc(has_text && len ? len : 1);
    again = UNSET;
    CHECK(call(g, just, has_text ? len : 0, &again) == status && again == len);
    CHECK(!has_text || !memcmp(out, just, len));
    if (has_text && len) {
        memset(just, 0xa5, len);
        again = UNSET;
        CHECK(call(g, just, len - 1, &again) == GEOARROW_SHORT && again == len);
        for (size_t i = 0; i < len; i++) CHECK(just[i] == 0xa5);
    }
    free(just);
    free(out);
    return status;
}

int LLVMFuzzerTestOneInput(const uint8_t *bytes, size_t len);
int LLVMFuzzerTestOneInput(const uint8_t *bytes, size_t len) {
    if (len < 3) return 0;
    struct given g = {.call = bytes[0] % READ, .number = bytes[1] % 5};
    g.other_size = (len - 3) * bytes[2] / 255;
    if (g.call != SAME && g.other_size > bytes[2] % 4) g.other_size = bytes[2] % 4; /* a name */
    g.size = len - 3 - g.other_size;
    uint8_t *other = malloc(g.other_size + !g.other_size);
    uint8_t *given = malloc(g.size + !g.size);
    memcpy(other, bytes + 3, g.other_size);
    memcpy(given, bytes + 3 + g.other_size, g.size);
    g.bytes = given;
    g.other = other;
    uint8_t status = calls(&g);
    if (g.call == MAKE && status == GEOARROW_DONE) {
        struct ArrowSchema made;
        size_t none;
        CHECK(!geoarrow_schema_of_lines(g.bytes, g.size, &made, other, g.other_size, &none));
        g.schema = &made;
        for (g.call = READ; g.call < CALLS; g.call++) calls(&g);
        made.release(&made);
    }
    free(other);
    free(given);
    return 0;
}
