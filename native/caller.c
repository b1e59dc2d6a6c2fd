/* A caller of geoarrow.h, which native/test compiles: caller answers|faults|threads|stack|leaks < REQUESTS
 *
 * A request is a byte for the call (0 geoarrow_answer, 1 geoarrow_run, 2 geoarrow_report, 3 geoarrow_write_schema, 4 geoarrow_same,
 * 5 geoarrow_canonical, 6 geoarrow_read_schema, 7 geoarrow_read_field, 8 geoarrow_stream_of_schema, 9 geoarrow_lines_of_schema,
 * 10 geoarrow_lines_of_field, 11 geoarrow_is_schema, whose answer is here a digit, 12 geoarrow_schema_of_lines, of which the lines of
 * what is made are written, once a child is moved out and back, 13 geoarrow_lines, 14 geoarrow_make, whose bytes are the CRS, and those of the other file the
 * words of the kind, the CRS type and the edges, with a line feed between), one for the number that the call takes, if it does, the length of the name that it takes, if it does, that of its
 * bytes, and that of those of the other file, if it takes two, each in four bytes, the lowest first, and behind them the name and the bytes of
 * each; the bytes of the calls from 6 to 11 describe a schema (lent.h). A command, options and a status are told by their place in the lists of the header's names below; a number past a list is sent as it is.
 *   answers  calls with room, with each size of buffer that is too small (of long texts some), and between guards; writes for each
 *            request its status in a byte (255 for a number that the header does not name), `*len` in eight, and the text; of a report
 *            also the bytes that geoarrow_wanted asks for, in rounds, whose report is the same
 *   faults   over the library of bin/faults: each request for memory refused, one at a time: out of memory, or the same answer
 *   threads  all calls from eight threads at once
 *   stack    all calls from a thread with GEOARROW_STACK bytes of stack
 *   leaks    no calls: it forgets blocks of memory, so that a detector of leaks shows whether it works
 * Behind all calls no schema has changed, and none is released. The last line on standard error is `N passed, M failed`, calls counted. */
#define _POSIX_C_SOURCE 200809L
#include "geoarrow.h"
#include "lent.h"
#include <pthread.h>
#include <stdio.h>
#include <stdlib.h>
#include <string.h>

struct request;
typedef uint8_t (*call_t)(const struct request *, uint8_t *, size_t, size_t *);

typedef struct request {
    call_t call;
    uint8_t number;
    uint8_t *name;
    size_t name_size;
    uint8_t *bytes;
    size_t size;
    uint8_t *other;
    size_t other_size;
    struct ArrowSchema *schema;
    uint8_t status; /* with room */
    size_t len;
    uint8_t *text;
} request_t;

enum { GUARD = 64, THREADS = 8, ROUNDS = 6, LONG = 100000, REPORT_LIMIT = 1 << 20 };
static const size_t UNSET = (size_t)0x5a5a5a5a;

static uint8_t answer_line(const request_t *of, uint8_t *out, size_t out_len, size_t *len) {
    return geoarrow_answer(of->number, of->bytes, of->size, out, out_len, len);
}

static uint8_t run(const request_t *of, uint8_t *out, size_t out_len, size_t *len) {
    return geoarrow_run(of->number, of->bytes, of->size, out, out_len, len);
}

static uint8_t report(const request_t *of, uint8_t *out, size_t out_len, size_t *len) {
    return geoarrow_report(of->number, of->name, of->name_size, of->bytes, of->size, out, out_len, len);
}

static uint8_t write_schema(const request_t *of, uint8_t *out, size_t out_len, size_t *len) {
    return geoarrow_write_schema(of->bytes, of->size, out, out_len, len);
}

static uint8_t same(const request_t *of, uint8_t *out, size_t out_len, size_t *len) {
    return geoarrow_same(of->number, of->bytes, of->size, of->other, of->other_size, of->name, of->name_size, out, out_len, len);
}

static uint8_t canonical(const request_t *of, uint8_t *out, size_t out_len, size_t *len) {
    return geoarrow_canonical(of->bytes, of->size, out, out_len, len);
}

static uint8_t file_lines(const request_t *of, uint8_t *out, size_t out_len, size_t *len) {
    return geoarrow_lines(of->bytes, of->size, out, out_len, len);
}

static uint8_t read_schema(const request_t *of, uint8_t *out, size_t out_len, size_t *len) {
    return geoarrow_read_schema(of->number, of->schema, out, out_len, len);
}

static uint8_t read_field(const request_t *of, uint8_t *out, size_t out_len, size_t *len) {
    return geoarrow_read_field(of->number, of->schema, out, out_len, len);
}

static uint8_t stream_of_schema(const request_t *of, uint8_t *out, size_t out_len, size_t *len) {
    return geoarrow_stream_of_schema(of->schema, out, out_len, len);
}

static uint8_t lines_of_schema(const request_t *of, uint8_t *out, size_t out_len, size_t *len) {
    return geoarrow_lines_of_schema(of->schema, out, out_len, len);
}

static uint8_t lines_of_field(const request_t *of, uint8_t *out, size_t out_len, size_t *len) {
    return geoarrow_lines_of_field(of->schema, out, out_len, len);
}

static uint8_t is_schema(const request_t *of, uint8_t *out, size_t out_len, size_t *len) {
    uint8_t is = 9, status = geoarrow_is_schema(of->number, of->schema, &is);
    if (status != GEOARROW_DONE) return is == 9 ? status : 255;
    *len = 1;
    if (!out_len) return GEOARROW_SHORT;
    *out = (uint8_t)('0' + is);
    return status;
}

/* The lines of the schema that is made, of which the last child is moved out and released behind all others. */
static uint8_t schema_of_lines(const request_t *of, uint8_t *out, size_t out_len, size_t *len) {
    struct ArrowSchema made, last = {.release = NULL};
    memset(&made, 0x5a, sizeof made);
    uint8_t status = geoarrow_schema_of_lines(of->bytes, of->size, &made, out, out_len, len);
    if (status != GEOARROW_DONE) return made.release ? 255 : status;
    if (*len || !made.release) return 255;
    *len = UNSET;
    status = geoarrow_lines_of_schema(&made, out, out_len, len);
    if (made.n_children) {
        last = *made.children[made.n_children - 1];
        made.children[made.n_children - 1]->release = NULL;
    }
    made.release(&made);
    if (last.release) last.release(&last);
    return made.release || last.release ? 255 : status;
}

static uint8_t make(const request_t *of, uint8_t *out, size_t out_len, size_t *len) {
    const uint8_t *kind = of->other, *end = kind + of->other_size, *type, *edges;
    if (!(type = memchr(kind, '\n', of->other_size)) || !(edges = memchr(type + 1, '\n', (size_t)(end - type - 1)))) exit(5);
    return geoarrow_make(of->name, of->name_size, kind, (size_t)(type - kind), of->number, of->bytes, of->size, type + 1, (size_t)(edges - type - 1),
                         edges + 1, (size_t)(end - edges - 1), out, out_len, len);
}

static const call_t CALLS[] = {answer_line, run, report, write_schema, same, canonical, read_schema, read_field, stream_of_schema, lines_of_schema, lines_of_field, is_schema, schema_of_lines, file_lines, make};
enum { FIRST_OF_SCHEMAS = 6, LAST_OF_SCHEMAS = 11 };

/* The numbers of the header by their names, in the order of native/test. */
static const uint8_t COMMANDS[] = {GEOARROW_READ, GEOARROW_INFER, GEOARROW_CANON, GEOARROW_COLUMNS};
static const uint8_t OPTIONS[] = {0, GEOARROW_INFER_TYPES, GEOARROW_NOTES, GEOARROW_INFER_TYPES | GEOARROW_NOTES};
static const uint8_t STATUSES[] = {GEOARROW_DONE, GEOARROW_SHORT, GEOARROW_MEMORY, GEOARROW_UNKNOWN, GEOARROW_LIMIT, GEOARROW_REFUSED, GEOARROW_FIRST_REFUSED};

static uint8_t number_of(size_t call, uint8_t place) {
    const uint8_t *list = call < 2 ? COMMANDS : OPTIONS;
    return call != 3 && place < 4 ? list[place] : place;
}

static int place_of(uint8_t status) {
    for (size_t i = 0; i < sizeof STATUSES; i++) {
        if (STATUSES[i] == status) return (int)i;
    }
    return 255;
}

/* Whether text was written to the buffer: an answer, or why there is none. */
static int has_text(uint8_t status) {
    return status == GEOARROW_DONE || status == GEOARROW_REFUSED || status == GEOARROW_FIRST_REFUSED;
}

static request_t *requests;
static size_t count, passed, failed;

/* (called through pointers that the compiler does not see through) */
static void *(*volatile take)(size_t) = malloc;
static void (*volatile give)(void *) = free;

static void *room_for(size_t size) {
    void *room = take(size ? size : 1);
    if (!room) exit(3);
    return room;
}

static void judge(int is_right, const request_t *of, const char *what) {
    if (is_right) {
        passed++;
    } else {
        failed++;
        fprintf(stderr, "request %zu: %s\n", (size_t)(of - requests), what);
    }
}

/* A call with a buffer of a size, between guards. Whether it does what it must where the text is known. */
static int is_kept(const request_t *of, size_t size, uint8_t *status, size_t *len) {
    uint8_t *room = room_for(size + 2 * GUARD);
    uint8_t *out = room + GUARD;
    memset(room, 0xa5, size + 2 * GUARD);
    *len = UNSET;
    *status = of->call(of, out, size, len);
    size_t written = has_text(*status) ? *len : 0;
    int is_right = written <= size && (!written || !memcmp(out, of->text, written));
    for (size_t i = 0; i < size + 2 * GUARD; i++) {
        if (i < GUARD || i >= GUARD + written) is_right = is_right && room[i] == 0xa5;
    }
    give(room);
    return is_right;
}

/* The call with room: its status, its text and its length are kept. */
static void answer(request_t *of) {
    size_t size = 4096;
    for (;;) {
        of->text = room_for(size);
        of->len = UNSET;
        of->status = of->call(of, of->text, size, &of->len);
        if (of->status != GEOARROW_SHORT) return;
        give(of->text);
        size = of->len;
    }
}

/* Whether two texts are the same but for their numbers. */
static int is_alike(const uint8_t *one, size_t one_len, const uint8_t *other, size_t other_len) {
    size_t i = 0, k = 0;
    for (;; i++, k++) {
        while (i < one_len && one[i] >= '0' && one[i] <= '9') i++;
        while (k < other_len && other[k] >= '0' && other[k] <= '9') k++;
        if (i == one_len || k == other_len) return i == one_len && k == other_len;
        if (one[i] != other[k]) return 0;
    }
}

/* Whether three rounds, each with as many bytes as were wanted, give all that is wanted of a file, and no more than it has; and their report is that of the file:
 * but for numbers where bytes are left out, before which others are counted. The size of a pipe is told once it has ended. */
static int is_fed(const request_t *of, int is_pipe) {
    uint64_t head = 0, tail = 0, of_begin, of_end, size = is_pipe ? UINT64_MAX : of->size;
    for (int round = 0; geoarrow_wanted(of->bytes, head, of->bytes + (of->size - tail), tail, size, &of_begin, &of_end); round++) {
        int has_ended = is_pipe && of_begin > of->size;
        if (round == 3 || (of_begin <= head && of_end <= tail)) return 0;
        if (has_ended) size = of->size;
        head = has_ended ? of->size : of_begin;
        tail = of_end;
        if (head > of->size || tail > of->size - head) return 0;
    }
    if (of_begin > head || of_end > tail) return 0;
    request_t fed = *of;
    fed.size = head + tail;
    fed.bytes = room_for(fed.size);
    if (head) memcpy(fed.bytes, of->bytes, head);
    if (tail) memcpy(fed.bytes + head, of->bytes + (of->size - tail), tail);
    answer(&fed);
    int is_right = fed.status == of->status;
    if (is_right && has_text(of->status)) {
        int is_moved = tail && fed.size < of->size;
        is_right = is_moved ? is_alike(fed.text, fed.len, of->text, of->len) : fed.len == of->len && !memcmp(fed.text, of->text, of->len);
    }
    give(fed.text);
    give(fed.bytes);
    return is_right;
}

static void answers(request_t *of) {
    uint8_t status;
    size_t len, least = has_text(of->status) ? of->len : 0;
    judge(is_kept(of, least + 100, &status, &len) && status == of->status && len == of->len, of, "another answer");
    judge(is_kept(of, least, &status, &len) && status == of->status && len == of->len, of, "another answer in a buffer that just has room");
    size_t step = of->size > LONG ? least : least > 600 ? least / 200 : 1;
    for (size_t size = 0; size < least; size = size + step < least ? size + step : size + 1 < least ? least - 1 : least) {
        judge(is_kept(of, size, &status, &len) && status == GEOARROW_SHORT && len == of->len, of, "a buffer that is too small");
    }
    if (of->call == report && of->size <= LONG && least <= REPORT_LIMIT) { /* (which is more where more bytes are given) */
        judge(is_fed(of, 0), of, "another report of the bytes that are wanted");
        judge(is_fed(of, 1), of, "another report of the bytes that are wanted of a pipe");
    }
    fputc(place_of(of->status), stdout);
    for (int i = 0; i < 8; i++) fputc((int)((of->len >> (8 * i)) & 255), stdout);
    if (has_text(of->status)) fwrite(of->text, 1, of->len, stdout);
}

/* Whether this is the answer of the request, all of it. */
static int is_answer(const request_t *of, uint8_t status, size_t len, const uint8_t *out) {
    return status == of->status && len == of->len && (!has_text(status) || !len || !memcmp(out, of->text, len));
}

/* A refused request leads to out of memory; or to the answer itself, where it asked for room that might be needed, and what is needed fits into less. */
static void faults(request_t *of) {
    uint8_t status;
    int was_refused = 0;
    size_t len, lost = 0, least = has_text(of->status) ? of->len : 0;
    uint8_t *out = room_for(least);
    for (size_t at = 1;; at++) {
        memset(out, 0xa5, least);
        len = UNSET;
        (void)take(((size_t)1 << 60) + at);
        status = of->call(of, out, least, &len);
        void *was = take((size_t)1 << 61);
        if (!was) break;
        give(was);
        int is_right = status == GEOARROW_MEMORY && len == UNSET;
        for (size_t i = 0; i < least; i++) is_right = is_right && out[i] == 0xa5;
        lost += is_right;
        judge(is_right || is_answer(of, status, len, out), of, "a refused request for memory");
        was_refused = 1;
    }
    judge(!was_refused || lost || of->status == GEOARROW_UNKNOWN, of, "no refused request is out of memory"); /* (options are looked at behind the walk) */
    judge(is_answer(of, status, len, out), of, "another answer behind a refused request");
    give(out);
}

/* Each request, from a place on. How many are wrong. */
static void *all(void *from) {
    size_t wrong = 0, len;
    uint8_t status;
    for (size_t i = 0; i < count; i++) {
        const request_t *of = &requests[(i + (size_t)from) % count];
        size_t least = has_text(of->status) ? of->len : 0;
        wrong += !is_kept(of, least, &status, &len) || status != of->status || len != of->len;
    }
    return (void *)wrong;
}

static void in_threads(size_t number, size_t stack) {
    pthread_t threads[THREADS];
    pthread_attr_t attributes;
    pthread_attr_init(&attributes);
    if (stack && pthread_attr_setstacksize(&attributes, stack)) exit(4);
    for (size_t i = 0; i < number; i++) {
        if (pthread_create(&threads[i], &attributes, all, (void *)(i * count / number))) exit(4);
    }
    for (size_t i = 0; i < number; i++) {
        void *wrong;
        pthread_join(threads[i], &wrong);
        failed += (size_t)wrong;
        passed += count - (size_t)wrong;
    }
}

static void *volatile forgotten;

static void leaks(void) {
    for (int i = 0; i < 1000; i++) forgotten = room_for(100);
    forgotten = NULL;
}

static uint8_t *read_bytes(size_t size) {
    uint8_t *bytes = room_for(size);
    if (fread(bytes, 1, size, stdin) != size) exit(5);
    return bytes;
}

static size_t size_in(const uint8_t *bytes) {
    return bytes[0] | (size_t)bytes[1] << 8 | (size_t)bytes[2] << 16 | (size_t)bytes[3] << 24;
}

static void read_requests(void) {
    size_t room = 0;
    uint8_t head[14];
    while (fread(head, 1, 14, stdin) == 14) {
        if (count == room) requests = realloc(requests, (room = 2 * room + 64) * sizeof *requests);
        request_t *of = &requests[count++];
        of->call = CALLS[head[0]];
        of->number = number_of(head[0], head[1]);
        of->name_size = size_in(head + 2);
        of->size = size_in(head + 6);
        of->other_size = size_in(head + 10);
        of->name = read_bytes(of->name_size);
        of->bytes = read_bytes(of->size);
        of->other = read_bytes(of->other_size);
        const uint8_t *from = of->bytes;
        of->schema = head[0] < FIRST_OF_SCHEMAS || head[0] > LAST_OF_SCHEMAS ? NULL : lent_schema(&from, NULL);
        if (of->schema && from != of->bytes + of->size) exit(5);
    }
}

int main(int words, char **word) {
    const char *mode = words > 1 ? word[1] : "";
    if (geoarrow_version() != GEOARROW_VERSION) return 6;
    read_requests();
    for (size_t i = 0; i < count; i++) answer(&requests[i]);
    if (!strcmp(mode, "leaks")) {
        leaks();
    } else if (!strcmp(mode, "threads")) {
        for (int round = 0; round < ROUNDS; round++) in_threads(THREADS, 0);
    } else if (!strcmp(mode, "stack")) {
        in_threads(1, GEOARROW_STACK);
    } else {
        for (size_t i = 0; i < count; i++) strcmp(mode, "faults") ? answers(&requests[i]) : faults(&requests[i]);
    }
    judge(is_lent_unchanged(), requests, "a schema that was lent is changed or released");
    fprintf(stderr, "%zu passed, %zu failed\n", passed, failed);
    return failed != 0;
}
