/* A harness of libFuzzer over records.c, which bin/fuzz compiles and runs.
 *
 * Of the bytes a tree of ArrowSchema is made: any formats, names, metadata and counts, NULLs,
 * structures that are released, shared or around themselves, each text in a block of its own. Its
 * records are made, and of these a tree, whose records are the same; or each is refused. Or the
 * bytes are records themselves, or change those of a tree. What is right say a walk and a reader of
 * records that are written here after docs/FORMAT.md, 6. What is made is released in parts and in
 * an order that the bytes say; nothing is held then, and what was lent is as it was. One request
 * for memory may be refused. */
#include "records.h"
#include <stdio.h>
#include <stdlib.h>
#include <string.h>

#define CHECK(holds) ((holds) ? (void)0 : fail(#holds, __LINE__))
static void fail(const char *what, int line) {
    fprintf(stderr, "fuzz.c:%d: %s\n", line, what);
    abort();
}

/* Memory: how many blocks are held, and which request from now on is refused, if one is. */
static long held, refused;
static int was_refused;

static int is_refused(void) {
    if (!refused || --refused) return 0;
    return was_refused = 1;
}

void *tested_realloc(void *old, size_t size);
void *tested_calloc(size_t count, size_t size);
void tested_free(void *block);

void *tested_realloc(void *old, size_t size) {
    void *moved = is_refused() ? NULL : realloc(old, size);
    held += moved && !old;
    return moved;
}

void *tested_calloc(size_t count, size_t size) {
    void *block = is_refused() ? NULL : calloc(count, size);
    held += !!block;
    return block;
}

void tested_free(void *block) {
    held -= !!block;
    free(block);
}

/* The input: behind its end all bytes are 0. */
static const uint8_t *from, *end;

static uint32_t take(int bytes) {
    uint32_t number = 0;
    for (int i = 0; i < bytes; i++) number |= (uint32_t)(from < end ? *from++ : 0) << (8 * i);
    return number;
}

/* What is lent: blocks of texts, and structures, each with what it was. */
enum { STRUCTURES = 90, CHILDREN = 8, TEXTS = 3 * STRUCTURES, VISITS = 3000 };
static char *texts[TEXTS];
static struct ArrowSchema lent[STRUCTURES], was[STRUCTURES];
static struct ArrowSchema *lists[STRUCTURES][CHILDREN];
static size_t metadata_sizes[STRUCTURES];
static uint32_t lent_count, text_count, released;

static void note_release(struct ArrowSchema *s) {
    released++;
    s->release = NULL;
}

static char *block_of(const void *bytes, size_t size) {
    char *block = malloc(size);
    if (size) memcpy(block, bytes, size);
    return texts[text_count++] = block;
}

static char *take_text(void) {
    char text[256];
    size_t size = take(1);
    for (size_t i = 0; i < size; i++) {
        text[i] = (char)take(1);
        if (!text[i]) text[i] = 'z';
    }
    text[size] = 0;
    return block_of(text, size + 1);
}

/* Metadata in a block that ends where a reader must: behind the last text, or a wrong number. */
static char *take_metadata(size_t *size) {
    char bytes[2048];
    int32_t count = (int32_t)take(1), length;
    if (count & 0x80) count = (int32_t)take(4);
    memcpy(bytes, &count, 4);
    *size = 4;
    for (int64_t left = 2 * (int64_t)count; left > 0 && *size < 1500; left--) {
        length = (int32_t)take(1);
        if (length > 200) length = (int32_t)take(4);
        memcpy(bytes + *size, &length, 4);
        *size += 4;
        if (length < 0 || length > RECORDS_MOST - (int32_t)*size) return block_of(bytes, *size);
        length %= 200;
        memcpy(bytes + *size - 4, &length, 4);
        for (int32_t i = 0; i < length; i++) bytes[(*size)++] = (char)take(1);
        if (*size >= 1500 && left > 1) {
            memset(bytes + *size, 0xff, 4);
            *size += 4;
        }
    }
    return block_of(bytes, *size);
}

/* What is odd about a structure. */
enum { SHARED, OUTERMOST, NOTHING, RELEASED, NO_FORMAT, NO_LIST, COUNT, FLAGS };

static struct ArrowSchema *take_structure(void) {
    uint32_t marks = take(1), odd = marks & 8 ? take(1) % 16 : 16;
    if (odd == NOTHING) return NULL;
    if (lent_count && odd == OUTERMOST) return lent;
    if (lent_count == STRUCTURES) odd = SHARED;
    if (lent_count && odd == SHARED) return lent + take(1) % lent_count;
    uint32_t at = lent_count++;
    struct ArrowSchema *s = lent + at;
    memset(s, 0, sizeof *s);
    metadata_sizes[at] = 0;
    s->release = odd == RELEASED ? NULL : note_release;
    s->flags = odd == FLAGS ? (int64_t)take(4) << 16 : (int64_t)(marks >> 7) * 2;
    if (odd != NO_FORMAT) s->format = marks & 64 ? take_text() : block_of("+s", 3);
    if (marks & 1) s->name = take_text();
    if (marks & 2) s->metadata = take_metadata(metadata_sizes + at);
    if (marks & 4) s->dictionary = take_structure();
    int count = (int)(marks >> 4) & 3;
    if (count == 3) count = (int)take(1) % (CHILDREN + 1);
    for (int i = 0; i < count; i++) lists[at][i] = take_structure();
    s->n_children = count;
    s->children = odd == NO_LIST ? NULL : lists[at];
    if (odd == COUNT) {
        s->n_children = (int32_t)take(4);
        s->n_children *= (int64_t)1 << take(1) % 32;
        if (s->n_children > count && s->n_children <= RECORDS_MOST) s->n_children = count;
    }
    return s;
}

/* How metadata are refused, if they are, of which there are so many bytes up to a wrong number. */
static enum records_status metadata_status(const char *metadata, size_t size) {
    int32_t count, length;
    size_t at = 4;
    memcpy(&count, metadata, 4);
    if (count < 0) return RECORDS_METADATA;
    for (int64_t left = 2 * (int64_t)count; left > 0; left--) {
        memcpy(&length, metadata + at, 4);
        at += 4;
        if (length < 0) return RECORDS_METADATA;
        if (at + (size_t)length > size) return RECORDS_LARGE;
        at += (size_t)length;
    }
    return RECORDS_DONE;
}

/* How the walk over a tree is to end, and where; of one of more than VISITS structures it is not
 * said, since `count` is greater then. Whether all has a record. */
struct walk { enum records_status status; uint32_t depth, count; int64_t path[RECORDS_LEVELS]; };

static int is_walked(struct walk *w, const struct ArrowSchema *s, uint32_t level) {
    w->depth = level;
    w->status = RECORDS_DONE;
    if (!s) w->status = RECORDS_NULL;
    else if (!s->release) w->status = RECORDS_RELEASED;
    else if (level > 63) w->status = RECORDS_DEEP;
    else if (!s->format) w->status = RECORDS_FORMAT;
    else if (s->n_children < 0 || s->n_children > 1 << 28) w->status = RECORDS_COUNT;
    else if (s->n_children > 0 && !s->children) w->status = RECORDS_CHILDREN;
    if (w->status || ++w->count > VISITS) return 0;
    for (int64_t i = 0; i < s->n_children; i++) {
        w->path[level] = i;
        if (!is_walked(w, s->children[i], level + 1)) return 0;
    }
    w->path[level] = -1;
    if (s->dictionary && !is_walked(w, s->dictionary, level + 1)) return 0;
    w->depth = level;
    if (s->metadata) w->status = metadata_status(s->metadata, metadata_sizes[s - lent]);
    return !w->status;
}

static uint32_t number_at(const uint8_t *bytes) {
    return bytes[0] | (uint32_t)bytes[1] << 8 | (uint32_t)bytes[2] << 16 | (uint32_t)bytes[3] << 24;
}

static int are_metadata(const uint8_t *bytes, uint64_t size) {
    if (size < 4 || number_at(bytes) >> 31) return 0;
    uint64_t at = 4;
    for (uint64_t left = 2 * (uint64_t)number_at(bytes); left; left--) {
        if (size - at < 4 || number_at(bytes + at) >> 31) return 0;
        uint64_t length = number_at(bytes + at);
        if (length > size - at - 4) return 0;
        at += 4 + length;
    }
    return at == size;
}

static int ends_first(const uint8_t *text, uint64_t length) {
    for (uint64_t i = 0; i < length; i++)
        if (!text[i]) return 0;
    return !text[length];
}

/* How many bytes of a record are no padding; or 0 where it is none, of so many that are left. */
static uint64_t used_of(const uint8_t *record, uint64_t left) {
    if (left < 32) return 0;
    uint64_t size = number_at(record), marks = number_at(record + 8);
    uint64_t metadata = number_at(record + 20), format = number_at(record + 24);
    uint64_t name = number_at(record + 28), used = 32 + metadata + format + 1 + name + 1;
    if (size % 8 || size > left || used > size || marks > 7) return 0;
    if (number_at(record + 16) > 63) return 0;
    if (marks & 4 ? !are_metadata(record + 32, metadata) : metadata > 0) return 0;
    if (marks & 2 && name) return 0;
    int is = ends_first(record + 32 + metadata, format);
    return is && ends_first(record + 32 + metadata + format + 1, name) ? used : 0;
}

/* Whether bytes are records by docs/FORMAT.md, 6.1 to 6.3. In a copy of them padding becomes 0. */
static int are_records(const uint8_t *bytes, size_t len, uint8_t *copy) {
    if (len < 8 || !number_at(bytes) || number_at(bytes + 4)) return 0;
    uint8_t *levels = malloc(len / 32 + 1); /* of those that wait */
    uint64_t at = 8, waiting = 0;
    int is = 1;
    for (uint32_t left = number_at(bytes); is && left; left--) {
        const uint8_t *record = bytes + at;
        uint64_t used = used_of(record, len - at);
        uint64_t inside = used ? number_at(record + 4) + (uint64_t)(record[8] & 1) : 0;
        is = used && inside <= waiting;
        while (is && inside--) is = levels[--waiting] == record[16] + 1;
        if (!is) break;
        levels[waiting++] = record[16];
        memset(copy + at + used, 0, number_at(record) - used);
        at += number_at(record);
    }
    is = is && waiting == 1 && !levels[0] && at == len;
    free(levels);
    return is;
}

/* Whether a structure is the one that was lent, which lies there, with all that lies in it. */
static int is_made_of(const struct ArrowSchema *made, const struct ArrowSchema *s) {
    if (!made->release || strcmp(made->format, s->format) || !made->name != !s->name) return 0;
    if (made->name && strcmp(made->name, s->name)) return 0;
    if (!made->metadata != !s->metadata || made->flags != (int64_t)(uint32_t)s->flags) return 0;
    if (s->metadata && memcmp(made->metadata, s->metadata, metadata_sizes[s - lent])) return 0;
    if (made->n_children != s->n_children || !made->dictionary != !s->dictionary) return 0;
    for (int64_t i = 0; i < s->n_children; i++)
        if (!is_made_of(made->children[i], s->children[i])) return 0;
    return !s->dictionary || is_made_of(made->dictionary, s->dictionary);
}

/* Releases a tree of ours: some that lie in it before it, or moved out and behind it. */
static void let_go(struct ArrowSchema *s) {
    struct ArrowSchema moved[CHILDREN + 1], *inside;
    int count = 0;
    uint32_t how = take(1);
    for (int64_t i = 0; i <= s->n_children && i < 8; i++) {
        inside = i < s->n_children ? s->children[i] : s->dictionary;
        if (!inside || !(how >> i & 1)) continue;
        if (how & 0x80) {
            let_go(inside);
            CHECK(!inside->release);
        } else {
            moved[count++] = *inside;
            inside->release = NULL;
        }
    }
    CHECK(held > 0);
    s->release(s);
    CHECK(!s->release);
    while (count--) let_go(moved + count);
}

/* Makes a tree of records, and the records of it; whether that is as a reader says. */
static void make(const uint8_t *bytes, size_t len, const struct ArrowSchema *s) {
    struct records again = {0};
    struct ArrowSchema made;
    memset(&made, 0x5a, sizeof made);
    uint8_t *copy = memcpy(malloc(len + 1), bytes, len);
    uint8_t *exact = memcpy(malloc(len ? len : 1), bytes, len);
    int is = are_records(bytes, len, copy);
    CHECK(is || !s);
    long before = held;
    enum records_status status = schema_of_records(exact, len, &made);
    free(exact); /* what is made keeps nothing of it */
    if (status == RECORDS_MEMORY) CHECK(was_refused);
    else CHECK(status == (is ? RECORDS_DONE : RECORDS_BROKEN));
    CHECK(!made.release == !!status && held == before + !status);
    if (!status) {
        CHECK(!s || is_made_of(&made, s));
        status = records_of_schema(&made, &again);
        CHECK(!status || (status == RECORDS_MEMORY && was_refused));
        CHECK(status || (again.len == len && !memcmp(again.bytes, copy, len)));
        tested_free(again.bytes);
        let_go(&made);
    }
    CHECK(held == before);
    free(copy);
}

static void walk(const struct ArrowSchema *s, uint32_t changes) {
    struct walk w = {0};
    struct records r = {0};
    is_walked(&w, s, 0);
    if (w.count > VISITS) return;
    enum records_status status = records_of_schema(s, &r);
    if (status == RECORDS_MEMORY) {
        CHECK(was_refused);
    } else {
        CHECK(status == w.status && r.depth == w.depth);
        CHECK(!status || !memcmp(r.path, w.path, r.depth * sizeof *r.path));
        CHECK(status || r.count == w.count);
    }
    for (uint32_t i = 0; !status && i < changes; i++) {
        size_t place = take(2) % r.len;
        r.bytes[place] ^= (uint8_t)take(1);
    }
    size_t cut = !status && changes > 4 ? take(1) % (r.len + 1) : 0;
    if (!status) make(r.bytes, r.len - cut, changes ? NULL : s);
    tested_free(r.bytes);
}

int LLVMFuzzerTestOneInput(const uint8_t *bytes, size_t len);
int LLVMFuzzerTestOneInput(const uint8_t *bytes, size_t len) {
    from = bytes, end = bytes + len;
    uint32_t what = take(1);
    lent_count = text_count = released = was_refused = 0;
    refused = what & 4 ? 1 + (long)take(1) % 8 : 0;
    if ((what & 3) == 0) {
        make(from, (size_t)(end - from), NULL);
    } else {
        const struct ArrowSchema *s = take_structure();
        memcpy(was, lent, sizeof *lent * (size_t)lent_count);
        walk(s, (what & 3) == 1 ? 1 + take(1) % 8 : 0);
        CHECK(!released && !memcmp(was, lent, sizeof *lent * (size_t)lent_count));
        while (text_count) free(texts[--text_count]);
    }
    CHECK(!held);
    return 0;
}
