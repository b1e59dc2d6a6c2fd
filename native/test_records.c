/* Tests of records.c under sanitizers, which native/test_records compiles: test_records all|threads
 *
 * Trees of ArrowSchema to records and back: good trees and hostile ones; bytes that are cut and
 * turned; each request for memory refused; releases in threads (`threads` makes these alone). The
 * realloc, calloc and free of records.c are those of this file. The last line is
 * `N passed, M failed`, tests counted, behind a line with how many checks they made; the status is 1
 * where M is not 0. */
#include "records.h"
#include <pthread.h>
#include <stdatomic.h>
#include <stdio.h>
#include <stdlib.h>
#include <string.h>

static long checks, wrong;      /* checks, and those that do not hold */
static int passed, failed;      /* tests */
static int released;

static void check(int holds, const char *what, int line) {
    checks++;
    wrong += !holds;
    if (!holds && wrong < 40) printf("test_records.c:%d: %s\n", line, what);
}
#define CHECK(holds) check(!!(holds), #holds, __LINE__)

/* Memory: how many blocks are held, how many requests were made, and the one that is refused. */
static atomic_long held, requests, refused;

static int is_refused(void) {
    return atomic_fetch_add(&requests, 1) + 1 == refused;
}

void *tested_realloc(void *old, size_t size);
void *tested_calloc(size_t count, size_t size);
void tested_free(void *block);

void *tested_realloc(void *old, size_t size) {
    void *moved = is_refused() ? NULL : realloc(old, size);
    if (moved && !old) held++;
    return moved;
}

void *tested_calloc(size_t count, size_t size) {
    void *block = is_refused() ? NULL : calloc(count, size);
    if (block) held++;
    return block;
}

void tested_free(void *block) {
    if (block) held--;
    free(block);
}

/* Structures that the test lends: no call of records.c releases one. */
static void note(struct ArrowSchema *s) {
    released++;
    s->release = NULL;
}

static struct ArrowSchema lent(const char *format, const char *name) {
    struct ArrowSchema s = {.format = format, .name = name, .flags = 2, .release = note};
    return s;
}

static int same_text(const char *a, const char *b) {
    return !a || !b ? a == b : !strcmp(a, b);
}

static int same_metadata(const struct ArrowSchema *a, const struct ArrowSchema *b, size_t size) {
    return !a->metadata || !b->metadata ? a->metadata == b->metadata
                                        : !memcmp(a->metadata, b->metadata, size);
}

/* Whether two trees are the same; metadata, where there are any, have so many bytes. */
static int same(const struct ArrowSchema *a, const struct ArrowSchema *b, size_t size) {
    if (!same_text(a->format, b->format) || !same_text(a->name, b->name)) return 0;
    if (a->flags != b->flags || a->n_children != b->n_children) return 0;
    if (!same_metadata(a, b, size) || !a->dictionary != !b->dictionary) return 0;
    if (!a->release != !b->release || (!a->n_children && a->children != b->children)) return 0;
    for (int64_t i = 0; i < a->n_children; i++)
        if (!same(a->children[i], b->children[i], size)) return 0;
    return !a->dictionary || same(a->dictionary, b->dictionary, size);
}

/* What the walk says of a tree, whose records are let go; where it ended stays in `r`. */
static enum records_status status_of(const struct ArrowSchema *s, struct records *r) {
    memset(r, 0, sizeof *r);
    enum records_status is = records_of_schema(s, r);
    tested_free(r->bytes);
    r->bytes = NULL;
    return is;
}

/* A schema of points with metadata, of whose ordinates one has a name, and of texts by a dictionary
 * with a child and a dictionary of its own: eight structures. Metadata lie at an odd address. */
static const char TEXTS[] = "\2\0\0\0\24\0\0\0ARROW:extension:name\16\0\0\0geoarrow.point"
                            "\1\0\0\0k\0\0\0\0";
enum { TEXTS_SIZE = sizeof TEXTS - 1, STRUCTURES = 8 };
struct sample {
    struct ArrowSchema top, point, x, y, codes, inner, other, values;
    struct ArrowSchema *columns[2], *ordinates[2], *parts[1];
    char *block;
};

static void make_sample(struct sample *s) {
    s->block = malloc(TEXTS_SIZE + 1);
    memcpy(s->block + 1, TEXTS, TEXTS_SIZE);
    s->top = lent("+s", "");
    s->point = lent("+s", "geom");
    s->x = lent("g", "x");
    s->y = lent("g", NULL);
    s->codes = lent("i", "kind");
    s->values = lent("+l", "");
    s->inner = lent("u", "item");
    s->other = lent("U", "other");
    s->columns[0] = &s->point, s->columns[1] = &s->codes;
    s->ordinates[0] = &s->x, s->ordinates[1] = &s->y;
    s->parts[0] = &s->inner;
    s->top.n_children = 2, s->top.children = s->columns;
    s->point.n_children = 2, s->point.children = s->ordinates, s->point.metadata = s->block + 1;
    s->y.flags = 0;
    s->codes.dictionary = &s->values, s->codes.flags = 3;
    s->values.n_children = 1, s->values.children = s->parts, s->values.dictionary = &s->other;
}

static void test_both_ways(struct sample *of) {
    struct records r = {0}, again = {0};
    struct ArrowSchema made, child, list;
    CHECK(records_of_schema(&of->top, &r) == RECORDS_DONE && r.count == STRUCTURES);
    CHECK(schema_of_records(r.bytes, r.len, &made) == RECORDS_DONE);
    CHECK(same(&of->top, &made, TEXTS_SIZE));
    CHECK((uintptr_t)made.children[0]->metadata % 8 == 0);
    CHECK(records_of_schema(&made, &again) == RECORDS_DONE && again.len == r.len);
    CHECK(!memcmp(again.bytes, r.bytes, r.len));
    tested_free(again.bytes);
    tested_free(r.bytes);
    /* A consumer moves a child out, and the list in a dictionary, and outlives their tree. */
    child = *made.children[0], made.children[0]->release = NULL;
    list = *made.children[1]->dictionary, made.children[1]->dictionary->release = NULL;
    long before = held;
    made.release(&made);
    CHECK(!made.release && held == before);
    CHECK(same(&child, &of->point, TEXTS_SIZE) && same(&list, &of->values, 0));
    child.release(&child);
    CHECK(!child.release && held == before && same(&list, &of->values, 0));
    list.release(&list);
    CHECK(!list.release && held == before - 1);
}

/* The exact bytes of two structures, and what of them is the upper half of flags. */
static void test_bytes(void) {
    static const char wanted[] =
        "\2\0\0\0\0\0\0\0"
        "\50\0\0\0\0\0\0\0\2\0\0\0\3\0\0\0\1\0\0\0\0\0\0\0\1\0\0\0\0\0\0\0g\0\0\0\0\0\0\0"
        "\60\0\0\0\1\0\0\0\4\0\0\0\2\0\0\0\0\0\0\0\4\0\0\0\2\0\0\0\3\0\0\0"
        "\0\0\0\0+s\0top\0\0\0\0\0";
    struct ArrowSchema leaf = lent("g", NULL), top = lent("+s", "top"), *leaves[] = {&leaf};
    struct records r = {0};
    leaf.flags = 3 + ((int64_t)1 << 32);
    top.n_children = 1, top.children = leaves, top.metadata = "\0\0\0\0";
    CHECK(records_of_schema(&top, &r) == RECORDS_DONE && r.len == sizeof wanted);
    CHECK(!memcmp(r.bytes, wanted, sizeof wanted));
    tested_free(r.bytes);
}

/* Which bytes of records are padding. */
static uint8_t *padding_of(const struct records *r) {
    uint8_t *is = calloc(1, r->len);
    for (size_t at = 8; at < r->len;) {
        uint32_t h[8];
        memcpy(h, r->bytes + at, sizeof h);
        size_t begin = at + 34 + h[5] + h[6] + h[7];
        at += h[0];
        memset(is + begin, 1, at - begin);
    }
    return is;
}

/* Bytes that are cut, or have one more, make no tree. */
static void test_cuts(const struct records *r) {
    struct ArrowSchema made;
    for (size_t cut = 0; cut <= r->len + 8; cut++) {
        uint8_t *less = calloc(1, cut ? cut : 1);
        memcpy(less, r->bytes, cut < r->len ? cut : r->len);
        enum records_status is = schema_of_records(less, cut, &made);
        CHECK(is == (cut == r->len ? RECORDS_DONE : RECORDS_BROKEN));
        CHECK(!made.release == !!is);
        if (!is) made.release(&made);
        free(less);
    }
}

/* Bytes of which one is turned make no tree, or that of just these bytes. */
static void test_turns(struct records *r) {
    uint8_t *padding = padding_of(r), *original = malloc(r->len);
    struct ArrowSchema made;
    long before = held, accepted = 0;
    memcpy(original, r->bytes, r->len);
    for (size_t turn = 0; turn < r->len * 256; turn++) {
        size_t at = turn / 256;
        r->bytes[at] ^= turn % 256;
        enum records_status is = schema_of_records(r->bytes, r->len, &made);
        CHECK(is == RECORDS_DONE || is == RECORDS_BROKEN);
        CHECK(!made.release == !!is);
        if (made.release) {
            struct records again = {0};
            CHECK(records_of_schema(&made, &again) == RECORDS_DONE && again.len == r->len);
            CHECK(!memcmp(again.bytes, padding[at] ? original : r->bytes, r->len));
            tested_free(again.bytes);
            made.release(&made);
            accepted++;
        }
        CHECK(held == before);
        r->bytes[at] ^= turn % 256;
    }
    CHECK(accepted > 256 * STRUCTURES); /* each byte of flags, for one */
    free(padding), free(original);
}

static void test_records_of(struct sample *of) {
    struct records r = {0};
    CHECK(records_of_schema(&of->top, &r) == RECORDS_DONE);
    test_cuts(&r);
    test_turns(&r);
    tested_free(r.bytes);
}

/* Of all sizes of the one record of 35 bytes and padding, those that are multiples of eight. */
static void test_sizes(void) {
    struct ArrowSchema made;
    for (uint32_t size = 32; size < 64; size++) {
        uint32_t head[10] = {1, 0, size, 0, 0, 0, 0, 0, 1, 0};
        uint8_t *bytes = calloc(8 + size + 8, 1);
        memcpy(bytes, head, sizeof head);
        bytes[sizeof head] = 'g';
        enum records_status is = schema_of_records(bytes, 8 + size, &made);
        CHECK(is == (size % 8 || size < 35 ? RECORDS_BROKEN : RECORDS_DONE));
        if (!is) made.release(&made);
        free(bytes);
    }
}

/* A name of five bytes, and those that end behind their record: in the next one or at the end. */
static void test_names(void) {
    struct ArrowSchema made;
    for (uint32_t length = 5; length < 8; length++)
        for (int last = 0; last < 2; last++) {
            uint32_t head[2] = {2}, leaf[8] = {40, 0, 0, 0, 1, 0, 1, 5};
            uint32_t root[8] = {40, 1, 0, 0, 0, 0, 1, 5};
            uint8_t bytes[88] = {0};
            (last ? root : leaf)[7] = length;
            memcpy(bytes, head, 8);
            memcpy(bytes + 8, leaf, 32);
            memcpy(bytes + 40, "g\0nnnnn", 7);
            memcpy(bytes + 48, root, 32);
            memcpy(bytes + 80, "g\0nnnnn", 7);
            if (length > 5) bytes[last ? 87 : 47] = 'n';
            enum records_status is = schema_of_records(bytes, sizeof bytes, &made);
            CHECK(is == (length == 5 ? RECORDS_DONE : RECORDS_BROKEN));
            if (!is) made.release(&made);
        }
}

/* As many levels as the walk takes, and more; levels that are not one below the other. */
static void test_levels(void) {
    struct ArrowSchema made;
    for (uint32_t levels = RECORDS_LEVELS - 1; levels < RECORDS_LEVELS + 3; levels++) {
        uint32_t *deep = calloc(1 + levels, 40), head[2] = {levels, 0};
        memcpy(deep, head, 8);
        for (uint32_t i = 0; i < levels; i++) {
            uint32_t record[10] = {40, i > 0, 0, 0, levels - 1 - i, 0, 2, 1};
            memcpy(record + 8, "+l\0x", 4);
            memcpy(deep + 2 + 10 * i, record, 40);
        }
        size_t len = 8 + 40 * (size_t)levels;
        enum records_status is = schema_of_records((uint8_t *)deep, len, &made);
        CHECK(is == (levels <= RECORDS_LEVELS ? RECORDS_DONE : RECORDS_BROKEN));
        if (!is) made.release(&made);
        for (int turn = -1; turn < 2; turn += 2) {
            deep[2 + 10 * (levels / 2) + 4] += (uint32_t)turn;
            CHECK(schema_of_records((uint8_t *)deep, len, &made) == RECORDS_BROKEN);
            deep[2 + 10 * (levels / 2) + 4] -= (uint32_t)turn;
        }
        for (uint32_t i = 0; i < levels; i++) deep[2 + 10 * i + 4]++; /* the last has level 1 */
        CHECK(schema_of_records((uint8_t *)deep, len, &made) == RECORDS_BROKEN);
        free(deep);
    }
}

/* Whether a tree is refused with a status, at a structure of a level to which this path leads. */
static int ends(const struct ArrowSchema *s, enum records_status status, uint32_t depth,
                int64_t first, int64_t second) {
    struct records r;
    int is = status_of(s, &r) == status && r.depth == depth;
    return is && (depth < 1 || r.path[0] == first) && (depth < 2 || r.path[1] == second);
}

/* NULL and released structures and texts at each place of a tree. */
static void test_pointers(struct sample *of) {
    struct records r;
    struct { struct ArrowSchema *s; uint32_t depth; int64_t first, second; } all[] = {
        {&of->top, 0, 0, 0}, {&of->point, 1, 0, 0}, {&of->x, 2, 0, 0}, {&of->y, 2, 0, 1},
        {&of->codes, 1, 1, 0}, {&of->values, 2, 1, -1}, {&of->inner, 3, 1, -1},
        {&of->other, 3, 1, -1},
    };
    CHECK(ends(NULL, RECORDS_NULL, 0, 0, 0));
    for (size_t i = 0; i < sizeof all / sizeof *all; i++) {
        struct ArrowSchema *s = all[i].s, was = *s;
        uint32_t depth = all[i].depth;
        int64_t first = all[i].first, second = all[i].second;
        s->release = NULL;
        CHECK(ends(&of->top, RECORDS_RELEASED, depth, first, second));
        *s = was, s->format = NULL;
        CHECK(ends(&of->top, RECORDS_FORMAT, depth, first, second));
        int64_t counts[] = {-1, INT64_MIN, INT64_MAX, (int64_t)RECORDS_MOST + 1};
        for (int count = 0; count < 4; count++) {
            *s = was, s->n_children = counts[count];
            CHECK(ends(&of->top, RECORDS_COUNT, depth, first, second));
        }
        *s = was, s->children = NULL, s->n_children = RECORDS_MOST;
        CHECK(ends(&of->top, RECORDS_CHILDREN, depth, first, second));
        *s = was, s->children = NULL, s->n_children = 0;
        CHECK(status_of(&of->top, &r) == RECORDS_DONE);
        *s = was, s->name = NULL, s->metadata = NULL, s->private_data = NULL;
        CHECK(status_of(&of->top, &r) == RECORDS_DONE && r.count == STRUCTURES);
        *s = was;
    }
    of->ordinates[1] = NULL;
    CHECK(ends(&of->top, RECORDS_NULL, 2, 0, 1));
    of->ordinates[1] = &of->y, of->columns[0] = NULL;
    CHECK(ends(&of->top, RECORDS_NULL, 1, 0, 0));
    of->columns[0] = &of->point;
    CHECK(status_of(&of->top, &r) == RECORDS_DONE);
}

/* Metadata whose numbers are negative, or lead past the limit; each in a block of its own. */
static void test_metadata(struct sample *of) {
    struct { int32_t numbers[3]; size_t count; enum records_status status; } all[] = {
        {{-1}, 1, RECORDS_METADATA}, {{INT32_MIN}, 1, RECORDS_METADATA}, {{0}, 1, RECORDS_DONE},
        {{1, -1}, 2, RECORDS_METADATA}, {{1, INT32_MIN}, 2, RECORDS_METADATA},
        {{1, 1 << 30}, 2, RECORDS_LARGE}, {{1, INT32_MAX}, 2, RECORDS_LARGE},
        {{1, RECORDS_MOST - 7}, 2, RECORDS_LARGE}, {{1, 0, -1}, 3, RECORDS_METADATA},
        {{1, 0, 0}, 3, RECORDS_DONE}, {{1, 0, RECORDS_MOST - 11}, 3, RECORDS_LARGE},
    };
    for (size_t i = 0; i < sizeof all / sizeof *all; i++) {
        char *metadata = malloc(all[i].count * 4);
        memcpy(metadata, all[i].numbers, all[i].count * 4);
        of->point.metadata = metadata;
        CHECK(ends(&of->top, all[i].status, all[i].status != RECORDS_DONE, 0, 0));
        free(metadata);
    }
    of->point.metadata = of->block + 1;
}

/* Ten thousand levels, a circle, and a tree whose nodes are shared: 2 to the 60th structures. */
static void test_deep(void) {
    enum { DEEP = 10000 };
    struct records r;
    struct ArrowSchema *deep = malloc(DEEP * sizeof *deep);
    struct ArrowSchema **links = malloc(2 * DEEP * sizeof *links);
    for (int i = 0; i < DEEP; i++) {
        deep[i] = lent("+s", "deep"), deep[i].n_children = i < DEEP - 1;
        deep[i].children = links + i, links[i] = deep + i + 1;
    }
    CHECK(status_of(deep, &r) == RECORDS_DEEP && r.depth == RECORDS_LEVELS);
    deep[RECORDS_LEVELS].n_children = 0;
    CHECK(status_of(deep, &r) == RECORDS_DEEP);
    deep[RECORDS_LEVELS - 1].n_children = 0;
    CHECK(status_of(deep, &r) == RECORDS_DONE && r.count == RECORDS_LEVELS);
    deep[RECORDS_LEVELS - 1].dictionary = deep + RECORDS_LEVELS + 1;
    CHECK(status_of(deep, &r) == RECORDS_DEEP && r.path[RECORDS_LEVELS - 1] == -1);
    deep[RECORDS_LEVELS - 1].dictionary = NULL;
    deep[5].children = links + DEEP, links[DEEP] = deep;
    CHECK(status_of(deep, &r) == RECORDS_DEEP);
    for (int i = 0; i < 60; i++) {
        deep[i].n_children = 2, deep[i].children = links + 2 * i;
        links[2 * i] = links[2 * i + 1] = deep + i + 1;
    }
    deep[60].n_children = 0;
    CHECK(status_of(deep, &r) == RECORDS_LARGE);
    free(deep), free(links);
}

/* As many structures as may be, and one more: 1,999 times 2,000, and the leaves around them. */
static void test_count(void) {
    enum { MANY = 1999 };
    struct records r;
    struct ArrowSchema leaf = lent("g", ""), middle = lent("+s", ""), top = lent("+s", ""), made;
    struct ArrowSchema *leaves[MANY], *all[2 * MANY + 1];
    for (int i = 0; i < MANY; i++) leaves[i] = &leaf, all[i] = &middle;
    for (int i = MANY; i < 2 * MANY + 1; i++) all[i] = &leaf;
    middle.n_children = MANY, middle.children = leaves;
    top.n_children = 2 * MANY, top.children = all;
    CHECK(status_of(&top, &r) == RECORDS_DONE && r.count == RECORDS_STRUCTURES);
    top.n_children++;
    CHECK(status_of(&top, &r) == RECORDS_LARGE);
    /* Such numbers before bytes that are no records: only the first asks for memory. */
    uint32_t *bytes = calloc(RECORDS_STRUCTURES + 2, 32);
    size_t len = ((size_t)RECORDS_STRUCTURES + 2) * 32;
    long before = requests;
    bytes[0] = RECORDS_STRUCTURES;
    CHECK(schema_of_records((uint8_t *)bytes, len, &made) == RECORDS_BROKEN);
    CHECK(!made.release && requests == before + 1);
    bytes[0]++;
    CHECK(schema_of_records((uint8_t *)bytes, len, &made) == RECORDS_LARGE);
    CHECK(!made.release && requests == before + 1);
    free(bytes);
}

/* As many bytes as may be, and one more. */
static void test_size(void) {
    struct records r = {0};
    struct ArrowSchema leaf = lent("g", NULL), top = lent("+s", ""), *leaves[8], made;
    enum { PARTS = 8, PART = RECORDS_MOST / PARTS };
    char *name = malloc(PART + 1);
    memset(name, 'n', PART);
    name[PART] = 0;
    for (int i = 0; i < PARTS; i++) leaves[i] = &leaf;
    top.n_children = PARTS, top.children = leaves;
    /* The head takes 8 bytes, the schema 40, and each column 35 and its name. */
    leaf.name = name + 35 + 8;
    CHECK(status_of(&top, &r) == RECORDS_DONE && r.count == PARTS + 1);
    CHECK(r.len == 48 + PARTS * ((size_t)PART - 8));
    struct ArrowSchema last = lent("g", name + 35 - 8);
    leaves[PARTS - 1] = &last;
    CHECK(status_of(&top, &r) == RECORDS_DONE && r.len == (size_t)RECORDS_MOST);
    last.name--;
    CHECK(status_of(&top, &r) == RECORDS_LARGE);
    free(name);
    uint8_t none[8] = {0};
    CHECK(schema_of_records(none, RECORDS_MOST, &made) == RECORDS_BROKEN && !made.release);
    CHECK(schema_of_records(none, RECORDS_MOST + 1, &made) == RECORDS_LARGE && !made.release);
}

/* Each request for memory refused: out of memory, and nothing is held. */
static void test_memory(struct sample *of) {
    struct records r = {0};
    struct ArrowSchema made;
    int asked = 0;
    long before = held;
    for (enum records_status is = RECORDS_MEMORY; is; asked++) {
        memset(&r, 0, sizeof r);
        refused = requests + 1 + asked;
        is = records_of_schema(&of->top, &r);
        CHECK(is == RECORDS_DONE || is == RECORDS_MEMORY);
        if (is) tested_free(r.bytes);
        CHECK(held == before + !is);
    }
    CHECK(asked > 2);
    refused = requests + 1;
    CHECK(schema_of_records(r.bytes, r.len, &made) == RECORDS_MEMORY && !made.release);
    refused = 0;
    tested_free(r.bytes);
    CHECK(held == before);
}

static void *release_it(void *given) {
    struct ArrowSchema *s = given;
    s->release(s);
    return NULL;
}

/* Children that are moved out, each released in its own thread, beside the release of the rest. */
static void test_threads(int turns) {
    enum { MANY = 8 };
    struct ArrowSchema leaf = lent("g", "x"), top = lent("+s", ""), *leaves[MANY];
    long before = held;
    for (int i = 0; i < MANY; i++) leaves[i] = &leaf;
    top.n_children = MANY, top.children = leaves;
    for (int turn = 0; turn < turns; turn++) {
        struct records r = {0};
        struct ArrowSchema made, moved[MANY];
        pthread_t threads[MANY];
        CHECK(records_of_schema(&top, &r) == RECORDS_DONE);
        CHECK(schema_of_records(r.bytes, r.len, &made) == RECORDS_DONE);
        tested_free(r.bytes);
        for (int i = 0; i < MANY - 1; i++)
            moved[i] = *made.children[i], made.children[i]->release = NULL;
        moved[MANY - 1] = made; /* the root, with the child that stays in it */
        for (int i = 0; i < MANY; i++) pthread_create(threads + i, NULL, release_it, moved + i);
        for (int i = 0; i < MANY; i++) pthread_join(threads[i], NULL);
        for (int i = 0; i < MANY; i++) CHECK(!moved[i].release);
        CHECK(held == before);
    }
}

/* A test, which is passed if all of its checks hold. */
#define TEST(call)                                      \
    do {                                                \
        long before_it = wrong;                         \
        call;                                           \
        if (wrong == before_it) passed++;               \
        else failed++, printf("failed: %s\n", #call);   \
    } while (0)

/* Nothing that is lent is released, and all that was made is. */
static void test_what_is_left(void) {
    CHECK(released == 0);
    CHECK(held == 0);
}

int main(int count, char **words) {
    struct sample of;
    setvbuf(stdout, NULL, _IOLBF, 0);
    if (count != 2) return 2;
    make_sample(&of);
    TEST(test_both_ways(&of));
    if (!strcmp(words[1], "all")) {
        TEST(test_bytes());
        TEST(test_records_of(&of));
        TEST(test_sizes());
        TEST(test_names());
        TEST(test_levels());
        TEST(test_pointers(&of));
        TEST(test_metadata(&of));
        TEST(test_memory(&of));
        TEST(test_deep());
        TEST(test_count());
        TEST(test_size());
        TEST(test_threads(100));
    } else {
        TEST(test_threads(2000));
    }
    TEST(test_what_is_left());
    free(of.block);
    printf("%ld checks\n%d passed, %d failed\n", checks, passed, failed);
    return failed != 0;
}
