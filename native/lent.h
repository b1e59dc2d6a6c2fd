/* Schemas that native/caller.c lends to the calls: a tree of ArrowSchema, built of the bytes in which
 * native/schemas.py describes it, each structure, list and text in a block of its own. */
#include "geoarrow.h"
#include <stdlib.h>
#include <string.h>

/* What a structure has, or has not; of one that is NULL, or the outermost once more, nothing follows. */
enum {
    IS_NULL = 1, IS_OUTERMOST = 2, IS_RELEASED = 4, NO_FORMAT = 8, NO_NAME = 16, HAS_METADATA = 32,
    HAS_DICTIONARY = 64, NO_CHILDREN = 128
};

/* All structures that are lent, each with what it was, and how often one was released. */
static struct { struct ArrowSchema *at, was; } *lent;
static size_t lent_count, lent_room;
static volatile int released;

static void note_release(struct ArrowSchema *s) {
    released++;
    s->release = NULL;
}

static void *lent_block(size_t size) {
    void *block = malloc(size ? size : 1);
    if (!block) exit(3);
    return block;
}

static uint64_t lent_number(const uint8_t **from, int bytes) {
    uint64_t number = 0;
    for (int i = 0; i < bytes; i++) number |= (uint64_t)*(*from)++ << (8 * i);
    return number;
}

/* A text with its end, or metadata, which have none. */
static char *lent_text(const uint8_t **from, size_t end) {
    size_t size = (size_t)lent_number(from, 4);
    char *text = lent_block(size + end);
    memcpy(text, *from, size);
    if (end) text[size] = 0;
    *from += size;
    return text;
}

/* The structure that is described there, in the outermost one, if that is NULL itself the outermost. */
static struct ArrowSchema *lent_schema(const uint8_t **from, struct ArrowSchema *outermost) {
    int marks = *(*from)++;
    if (marks & IS_NULL) return NULL;
    if (marks & IS_OUTERMOST) return outermost;
    struct ArrowSchema *s = lent_block(sizeof *s);
    memset(s, 0, sizeof *s);
    s->flags = (int64_t)lent_number(from, 8);
    s->n_children = (int64_t)lent_number(from, 8);
    size_t count = (size_t)lent_number(from, 4);
    if (!(marks & NO_FORMAT)) s->format = lent_text(from, 1);
    if (!(marks & NO_NAME)) s->name = lent_text(from, 1);
    if (marks & HAS_METADATA) s->metadata = lent_text(from, 0);
    if (!(marks & NO_CHILDREN)) s->children = lent_block(count * sizeof *s->children);
    for (size_t i = 0; i < count; i++) s->children[i] = lent_schema(from, outermost ? outermost : s);
    if (marks & HAS_DICTIONARY) s->dictionary = lent_schema(from, outermost ? outermost : s);
    if (!(marks & IS_RELEASED)) s->release = note_release;
    if (lent_count == lent_room) {
        lent = realloc(lent, (lent_room = 2 * lent_room + 64) * sizeof *lent);
        if (!lent) exit(3);
    }
    lent[lent_count].at = s;
    lent[lent_count++].was = *s;
    return s;
}

/* Whether all that was lent is as it was, and no structure was released. */
static int is_lent_unchanged(void) {
    int is = !released;
    for (size_t i = 0; i < lent_count; i++) is = is && !memcmp(lent[i].at, &lent[i].was, sizeof lent[i].was);
    return is;
}
