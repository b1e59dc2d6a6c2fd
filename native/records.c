/* The only code that follows the pointers of an ArrowSchema, or makes one. It copies, and decides
 * nothing but limits: what the texts mean is for the reader of records. Premise (Arrow's C data
 * interface): format, name and metadata that are not NULL lead to a text that ends in a NUL, or to
 * metadata as long as their numbers say; children to n_children pointers; nobody writes to them. */
#include "records.h"
#include <stdatomic.h>
#include <stdlib.h>
#include <string.h>

/* So many zeros more, or NULL where there is no memory for them. */
static uint8_t *put_zeros(struct records *o, size_t n) {
    if (n > o->room - o->len) {
        uint8_t *moved = realloc(o->bytes, 2 * o->room + n);
        if (!moved) return NULL;
        o->bytes = moved;
        o->room = 2 * o->room + n;
    }
    o->len += n;
    return memset(o->bytes + o->len - n, 0, n);
}

/* How long metadata are, which are a count, and so many keys and values, each behind its length.
 * Nothing past `most` bytes is read. */
static enum records_status length_of_metadata(const char *at, size_t most, size_t *length) {
    int32_t count, size;
    if (most < sizeof count) return RECORDS_LARGE;
    memcpy(&count, at, sizeof count);
    if (count < 0) return RECORDS_METADATA;
    *length = sizeof count;
    for (int64_t left = 2 * (int64_t)count; left > 0; left--) {
        if (most - *length < sizeof size) return RECORDS_LARGE;
        memcpy(&size, at + *length, sizeof size);
        if (size < 0) return RECORDS_METADATA;
        *length += sizeof size;
        if ((size_t)size > most - *length) return RECORDS_LARGE;
        *length += (size_t)size;
    }
    return RECORDS_DONE;
}

/* The record of a structure, without those of what lies in it. */
static enum records_status put_one(struct records *o, const struct ArrowSchema *s, uint32_t level) {
    size_t metadata = 0, format = strlen(s->format), name = s->name ? strlen(s->name) : 0;
    enum records_status is = RECORDS_DONE;
    if (o->count == RECORDS_STRUCTURES) return RECORDS_LARGE;
    if (s->metadata && (is = length_of_metadata(s->metadata, RECORDS_MOST, &metadata))) return is;
    if (format > RECORDS_MOST || name > RECORDS_MOST) return RECORDS_LARGE;
    const size_t size = (sizeof(struct record) + metadata + format + 1 + name + 1 + 7) / 8 * 8;
    if (size > RECORDS_MOST - o->len) return RECORDS_LARGE;
    uint8_t *to = put_zeros(o, size);
    if (!to) return RECORDS_MEMORY;
    const uint32_t marks = (s->dictionary ? RECORD_DICTIONARY : 0) |
                           (s->name ? 0 : RECORD_NO_NAME) | (s->metadata ? RECORD_METADATA : 0);
    const struct record head = {
        (uint32_t)size, (uint32_t)s->n_children, marks, (uint32_t)s->flags,
        level, (uint32_t)metadata, (uint32_t)format, (uint32_t)name,
    };
    memcpy(to, &head, sizeof head);
    to += sizeof head;
    if (metadata) memcpy(to, s->metadata, metadata);
    memcpy(to + metadata, s->format, format);
    if (name) memcpy(to + metadata + format + 1, s->name, name);
    o->count++;
    return RECORDS_DONE;
}

/* The records of a structure: of its children in their order, of its dictionary, its own. */
static enum records_status put_all(struct records *o, const struct ArrowSchema *s, uint32_t level) {
    o->depth = level;
    if (!s) return RECORDS_NULL;
    if (!s->release) return RECORDS_RELEASED;
    if (level == RECORDS_LEVELS) return RECORDS_DEEP;
    if (!s->format) return RECORDS_FORMAT;
    if (s->n_children < 0 || s->n_children > RECORDS_MOST) return RECORDS_COUNT;
    if (s->n_children && !s->children) return RECORDS_CHILDREN;
    for (int64_t i = 0; !o->is_alone && i < s->n_children + !!s->dictionary; i++) {
        const int is_child = i < s->n_children;
        o->path[level] = is_child ? i : -1;
        enum records_status is = put_all(o, is_child ? s->children[i] : s->dictionary, level + 1);
        if (is) return is;
    }
    o->depth = level;
    return put_one(o, s, level);
}

enum records_status records_of_schema(const struct ArrowSchema *schema, struct records *out) {
    if (!put_zeros(out, 8)) return RECORDS_MEMORY;
    enum records_status is = put_all(out, schema, 0);
    memcpy(out->bytes, &out->count, sizeof out->count);
    return is;
}

/* A tree of ours is one block: this, the structures, their lists of children, and the records, into
 * which their texts lead. So a consumer may move any of them out, and release each from any thread;
 * the last release frees. The rest of this is what is made so far: the structure that is next, and
 * those that are open, whose own is not read yet, each with its level. */
struct block {
    _Alignas(16) _Atomic uint32_t held; /* how many structures are not released */
    struct ArrowSchema *next, **open, **lists;
    uint8_t *levels;
    size_t opened;
    const char *at, *end;
};

static void release(struct ArrowSchema *s) {
    struct block *block = s->private_data;
    for (int64_t i = 0; i < s->n_children; i++)
        if (s->children[i]->release) s->children[i]->release(s->children[i]);
    if (s->dictionary && s->dictionary->release) s->dictionary->release(s->dictionary);
    s->release = NULL;
    if (atomic_fetch_sub(&block->held, 1) == 1) free(block);
}

/* Makes the structure of the next record, around what is open and lies in it; whether it is one. */
static int take_record(struct block *b) {
    struct ArrowSchema *s = b->next++;
    struct record h;
    size_t metadata = 0, room = (size_t)(b->end - b->at);
    if (room < sizeof h) return 0;
    memcpy(&h, b->at, sizeof h);
    const uint64_t size = sizeof h + (uint64_t)h.metadata + h.format + 1 + h.name + 1;
    if (h.size > room || h.size % 8 || size > h.size || h.marks >= RECORD_MARKS) return 0;
    const char *texts = b->at + sizeof h, *format = texts + h.metadata;
    const char *name = format + h.format + 1;
    if (h.marks & RECORD_METADATA && length_of_metadata(texts, h.metadata, &metadata)) return 0;
    if (metadata != h.metadata || (h.marks & RECORD_NO_NAME && h.name)) return 0;
    if (memchr(format, 0, (size_t)h.format + 1) != format + h.format) return 0;
    if (memchr(name, 0, (size_t)h.name + 1) != name + h.name) return 0;
    const uint64_t inside = (uint64_t)h.n_children + (h.marks & RECORD_DICTIONARY);
    if (h.level >= RECORDS_LEVELS || inside > b->opened) return 0;
    struct ArrowSchema **first = b->open + (b->opened -= inside);
    for (size_t i = 0; i < inside; i++)
        if (b->levels[b->opened + i] != h.level + 1) return 0;
    *s = (struct ArrowSchema){format, name, texts, h.flags, h.n_children, NULL, NULL, release, b};
    if (h.marks & RECORD_NO_NAME) s->name = NULL;
    if (!(h.marks & RECORD_METADATA)) s->metadata = NULL;
    if (h.n_children) s->children = memcpy(b->lists, first, h.n_children * sizeof *first);
    if (h.marks & RECORD_DICTIONARY) s->dictionary = first[h.n_children];
    b->lists += h.n_children;
    b->levels[b->opened++] = (uint8_t)h.level;
    b->at += h.size;
    *first = s;
    return 1;
}

enum records_status schema_of_records(const uint8_t *bytes, size_t len, struct ArrowSchema *out) {
    uint32_t head[2] = {0}, made = 0;
    out->release = NULL;
    if (len > RECORDS_MOST) return RECORDS_LARGE;
    if (len >= sizeof head) memcpy(head, bytes, sizeof head);
    const uint32_t n = head[0];
    if (!n || n > len / sizeof(struct record) || head[1]) return RECORDS_BROKEN;
    if (n > RECORDS_STRUCTURES) return RECORDS_LARGE;
    const size_t each = sizeof(struct ArrowSchema) + 2 * sizeof(struct ArrowSchema *) + 1;
    struct block *b = calloc(1, sizeof *b + n * each + len);
    if (!b) return RECORDS_MEMORY;
    b->next = (struct ArrowSchema *)(b + 1);
    b->open = (struct ArrowSchema **)(b->next + n);
    b->lists = b->open + n;
    b->at = memcpy(b->lists + n, bytes, len);
    b->end = b->at + len;
    b->levels = (uint8_t *)b->lists + n * sizeof *b->lists + len;
    b->at += sizeof head;
    while (made < n && take_record(b)) made++;
    if (made < n || b->opened != 1 || b->levels[0] || b->at != b->end) {
        free(b);
        return RECORDS_BROKEN;
    }
    b->held = n;
    *out = *b->open[0];
    return RECORDS_DONE;
}
