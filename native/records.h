/* A tree of ArrowSchema structures as records, and back (docs/FORMAT.md, 6), within the library. */
#include "../include/geoarrow.h"

#if !defined(__BYTE_ORDER__) || __BYTE_ORDER__ != __ORDER_LITTLE_ENDIAN__
#error "The numbers of records have their least byte first, and so must those of the machine."
#endif

/* The most levels, structures and bytes. */
enum { RECORDS_LEVELS = 64, RECORDS_STRUCTURES = 4000000, RECORDS_MOST = 1 << 28 };
/* The numbers at the front of a record, and its marks, which are below RECORD_MARKS. */
struct record { uint32_t size, n_children, marks, flags, level, metadata, format, name; };
enum { RECORD_DICTIONARY = 1, RECORD_NO_NAME = 2, RECORD_METADATA = 4, RECORD_MARKS = 8 };

enum records_status {
    RECORDS_DONE,
    RECORDS_MEMORY,   /* out of memory */
    RECORDS_LARGE,    /* more than 2^28 bytes, or than 4,000,000 structures */
    RECORDS_DEEP,     /* a structure lies in 64 */
    RECORDS_NULL,     /* a structure that is NULL */
    RECORDS_RELEASED, /* a structure that is released */
    RECORDS_FORMAT,   /* a format that is NULL */
    RECORDS_COUNT,    /* a number of children that is negative, or more than 2^28 */
    RECORDS_CHILDREN, /* children that are NULL */
    RECORDS_METADATA, /* a negative number in metadata */
    RECORDS_BROKEN    /* bytes that are no records */
};

/* The records, or with is_alone that of the outermost structure; and where a refused structure is:
 * in how many it lies, and in each, from the outermost on, which child leads there; -1 is the
 * dictionary. */
struct records {
    uint8_t *bytes;
    size_t len, room;
    uint32_t count, depth, is_alone;
    int64_t path[RECORDS_LEVELS];
};

/* Copies a tree, which stays the caller's and is not released. `out` is zeros, but for is_alone;
 * the caller frees out->bytes, whatever the status is. */
enum records_status records_of_schema(const struct ArrowSchema *schema, struct records *out);

/* Makes a tree, which the caller releases. Where it is not made, out->release is NULL. */
enum records_status schema_of_records(const uint8_t *bytes, size_t len, struct ArrowSchema *out);
