/* Refuses one request for memory, where the program asks for it: bin/faults loads it before the C library.
 *
 * A request for 2^60 + n bytes fails, and has the n-th request from there on refused, that one alone.
 * A request for 2^61 bytes ends that, and succeeds exactly where a request was refused. */
typedef unsigned long size_t;

extern void *__libc_malloc(size_t);
extern void *__libc_realloc(void *, size_t);

static const size_t ARM = 1ul << 60, DISARM = 1ul << 61;
static size_t left;
static int refused;

static int is_refused(void) {
    if (left == 0 || --left > 0) return 0;
    refused = 1;
    return 1;
}

void *malloc(size_t size) {
    if (size == DISARM) {
        int was = refused;
        left = 0;
        refused = 0;
        return was ? __libc_malloc(1) : 0;
    }
    if (size >= ARM) {
        left = size - ARM;
        refused = 0;
        return 0;
    }
    return is_refused() ? 0 : __libc_malloc(size);
}

void *realloc(void *old, size_t size) {
    return is_refused() ? 0 : __libc_realloc(old, size);
}
