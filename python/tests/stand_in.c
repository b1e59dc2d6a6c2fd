/* A stand-in for the library of C: what its calls answer is said by their bytes. Each word of them is a letter and a number:
 *   n   so many bytes are written, if there is room; otherwise SHORT
 *   s   this status is answered, and nothing is written
 *   r   the bytes are refused: the line that says why, in which so many bytes are found, is written, if there is room; otherwise SHORT
 *   i, b, l   the index of the column, the byte or the line that stands there
 *   o   the options (or the command) are written, as one digit
 *   f   the name of the file is written
 * The line says the file too, where the call gives a name. All the room that a call is told of is written to, as a call may. */
#include <stddef.h>
#include <stdint.h>
#include <stdio.h>
#include <stdlib.h>
#include <string.h>

#include "geoarrow.h"

#ifndef VERSION
#define VERSION GEOARROW_VERSION
#endif

uint32_t geoarrow_version(void) { return VERSION; }

/* Of a file that begins as an Arrow or Parquet file its first eight bytes and the footer whose size stands at its end, before the magic; of any other all. */
uint8_t geoarrow_wanted(const uint8_t *head, size_t head_len, const uint8_t *tail, size_t tail_len, uint64_t size, uint64_t *head_wanted,
                        uint64_t *tail_wanted) {
    size_t behind = head_len < 8 || size == UINT64_MAX || size < 8 ? 0 : !memcmp(head, "ARROW1", 6) ? 10 : !memcmp(head, "PAR", 3) ? 8 : 0;
    uint64_t told = 0;
    for (size_t i = 0; behind && tail_len >= behind && i < 4; i++) told |= (uint64_t)tail[tail_len - behind + i] << (8 * i);
    *head_wanted = (behind || !head_len) && size > 8 ? 8 : size;
    *tail_wanted = behind ? told + behind : 0;
    if (behind && *tail_wanted > size - 8) *tail_wanted = size - 8;
    return *head_wanted > head_len || *tail_wanted > tail_len;
}

/* What the words of a call say: the numbers of those that are there, by their letters. */
typedef struct {
    size_t number[128];
    int is_there[128];
} words;

static void read_words(const uint8_t *given, size_t given_len, words *found) {
    size_t at = 0;
    memset(found, 0, sizeof *found);
    while (at < given_len) {
        unsigned word = given[at++] & 127;
        size_t value = 0;
        while (at < given_len && given[at] >= '0' && given[at] <= '9') value = 10 * value + (size_t)(given[at++] - '0');
        found->number[word] = value;
        found->is_there[word] = 1;
    }
}

/* Writes to all of the room, and the text at its front; or says what is needed. */
static uint8_t filled(const char *text, size_t text_len, uint8_t status, uint8_t *out, size_t out_len, size_t *len) {
    *len = text_len;
    if (out_len < text_len) return GEOARROW_SHORT;
    memset(out, 'x', out_len);
    memcpy(out, text, text_len);
    return status;
}

static char *number(char *at, const words *said, char word, const char *key) {
    return said->is_there[(unsigned)word] ? at + sprintf(at, "\"%s\":%zu,", key, said->number[(unsigned)word]) : at;
}

/* The line that says why the bytes are refused, with its line feed: its keys stand in order. */
static uint8_t refused(const words *said, const uint8_t *name, size_t name_len, uint8_t *out, size_t out_len, size_t *len) {
    size_t found_len = said->number['r'];
    char *line = malloc(found_len + name_len + 400), *at = line;
    uint8_t status;
    if (!line) return GEOARROW_MEMORY;
    at += sprintf(at, "{\"kind\":\"finding\",\"severity\":\"error\",\"code\":\"Code\",");
    if (name_len) at += sprintf(at, "\"file\":\"%.*s\",", (int)name_len, (const char *)name);
    at = number(at, said, 'i', "index");
    at = number(at, said, 'b', "byte");
    at = number(at, said, 'l', "line");
    at += sprintf(at, "\"found\":\"");
    memset(at, 'x', found_len);
    at += found_len;
    at += sprintf(at, "\",\"expected\":\"y\"}\n");
    status = filled(line, (size_t)(at - line), GEOARROW_REFUSED, out, out_len, len);
    free(line);
    return status;
}

static uint8_t answered(
    uint8_t options, const uint8_t *name, size_t name_len, const uint8_t *given, size_t given_len, uint8_t *out, size_t out_len, size_t *len) {
    words said;
    read_words(given, given_len, &said);
    if (said.is_there['s']) return (uint8_t)said.number['s'];
    if (said.is_there['r']) return refused(&said, name, name_len, out, out_len, len);
    if (said.is_there['f']) return filled((const char *)name, name_len, GEOARROW_DONE, out, out_len, len);
    if (said.is_there['o']) {
        char digit = (char)('0' + options);
        return filled(&digit, 1, GEOARROW_DONE, out, out_len, len);
    }
    *len = said.number['n'];
    if (out_len < *len) return GEOARROW_SHORT;
    memset(out, 'x', out_len);
    return GEOARROW_DONE;
}

uint8_t geoarrow_answer(uint8_t command, const uint8_t *line, size_t line_len, uint8_t *out, size_t out_len, size_t *len) {
    return answered(command, NULL, 0, line, line_len, out, out_len, len);
}

uint8_t geoarrow_report(
    uint8_t options, const uint8_t *name, size_t name_len, const uint8_t *bytes, size_t bytes_len, uint8_t *out, size_t out_len, size_t *len) {
    if (!name || !bytes) abort(); /* as the header asks, also where there are none */
    return answered(options, name, name_len, bytes, bytes_len, out, out_len, len);
}

/* What is answered is said by the bytes of the other file, unless those of the first say that it is refused. */
uint8_t geoarrow_same(
    uint8_t options, const uint8_t *first, size_t first_len, const uint8_t *other, size_t other_len, const uint8_t *name, size_t name_len, uint8_t *out,
    size_t out_len, size_t *len) {
    words said;
    if (!first || !other || !name) abort();
    read_words(first, first_len, &said);
    if (said.is_there['r']) {
        uint8_t status = refused(&said, NULL, 0, out, out_len, len);
        return status == GEOARROW_REFUSED ? GEOARROW_FIRST_REFUSED : status;
    }
    return answered(options, name, name_len, other, other_len, out, out_len, len);
}

uint8_t geoarrow_canonical(const uint8_t *bytes, size_t bytes_len, uint8_t *out, size_t out_len, size_t *len) {
    if (!bytes) abort();
    return answered(0, NULL, 0, bytes, bytes_len, out, out_len, len);
}

uint8_t geoarrow_write_schema(const uint8_t *lines, size_t lines_len, uint8_t *out, size_t out_len, size_t *len) {
    return answered(0, NULL, 0, lines, lines_len, out, out_len, len);
}
