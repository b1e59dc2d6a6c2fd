/* The program geoarrow_fields over the library, without its limits: lines read|infer|canon|columns < LINES
 *
 * bench/run takes it in place of its peer, and so measures what a call of geoarrow_answer costs. */
#define _POSIX_C_SOURCE 200809L
#include "geoarrow.h"
#include <stdio.h>
#include <stdlib.h>
#include <string.h>

static const char *const COMMANDS[] = {"read", "infer", "canon", "columns"};

int main(int words, char **word) {
    uint8_t command = 0, status, *out = NULL;
    size_t room = 0, len, size = 0;
    char *line = NULL;
    ssize_t read;
    while (command < 4 && (words < 2 || strcmp(word[1], COMMANDS[command]))) command++;
    while ((read = getline(&line, &size, stdin)) > 0) {
        size_t bytes = (size_t)read - (line[read - 1] == '\n');
        while ((status = geoarrow_answer(command, (const uint8_t *)line, bytes, out ? out : (uint8_t *)line, room, &len)) == GEOARROW_SHORT) {
            room = 2 * len;
            if (!(out = realloc(out, room))) return GEOARROW_MEMORY;
        }
        if (status != GEOARROW_DONE) return status;
        fwrite(out, 1, len, stdout);
        putchar('\n');
    }
    return fflush(stdout) != 0;
}
