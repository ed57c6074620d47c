/*
 * Counts the hashes of two that placing a group, filling a table and making an edit take, and compares each count with a file: one for each test
 * that meets an acceptance other than 65,536 and 0, and no other. An edit may make a test more than once; it makes none by hash where the file
 * has 0, and some where it has not.
 *
 * The count is kept by the breakpoint of hashes.gdb, under which the program runs. An archive has no other way to tell.
 */
#include "../include/crush_place.h"

#include <stdio.h>
#include <string.h>

enum { PLACES = 32768, SPACE = CRUSH_MOVE * PLACES };

volatile unsigned long hashes;

static uint8_t map[CRUSH_MAP_MOST], edited[CRUSH_MAP_MOST], space[SPACE];
static uint16_t table[PLACES];
static size_t len;

/* The number that a call answers; `hashes` then has its count. */
static uint32_t place(uint32_t group) {
    uint8_t out[CRUSH_PLACE_MOST];
    hashes = 0;
    return crush_place(map, len, group, out, sizeof out).number;
}

static uint32_t fill(void) {
    hashes = 0;
    return crush_fill(map, len, table, PLACES).number;
}

static uint32_t edit(const char *frame) {
    if (fill() != 0)
        return 1;
    memcpy(edited, map, len);
    hashes = 0;
    return crush_edit(edited, len, table, PLACES, (const uint8_t *)frame, CRUSH_FRAME, space, SPACE).number;
}

int main(int argc, char **argv) {
    FILE *f = argc == 2 ? fopen(argv[1], "r") : NULL;
    if (f == NULL) {
        fprintf(stderr, "usage: hashes FILE\n");
        return 2;
    }
    char line[64], frame[CRUSH_FRAME + 1];
    unsigned long calls = 0, without = 0, made = 0, wrong = 0;
    while (fgets(line, sizeof line, f) != NULL) {
        unsigned long group, expected;
        uint32_t number;
        int exact = 1;
        if (sscanf(line, "place %lu %lu", &group, &expected) == 2) {
            number = place((uint32_t)group);
        } else if (sscanf(line, "fill %lu", &expected) == 1) {
            number = fill();
        } else if (sscanf(line, "edit %14s %lu", frame, &expected) == 2) {
            number = edit(frame);
            exact = expected == 0;
        } else {
            /* a line of a map, the first of which is 00 */
            len = strncmp(line, "00", 2) == 0 ? 0 : len;
            memcpy(map + len, line, strlen(line));
            len += strlen(line);
            continue;
        }
        calls++;
        without += expected == 0;
        made += hashes;
        if (number != 0 || (exact ? hashes != expected : hashes == 0)) {
            wrong++;
            fprintf(stderr, "%s: number %u, %lu hashes of two\n", strtok(line, "\n"), (unsigned)number, hashes);
        }
    }
    printf("%lu calls, %lu of them without a hash of two and the others with %lu, %lu wrong\n", calls, without, made, wrong);
    return wrong == 0 && without != 0 && made != 0 ? 0 : 1;
}
