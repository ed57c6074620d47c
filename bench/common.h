/* What the programs of the benchmark share: the engine's calls, the clock, the best of all rounds, and reading a map's text. */
#ifndef COMMON_H
#define COMMON_H

#include "../include/crush_place.h"

#include <stdio.h>
#include <stdlib.h>
#include <string.h>
#include <time.h>

enum { MOST = CRUSH_MAP_MOST + 1, PLACES = 65536 * 4, SPACE = 1 << 20, FIRST = 11, LINE = 23 };

/* The thread's own time on the processor, so that other programs disturb it little. */
static inline double now(void) {
    struct timespec t;
    clock_gettime(CLOCK_THREAD_CPUTIME_ID, &t);
    return (double)t.tv_sec * 1e9 + (double)t.tv_nsec;
}

static inline void keep_least(double *best, double took) {
    if (*best == 0 || took < *best)
        *best = took;
}

static inline uint32_t field(const uint8_t *at, size_t digits) {
    char word[9] = {0};
    memcpy(word, at, digits);
    return (uint32_t)strtoul(word, NULL, 16);
}

/* A drive's weight in the map. */
static inline uint32_t weight_of(const uint8_t *map, uint32_t drive) {
    for (const uint8_t *line = map + FIRST; field(line, 2) == 1; line += LINE)
        if (field(line + 2, 4) == drive)
            return field(line + 6, 8);
    return 0;
}

static inline size_t read_map(const char *path, uint8_t *map) {
    FILE *f = fopen(path, "rb");
    if (f == NULL) {
        perror(path);
        exit(2);
    }
    size_t len = fread(map, 1, MOST, f);
    fclose(f);
    return len;
}

#endif
