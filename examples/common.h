/* What the examples share: reading a map from a file, a refusal, and output that has to arrive. */
#ifndef COMMON_H
#define COMMON_H

#include "crush_place.h"

#include <stdio.h>
#include <stdlib.h>

/* One byte more than a map may have, so that a longer file is refused and not cut short. */
enum { MAP_ROOM = CRUSH_MAP_MOST + 1 };

/* Reads the map file into MAP_ROOM bytes, and answers its length. */
static inline size_t read_map(const char *name, uint8_t *map) {
    FILE *file = fopen(name, "rb");
    if (file == NULL) {
        perror(name);
        exit(2);
    }
    size_t len = fread(map, 1, MAP_ROOM, file);
    if (ferror(file)) {
        fprintf(stderr, "%s: cannot be read\n", name);
        exit(2);
    }
    fclose(file);
    return len;
}

/* Ends the program where a call was refused. */
static inline void expect_none(uint32_t number) {
    if (number == 0)
        return;
    fprintf(stderr, "refused, %u: %s\n", (unsigned)number, crush_meaning(number));
    exit(1);
}

/* Memory for one or more of this size. */
static inline void *room_for(size_t count, size_t size) {
    void *room = calloc(count, size);
    if (room == NULL) {
        perror("memory");
        exit(2);
    }
    return room;
}

/* The table of a map, with its number of places. The caller frees it. */
static inline uint16_t *table_of(const uint8_t *map, size_t map_len, size_t *places) {
    struct crush_sizes sizes = crush_sizes_of(map, map_len);
    expect_none(sizes.number);
    *places = (size_t)sizes.groups * sizes.places;
    uint16_t *table = room_for(*places, sizeof *table);
    expect_none(crush_fill(map, map_len, table, *places).number);
    return table;
}

/* Ends the program where its output cannot be written. */
static inline void expect_printed(void) {
    if (fflush(stdout) == 0 && !ferror(stdout))
        return;
    perror("standard output");
    exit(2);
}

#endif
