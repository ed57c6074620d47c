/*
 * Prints how many places move at most when a drive's acceptance is lowered, to 0 for a dead drive: in one line the groups whose list has the drive,
 * and the ceiling. Asked with the map after an acceptance was raised, it is the ceiling of that edit.
 *
 * From the root of the repository:
 *
 *     packaging/archive
 *     gcc -O2 -Wall -Wextra -std=c11 -Iinclude -o target/ceiling examples/ceiling.c target/staticlib/libcrush_place.a
 *     target/ceiling examples/archive.map 0020
 *
 * DRIVE is four hexadecimal digits, as in the map. The exit status is 0; or 1 for a refusal, whose number and meaning go to standard error; or 2
 * where the arguments or the file are at fault, memory is short or the output cannot be written.
 */
#include "common.h"

#include <string.h>

enum { NO_SUCH_DRIVE = 18 }; /* what crush_ceiling answers where the map has not the drive */

/* The number that a word of four hexadecimal digits spells, in lower case as in a map. */
static uint32_t drive_of(const char *word) {
    if (strlen(word) != 4 || strspn(word, "0123456789abcdef") != 4) {
        fprintf(stderr, "%s: not four hexadecimal digits in lower case\n", word);
        exit(2);
    }
    return (uint32_t)strtoul(word, NULL, 16);
}

int main(int argc, char **argv) {
    static uint8_t map[MAP_ROOM];
    if (argc != 3) {
        fprintf(stderr, "usage: ceiling MAP DRIVE\n");
        return 2;
    }
    uint32_t drive = drive_of(argv[2]);
    size_t map_len = read_map(argv[1], map), places;
    uint16_t *table = table_of(map, map_len, &places);
    struct crush_limit limit = crush_ceiling(map, map_len, table, places, drive);
    free(table);
    if (limit.number == NO_SUCH_DRIVE) {
        fprintf(stderr, "refused, %u: the map has no such drive\n", (unsigned)limit.number);
        return 1;
    }
    expect_none(limit.number);
    printf("groups %u, moves at most %u\n", (unsigned)limit.groups, (unsigned)limit.moves);
    expect_printed();
    return 0;
}
