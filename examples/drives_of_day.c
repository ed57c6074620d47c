/*
 * Prints the drives on which the records of a show's day lie: one line for each copy, a drive's number in hexadecimal as in the map, or "hole".
 *
 * From the root of the repository:
 *
 *     packaging/archive
 *     gcc -O2 -Wall -Wextra -std=c11 -Iinclude -o target/drives_of_day examples/drives_of_day.c target/staticlib/libcrush_place.a
 *     target/drives_of_day examples/archive.map 816 20261115
 *
 * SHOW and DAY are decimal. The exit status is 0; or 1 for a refusal, whose number and meaning go to standard error; or 2 where the arguments or
 * the file are at fault or the output cannot be written.
 */
#include "common.h"

#include <errno.h>

/* The decimal number that a word spells, of 32 bits. */
static uint32_t number_of(const char *word) {
    char *end = NULL;
    errno = 0;
    unsigned long n = strtoul(word, &end, 10);
    if (word[0] < '0' || word[0] > '9' || *end != '\0' || errno != 0 || n > UINT32_MAX) {
        fprintf(stderr, "%s: not a decimal number of 32 bits\n", word);
        exit(2);
    }
    return (uint32_t)n;
}

int main(int argc, char **argv) {
    static uint8_t map[MAP_ROOM];
    uint8_t list[CRUSH_PLACE_MOST];
    if (argc != 4) {
        fprintf(stderr, "usage: drives_of_day MAP SHOW DAY\n");
        return 2;
    }
    uint32_t show = number_of(argv[2]), day = number_of(argv[3]);
    size_t len = read_map(argv[1], map);
    struct crush_drives answer = crush_day_drives(map, len, show, day, list, sizeof list);
    expect_none(answer.number);
    for (uint32_t i = 0; i < answer.places; i++) {
        unsigned drive = list[2 * i] * 256u + list[2 * i + 1];
        if (drive == CRUSH_PLACE_HOLE)
            printf("hole\n");
        else
            printf("%04x\n", drive);
    }
    expect_printed();
    return 0;
}
