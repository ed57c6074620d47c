/* Calls crush_place, crush_day_group and crush_ceiling on the vectors in three files and compares each answer; the memory lent is guarded. */
#define _DEFAULT_SOURCE
#include "../include/crush_place.h"
#include "guarded.h"

enum { MOST = 70000, PLACES = 4000 };

static char text[2 * MOST + 4 * PLACES + 512], map_word[2 * MOST + 2], out_word[512], table_word[4 * PLACES + 2];
static uint8_t map_bytes[MOST], expected[256];
static uint16_t table_places[PLACES];
static unsigned long calls, wrong;

static void bad_line(void) {
    fprintf(stderr, "bad line %lu\n", calls + 1);
    exit(2);
}

static void place_all(const char *name) {
    FILE *f = opened(name);
    while (fgets(text, sizeof text, f) != NULL) {
        unsigned long group, size, number, places, tries;
        if (sscanf(text, "%140001s %lu %lu %lu %lu %lu %511s", map_word, &group, &size, &number, &places, &tries, out_word) != 7)
            bad_line();
        size_t n = bytes_of(map_word, map_bytes);
        size_t wrote = bytes_of(out_word, expected);
        const uint8_t *map = lent(map_bytes, n);
        uint8_t *out = guarded(size);
        struct crush_placing r = crush_place(map, n, (uint32_t)group, out, size);
        calls++;
        if (r.number != number || r.places != places || r.tries != tries || !holds(out, size, expected, wrote)) {
            wrong++;
            fprintf(stderr, "call %lu: got %u %u %u, expected %lu %lu %lu\n", calls, r.number, r.places, r.tries, number, places, tries);
        }
        give_back(map, n);
        give_back(out, size);
    }
    fclose(f);
}

static void days_all(const char *name) {
    FILE *f = opened(name);
    while (fgets(text, sizeof text, f) != NULL) {
        unsigned long show, day, number, group;
        if (sscanf(text, "%140001s %lu %lu %lu %lu", map_word, &show, &day, &number, &group) != 5)
            bad_line();
        size_t n = bytes_of(map_word, map_bytes);
        const uint8_t *map = lent(map_bytes, n);
        struct crush_day r = crush_day_group(map, n, (uint32_t)show, (uint32_t)day);
        calls++;
        if (r.number != number || r.group != group) {
            wrong++;
            fprintf(stderr, "call %lu: got %u %u, expected %lu %lu\n", calls, r.number, r.group, number, group);
        }
        give_back(map, n);
    }
    fclose(f);
}

static void ceilings_all(const char *name) {
    FILE *f = opened(name);
    while (fgets(text, sizeof text, f) != NULL) {
        unsigned long device, number, groups, moves;
        if (sscanf(text, "%140001s %16001s %lu %lu %lu %lu", map_word, table_word, &device, &number, &groups, &moves) != 6)
            bad_line();
        size_t n = bytes_of(map_word, map_bytes), places = places_of(table_word, table_places);
        const uint8_t *map = lent(map_bytes, n);
        const uint16_t *table = lent(table_places, sizeof *table * places);
        struct crush_limit r = crush_ceiling(map, n, table, places, (uint32_t)device);
        calls++;
        if (r.number != number || r.groups != groups || r.moves != moves) {
            wrong++;
            fprintf(stderr, "call %lu: got %u %u %u, expected %lu %lu %lu\n", calls, r.number, r.groups, r.moves, number, groups, moves);
        }
        give_back(map, n);
        give_back(table, sizeof *table * places);
    }
    fclose(f);
}

int main(int argc, char **argv) {
    if (argc != 4) {
        fprintf(stderr, "usage: crush_place_test PLACES DAYS CEILINGS\n");
        return 2;
    }
    place_all(argv[1]);
    unsigned long placed = calls;
    days_all(argv[2]);
    unsigned long days = calls - placed;
    ceilings_all(argv[3]);
    unsigned long ceilings = calls - placed - days;
    printf("%lu calls, %lu of them of days, %lu of ceilings, %lu wrong\n", calls, days, ceilings, wrong);
    return wrong == 0 && placed > 0 && days > 0 && ceilings > 0 ? 0 : 1;
}
