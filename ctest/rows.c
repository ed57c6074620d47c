/* Prints what program `fill` prints for the map on standard input, each row by a call of crush_place. */
#include "../include/crush_place.h"

#include <stdio.h>

enum { PLACES = 32768 }; /* that `fill` has room for */

int main(void) {
    static uint8_t map[CRUSH_MAP_MOST + 1];
    uint8_t out[CRUSH_PLACE_MOST];
    size_t n = fread(map, 1, sizeof map, stdin);
    struct crush_sizes sizes = crush_sizes_of(map, n);
    if (sizes.number != 0) {
        printf("1f%02x\n", sizes.number);
        return 0;
    }
    if ((uint64_t)sizes.groups * sizes.places > PLACES) {
        printf("1f10\n");
        return 0;
    }
    for (uint32_t x = 0; x < sizes.groups; x++) {
        struct crush_placing r = crush_place(map, n, x, out, sizeof out);
        printf("11%08x", x);
        for (uint32_t i = 0; i < 2 * r.places; i++)
            printf("%02x", out[i]);
        printf("\n");
    }
    return 0;
}
