/*
 * Edits drives for a while and returns: stores the map's weights and acceptances under a name, makes the edits one after the other, and returns to
 * the name. Prints the places that move, a line for each, as program `operate` does: those of the edits, then those of the return, with cause 04.
 *
 * From the root of the repository:
 *
 *     packaging/archive
 *     gcc -O2 -Wall -Wextra -std=c11 -Iinclude -o target/campaign examples/campaign.c target/staticlib/libcrush_place.a
 *     target/campaign examples/archive.map 22002000003e80 22002100003e80
 *
 * Each FRAME is an edit, 14 digits: 21, the drive (4 digits) and its acceptance (8), or 22, the drive and its weight. No file is written. The exit
 * status is 0, and then map and table are as they were before the first edit; or 1 for a refusal, whose number and meaning go to standard error, and
 * after which nothing more is done; or 2 where the arguments or the file are at fault, memory is short or the output cannot be written.
 */
#include "common.h"

#include <string.h>

enum { BEFORE = 1 }; /* the name of the state ahead of the edits: any number of 16 bits */

/* The states, which lie with the caller. They need not be zeroed. */
static uint32_t states[CRUSH_STATES];

int main(int argc, char **argv) {
    static uint8_t map[MAP_ROOM], old_map[MAP_ROOM];
    if (argc < 3) {
        fprintf(stderr, "usage: campaign MAP FRAME...\n");
        return 2;
    }
    size_t map_len = read_map(argv[1], map), places;
    expect_none(crush_load(map, map_len, states).number);
    uint16_t *table = table_of(map, map_len, &places), *old_table = room_for(places, sizeof *old_table);
    /* room for a move of every place: no edit and no return makes more */
    uint8_t *moves = room_for(places, CRUSH_MOVE);
    memcpy(old_map, map, map_len);
    memcpy(old_table, table, places * sizeof *table);
    expect_none(crush_store(map, map_len, states, BEFORE));
    for (int i = 2; i < argc; i++) {
        const uint8_t *frame = (const uint8_t *)argv[i];
        struct crush_edited edited = crush_edit(map, map_len, table, places, frame, strlen(argv[i]), moves, places * CRUSH_MOVE);
        expect_none(edited.number);
        fwrite(moves, CRUSH_MOVE, edited.moves, stdout);
    }
    struct crush_edited returned = crush_return(map, map_len, table, places, states, BEFORE, moves, places * CRUSH_MOVE);
    expect_none(returned.number);
    fwrite(moves, CRUSH_MOVE, returned.moves, stdout);
    if (memcmp(map, old_map, map_len) != 0 || memcmp(table, old_table, places * sizeof *table) != 0) {
        fprintf(stderr, "the map or the table is not as before\n");
        return 2;
    }
    free(moves);
    free(old_table);
    free(table);
    expect_printed();
    return 0;
}
