/*
 * Several threads call all functions at once, on one map and one array of states that all of them read, and each answer is held to the one that was
 * given before there were threads. What a call writes, each thread has for itself: its table, its moves, for edits and returns a copy of the map, and
 * for loads and stores words of its own.
 *
 * usage: threads MAP
 */
#define _DEFAULT_SOURCE
#include "../include/crush_place.h"
#include "guarded.h"

#include <pthread.h>

enum { THREADS = 4, ROUNDS = 3, PLACES = 1 << 16, EDITS = 4, STORES = 2, LISTS = 256 };

/* The map and the states are lent to every thread and can be written by none. The states are of names from 0 on: that of the map itself, and those
 * after the first edits. */
static const uint8_t *map;
static const uint32_t *states;
static size_t len;

/* What the calls answer and leave: memory that was not written is 0 in each. */
struct answers {
    struct crush_sizes sizes, loaded;
    struct crush_filled filled;
    struct crush_written written;
    struct crush_edited edited[EDITS], returned[STORES];
    struct crush_limit limits[EDITS];
    uint32_t stored[STORES];
    struct crush_day days[LISTS];
    struct crush_drives drives[LISTS];
    struct crush_placing placings[LISTS];
    uint8_t lists[LISTS][2][CRUSH_PLACE_MOST];
    uint16_t tables[EDITS + 1][PLACES], tables_back[STORES][PLACES];
    uint8_t maps[EDITS + 1][CRUSH_MAP_MOST], maps_back[STORES][CRUSH_MAP_MOST];
    uint8_t moves[EDITS][CRUSH_MOVE * PLACES], moves_back[STORES][CRUSH_MOVE * PLACES];
    uint32_t words[CRUSH_STATES];
};

/* Every call once: the lists of groups and days, the table, then edits one after another, each asked for its ceiling first and some of them stored
 * ahead; then returns by the states of the thread, and by those that all have. */
static void call_all(struct answers *a) {
    /* a drive dies, comes back, loses its weight and has it again */
    static const char *const edits[EDITS] = {"21002000000000", "21002000010000", "22002000000000", "22002000001f40"};
    memset(a, 0, sizeof *a);
    a->sizes = crush_sizes_of(map, len);
    a->loaded = crush_load(map, len, a->words);
    a->written = crush_write(map, len, a->maps[0], CRUSH_MAP_MOST);
    a->filled = crush_fill(map, len, a->tables[0], PLACES);
    for (uint32_t i = 0; i < LISTS; i++) {
        a->days[i] = crush_day_group(map, len, i, 20261115);
        a->drives[i] = crush_day_drives(map, len, i, 20261115, a->lists[i][0], CRUSH_PLACE_MOST);
        a->placings[i] = crush_place(map, len, a->days[i].group, a->lists[i][1], CRUSH_PLACE_MOST);
    }
    for (size_t i = 0; i < EDITS; i++) {
        memcpy(a->maps[i + 1], a->maps[i], len);
        memcpy(a->tables[i + 1], a->tables[i], sizeof a->tables[i]);
        a->limits[i] = crush_ceiling(map, len, a->tables[0], PLACES, 0x20 + (uint32_t)i);
        if (i < STORES)
            a->stored[i] = crush_store(a->maps[i], len, a->words, (uint16_t)i);
        const uint8_t *frame = (const uint8_t *)edits[i];
        a->edited[i] = crush_edit(a->maps[i + 1], len, a->tables[i + 1], PLACES, frame, CRUSH_FRAME, a->moves[i], sizeof a->moves[i]);
    }
    /* from the table before to the map after the first edit and back */
    memcpy(a->maps_back[0], a->maps[0], len);
    memcpy(a->tables_back[0], a->tables[0], sizeof a->tables[0]);
    for (size_t i = 0; i < STORES; i++) {
        const uint32_t *words = i == 0 && states != NULL ? states : a->words;
        uint16_t name = (uint16_t)(STORES - 1 - i);
        a->returned[i] = crush_return(a->maps_back[i], len, a->tables_back[i], PLACES, words, name, a->moves_back[i], sizeof a->moves_back[i]);
        if (i + 1 < STORES) {
            memcpy(a->maps_back[i + 1], a->maps_back[i], len);
            memcpy(a->tables_back[i + 1], a->tables_back[i], sizeof a->tables_back[i]);
        }
    }
}

static struct answers *alone;
static pthread_barrier_t start;

/* Answers how many rounds differed. */
static void *run(void *unused) {
    struct answers *own = malloc(sizeof *own);
    size_t differ = 0;
    (void)unused;
    if (own == NULL)
        exit(2);
    pthread_barrier_wait(&start);
    for (int i = 0; i < ROUNDS; i++) {
        call_all(own);
        differ += memcmp(own, alone, sizeof *own) != 0;
    }
    free(own);
    return (void *)differ;
}

/* Whether the answers themselves say something: no call is refused, every edit and return moves places, the last edit leaves the map and the table
 * that the first was lent, and so does the last return. */
static int is_telling(const struct answers *a) {
    int ok = a->sizes.number == 0 && a->filled.number == 0 && a->written.bytes == len && memcmp(a->maps[0], map, len) == 0;
    ok = ok && memcmp(&a->sizes, &a->loaded, sizeof a->sizes) == 0 && a->words[0] == STORES;
    for (size_t i = 0; i < STORES; i++) {
        ok = ok && a->stored[i] == 0 && a->returned[i].number == 0 && a->returned[i].moves > 0;
        ok = ok && memcmp(a->maps_back[i], a->maps[STORES - 1 - i], len) == 0;
        ok = ok && memcmp(a->tables_back[i], a->tables[STORES - 1 - i], sizeof a->tables[i]) == 0;
    }
    for (size_t i = 0; i < LISTS; i++) {
        ok = ok && a->drives[i].number == 0 && a->drives[i].group == a->days[i].group && a->drives[i].tries == a->placings[i].tries;
        ok = ok && memcmp(a->lists[i][0], a->lists[i][1], CRUSH_PLACE_MOST) == 0;
    }
    for (size_t i = 0; i < EDITS; i++)
        ok = ok && a->edited[i].number == 0 && a->edited[i].moves > 0 && a->limits[i].number == 0 && a->limits[i].groups > 0;
    return ok && memcmp(a->maps[EDITS], map, len) == 0 && memcmp(a->tables[EDITS], a->tables[0], sizeof a->tables[0]) == 0;
}

int main(int argc, char **argv) {
    static uint8_t text[CRUSH_MAP_MOST + 1];
    pthread_t threads[THREADS];
    size_t differ = 0;
    FILE *f = argc == 2 ? fopen(argv[1], "rb") : NULL;
    if (f == NULL) {
        fprintf(stderr, "usage: threads MAP\n");
        return 2;
    }
    len = fread(text, 1, sizeof text, f);
    fclose(f);
    map = lent(text, len);
    alone = malloc(sizeof *alone);
    if (alone == NULL || pthread_barrier_init(&start, NULL, THREADS) != 0)
        return 2;
    call_all(alone);
    int ok = is_telling(alone);
    states = lent(alone->words, sizeof alone->words);
    for (int i = 0; i < THREADS; i++)
        if (pthread_create(&threads[i], NULL, run, NULL) != 0)
            return 2;
    for (int i = 0; i < THREADS; i++) {
        void *found;
        if (pthread_join(threads[i], &found) != 0)
            return 2;
        differ += (size_t)found;
    }
    printf("%d threads, %d rounds each of %d calls: %zu rounds differ%s\n", THREADS, ROUNDS, 4 + 3 * LISTS + 2 * EDITS + 2 * STORES, differ,
           ok ? "" : ", and the answers are wrong");
    return ok && differ == 0 ? 0 : 1;
}
