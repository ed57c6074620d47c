/*
 * Measures two builds of the engine on one map, by turns, and compares what they give byte for byte.
 *
 * usage: against MAP ROUNDS
 *
 * A line for each call: its name, and the nanoseconds of the build before and of this one, best of all rounds; no line where the build before refuses
 * MAP and this one does not. The calls of the build before have been renamed from crush_ to before_ (bench/against).
 */
#define _POSIX_C_SOURCE 200809L
#include "common.h"

/* The calls of the build before, renamed. */
struct crush_sizes before_sizes_of(const uint8_t *, size_t);
struct crush_filled before_fill(const uint8_t *, size_t, uint16_t *, size_t);
struct crush_edited before_edit(uint8_t *, size_t, uint16_t *, size_t, const uint8_t *, size_t, uint8_t *, size_t);

/* What each build is lent: 0 is the one before. */
static uint8_t map[2][MOST], space[2][SPACE];
static uint16_t table[2][PLACES];
static size_t len;

static void expect_same(const char *what) {
    if (memcmp(map[0], map[1], len) == 0 && memcmp(table[0], table[1], sizeof table[0]) == 0 && memcmp(space[0], space[1], SPACE) == 0)
        return;
    fprintf(stderr, "unequal: %s\n", what);
    exit(1);
}

typedef uint32_t call(int build, const char *frame);

static uint32_t load(int build, const char *frame) {
    (void)frame;
    return (build == 0 ? before_sizes_of : crush_sizes_of)(map[build], len).number;
}

static uint32_t fill(int build, const char *frame) {
    (void)frame;
    return (build == 0 ? before_fill : crush_fill)(map[build], len, table[build], PLACES).number;
}

static uint32_t edit(int build, const char *frame) {
    const uint8_t *f = (const uint8_t *)frame;
    return (build == 0 ? before_edit : crush_edit)(map[build], len, table[build], PLACES, f, CRUSH_FRAME, space[build], SPACE).number;
}

/* Each round both builds, the one ahead by turns; with frames, each is one edit and its return. */
static void measure(const char *name, call *f, int rounds, const char *const *frames) {
    double best[2] = {0, 0};
    for (int i = 0; i < 2 * rounds; i++) {
        for (int j = 0; j < 2; j++) {
            int build = (i / 2 + j) % 2;
            double a = now();
            uint32_t number = f(build, frames == NULL ? NULL : frames[i % 2]);
            double took = now() - a;
            if (number != 0) {
                fprintf(stderr, "%s: refused, %u\n", name, number);
                exit(1);
            }
            keep_least(&best[build], took);
        }
        expect_same(name);
    }
    printf("%s %.1f %.1f\n", name, best[0], best[1]);
}

int main(int argc, char **argv) {
    if (argc != 3) {
        fprintf(stderr, "usage: against MAP ROUNDS\n");
        return 2;
    }
    len = read_map(argv[1], map[0]);
    memcpy(map[1], map[0], len);
    int rounds = atoi(argv[2]);
    if (load(0, NULL) != 0 && load(1, NULL) == 0)
        return 0;
    measure("load", load, 50 * rounds, NULL);
    measure("fill", fill, rounds, NULL);
    /* the first drive of group 0 fails and comes back, then loses half of its weight and has it again */
    uint32_t drive = table[0][0], weight = weight_of(map[0], drive);
    char frames[4][CRUSH_FRAME + 1];
    snprintf(frames[0], sizeof frames[0], "21%04x%08x", drive & 0xffff, 0u);
    snprintf(frames[1], sizeof frames[1], "21%04x%08x", drive & 0xffff, 0x10000u);
    snprintf(frames[2], sizeof frames[2], "22%04x%08x", drive & 0xffff, weight / 2);
    snprintf(frames[3], sizeof frames[3], "22%04x%08x", drive & 0xffff, weight);
    measure("acceptance", edit, rounds, (const char *const[]){frames[0], frames[1]});
    measure("weight", edit, rounds, (const char *const[]){frames[2], frames[3]});
    return 0;
}
