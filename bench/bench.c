/*
 * Measures the engine and plain C on one map, by turns, and compares what they give byte for byte.
 *
 * usage: bench fill MAP ROUNDS | all MAP ROUNDS | FRAME MAP ROUNDS, where FRAME is an edit
 *
 * A line for each call: its name, the engine's and plain C's nanoseconds, best of all rounds; for the edits and returns also how many places moved in
 * how many of them. Of an edit by its frame also the fills before and after it, and of returns those of both maps.
 */
#define _POSIX_C_SOURCE 200809L
#include "common.h"
#include "plain.h"

enum { CAUSE = 20 }; /* where in a move its cause stands */

static uint8_t map[MOST], map2[MOST], kept[MOST], space[SPACE], space2[SPACE];
static uint16_t table[PLACES], table2[PLACES], edited[PLACES];
static uint32_t states[CRUSH_STATES], states2[CRUSH_STATES];
static size_t len, places;
static uint32_t groups;

static void expect(int equal, const char *what) {
    if (equal)
        return;
    fprintf(stderr, "unequal: %s\n", what);
    exit(1);
}

struct pair {
    double engine, plain;
};

static void print_pair(const char *name, struct pair best) { printf("%s %.1f %.1f\n", name, best.engine, best.plain); }

static void load_once(struct pair *best) {
    double a = now();
    struct crush_sizes x = crush_sizes_of(map, len);
    double b = now();
    uint32_t y = plain_load(map, len);
    double c = now();
    expect(x.number == 0 && y == 0 && x.groups == groups, "load");
    keep_least(&best->engine, b - a);
    keep_least(&best->plain, c - b);
}

/* A call by the daemon's function; the group changes from round to round, and each is compared with its row. */
static void place_once(struct pair *best, uint32_t group) {
    uint8_t out[64], out2[64];
    double a = now();
    struct crush_placing x = crush_place(map, len, group, out, sizeof out);
    double b = now();
    struct plain_placing y = plain_place(map, len, group, out2, sizeof out2);
    double c = now();
    expect(x.number == 0 && y.number == 0 && x.places == y.places && x.tries == y.tries, "place: number, places or tries");
    expect(memcmp(out, out2, 2 * (size_t)x.places) == 0, "place: the list");
    for (uint32_t i = 0; i < x.places; i++)
        expect(table[(size_t)group * x.places + i] == out[2 * i] * 256 + out[2 * i + 1], "place: the row");
    keep_least(&best->engine, b - a);
    keep_least(&best->plain, c - b);
}

static void fill_once(struct pair *best) {
    memset(table, 0x5a, sizeof table);
    memset(table2, 0x5a, sizeof table2);
    double a = now();
    struct crush_filled x = crush_fill(map, len, table, PLACES);
    double b = now();
    uint32_t y = plain_fill(map, len, table2, PLACES);
    double c = now();
    expect(x.number == 0 && y == 0, "fill: number");
    places = x.places;
    expect(memcmp(table, table2, sizeof table) == 0, "fill: the table");
    keep_least(&best->engine, b - a);
    keep_least(&best->plain, c - b);
}

/* What an edit or a return answers and leaves; the moves are compared but for their causes, which plain C does not have. */
static void compare_moved(struct crush_edited x, struct plain_made y) {
    expect(x.number == 0 && y.number == 0 && x.moves == y.moves, "edit or return: number or moves");
    expect(memcmp(map, map2, len) == 0 && memcmp(table, table2, sizeof table) == 0, "edit or return: the map or the table");
    for (size_t i = 0; i < x.moves; i++)
        expect(memcmp(space + CRUSH_MOVE * i, space2 + CRUSH_MOVE * i, CAUSE) == 0, "edit or return: a move");
}

/* an edit, or where there is no frame a return to the name */
static uint32_t move_once(struct pair *best, const uint8_t *frame, uint16_t name) {
    memcpy(map2, map, len);
    memcpy(table2, table, sizeof table);
    double a = now();
    struct crush_edited x = frame ? crush_edit(map, len, table, PLACES, frame, CRUSH_FRAME, space, SPACE)
                                  : crush_return(map, len, table, PLACES, states, name, space, SPACE);
    double b = now();
    struct plain_made y = frame ? plain_edit(map2, len, table2, PLACES, frame, CRUSH_FRAME, space2, SPACE)
                                : plain_return(map2, len, table2, PLACES, states, name, space2, SPACE);
    double c = now();
    compare_moved(x, y);
    keep_least(&best->engine, b - a);
    keep_least(&best->plain, c - b);
    return x.moves;
}

static uint32_t edit_once(struct pair *best, const char *frame) { return move_once(best, (const uint8_t *)frame, 0); }

static uint32_t return_once(struct pair *best, uint16_t name) { return move_once(best, NULL, name); }

static void store_once(struct pair *best, uint16_t name) {
    memcpy(states2, states, sizeof states);
    double a = now();
    uint32_t x = crush_store(map, len, states, name);
    double b = now();
    uint32_t y = plain_store(map, len, states2, name);
    double c = now();
    expect(x == 0 && y == 0 && memcmp(states, states2, sizeof states) == 0, "store");
    keep_least(&best->engine, b - a);
    keep_least(&best->plain, c - b);
}

/* The ceiling of what an edit of a drive's acceptance moves. */
static void ceiling_once(struct pair *best, uint32_t drive) {
    double a = now();
    struct crush_limit x = crush_ceiling(map, len, table, PLACES, drive);
    double b = now();
    struct plain_limit y = plain_ceiling(map, len, table, PLACES, drive);
    double c = now();
    expect(x.number == 0 && y.number == 0 && x.groups == y.groups && x.moves == y.moves, "ceiling");
    keep_least(&best->engine, b - a);
    keep_least(&best->plain, c - b);
}

/* After an edit or a return the table has to be a fresh fill, which is timed too, so that both stand beside each other. */
static void fill_after(struct pair *fill) {
    memcpy(edited, table, places * sizeof *table);
    fill_once(fill);
    expect(memcmp(edited, table, places * sizeof *table) == 0, "edit or return: a fresh fill");
}

/* One value of a drive changed and set back, again and again: only few places move. */
static void edits(const char *name, int rounds, unsigned kind, uint32_t drive, uint32_t changed, uint32_t back, struct pair *fill) {
    struct pair best = {0, 0};
    uint32_t moves = 0;
    char frame[15];
    for (int i = 0; i < 2 * rounds; i++) {
        snprintf(frame, sizeof frame, "%02x%04x%08x", kind, drive & 0xffff, i % 2 == 0 ? changed : back);
        moves += edit_once(&best, frame);
        fill_after(fill);
    }
    print_pair(name, best);
    printf("moves-%s %u %d\n", name, moves, 2 * rounds);
}

static void print_sum(const char *word, const char *name, const struct pair both[2]) {
    printf("%s-%s %.1f %.1f\n", word, name, both[0].engine + both[1].engine, both[0].plain + both[1].plain);
}

/* Returns to another state and back to that of name 0, again and again: of both ways together the returns and the fills behind them. */
static void returns(const char *name, int rounds, uint16_t other) {
    struct pair best[2] = {{0, 0}, {0, 0}}, fills[2] = {{0, 0}, {0, 0}};
    uint32_t moves = 0;
    for (int i = 0; i < 2 * rounds; i++) {
        moves += return_once(&best[i % 2], i % 2 == 0 ? other : 0);
        fill_after(&fills[i % 2]);
    }
    print_sum("return", name, best);
    print_sum("fills", name, fills);
    printf("moves-return-%s %u %d\n", name, moves, 2 * rounds);
}

/* Stores where no state is stored, and of eight states the last; then returns between the map as it is and others. */
static void keep_states(int rounds) {
    struct pair empty = {0, 0}, eight = {0, 0};
    uint32_t some[2] = {table[0], table[places - 1]};
    for (int i = 0; i < 50 * rounds; i++) {
        expect(crush_load(map, len, states).number == 0, "load with states");
        store_once(&empty, 0);
    }
    for (uint16_t name = 1; name < CRUSH_STATES_MOST; name++)
        expect(crush_store(map, len, states, name) == 0, "store");
    for (int i = 0; i < 50 * rounds; i++)
        store_once(&eight, CRUSH_STATES_MOST - 1);
    print_pair("store-empty", empty);
    print_pair("store-eight", eight);
    /* in state 1 a drive of the first group is dead, and one of the last has half its weight; in state 2 every fourth drive has nearly all the
     * weight, so that most groups move */
    size_t drives = states[1];
    uint32_t *few = states + 2 + 1 + 3 * drives + 1, *all = few + 3 * drives + 1;
    for (size_t i = 0; i < drives; i++) {
        if (few[3 * i] == some[0])
            few[3 * i + 2] = 0;
        if (few[3 * i] == some[1])
            few[3 * i + 1] /= 2;
        all[3 * i + 1] = i % 4 == 0 ? 65535 : 1;
    }
    returns("few", rounds, 1);
    returns("none", rounds, 0);
    returns("all", rounds, 2);
}

/* One edit, of the same map again and again. */
static void one_edit(const char *frame, int rounds) {
    struct pair before = {0, 0}, edit = {0, 0}, after = {0, 0};
    uint32_t moves = 0;
    memcpy(kept, map, len);
    for (int i = 0; i < rounds; i++) {
        memcpy(map, kept, len);
        fill_once(&before);
        moves += edit_once(&edit, frame);
        fill_after(&after);
    }
    print_pair("before", before);
    print_pair("edit", edit);
    print_pair("after", after);
    printf("moves %u %d\n", moves, rounds);
}

static void take_map(const char *path) {
    len = read_map(path, map);
    struct crush_sizes sizes = crush_sizes_of(map, len);
    if (sizes.number != 0 || plain_load(map, len) != 0) {
        fprintf(stderr, "%s: refused, %u and %u\n", path, sizes.number, plain_load(map, len));
        exit(1);
    }
    groups = sizes.groups;
}

int main(int argc, char **argv) {
    struct pair load = {0, 0}, place = {0, 0}, fill = {0, 0}, ceiling = {0, 0};
    if (argc != 4 || (strcmp(argv[1], "fill") != 0 && strcmp(argv[1], "all") != 0 && strlen(argv[1]) != CRUSH_FRAME)) {
        fprintf(stderr, "usage: bench fill|all|FRAME MAP ROUNDS\n");
        return 2;
    }
    take_map(argv[2]);
    int rounds = atoi(argv[3]);
    if (strlen(argv[1]) == CRUSH_FRAME) {
        one_edit(argv[1], rounds);
        return 0;
    }
    for (int i = 0; i < rounds; i++)
        fill_once(&fill);
    if (strcmp(argv[1], "fill") == 0) {
        print_pair("fill", fill);
        return 0;
    }
    for (int i = 0; i < 50 * rounds; i++)
        load_once(&load);
    print_pair("load", load);
    for (int i = 0; i < 50 * rounds; i++)
        place_once(&place, (uint32_t)i * 101 % groups);
    print_pair("place", place);
    /* the first drive of group 0 fails and comes back, then loses half of its weight and has it again */
    uint32_t drive = table[0];
    expect(drive < 1024, "fill: group 0 begins with a drive");
    uint32_t weight = weight_of(map, drive);
    for (int i = 0; i < rounds; i++)
        ceiling_once(&ceiling, drive);
    print_pair("ceiling", ceiling);
    edits("acceptance", rounds, 0x21, drive, 0, 0x10000, &fill);
    edits("weight", rounds, 0x22, drive, weight / 2, weight, &fill);
    keep_states(rounds);
    print_pair("fill", fill);
    return 0;
}
