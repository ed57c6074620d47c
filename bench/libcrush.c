/*
 * Measures the engine's fill and libcrush's mappings of all groups on one map, by turns.
 *
 * usage: libcrush MAP ROUNDS
 *
 * Two lines: the engine's and libcrush's nanoseconds, best of all rounds, and how many of their places are holes. No line for a map that libcrush
 * cannot have alike: one with trees, with two blocks, or with a first-n. The lists differ, since item numbers and logarithms do, so only their
 * lengths are looked at.
 *
 * libcrush's map is built here from the frames, once; fill reads them in its time.
 */
#define _POSIX_C_SOURCE 200809L
#include "common.h"

#include <crush/builder.h>
#include <crush/hash.h>
#include <crush/mapper.h>

enum { DEVICES = 1024, BUCKETS = 256, CHILDREN = 64, STEPS = 16, BASE = 65536, STRAW = 1, TRIES = 50 };
enum { TAKE = 1, INDEPENDENT = 3, EMIT = 4, THROUGH = 5 };

static uint8_t text[MOST];
static uint16_t table[PLACES];
static int lists[PLACES];
static __u32 acceptance[DEVICES];

static void fail(const char *what) {
    fprintf(stderr, "libcrush: %s\n", what);
    exit(1);
}

static const uint8_t *next(const uint8_t *line) { return (const uint8_t *)strchr((const char *)line, '\n') + 1; }

/* A device keeps its number, and bucket b is -1 - b. */
static int item_of(uint32_t number) { return number < BASE ? (int)number : -1 - (int)(number - BASE); }

static struct {
    int type, kind, size, items[CHILDREN], weights[CHILDREN];
} buckets[BUCKETS];

/* The drives and buckets of the frames, with their weights as they stand; 0 where there is a tree. The lines of the rule follow. */
static int take_items(struct crush_map *map, const uint8_t **line) {
    static int weights[DEVICES + BUCKETS];
    const uint8_t *at = text;
    for (at = next(at); field(at, 2) == 1; at = next(at)) {
        weights[field(at + 2, 4)] = (int)field(at + 6, 8);
        acceptance[field(at + 2, 4)] = field(at + 14, 8);
    }
    for (; field(at, 2) == 2; at = next(at)) {
        uint32_t b = field(at + 2, 4);
        buckets[b].type = (int)field(at + 6, 2);
        buckets[b].kind = (int)field(at + 8, 2);
        weights[DEVICES + b] = (int)field(at + 10, 8);
    }
    for (; field(at, 2) == 3; at = next(at)) {
        uint32_t b = field(at + 2, 4), child = field(at + 6, 8);
        buckets[b].weights[buckets[b].size] = weights[child < BASE ? child : DEVICES + child - BASE];
        buckets[b].items[buckets[b].size++] = item_of(child);
    }
    *line = at;
    for (int b = 0; b < BUCKETS; b++) {
        if (buckets[b].size == 0)
            continue;
        if (buckets[b].kind != STRAW)
            return 0;
        struct crush_bucket *bucket = crush_make_bucket(map, CRUSH_BUCKET_STRAW2, CRUSH_HASH_RJENKINS1, buckets[b].type, buckets[b].size,
                                                        buckets[b].items, buckets[b].weights);
        if (bucket == NULL || crush_add_bucket(map, -1 - b, bucket, NULL) != 0)
            fail("a bucket");
    }
    return 1;
}

/* The rule of the frames, with as many tries as document 01 has; its width, or 0 where it is none of libcrush's. */
static int take_rule(struct crush_map *map, const uint8_t *line) {
    /* its type, that of a pool, plays no part in a mapping */
    struct crush_rule *rule = crush_make_rule(STEPS + 2, 0);
    int width = 1, blocks = 0, steps = 0;
    if (rule == NULL)
        fail("the rule");
    crush_rule_set_step(rule, steps++, CRUSH_RULE_SET_CHOOSE_TRIES, TRIES, 0);
    /* of the inner walk too, to which libcrush would give one: it would pass over a dead cabinet at once, where change 1 tries fifty times */
    crush_rule_set_step(rule, steps++, CRUSH_RULE_SET_CHOOSELEAF_TRIES, TRIES, 0);
    for (; field(line, 2) == 4; line = next(line)) {
        int count = (int)field(line + 4, 2), type = (int)field(line + 6, 2);
        switch (field(line + 2, 2)) {
        case TAKE:
            crush_rule_set_step(rule, steps++, CRUSH_RULE_TAKE, item_of(BASE + field(line + 8, 4)), 0);
            blocks++;
            break;
        case INDEPENDENT:
            crush_rule_set_step(rule, steps++, CRUSH_RULE_CHOOSE_INDEP, count, type);
            width *= count;
            break;
        case THROUGH:
            crush_rule_set_step(rule, steps++, CRUSH_RULE_CHOOSELEAF_INDEP, count, type);
            width *= count;
            break;
        case EMIT:
            crush_rule_set_step(rule, steps++, CRUSH_RULE_EMIT, 0, 0);
            break;
        default:
            return 0;
        }
    }
    rule->len = (__u32)steps; /* those that are set */
    if (crush_add_rule(map, rule, 0) != 0)
        fail("the rule");
    return blocks == 1 ? width : 0;
}

int main(int argc, char **argv) {
    if (argc != 3) {
        fprintf(stderr, "usage: libcrush MAP ROUNDS\n");
        return 2;
    }
    size_t len = read_map(argv[1], text);
    if (crush_sizes_of(text, len).number != 0)
        fail("the map is refused");
    struct crush_map *map = crush_create();
    const uint8_t *line;
    if (map == NULL)
        fail("no map");
    int width = take_items(map, &line) ? take_rule(map, line) : 0;
    if (width == 0)
        return 0;
    crush_finalize(map);
    void *work = malloc(crush_work_size(map, width));
    if (work == NULL)
        fail("no workspace");
    int groups = (int)field(text + 2, 8);
    double engine = 0, theirs = 0;
    for (int i = 0; i < atoi(argv[2]); i++) {
        int whole = 0;
        double a = now();
        struct crush_filled filled = crush_fill(text, len, table, PLACES);
        keep_least(&engine, now() - a);
        if (filled.number != 0 || filled.places != (size_t)groups * (size_t)width)
            fail("the places of fill are off");
        double b = now();
        for (int x = 0; x < groups; x++) {
            /* for each mapping, as Ceph does */
            crush_init_workspace(map, work);
            whole += crush_do_rule(map, 0, x, lists + x * width, width, acceptance, DEVICES, work, NULL) == width;
        }
        keep_least(&theirs, now() - b);
        if (whole != groups)
            fail("a list of libcrush's is too short");
    }
    int holes = 0, their_holes = 0;
    for (int i = 0; i < groups * width; i++) {
        holes += table[i] == CRUSH_PLACE_HOLE;
        their_holes += lists[i] == CRUSH_ITEM_NONE;
    }
    printf("libcrush %.1f %.1f\nholes %d %d\n", engine, theirs, holes, their_holes);
    return 0;
}
