/* Document 01, with changes 1 to 8 of document 02, in plain C, sentence by sentence: what the engine is measured against. */
#include "plain.h"

#include <stdlib.h>
#include <string.h>

enum { DEVICES = 1024, BUCKETS = 256, BASE = 65536, CHILDREN = 64, STEPS = 16, PLACES = 32, HOLE = 0xffff, TRIES = 50, MOVE = 23, STATES = 8 };
enum { TAKE = 1, FIRST_N = 2, INDEPENDENT = 3, EMIT = 4, THROUGH = 5 };
enum { STRAW = 1, TREE = 2 };
enum { WRITTEN = 10 }; /* where a bucket's line has its weight */

struct step {
    uint32_t step, count, type, bucket;
};

struct bucket {
    uint32_t type, kind, weight, count;
    size_t line; /* where its line begins in the text */
    uint32_t items[CHILDREN], weights[CHILDREN];
    uint32_t root, nodes[2 * CHILDREN]; /* of a tree: the root's label, and the weight of each node by its label */
};

struct map {
    uint32_t groups, width, steps;
    uint32_t weight[DEVICES], acceptance[DEVICES];
    size_t line[DEVICES]; /* where the device's line begins in the text */
    uint8_t device[DEVICES], present[BUCKETS], weighed[BUCKETS];
    struct bucket buckets[BUCKETS];
    struct step rule[STEPS];
};

/* ---- the frames */

static int digit(uint8_t c) {
    if (c >= '0' && c <= '9')
        return c - '0';
    if (c >= 'a' && c <= 'f')
        return c - 'a' + 10;
    return -1;
}

static uint32_t field(const uint8_t *at, size_t digits) {
    uint32_t n = 0;
    for (size_t i = 0; i < digits; i++)
        n = n * 16 + (uint32_t)digit(at[i]);
    return n;
}

static void put_field(uint8_t *at, size_t digits, uint32_t n) {
    for (size_t i = digits; i > 0; i--, n /= 16)
        at[i - 1] = (uint8_t) "0123456789abcdef"[n % 16];
}

/* Digits of a frame, by its kind. */
static const size_t LENGTH[6] = {10, 22, 18, 14, 12, 6};

static uint32_t kind_of(const uint8_t *line) { return field(line, 2); }

static size_t next(const uint8_t *text, size_t at) { return at + LENGTH[kind_of(text + at)] + 1; }

static int is_child(uint32_t item) { return item < DEVICES || (item >= BASE && item < BASE + BUCKETS); }

static uint32_t type_of(const struct map *m, uint32_t item) { return item < BASE ? 0 : m->buckets[item - BASE].type; }

/* ---- the questions of load */

static int well_spelled(const uint8_t *text, size_t len) {
    if (len < 1 || len > 65536 || text[len - 1] != 10)
        return 0;
    for (size_t i = 0; i < len; i++)
        if (text[i] != 10 && digit(text[i]) < 0)
            return 0;
    return 1;
}

static int well_formed(const uint8_t *text, size_t len) {
    size_t start = 0;
    for (size_t i = 0; i < len; i++) {
        if (text[i] != 10)
            continue;
        if (i - start < 2 || kind_of(text + start) > 5 || LENGTH[kind_of(text + start)] != i - start)
            return 0;
        start = i + 1;
    }
    return 1;
}

static int in_order(const uint8_t *text, size_t len) {
    uint32_t last = 0;
    for (size_t at = 0; at < len; at = next(text, at)) {
        uint32_t kind = kind_of(text + at);
        if ((at == 0) != (kind == 0) || kind < last || (last == 5 && at > 0))
            return 0;
        last = kind;
    }
    return last == 5;
}

static int count_true(const uint8_t *text) {
    uint32_t frames = 0;
    size_t at = 0;
    for (; kind_of(text + at) != 5; at = next(text, at))
        frames++;
    return field(text + at + 2, 4) == frames;
}

static int step_ranged(const struct step *s) {
    switch (s->step) {
    case TAKE:
        return s->count == 0 && s->type == 0 && s->bucket < BUCKETS;
    case FIRST_N:
    case INDEPENDENT:
    case THROUGH:
        return s->count >= 1 && s->count <= 16 && s->type <= 254 && s->bucket == 0;
    case EMIT:
        return s->count == 0 && s->type == 0 && s->bucket == 0;
    default:
        return 0;
    }
}

static struct step step_of(const uint8_t *line) {
    struct step s = {field(line + 2, 2), field(line + 4, 2), field(line + 6, 2), field(line + 8, 4)};
    return s;
}

static int ranged(const uint8_t *text, size_t len) {
    for (size_t at = 0; at < len; at = next(text, at)) {
        const uint8_t *f = text + at;
        struct step s;
        switch (kind_of(f)) {
        case 0:
            if (field(f + 2, 8) < 1 || field(f + 2, 8) > 65536)
                return 0;
            break;
        case 1:
            if (field(f + 2, 4) >= DEVICES || field(f + 6, 8) > 65535 || field(f + 14, 8) > 65536)
                return 0;
            break;
        case 2:
            if (field(f + 2, 4) >= BUCKETS || field(f + 6, 2) < 1 || field(f + 8, 2) < STRAW || field(f + 8, 2) > TREE)
                return 0;
            break;
        case 3:
            if (field(f + 2, 4) >= BUCKETS || !is_child(field(f + 6, 8)))
                return 0;
            break;
        case 4:
            s = step_of(f);
            if (!step_ranged(&s))
                return 0;
            break;
        }
    }
    return 1;
}

static int rising(const uint8_t *text, size_t len) {
    int64_t device = -1, bucket = -1, pair = -1;
    for (size_t at = 0; at < len; at = next(text, at)) {
        const uint8_t *f = text + at;
        int64_t *last = NULL, now = 0;
        switch (kind_of(f)) {
        case 1:
            last = &device;
            now = field(f + 2, 4);
            break;
        case 2:
            last = &bucket;
            now = field(f + 2, 4);
            break;
        case 3:
            last = &pair;
            now = ((int64_t)field(f + 2, 4) << 32) + field(f + 6, 8);
            break;
        }
        if (last == NULL)
            continue;
        if (now <= *last)
            return 0;
        *last = now;
    }
    return 1;
}

static int is_present(const struct map *m, uint32_t item) { return item < BASE ? m->device[item] : m->present[item - BASE]; }

/* Question 22. */
static int filled(const struct map *m) {
    for (uint32_t b = 0; b < BUCKETS; b++)
        if (m->present[b] && m->buckets[b].count == 0)
            return 0;
    return 1;
}

/* Questions 7 to 10, and 22 behind 9; on the way the children go into their buckets. */
static uint32_t members(struct map *m, const uint8_t *text, size_t len) {
    static const uint8_t NONE[BASE + BUCKETS];
    static uint8_t seen[BASE + BUCKETS];
    uint32_t number = 0;
    memcpy(seen, NONE, DEVICES);
    memcpy(seen + BASE, NONE, BUCKETS);
    for (size_t at = 0; at < len; at = next(text, at)) {
        uint32_t kind = kind_of(text + at);
        if (kind == 3 && !(m->present[field(text + at + 2, 4)] && is_present(m, field(text + at + 6, 8))))
            return 7;
        if (kind == 4 && step_of(text + at).step == TAKE && !m->present[step_of(text + at).bucket])
            return 7;
    }
    for (size_t at = 0; at < len; at = next(text, at)) {
        if (kind_of(text + at) != 3)
            continue;
        struct bucket *b = &m->buckets[field(text + at + 2, 4)];
        uint32_t child = field(text + at + 6, 8);
        if (seen[child])
            return 8;
        seen[child] = 1;
        if (type_of(m, child) >= b->type)
            number = 9;
        if (b->count == CHILDREN) {
            if (number == 0)
                number = 10;
        } else {
            b->items[b->count++] = child;
        }
    }
    return number != 9 && !filled(m) ? 22 : number;
}

static int in_blocks(const struct map *m, uint32_t steps) {
    int inside = 0;
    uint32_t type = 0;
    if (steps < 1 || steps > STEPS)
        return 0;
    for (uint32_t i = 0; i < steps; i++) {
        const struct step *s = &m->rule[i];
        if (s->step == TAKE) {
            if (inside)
                return 0;
            inside = 1;
            type = m->buckets[s->bucket].type;
        } else if (s->step == EMIT) {
            if (!inside || type != 0)
                return 0;
            inside = 0;
        } else {
            if (!inside || s->type >= type)
                return 0;
            type = s->step == THROUGH ? 0 : s->type; /* it puts out devices */
        }
    }
    return !inside;
}

/* Question 21. */
static int through_typed(const struct map *m, uint32_t steps) {
    for (uint32_t i = 0; i < steps; i++)
        if (m->rule[i].step == THROUGH && m->rule[i].type == 0)
            return 0;
    return 1;
}

/* W, or 0 where a block or the sum is too wide. */
static uint32_t width_of(const struct map *m) {
    uint64_t width = 0, block = 1;
    for (uint32_t i = 0; i < m->steps; i++) {
        const struct step *s = &m->rule[i];
        if (s->step == TAKE) {
            block = 1;
        } else if (s->step == EMIT) {
            if (block > 16)
                return 0;
            width += block;
        } else {
            block *= s->count;
        }
    }
    return width > PLACES ? 0 : (uint32_t)width;
}

/* "Missing leaves weigh 0, a node as much as its leaves." */
static void weigh_nodes(struct bucket *b) {
    b->root = 1;
    while (b->root < b->count)
        b->root *= 2;
    for (uint32_t i = 0; i < b->root; i++)
        b->nodes[2 * i + 1] = i < b->count ? b->weights[i] : 0;
    for (uint32_t side = 1; side < b->root; side *= 2)
        for (uint32_t label = 2 * side; label < 2 * b->root; label += 4 * side)
            b->nodes[label] = b->nodes[label - side] + b->nodes[label + side];
}

/* "A bucket's weight is the sum of its children's weights, nested buckets included." */
static uint32_t weigh(struct map *m, uint32_t item) {
    if (item < BASE)
        return m->weight[item];
    struct bucket *b = &m->buckets[item - BASE];
    if (m->weighed[item - BASE])
        return b->weight;
    b->weight = 0;
    for (uint32_t i = 0; i < b->count; i++) {
        b->weights[i] = weigh(m, b->items[i]);
        b->weight += b->weights[i];
    }
    if (b->kind == TREE)
        weigh_nodes(b);
    m->weighed[item - BASE] = 1;
    return b->weight;
}

static void weigh_all(struct map *m) {
    memset(m->weighed, 0, sizeof m->weighed);
    for (uint32_t b = 0; b < BUCKETS; b++)
        if (m->present[b])
            weigh(m, BASE + b);
}

/* Question 23. */
static int written_true(const struct map *m, const uint8_t *text) {
    for (uint32_t b = 0; b < BUCKETS; b++)
        if (m->present[b] && field(text + m->buckets[b].line + WRITTEN, 8) != m->buckets[b].weight)
            return 0;
    return 1;
}

/* "A weight edit brings every bucket above the drive up to date": the others weigh what they weighed. */
static void write_weights(const struct map *m, uint8_t *text) {
    for (uint32_t b = 0; b < BUCKETS; b++)
        if (m->present[b])
            put_field(text + m->buckets[b].line + WRITTEN, 8, m->buckets[b].weight);
}

/* The map of a text, or the number of the first question answered no. */
static uint32_t read_map(struct map *m, const uint8_t *text, size_t len) {
    uint32_t steps = 0;
    uint64_t total = 0;
    if (!well_spelled(text, len))
        return 1;
    if (!well_formed(text, len))
        return 2;
    if (!in_order(text, len))
        return 3;
    if (!count_true(text))
        return 4;
    if (!ranged(text, len))
        return 5;
    if (!rising(text, len))
        return 6;
    memset(m->device, 0, sizeof m->device);
    memset(m->present, 0, sizeof m->present);
    for (size_t at = 0; at < len; at = next(text, at)) {
        const uint8_t *f = text + at;
        uint32_t n = field(f + 2, 4);
        switch (kind_of(f)) {
        case 0:
            m->groups = field(f + 2, 8);
            break;
        case 1:
            m->device[n] = 1;
            m->weight[n] = field(f + 6, 8);
            m->acceptance[n] = field(f + 14, 8);
            m->line[n] = at;
            total += m->weight[n];
            break;
        case 2:
            m->present[n] = 1;
            m->buckets[n].type = field(f + 6, 2);
            m->buckets[n].kind = field(f + 8, 2);
            m->buckets[n].count = 0;
            m->buckets[n].line = at;
            break;
        case 4:
            if (steps < STEPS)
                m->rule[steps] = step_of(f);
            steps++;
            break;
        }
    }
    uint32_t number = members(m, text, len);
    if (number != 0)
        return number;
    if (!in_blocks(m, steps))
        return 11;
    if (!through_typed(m, steps))
        return 21;
    m->steps = steps;
    m->width = width_of(m);
    if (m->width == 0)
        return 12;
    weigh_all(m);
    if (!written_true(m, text))
        return 23;
    if (total > 67107840)
        return 13;
    return 0;
}

/* ---- hash */

#define MIX(a, b, c)                                                                                                                                 \
    do {                                                                                                                                             \
        a = a - b - c;                                                                                                                               \
        a = a ^ (c >> 13);                                                                                                                           \
        b = b - c - a;                                                                                                                               \
        b = b ^ (a << 8);                                                                                                                            \
        c = c - a - b;                                                                                                                               \
        c = c ^ (b >> 13);                                                                                                                           \
        a = a - b - c;                                                                                                                               \
        a = a ^ (c >> 12);                                                                                                                           \
        b = b - c - a;                                                                                                                               \
        b = b ^ (a << 16);                                                                                                                           \
        c = c - a - b;                                                                                                                               \
        c = c ^ (b >> 5);                                                                                                                            \
        a = a - b - c;                                                                                                                               \
        a = a ^ (c >> 3);                                                                                                                            \
        b = b - c - a;                                                                                                                               \
        b = b ^ (a << 10);                                                                                                                           \
        c = c - a - b;                                                                                                                               \
        c = c ^ (b >> 15);                                                                                                                           \
    } while (0)

static const uint32_t SEED = 1315423911;

static uint32_t hash2(uint32_t p, uint32_t q) {
    uint32_t h = SEED ^ p ^ q, v = 231232, w = 1232;
    MIX(p, q, h);
    MIX(v, p, h);
    MIX(q, w, h);
    return h;
}

static uint32_t hash3(uint32_t p, uint32_t q, uint32_t s) {
    uint32_t h = SEED ^ p ^ q ^ s, v = 231232, w = 1232;
    MIX(p, q, h);
    MIX(s, v, h);
    MIX(w, p, h);
    MIX(q, v, h);
    MIX(w, s, h);
    return h;
}

static uint32_t hash4(uint32_t p, uint32_t q, uint32_t s, uint32_t z) {
    uint32_t h = SEED ^ p ^ q ^ s ^ z, v = 231232, w = 1232;
    MIX(p, q, h);
    MIX(s, z, h);
    MIX(p, v, h);
    MIX(w, q, h);
    MIX(s, v, h);
    MIX(w, z, h);
    return h;
}

/* ---- the draws */

static uint64_t log_of(uint64_t u) {
    uint64_t e = 63 - (uint64_t)__builtin_clzll(u);
    uint64_t m = (u << 31) >> e, digits = 0;
    for (int i = 0; i < 20; i++) {
        m = (m * m) >> 31;
        digits *= 2;
#ifdef BRANCHLESS
        /* the digit is as good as random: a branch on it is mispredicted half the time */
        uint64_t digit_found = m >> 32;
        digits += digit_found;
        m >>= digit_found;
#else
        if (m >= (uint64_t)1 << 32) {
            digits += 1;
            m /= 2;
        }
#endif
    }
    return (e << 20) + digits;
}

static int64_t draw_straw(const struct bucket *b, uint32_t x, uint32_t r) {
    int64_t winner = -1;
    uint64_t least = 0;
    for (uint32_t i = 0; i < b->count; i++) {
        if (b->weights[i] == 0)
            continue;
        uint64_t u = (uint64_t)hash3(x, b->items[i], r) + 1;
        uint64_t cost = ((uint64_t)32 << 20) - log_of(u);
        uint64_t key = (cost << 30) / b->weights[i];
        /* children rise by item number, so an equal key later on loses */
        if (winner < 0 || key < least) {
            winner = b->items[i];
            least = key;
        }
    }
    return winner;
}

/* "The walk turns left when floor(t x node weight / 2^32) is less than the left weight, otherwise right." */
static int64_t draw_tree(const struct bucket *b, uint32_t item, uint32_t x, uint32_t r) {
    if (b->weight == 0)
        return -1;
    uint32_t label = b->root;
    for (uint32_t side = b->root / 2; side > 0; side /= 2) {
        uint64_t t = hash4(x, label, r, item);
        uint32_t left = label - side, right = label + side;
        label = t * b->nodes[label] >> 32 < b->nodes[left] ? left : right;
    }
    return b->items[label / 2];
}

/* In the bucket with this item number: the winner's item number, or -1 for none. */
static int64_t draw(const struct map *m, uint32_t item, uint32_t x, uint32_t r) {
    const struct bucket *b = &m->buckets[item - BASE];
    return b->kind == TREE ? draw_tree(b, item, x, r) : draw_straw(b, x, r);
}

/* ---- walk, select and rule */

/* A group being placed, and what the blocks so far have emitted of its row. */
struct run {
    uint32_t group, emitted, tries;
    uint16_t *row;
};

static int holds(const uint32_t *list, uint32_t n, uint32_t item) {
    for (uint32_t i = 0; i < n; i++)
        if (list[i] == item)
            return 1;
    return 0;
}

/* "a device that an earlier block has emitted": a bucket's item number is above all that a row has. */
static int was_emitted(const struct run *run, uint32_t item) {
    for (uint32_t i = 0; i < run->emitted; i++)
        if (run->row[i] == item)
            return 1;
    return 0;
}

static int accepts(const struct map *m, uint32_t x, uint32_t item) {
    if (item >= BASE || m->acceptance[item] == 65536)
        return 1;
    return m->acceptance[item] != 0 && hash2(x, item) % 65536 < m->acceptance[item];
}

/* Draws from a bucket down to an item whose type is not above the wanted one: that item, or -1 for none; at is the bucket of the last draw. */
static int64_t descend(const struct map *m, uint32_t *at, uint32_t x, uint32_t r, uint32_t type) {
    for (;;) {
        int64_t item = draw(m, *at, x, r);
        if (item < 0 || type_of(m, (uint32_t)item) <= type)
            return item;
        *at = (uint32_t)item;
    }
}

/* "an independent inner walk looks for one device beneath it": the device, or HOLE; r is the r' that drew the item. */
static uint32_t find_beneath(const struct map *m, struct run *run, uint32_t count, uint32_t item, uint32_t r) {
    uint32_t at = item;
    for (uint32_t failures = 0; failures < TRIES;) {
        int64_t device = descend(m, &at, run->group, r + failures * count, 0);
        int held = device >= 0 && was_emitted(run, (uint32_t)device);
        run->tries++;
        if (device >= 0 && !held && accepts(m, run->group, (uint32_t)device))
            return (uint32_t)device;
        failures++;
        if (!held || failures >= 3)
            at = item;
    }
    return HOLE;
}

/* What the select puts out for an item that is not held, or HOLE where the test fails. */
static uint32_t tested(const struct map *m, struct run *run, const struct step *s, uint32_t item, uint32_t r) {
    if (s->step == THROUGH)
        return find_beneath(m, run, s->count, item, r);
    return accepts(m, run->group, item) ? item : HOLE;
}

/* Runs a select over the working list and leaves what it puts out there. */
static uint32_t select_items(const struct map *m, struct run *run, const struct step *s, uint32_t *list, uint32_t count) {
    uint32_t items[PLACES], out[PLACES], n = 0; /* what it holds, and what it puts out */
    for (uint32_t i = 0; i < count; i++) {
        uint32_t f = 0, start = list[i];
        if (start == HOLE) {
            for (uint32_t k = 0; k < s->count && s->step != FIRST_N; k++) {
                items[n] = HOLE;
                out[n++] = HOLE;
            }
            continue;
        }
        for (uint32_t r = 1; r <= s->count; r++) {
            uint32_t fr = 0, at = start;
            for (;;) {
                uint32_t attempt = s->step == FIRST_N ? r + f : r + fr * s->count;
                int held = 0;
                int64_t item = descend(m, &at, run->group, attempt, s->type);
                if (item >= 0 && type_of(m, (uint32_t)item) == s->type) {
                    held = holds(items, n, (uint32_t)item) || was_emitted(run, (uint32_t)item);
                    uint32_t found = held ? HOLE : tested(m, run, s, (uint32_t)item, attempt);
                    if (found != HOLE) {
                        run->tries++;
                        items[n] = (uint32_t)item;
                        out[n++] = found;
                        break;
                    }
                }
                fr++;
                f++;
                run->tries++;
                if (fr == TRIES) {
                    if (s->step != FIRST_N) {
                        items[n] = HOLE;
                        out[n++] = HOLE;
                    }
                    break;
                }
                if (!held || fr >= 3)
                    at = start;
            }
        }
    }
    memcpy(list, out, n * sizeof *out);
    return n;
}

/* The W places of group x; answers the tries. */
static uint32_t place_row(const struct map *m, uint32_t x, uint16_t *row) {
    struct run run = {x, 0, 0, row};
    uint32_t list[PLACES], count = 0;
    for (uint32_t i = 0; i < m->steps; i++) {
        const struct step *s = &m->rule[i];
        if (s->step == TAKE) {
            list[0] = BASE + s->bucket;
            count = 1;
        } else if (s->step == EMIT) {
            for (uint32_t k = 0; k < count; k++)
                row[run.emitted++] = (uint16_t)list[k];
        } else {
            count = select_items(m, &run, s, list, count);
        }
    }
    for (uint32_t i = run.emitted; i < m->width; i++)
        row[i] = HOLE;
    return run.tries;
}

static void fill_rows(const struct map *m, uint16_t *table) {
    for (uint32_t x = 0; x < m->groups; x++)
        place_row(m, x, table + (size_t)x * m->width);
}

/* ---- named states */

static uint32_t count_devices(const struct map *m) {
    uint32_t n = 0;
    for (uint32_t d = 0; d < DEVICES; d++)
        n += m->device[d];
    return n;
}

/* The word where state k begins: its name, then of each drive number, weight and acceptance. */
static size_t state_at(uint32_t devices, uint32_t k) { return 2 + (size_t)k * (1 + 3 * devices); }

static int state_fits(const struct map *m, const uint32_t *state) {
    if (state[0] > 65535)
        return 0;
    state++;
    for (uint32_t d = 0; d < DEVICES; d++) {
        if (!m->device[d])
            continue;
        if (state[0] != d || state[1] > 65535 || state[2] > 65536)
            return 0;
        state += 3;
    }
    return 1;
}

/* Which of the states from k on has the name, or how many there are. */
static uint32_t state_named(const uint32_t *states, uint32_t devices, uint32_t k, uint32_t name) {
    while (k < states[0] && states[state_at(devices, k)] != name)
        k++;
    return k;
}

static int states_fit(const struct map *m, const uint32_t *states) {
    uint32_t devices = count_devices(m);
    if (states[0] > STATES || (states[0] > 0 && states[1] != devices))
        return 0;
    for (uint32_t k = 0; k < states[0]; k++) {
        const uint32_t *state = states + state_at(devices, k);
        if (!state_fits(m, state) || state_named(states, devices, k + 1, state[0]) < states[0])
            return 0;
    }
    return 1;
}

/* ---- the calls */

uint32_t plain_load(const uint8_t *text, size_t len) {
    static struct map m;
    return read_map(&m, text, len);
}

struct plain_day plain_day_group(const uint8_t *text, size_t len, uint32_t show, uint32_t day) {
    static struct map m;
    struct plain_day r = {14, 0};
    if (read_map(&m, text, len) == 0) {
        r.number = 0;
        r.group = hash2(show, day) % m.groups;
    }
    return r;
}

struct plain_placing plain_place(const uint8_t *text, size_t len, uint32_t group, uint8_t *out, size_t out_len) {
    static struct map m;
    struct plain_placing r = {0, 0, 0};
    uint16_t row[PLACES];
    r.number = read_map(&m, text, len);
    if (r.number != 0)
        return r;
    if (group >= m.groups)
        r.number = 15;
    else if (out_len < 2 * (size_t)m.width)
        r.number = 16;
    if (r.number != 0)
        return r;
    r.tries = place_row(&m, group, row);
    r.places = m.width;
    for (uint32_t i = 0; i < m.width; i++) {
        out[2 * i] = (uint8_t)(row[i] / 256);
        out[2 * i + 1] = (uint8_t)(row[i] % 256);
    }
    return r;
}

uint32_t plain_fill(const uint8_t *text, size_t len, uint16_t *table, size_t table_len) {
    static struct map m;
    if (read_map(&m, text, len) != 0)
        return 14;
    if (table_len < (size_t)m.groups * m.width)
        return 16;
    fill_rows(&m, table);
    return 0;
}

static int independent(const struct map *m) {
    for (uint32_t i = 0; i < m->steps; i++)
        if (m->rule[i].step == FIRST_N)
            return 0;
    return 1;
}

/* Questions 14, 16 and 17, in their order; the states may be none. */
static uint32_t asked(struct map *m, const uint8_t *text, size_t len, const uint32_t *states, size_t table_len) {
    if (read_map(m, text, len) != 0 || (states != NULL && !states_fit(m, states)))
        return 14;
    if (table_len < (size_t)m->groups * m->width)
        return 16;
    return independent(m) ? 0 : 17;
}

static int has_device(const struct map *m, uint32_t device) { return device < DEVICES && m->device[device]; }

static int edit_formed(const uint8_t *frame, size_t len) {
    for (size_t i = 0; i < len; i++)
        if (digit(frame[i]) < 0)
            return 0;
    return len == 14 && (kind_of(frame) == 0x21 || kind_of(frame) == 0x22);
}

static void put_move(uint8_t *to, uint32_t group, uint32_t place, uint32_t old, uint32_t new) {
    put_field(to, 2, 0x13);
    put_field(to + 2, 8, group);
    put_field(to + 10, 2, place);
    put_field(to + 12, 4, old);
    put_field(to + 16, 4, new);
    put_field(to + 20, 2, 0);
    to[22] = 10;
}

static uint16_t *room_for(size_t places) {
    uint16_t *table = malloc(places * sizeof *table);
    if (table == NULL)
        abort();
    return table;
}

static int is_filled(const struct map *m, const uint16_t *table) {
    size_t places = (size_t)m->groups * m->width;
    uint16_t *fresh = room_for(places);
    fill_rows(m, fresh);
    int same = memcmp(fresh, table, places * sizeof *fresh) == 0;
    free(fresh);
    return same;
}

/* Fills the table of another map anew, and writes the moves; 20 where there is too little space. */
static struct plain_made refill(const struct map *m, uint16_t *table, uint8_t *space, size_t space_len) {
    struct plain_made r = {0, 0};
    size_t places = (size_t)m->groups * m->width;
    uint32_t moves = 0;
    uint16_t *fresh = room_for(places);
    fill_rows(m, fresh);
    for (size_t i = 0; i < places; i++)
        moves += fresh[i] != table[i];
    if (space_len / MOVE < moves) {
        free(fresh);
        r.number = 20;
        return r;
    }
    for (size_t i = 0, k = 0; i < places; i++)
        if (fresh[i] != table[i])
            put_move(space + MOVE * k++, (uint32_t)(i / m->width), (uint32_t)(i % m->width) + 1, table[i], fresh[i]);
    memcpy(table, fresh, places * sizeof *fresh);
    free(fresh);
    r.moves = moves;
    return r;
}

struct plain_made plain_edit(uint8_t *text, size_t len, uint16_t *table, size_t table_len, const uint8_t *frame, size_t frame_len, uint8_t *space,
                             size_t space_len) {
    static struct map m;
    struct plain_made r = {asked(&m, text, len, NULL, table_len), 0};
    if (r.number == 0 &&
        (!edit_formed(frame, frame_len) || !has_device(&m, field(frame + 2, 4)) || field(frame + 6, 8) > (kind_of(frame) == 0x21 ? 65536u : 65535u)))
        r.number = 18;
    if (r.number == 0 && !is_filled(&m, table))
        r.number = 19;
    if (r.number != 0)
        return r;
    uint32_t device = field(frame + 2, 4), value = field(frame + 6, 8);
    int weight = kind_of(frame) == 0x22;
    if (weight)
        m.weight[device] = value;
    else
        m.acceptance[device] = value;
    weigh_all(&m);
    r = refill(&m, table, space, space_len);
    if (r.number != 0)
        return r;
    put_field(text + m.line[device] + (weight ? 6 : 14), 8, value);
    write_weights(&m, text);
    return r;
}

uint32_t plain_store(const uint8_t *text, size_t len, uint32_t *states, uint16_t name) {
    static struct map m;
    if (read_map(&m, text, len) != 0 || !states_fit(&m, states))
        return 14;
    uint32_t devices = count_devices(&m), k = state_named(states, devices, 0, name);
    if (k == STATES)
        return 25;
    uint32_t *state = states + state_at(devices, k);
    *state++ = name;
    for (uint32_t d = 0; d < DEVICES; d++) {
        if (!m.device[d])
            continue;
        *state++ = d;
        *state++ = m.weight[d];
        *state++ = m.acceptance[d];
    }
    states[0] += k == states[0];
    states[1] = devices;
    return 0;
}

struct plain_made plain_return(uint8_t *text, size_t len, uint16_t *table, size_t table_len, const uint32_t *states, uint16_t name, uint8_t *space,
                               size_t space_len) {
    static struct map m;
    struct plain_made r = {asked(&m, text, len, states, table_len), 0};
    if (r.number != 0)
        return r;
    uint32_t devices = count_devices(&m), k = state_named(states, devices, 0, name);
    if (k == states[0])
        r.number = 24;
    else if (!is_filled(&m, table))
        r.number = 19;
    if (r.number != 0)
        return r;
    const uint32_t *drives = states + state_at(devices, k) + 1;
    for (uint32_t i = 0; i < devices; i++) {
        m.weight[drives[3 * i]] = drives[3 * i + 1];
        m.acceptance[drives[3 * i]] = drives[3 * i + 2];
    }
    weigh_all(&m);
    r = refill(&m, table, space, space_len);
    if (r.number != 0)
        return r;
    for (uint32_t i = 0; i < devices; i++) {
        uint8_t *line = text + m.line[drives[3 * i]];
        put_field(line + 6, 8, drives[3 * i + 1]);
        put_field(line + 14, 8, drives[3 * i + 2]);
    }
    write_weights(&m, text);
    return r;
}

/* How many rows of the table have the device. */
static uint32_t holders(const struct map *m, const uint16_t *table, uint32_t device) {
    uint32_t count = 0;
    for (uint32_t g = 0; g < m->groups; g++)
        for (uint32_t i = 0; i < m->width; i++)
            if (table[(size_t)g * m->width + i] == device) {
                count++;
                break;
            }
    return count;
}

struct plain_limit plain_ceiling(const uint8_t *text, size_t len, const uint16_t *table, size_t table_len, uint32_t device) {
    static struct map m;
    struct plain_limit r = {asked(&m, text, len, NULL, table_len), 0, 0};
    if (r.number == 0 && !has_device(&m, device))
        r.number = 18;
    if (r.number == 0 && !is_filled(&m, table))
        r.number = 19;
    if (r.number != 0)
        return r;
    r.groups = holders(&m, table, device);
    r.moves = m.width * r.groups;
    return r;
}
