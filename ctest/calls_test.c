/*
 * Calls crush_sizes_of, crush_load, crush_fill, crush_edit, crush_store, crush_return, crush_write and crush_day_drives on the vectors of a file and
 * compares each answer with every byte of the memory lent, which is guarded; then the largest table, the most states, states damaged word by word,
 * maps of the most bytes, and what the header has beside calls.
 *
 * A line `map`, `table` or `states` of the file is what the calls behind it are lent, until the next such line or a call that writes it. In what is
 * spelled as text, digits stand for themselves, a comma for a newline and %xx for any other byte; a place has four digits; words are decimal, with
 * commas between, and the others hold nothing; "-" is nothing.
 *
 *   map TEXT                                                   table PLACES
 *   states WORDS                                               load NUMBER GROUPS PLACES
 *   fill ROOM NUMBER PLACES                                    write ROOM NUMBER BYTES
 *   edit FRAME ROOM NUMBER MOVES MAP TABLE TEXT                drives SHOW DAY ROOM NUMBER GROUP PLACES TRIES LIST
 *   return NAME ROOM NUMBER MOVES MAP TABLE TEXT               store NAME NUMBER STATES
 *
 * ROOM is of the space lent, in places for fill and in bytes else. What fill writes is the front of the table, what write does is the map. Behind
 * the moves of an edit or a return stand what it alters in the map and in the table, as POSITION=TEXT or POSITION=PLACE, separated by commas, and its
 * moves; behind the number of a store what it alters in the states, as POSITION=WORD. A load is two calls, with states and without.
 */
#define _DEFAULT_SOURCE
#include "../include/crush_place.h"
#include "guarded.h"

enum { PLACES = 8192, WORDS = 10, NUMBERS = 26 };

static uint8_t map[CRUSH_MAP_MOST + 1];
static uint16_t table[PLACES];
static uint32_t states[CRUSH_STATES];
static size_t map_len, table_len;
static unsigned long line_number;

static void bad_line(void) {
    fprintf(stderr, "bad line %lu\n", line_number);
    exit(2);
}

/* The bytes that a word spells as text. */
static size_t text_of(const char *word, uint8_t *to, size_t most) {
    size_t n = 0;
    if (strcmp(word, "-") == 0)
        return 0;
    for (; *word != '\0'; n++) {
        if (n == most)
            bad_line();
        if (*word == '%') {
            to[n] = (uint8_t)(digit(word[1]) * 16 + digit(word[2]));
            word += 3;
        } else {
            to[n] = *word == ',' ? '\n' : (uint8_t)*word;
            word++;
        }
    }
    return n;
}

static unsigned long number_of(const char *word) {
    char *end;
    unsigned long n = strtoul(word, &end, 10);
    if (*end != '\0')
        bad_line();
    return n;
}

/* Takes words of states, or what a call alters in them. */
static void take_states(char *word) {
    char *rest, *at;
    size_t position = 0;
    for (word = strtok_r(word, ",", &rest); word != NULL && *word != '-'; word = strtok_r(NULL, ",", &rest)) {
        unsigned long value = strtoul(word, &at, 10);
        if (*at == '=') {
            position = value;
            value = strtoul(at + 1, &at, 10);
        }
        if (*at != '\0' || position >= CRUSH_STATES || value > UINT32_MAX)
            bad_line();
        states[position++] = (uint32_t)value;
    }
}

/* The states, lent to a call that writes them. */
static uint32_t *states_lent(void) {
    uint8_t *words = guarded(sizeof states);
    memcpy(words, states, sizeof states);
    return (uint32_t *)words;
}

/* Whether a call left the states as they are now; they are given back. */
static int states_left(uint32_t *words) {
    int ok = holds((uint8_t *)words, sizeof states, states, sizeof states);
    give_back(words, sizeof states);
    return ok;
}

/* A call: its words, of which the first is its name; the number that it is to answer goes to `number`. Answers whether all is right. */
typedef int call(char **words, unsigned long *number);

static int load_once(char **words, unsigned long *number) {
    *number = number_of(words[1]);
    const uint8_t *frames = lent(map, map_len);
    uint32_t *kept = states_lent();
    struct crush_sizes r = crush_sizes_of(frames, map_len), s = crush_load(frames, map_len, kept);
    give_back(frames, map_len);
    if (*number == 0)
        states[0] = states[1] = 0;
    int ok = r.number == *number && r.groups == number_of(words[2]) && r.places == number_of(words[3]);
    return states_left(kept) && ok && s.number == r.number && s.groups == r.groups && s.places == r.places;
}

static int store_once(char **words, unsigned long *number) {
    *number = number_of(words[2]);
    const uint8_t *frames = lent(map, map_len);
    uint32_t *kept = states_lent();
    int ok = crush_store(frames, map_len, kept, (uint16_t)number_of(words[1])) == *number;
    give_back(frames, map_len);
    take_states(words[3]);
    return states_left(kept) && ok;
}

static int fill_once(char **words, unsigned long *number) {
    size_t bytes = sizeof *table * number_of(words[1]), places = number_of(words[3]);
    *number = number_of(words[2]);
    const uint8_t *frames = lent(map, map_len);
    uint8_t *space = guarded(bytes);
    struct crush_filled r = crush_fill(frames, map_len, (uint16_t *)space, number_of(words[1]));
    int ok = r.number == *number && r.places == places && places <= table_len && holds(space, bytes, table, sizeof *table * places);
    give_back(frames, map_len);
    give_back(space, bytes);
    return ok;
}

static int write_once(char **words, unsigned long *number) {
    size_t room = number_of(words[1]), bytes = number_of(words[3]);
    *number = number_of(words[2]);
    const uint8_t *frames = lent(map, map_len);
    uint8_t *space = guarded(room);
    struct crush_written r = crush_write(frames, map_len, space, room);
    int ok = r.number == *number && r.bytes == bytes && bytes <= map_len && holds(space, room, map, bytes);
    give_back(frames, map_len);
    give_back(space, room);
    return ok;
}

static int drives_once(char **words, unsigned long *number) {
    uint8_t list[CRUSH_PLACE_MOST];
    size_t room = number_of(words[3]), bytes = bytes_of(words[8], list);
    *number = number_of(words[4]);
    const uint8_t *frames = lent(map, map_len);
    uint8_t *space = guarded(room);
    struct crush_drives r = crush_day_drives(frames, map_len, (uint32_t)number_of(words[1]), (uint32_t)number_of(words[2]), space, room);
    int ok = r.number == *number && r.group == number_of(words[5]) && r.places == number_of(words[6]) && r.tries == number_of(words[7]);
    ok = ok && bytes == 2 * (size_t)r.places && holds(space, room, list, bytes);
    give_back(frames, map_len);
    give_back(space, room);
    return ok;
}

/* Puts what an edit or a return alters into the map and the table that it was lent. */
static void alter(char *in_map, char *in_table) {
    char *rest, *at;
    for (char *word = strtok_r(in_map, ",", &rest); word != NULL && *word != '-'; word = strtok_r(NULL, ",", &rest)) {
        size_t position = strtoul(word, &at, 10);
        if (*at != '=' || position + strlen(at + 1) > map_len)
            bad_line();
        memcpy(map + position, at + 1, strlen(at + 1));
    }
    for (char *word = strtok_r(in_table, ",", &rest); word != NULL && *word != '-'; word = strtok_r(NULL, ",", &rest)) {
        size_t position = strtoul(word, &at, 10);
        if (*at != '=' || position >= table_len || strlen(at + 1) != 4)
            bad_line();
        places_of(at + 1, table + position);
    }
}

/* An edit by its frame, or a return by its name. */
static int change_once(char **words, unsigned long *number, const uint8_t *frame, size_t frame_len) {
    static uint8_t written[CRUSH_MOVE * PLACES];
    size_t room = number_of(words[2]), bytes = text_of(words[7], written, sizeof written);
    *number = number_of(words[3]);
    uint8_t *frames = guarded(map_len), *space = guarded(room), *places = guarded(sizeof *table * table_len);
    const uint32_t *kept = lent(states, sizeof states);
    struct crush_edited r;
    memcpy(frames, map, map_len);
    memcpy(places, table, sizeof *table * table_len);
    if (frame != NULL)
        r = crush_edit(frames, map_len, (uint16_t *)places, table_len, frame, frame_len, space, room);
    else
        r = crush_return(frames, map_len, (uint16_t *)places, table_len, kept, (uint16_t)number_of(words[1]), space, room);
    alter(words[5], words[6]);
    int ok = r.number == *number && r.moves == number_of(words[4]) && bytes == CRUSH_MOVE * (size_t)r.moves;
    ok = ok && holds(frames, map_len, map, map_len) && holds(places, sizeof *table * table_len, table, sizeof *table * table_len);
    ok = ok && holds(space, room, written, bytes);
    give_back(frames, map_len);
    give_back(space, room);
    give_back(places, sizeof *table * table_len);
    give_back(kept, sizeof states);
    return ok;
}

static int edit_once(char **words, unsigned long *number) {
    uint8_t bytes[64];
    size_t len = text_of(words[1], bytes, sizeof bytes);
    const uint8_t *frame = lent(bytes, len);
    int ok = change_once(words, number, frame, len);
    give_back(frame, len);
    return ok;
}

static int return_once(char **words, unsigned long *number) { return change_once(words, number, NULL, 0); }

/* The numbers that load answers, a bit each: 13 is answered to no map. */
#define LOADED 0x00e01fffUL
#define BIT(number) (1UL << (number))

/* What the file calls; the vectors have each of these numbers, and no other. */
static struct {
    const char *name;
    int words;
    call *function;
    unsigned long numbers, answered[NUMBERS], wrong;
} calls[] = {
    {"load", 4, load_once, LOADED, {0}, 0},
    {"fill", 4, fill_once, BIT(0) | BIT(14) | BIT(16), {0}, 0},
    {"edit", 8, edit_once, BIT(0) | BIT(14) | BIT(16) | BIT(17) | BIT(18) | BIT(19) | BIT(20), {0}, 0},
    {"store", 4, store_once, BIT(0) | BIT(14) | BIT(25), {0}, 0},
    {"return", 8, return_once, BIT(0) | BIT(14) | BIT(16) | BIT(17) | BIT(19) | BIT(20) | BIT(24), {0}, 0},
    {"write", 4, write_once, BIT(0) | BIT(14) | BIT(16), {0}, 0},
    {"drives", 9, drives_once, LOADED | BIT(16), {0}, 0},
};

enum { CALLS = sizeof calls / sizeof calls[0] };

static void take_line(char **words, int count) {
    if (count == 2 && strcmp(words[0], "map") == 0) {
        map_len = text_of(words[1], map, sizeof map);
        return;
    }
    if (count == 2 && strcmp(words[0], "table") == 0) {
        if (strlen(words[1]) > 4 * PLACES)
            bad_line();
        table_len = places_of(words[1], table);
        return;
    }
    if (count == 2 && strcmp(words[0], "states") == 0) {
        memset(states, UNWRITTEN, sizeof states);
        take_states(words[1]);
        return;
    }
    for (size_t i = 0; i < CALLS; i++) {
        if (count != calls[i].words || strcmp(words[0], calls[i].name) != 0)
            continue;
        unsigned long number = 0;
        int ok = calls[i].function(words, &number);
        if (number >= NUMBERS)
            bad_line();
        calls[i].answered[number]++;
        if (!ok) {
            calls[i].wrong++;
            fprintf(stderr, "line %lu: %s, to be answered with %lu, is wrong\n", line_number, words[0], number);
        }
        return;
    }
    bad_line();
}

static void take_file(const char *name) {
    FILE *f = opened(name);
    char *line = NULL;
    size_t size = 0;
    while (getline(&line, &size, f) > 0) {
        char *words[WORDS], *rest;
        int count = 0;
        line_number++;
        for (char *word = strtok_r(line, " \n", &rest); word != NULL && count < WORDS; word = strtok_r(NULL, " \n", &rest))
            words[count++] = word;
        take_line(words, count);
    }
    free(line);
    fclose(f);
}

/* Prints the calls by number; whether none is wrong and none is missing. */
static int all_right(void) {
    int ok = 1;
    for (size_t i = 0; i < CALLS; i++) {
        unsigned long sum = 0;
        for (unsigned long n = 0; n < NUMBERS; n++)
            sum += calls[i].answered[n];
        printf("%s: %lu calls, %lu wrong; by number", calls[i].name, sum, calls[i].wrong);
        for (unsigned long n = 0; n < NUMBERS; n++) {
            if (calls[i].answered[n] != 0)
                printf(" %lu: %lu", n, calls[i].answered[n]);
            if ((calls[i].answered[n] != 0) != ((calls[i].numbers & BIT(n)) != 0)) {
                fprintf(stderr, "%s: the vectors have %lu calls with number %lu\n", calls[i].name, calls[i].answered[n], n);
                ok = 0;
            }
        }
        printf("\n");
        ok = ok && calls[i].wrong == 0;
    }
    return ok;
}

/* The text of a map of 65,536 groups of 32 places, in two blocks, over 64 drives; answers its length. */
static size_t write_largest(char *text, size_t most) {
    size_t len = (size_t)snprintf(text, most, "0000010000\n");
    for (unsigned drive = 0; drive < 64; drive++)
        len += (size_t)snprintf(text + len, most - len, "01%04x%08x00010000\n", drive, drive + 1);
    len += (size_t)snprintf(text + len, most - len, "0200000102%08x\n", 64 * 65 / 2);
    for (unsigned drive = 0; drive < 64; drive++)
        len += (size_t)snprintf(text + len, most - len, "030000%08x\n", drive);
    for (int block = 0; block < 2; block++)
        len += (size_t)snprintf(text + len, most - len, "040100000000\n040310000000\n040400000000\n");
    return len + (size_t)snprintf(text + len, most - len, "05%04x\n", 1 + 64 + 1 + 64 + 6);
}

/* The largest table: its rows are those of single calls, and a space too short by one place is refused and stays as it was. */
static int largest_is_right(void) {
    static char frames[8192];
    size_t len = write_largest(frames, sizeof frames), bytes = CRUSH_TABLE_MOST * sizeof(uint16_t);
    const uint8_t *text = lent(frames, len);
    uint8_t *space = guarded(bytes), list[CRUSH_PLACE_MOST];
    uint16_t *places = (uint16_t *)space;
    struct crush_sizes sizes = crush_sizes_of(text, len);
    int ok = sizes.number == 0 && (size_t)sizes.groups * sizes.places == CRUSH_TABLE_MOST;
    struct crush_filled r = crush_fill(text, len, places + 1, CRUSH_TABLE_MOST - 1);
    ok = ok && r.number == 16 && r.places == 0 && holds(space, bytes, list, 0);
    r = crush_fill(text, len, places, CRUSH_TABLE_MOST);
    ok = ok && r.number == 0 && r.places == CRUSH_TABLE_MOST && intact(space);
    for (uint32_t group = 0; ok && group < sizes.groups; group += 771) {
        ok = crush_place(text, len, group, list, sizeof list).places == sizes.places;
        for (size_t i = 0; ok && i < sizes.places; i++)
            ok = places[group * sizes.places + i] == list[2 * i] * 256 + list[2 * i + 1];
    }
    give_back(text, len);
    give_back(space, bytes);
    printf("the largest table: %s\n", ok ? "right" : "wrong");
    return ok;
}

enum { GROUPS = 4, WIDTH = 2, ROW = GROUPS * WIDTH, MOVES = CRUSH_MOVE * ROW, ROOT = 255, IN_BUCKET = 64, BASE = 65536 };

/* What the tests of states lend: a map of drives in buckets beneath a root, its table, and the states. */
static struct {
    char text[CRUSH_MAP_MOST];
    size_t len;
    uint16_t table[ROW];
    uint32_t *words;
    uint8_t moves[MOVES];
} own;

static void put_line(const char *format, unsigned a, unsigned b, unsigned c) {
    own.len += (size_t)snprintf(own.text + own.len, sizeof own.text - own.len, format, a, b, c);
}

/* Writes the map of drives of these numbers, all of weight 100, and fills its table. */
static int take_drives(const unsigned *drives, unsigned count) {
    unsigned buckets = (count + IN_BUCKET - 1) / IN_BUCKET;
    own.len = 0;
    put_line("00%08x\n", GROUPS, 0, 0);
    for (unsigned i = 0; i < count; i++)
        put_line("01%04x%08x00010000\n", drives[i], 100, 0);
    for (unsigned b = 0; b < buckets; b++)
        put_line("02%04x0101%08x\n", b, 100 * (count - b * IN_BUCKET < IN_BUCKET ? count - b * IN_BUCKET : IN_BUCKET), 0);
    put_line("02%04x0201%08x\n", ROOT, 100 * count, 0);
    for (unsigned i = 0; i < count; i++)
        put_line("03%04x%08x\n", i / IN_BUCKET, drives[i], 0);
    for (unsigned b = 0; b < buckets; b++)
        put_line("03%04x%08x\n", ROOT, BASE + b, 0);
    put_line("04010000%04x\n0403%02x000000\n040400000000\n", ROOT, WIDTH, 0);
    put_line("05%04x\n", 1 + 2 * count + 2 * buckets + 1 + 3, 0, 0);
    return crush_fill((uint8_t *)own.text, own.len, own.table, ROW).number == 0;
}

static uint32_t own_store(unsigned name) { return crush_store((uint8_t *)own.text, own.len, own.words, (uint16_t)name); }

static struct crush_edited own_return(unsigned name) {
    return crush_return((uint8_t *)own.text, own.len, own.table, ROW, own.words, (uint16_t)name, own.moves, MOVES);
}

static int own_edit(const char *frame) {
    return crush_edit((uint8_t *)own.text, own.len, own.table, ROW, (const uint8_t *)frame, CRUSH_FRAME, own.moves, MOVES).number == 0;
}

/* The words of a map of the most drives with the most states, to the last one: each is returned to, and a ninth is refused. */
static int most_states_are_right(void) {
    static char maps[CRUSH_STATES_MOST][CRUSH_MAP_MOST];
    static uint16_t tables[CRUSH_STATES_MOST][ROW];
    static uint32_t before[CRUSH_STATES];
    unsigned drives[1024], names[CRUSH_STATES_MOST] = {65535, 0, 1, 256, 255, 32768, 4660, 65534}, moved = 0;
    own.words = (uint32_t *)guarded(sizeof before);
    for (unsigned i = 0; i < 1024; i++)
        drives[i] = i;
    memset(before, UNWRITTEN, sizeof before);
    before[0] = before[1] = 0;
    int ok = take_drives(drives, 1024) && crush_load((uint8_t *)own.text, own.len, own.words).number == 0;
    ok = ok && memcmp(own.words, before, sizeof before) == 0;
    for (unsigned k = 0; ok && k < CRUSH_STATES_MOST; k++) {
        char frame[CRUSH_FRAME + 1];
        ok = own_store(names[k]) == 0 && own.words[0] == k + 1 && own.words[1] == 1024 && own.words[2 + k * 3073] == names[k];
        memcpy(maps[k], own.text, own.len);
        memcpy(tables[k], own.table, sizeof own.table);
        /* the next state is of other values: a drive of the first group dies, and the last gets another acceptance */
        snprintf(frame, sizeof frame, "21%04x00000000", own.table[0] & 0xffffu);
        ok = ok && own_edit(frame);
        snprintf(frame, sizeof frame, "2103ff%08x", k);
        ok = ok && own_edit(frame);
    }
    ok = ok && own.words[CRUSH_STATES - 3] == 1023 && own.words[CRUSH_STATES - 2] == 100 && own.words[CRUSH_STATES - 1] == CRUSH_STATES_MOST - 2;
    memcpy(before, own.words, sizeof before);
    ok = ok && own_store(2) == 25 && own_return(2).number == 24;
    for (unsigned i = 0; ok && i < 2 * CRUSH_STATES_MOST; i++) {
        unsigned k = i * 5 % CRUSH_STATES_MOST;
        struct crush_edited r = own_return(names[k]);
        moved += r.moves;
        ok = r.number == 0 && memcmp(own.text, maps[k], own.len) == 0 && memcmp(own.table, tables[k], sizeof own.table) == 0;
    }
    ok = ok && moved > 0 && memcmp(own.words, before, sizeof before) == 0 && intact((uint8_t *)own.words);
    give_back(own.words, sizeof before);
    printf("the most states: %s\n", ok ? "right" : "wrong");
    return ok;
}

/* The states that the damage is done to: of three drives, two. */
enum { DRIVES = 3, SIZE = 1 + 3 * DRIVES, USED = 2 + 2 * SIZE, FIRST = 500, SECOND = 7, THIRD = 9 };

/* What a word that is used says. */
enum part { COUNT, EACH, NAME, NUMBER, WEIGHT, ACCEPTANCE };

static enum part part_of(size_t at) {
    if (at < 2)
        return at == 0 ? COUNT : EACH;
    size_t in_state = (at - 2) % SIZE;
    return in_state == 0 ? NAME : (enum part)(NUMBER + (in_state - 1) % 3);
}

/* Whether the states are good with another value in that word. */
static int is_good(size_t at, uint32_t was, uint32_t value) {
    switch (part_of(at)) {
    case COUNT:
        return value <= 2; /* a third state would have a name of too many bits */
    case NAME:
        return value <= 65535 && value != (at == 2 ? SECOND : FIRST);
    case WEIGHT:
        return value <= 65535;
    case ACCEPTANCE:
        return value <= 65536;
    default:
        return value == was;
    }
}

/* A store and a return with the words as they are: refused with 14, by which nothing is altered, or taken. The words are left as they were. */
static int is_taken(int good) {
    static char text[CRUSH_MAP_MOST];
    static uint32_t words[CRUSH_STATES];
    uint16_t places[ROW];
    uint8_t space[MOVES];
    memcpy(text, own.text, own.len);
    memcpy(words, own.words, sizeof words);
    memcpy(places, own.table, sizeof places);
    memcpy(space, own.moves, sizeof space);
    uint32_t number = own_store(THIRD);
    int ok = number == (good ? 0 : 14);
    if (good) {
        /* a third state behind the others, or less; all else stays */
        size_t at = 2 + words[0] * SIZE;
        ok = ok && own.words[0] == words[0] + 1 && own.words[1] == DRIVES && own.words[at] == THIRD;
        memcpy(own.words, words, 2 * sizeof *words);
        memcpy(own.words + at, words + at, SIZE * sizeof *words);
    }
    ok = ok && memcmp(own.words, words, sizeof words) == 0 && intact((uint8_t *)own.words);
    struct crush_edited r = own_return(THIRD);
    ok = ok && r.number == (good ? 24 : 14) && r.moves == 0 && memcmp(own.words, words, sizeof words) == 0;
    return ok && memcmp(text, own.text, own.len) == 0 && memcmp(places, own.table, sizeof places) == 0 && memcmp(space, own.moves, sizeof space) == 0;
}

/* Each word of two states with other values, each free word too, and the states with other maps. */
static int damaged_are_refused(void) {
    static const struct {
        unsigned count, drives[DRIVES + 1];
    } others[] = {{2, {0, 1}}, {4, {0, 1, 3, 4}}, {4, {0, 1, 2, 3}}, {3, {0, 2, 3}}, {3, {0, 1, 4}}, {3, {1, 2, 4}}, {1, {0}}};
    const unsigned drives[DRIVES] = {0, 1, 3};
    size_t tried = 0, good = 0;
    own.words = (uint32_t *)guarded(CRUSH_STATES * sizeof(uint32_t));
    memset(own.moves, UNWRITTEN, sizeof own.moves);
    int ok = take_drives(drives, DRIVES) && crush_load((uint8_t *)own.text, own.len, own.words).number == 0;
    ok = ok && own_store(FIRST) == 0 && own_edit("22000100000007") && own_store(SECOND) == 0 && own.words[2 + SIZE] == SECOND;
    memset(own.moves, UNWRITTEN, sizeof own.moves);
    for (size_t at = 0; at < USED; at++) {
        uint32_t was = own.words[at];
        const uint32_t values[] = {was,      was + 1,   was - 1, was ^ 1, was * 2, was ^ 1u << 16, was ^ 1u << 31, 0,     1,     2,     3,
                                   4,        SECOND,    8,       THIRD,   10,      FIRST,          1024,           65535, 65536, 65537, 1u << 24,
                                   1u << 31, UINT32_MAX};
        for (size_t i = 0; i < sizeof values / sizeof values[0]; i++) {
            int taken = is_good(at, was, values[i]);
            /* the name that is then stored has to be a third one */
            if (part_of(at) == NAME && values[i] == THIRD)
                continue;
            own.words[at] = values[i];
            tried++;
            good += (size_t)taken;
            if (!is_taken(taken)) {
                fprintf(stderr, "states: word %zu is %u for %u\n", at, (unsigned)values[i], (unsigned)was);
                ok = 0;
            }
        }
        own.words[at] = was;
    }
    for (size_t at = USED; ok && at < CRUSH_STATES; at++) {
        uint32_t was = own.words[at];
        own.words[at] = at % 3 == 0 ? 0 : at % 3 == 1 ? UINT32_MAX : (uint32_t)at;
        ok = is_taken(1);
        own.words[at] = was;
    }
    for (size_t i = 0; i < sizeof others / sizeof others[0]; i++)
        ok = take_drives(others[i].drives, others[i].count) && is_taken(0) && ok;
    give_back(own.words, CRUSH_STATES * sizeof(uint32_t));
    printf("states with another word: %zu, %zu of them good, and each free word: %s\n", tried, good, ok ? "right" : "wrong");
    return ok && good > 0 && good < tried;
}

/* The same calls, by a caller that leaves something in the register above the name. */
uint32_t store_wide(const uint8_t *, size_t, uint32_t *, uint64_t) __asm__("crush_store");
struct crush_edited return_wide(uint8_t *, size_t, uint16_t *, size_t, const uint32_t *, uint64_t, uint8_t *, size_t) __asm__("crush_return");

static int names_are_of_16_bits(void) {
    const unsigned drives[1] = {0};
    const uint64_t above = 0xdeadbeef00000000u, wide = above | 0x12340000u | FIRST;
    own.words = (uint32_t *)guarded(CRUSH_STATES * sizeof(uint32_t));
    uint8_t *text = (uint8_t *)own.text;
    int ok = take_drives(drives, 1) && crush_load(text, own.len, own.words).number == 0;
    ok = ok && store_wide(text, own.len, own.words, wide) == 0 && own.words[0] == 1 && own.words[2] == FIRST;
    ok = ok && own_store(FIRST) == 0 && own.words[0] == 1 && own_return(FIRST).number == 0;
    ok = ok && return_wide(text, own.len, own.table, ROW, own.words, wide, own.moves, MOVES).number == 0;
    give_back(own.words, CRUSH_STATES * sizeof(uint32_t));
    printf("names of 16 bits, whatever is above them: %s\n", ok ? "right" : "wrong");
    return ok;
}

/* The first question is put to the length too: of the most bytes it is answered yes, and the second no, since one line is too long. */
static int longest_is_right(void) {
    static uint8_t text[4 * CRUSH_MAP_MOST];
    const size_t lengths[] = {CRUSH_MAP_MOST - 1, CRUSH_MAP_MOST, CRUSH_MAP_MOST + 1, sizeof text};
    int ok = 1;
    for (size_t i = 0; i < sizeof lengths / sizeof lengths[0]; i++) {
        size_t len = lengths[i];
        uint32_t number = len <= CRUSH_MAP_MOST ? 2 : 1;
        memset(text, '0', len - 1);
        text[len - 1] = '\n';
        const uint8_t *frames = lent(text, len);
        ok = ok && crush_sizes_of(frames, len).number == number && crush_day_drives(frames, len, 0, 0, text, len).number == number;
        ok = ok && crush_fill(frames, len, table, PLACES).number == 14 && crush_write(frames, len, text, len).number == 14;
        give_back(frames, len);
    }
    printf("maps of the most bytes: %s\n", ok ? "right" : "wrong");
    return ok;
}

/* Each number has a text of its own, and any other number one that is none of these. */
static int meanings_are_right(void) {
    const uint32_t others[] = {NUMBERS, 255, UINT32_MAX};
    int ok = 1;
    for (uint32_t a = 0; a < NUMBERS; a++) {
        ok = ok && crush_meaning(a) != NULL && *crush_meaning(a) != '\0';
        for (uint32_t b = 0; ok && b < a; b++)
            ok = strcmp(crush_meaning(a), crush_meaning(b)) != 0;
        for (size_t i = 0; ok && i < sizeof others / sizeof others[0]; i++)
            ok = crush_meaning(others[i]) != NULL && *crush_meaning(others[i]) != '\0' && strcmp(crush_meaning(a), crush_meaning(others[i])) != 0;
    }
    printf("the meanings of %d numbers: %s\n", NUMBERS, ok ? "right" : "wrong");
    return ok;
}

static int version_is_right(void) {
    printf("version %u, the header's is %u\n", (unsigned)crush_version(), (unsigned)CRUSH_VERSION);
    return crush_version() == CRUSH_VERSION;
}

int main(int argc, char **argv) {
    if (argc != 2) {
        fprintf(stderr, "usage: calls_test CALLS\n");
        return 2;
    }
    take_file(argv[1]);
    int ok = all_right();
    ok = largest_is_right() && ok;
    ok = most_states_are_right() && ok;
    ok = damaged_are_refused() && ok;
    ok = names_are_of_16_bits() && ok;
    ok = longest_is_right() && ok;
    ok = meanings_are_right() && ok;
    ok = version_is_right() && ok;
    return ok ? 0 : 1;
}
