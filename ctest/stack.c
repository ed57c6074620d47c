/*
 * Makes every call on the deepest map there can be, 255 buckets one in another, each in a thread with the stack that crush_place.h asks for, and
 * prints how much of it was used: by a select down to a drive, and through the outermost and the innermost bucket below the one taken. The edits
 * part the two runs at the innermost bucket.
 */
#define _DEFAULT_SOURCE
#include "../include/crush_place.h"

#include <pthread.h>
#include <stdio.h>
#include <stdlib.h>
#include <string.h>
#include <sys/mman.h>

enum { LEVELS = 255, BASE = 65536, GROUPS = 8, PAGE = 4096, PAINT = 0xa5 };

static uint8_t map[CRUSH_MAP_MOST], copy[CRUSH_MAP_MOST];
static uint16_t table[GROUPS];
static uint8_t list[CRUSH_PLACE_MOST], moves[CRUSH_MOVE * GROUPS];
static uint32_t states[CRUSH_STATES];
static size_t len;
static unsigned lines;

static void line(const char *format, unsigned a, unsigned b, unsigned c) {
    len += (size_t)snprintf((char *)map + len, sizeof map - len, format, a, b, c);
    lines++;
}

/* Two drives in the innermost bucket, of type 1; bucket b is of type b + 1, every other a tree. The select is of this step and type. */
static void write_map(unsigned step, unsigned type) {
    len = 0;
    lines = 0;
    line("00%08x\n", GROUPS, 0, 0);
    line("01%04x%08x%08x\n", 0, 1, 65536);
    line("01%04x%08x%08x\n", 1, 1, 65536);
    /* each as heavy as both drives */
    for (unsigned b = 0; b < LEVELS; b++)
        line("02%04x%02x%02x00000002\n", b, b + 1, 1 + b % 2);
    line("03%04x%08x\n", 0, 0, 0);
    line("03%04x%08x\n", 0, 1, 0);
    for (unsigned b = 1; b < LEVELS; b++)
        line("03%04x%08x\n", b, BASE + b - 1, 0);
    line("04010000%04x\n", LEVELS - 1, 0, 0);
    line("04%02x01%02x0000\n", step, type, 0);
    line("040400000000\n", 0, 0, 0);
    line("05%04x\n", lines, 0, 0);
}

/* The calls, each answering whether it was answered right. */
static int is_sized(struct crush_sizes r) { return r.number == 0 && r.groups == GROUPS && r.places == 1; }

static int sizes_of(void) { return is_sized(crush_sizes_of(map, len)); }

static int load(void) { return is_sized(crush_load(map, len, states)); }

static int place(void) {
    struct crush_placing r = crush_place(map, len, GROUPS - 1, list, sizeof list);
    return r.number == 0 && r.places == 1 && r.tries > 0;
}

static int day_group(void) { return crush_day_group(map, len, 816, 20261115).number == 0; }

static int day_drives(void) { return crush_day_drives(map, len, 816, 20261115, list, sizeof list).places == 1; }

static int fill(void) { return crush_fill(map, len, table, GROUPS).places == GROUPS; }

static int ceiling(void) {
    struct crush_limit r = crush_ceiling(map, len, table, GROUPS, 0);
    return r.number == 0 && r.groups > 0;
}

static int write_out(void) { return crush_write(map, len, copy, sizeof copy).bytes == len; }

static int edit(const char *frame) {
    struct crush_edited r = crush_edit(map, len, table, GROUPS, (const uint8_t *)frame, CRUSH_FRAME, moves, sizeof moves);
    return r.number == 0 && r.moves > 0;
}

static int lower(void) { return edit("21000000000000"); }
static int raise_again(void) { return edit("21000000010000"); }
static int heavier(void) { return edit("2200000000ffff"); }
static int lighter(void) { return edit("22000000000001"); }

/* Both drives as they are, under the first name, and with one of them dead under the last. */
static int store(void) { return crush_store(map, len, states, 0) == 0; }
static int store_other(void) { return crush_store(map, len, states, 65535) == 0; }

static int return_to(uint16_t name) {
    struct crush_edited r = crush_return(map, len, table, GROUPS, states, name, moves, sizeof moves);
    return r.number == 0 && r.moves > 0;
}

static int back(void) { return return_to(0); }
static int forth(void) { return return_to(65535); }

static struct {
    const char *name;
    int (*function)(void);
    size_t stack, used; /* lent, and the most that was used */
} calls[] = {
    {"sizes_of", sizes_of, CRUSH_PLACE_STACK, 0},
    {"load", load, CRUSH_PLACE_STACK, 0},
    {"place", place, CRUSH_PLACE_STACK, 0},
    {"day_group", day_group, CRUSH_PLACE_STACK, 0},
    {"day_drives", day_drives, CRUSH_PLACE_STACK, 0},
    {"write", write_out, CRUSH_PLACE_STACK, 0},
    /* the table of these is the one that fill leaves */
    {"fill", fill, CRUSH_PLACE_STACK, 0},
    {"ceiling", ceiling, CRUSH_PLACE_STACK, 0},
    {"store", store, CRUSH_PLACE_STACK, 0},
    {"edit: acceptance lowered", lower, CRUSH_STACK, 0},
    {"store: a second name", store_other, CRUSH_PLACE_STACK, 0},
    {"return", back, CRUSH_STACK, 0},
    {"return: to the other", forth, CRUSH_STACK, 0},
    {"edit: acceptance raised", raise_again, CRUSH_STACK, 0},
    {"edit: weight raised", heavier, CRUSH_STACK, 0},
    {"edit: weight lowered", lighter, CRUSH_STACK, 0},
};

enum { CALLS = sizeof calls / sizeof calls[0] };

static void fail(const char *what) {
    perror(what);
    exit(2);
}

static void *run(void *function) { return (*(int (**)(void))function)() ? function : NULL; }

/* Makes a call on its stack, below which lies a page that nobody may touch. The stack is painted: where the paint is gone it was used. */
static int is_answered(size_t i) {
    size_t size = calls[i].stack, left = 0;
    pthread_attr_t attributes;
    pthread_t thread;
    void *right = NULL;
    uint8_t *memory = mmap(NULL, PAGE + size, PROT_READ | PROT_WRITE, MAP_PRIVATE | MAP_ANONYMOUS, -1, 0);
    if (memory == MAP_FAILED || mprotect(memory, PAGE, PROT_NONE) != 0)
        fail("mmap");
    memset(memory + PAGE, PAINT, size);
    if (pthread_attr_init(&attributes) != 0 || pthread_attr_setstack(&attributes, memory + PAGE, size) != 0)
        fail("the attributes");
    if (pthread_create(&thread, &attributes, run, &calls[i].function) != 0 || pthread_join(thread, &right) != 0)
        fail("a thread");
    while (memory[PAGE + left] == PAINT)
        left++;
    if (calls[i].used < size - left)
        calls[i].used = size - left;
    munmap(memory, PAGE + size);
    return right != NULL;
}

int main(void) {
    const unsigned selects[][2] = {{3, 0}, {5, LEVELS - 1}, {5, 1}};
    int ok = 1;
    for (size_t s = 0; s < sizeof selects / sizeof selects[0]; s++) {
        write_map(selects[s][0], selects[s][1]);
        for (size_t i = 0; i < CALLS; i++) {
            if (is_answered(i))
                continue;
            printf("%d levels, step %u of type %u: %s is not answered right\n", LEVELS, selects[s][0], selects[s][1], calls[i].name);
            ok = 0;
        }
    }
    for (size_t i = 0; i < CALLS; i++)
        printf("%d levels, %s: %zu of %zu bytes of stack\n", LEVELS, calls[i].name, calls[i].used, calls[i].stack);
    return ok ? 0 : 1;
}
