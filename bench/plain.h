/* The engine's calls in plain C, for the benchmark to measure and compare with. */
#ifndef PLAIN_H
#define PLAIN_H

#include <stddef.h>
#include <stdint.h>

struct plain_placing {
    uint32_t number, places, tries;
};

struct plain_day {
    uint32_t number, group;
};

struct plain_made {
    uint32_t number, moves;
};

struct plain_limit {
    uint32_t number, groups, moves;
};

uint32_t plain_load(const uint8_t *text, size_t len);
struct plain_placing plain_place(const uint8_t *text, size_t len, uint32_t group, uint8_t *out, size_t out_len);
struct plain_day plain_day_group(const uint8_t *text, size_t len, uint32_t show, uint32_t day);
uint32_t plain_fill(const uint8_t *text, size_t len, uint16_t *table, size_t table_len);
/* The moves have 00 where the engine has the cause: plain C fills twice and compares, and does not look where the walks part. */
struct plain_made plain_edit(uint8_t *text, size_t len, uint16_t *table, size_t table_len, const uint8_t *frame, size_t frame_len, uint8_t *space,
                             size_t space_len);
/* States are the words that the engine takes; a return's moves have 00 too. */
uint32_t plain_store(const uint8_t *text, size_t len, uint32_t *states, uint16_t name);
struct plain_made plain_return(uint8_t *text, size_t len, uint16_t *table, size_t table_len, const uint32_t *states, uint16_t name, uint8_t *space,
                               size_t space_len);
struct plain_limit plain_ceiling(const uint8_t *text, size_t len, const uint16_t *table, size_t table_len, uint32_t device);

#endif
