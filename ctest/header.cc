// The header serves C++ too: its calls link, and each answer is a struct, also crush_sizes, which a call of that name would hide.
#include "../include/crush_place.h"

#include <cstdio>
#include <cstring>

int main() {
    const char *map = "0000000002\n0100000000000100010000\n020000010100000001\n03000000000000\n040100000000\n040302000000\n040400000000\n050007\n";
    const auto *frames = reinterpret_cast<const uint8_t *>(map);
    const std::size_t len = std::strlen(map);
    crush_sizes sizes = crush_sizes_of(frames, len);
    static uint32_t states[CRUSH_STATES];
    crush_sizes loaded = crush_load(frames, len, states);
    uint32_t stored = crush_store(frames, len, states, 1);
    uint8_t own[256], moves[CRUSH_MOVE];
    uint16_t table[4];
    std::memcpy(own, frames, len);
    crush_filled filled = crush_fill(own, len, table, 4);
    crush_edited returned = crush_return(own, len, table, 4, states, 1, moves, sizeof moves);
    std::printf("C++: %u groups of %u places; %s; version %u\n", sizes.groups, sizes.places, crush_meaning(sizes.number), crush_version());
    bool kept = loaded.number == 0 && stored == 0 && states[0] == 1 && filled.number == 0 && returned.number == 0 && returned.moves == 0;
    return sizes.number == 0 && sizes.groups == 2 && sizes.places == 2 && kept && crush_version() == CRUSH_VERSION ? 0 : 1;
}
