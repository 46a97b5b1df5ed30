#include "generator.h"

uint64_t generator_of(uint64_t seed) {
    return seed * 2 + 1;
}

uint64_t next_random(uint64_t *state) {
    uint64_t x = *state;
    x ^= x >> 12;
    x ^= x << 25;
    x ^= x >> 27;
    *state = x;
    return x * UINT64_C(2685821657736338717);
}
