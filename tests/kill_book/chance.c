/* Random numbers, drawn from a seed so that a run can be had again, and the time. */
#include "small.h"
#include <stdint.h>
#include <time.h>

static uint64_t seed, state;

void set_seed(unsigned long long number) {
    seed = number;
}

unsigned long long the_seed(void) {
    return seed;
}

/* By xorshift64*. */
long long below(long long limit) {
    state ^= state >> 12;
    state ^= state << 25;
    state ^= state >> 27;
    return (long long)((state * 2685821657736338717ULL >> 11) % (uint64_t)limit);
}

void draw_for(int run) {
    state = (seed * 2 + 1) * 0x9E3779B97F4A7C15ULL + (uint64_t)run * 0xD1B54A32D192ED03ULL;
    if (state == 0) state = 1;
    for (int i = 0; i < 8; i++) below(2);
}

long long now(void) {
    struct timespec time;
    clock_gettime(CLOCK_MONOTONIC, &time);
    return time.tv_sec * 1000000000LL + time.tv_nsec;
}
