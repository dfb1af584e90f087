/* Runs every check, and ends with their count; a failed one is a line of its own and makes the exit status 1. */
#include "check.h"
#include <stdio.h>

static int checks, failed;

void same(const char *file, int line, const char *what, int64_t got, int64_t want) {
    checks++;
    if (got == want) return;
    failed++;
    printf("%s:%d: %s is %lld, not %lld\n", file, line, what, (long long)got, (long long)want);
}

void said(const char *file, int line, const char *what, const char *got, const char *want) {
    size_t i = 0;
    checks++;
    while (got[i] != 0 && got[i] == want[i]) i++;
    if (got[i] == want[i]) return;
    failed++;
    printf("%s:%d: %s is \"%s\", not \"%s\"\n", file, line, what, got, want);
}

void wrote(const char *file, int line, const char *what, const int32_t *out, const int32_t *want, size_t count) {
    checks++;
    for (size_t i = 0; i < count; i++) {
        if (out[i] == want[i]) continue;
        failed++;
        printf("%s:%d: %s[%zu] is %d, not %d\n", file, line, what, i, out[i], want[i]);
        return;
    }
}

int64_t in_one(const uint8_t passes[4]) {
    int64_t one = 0;
    for (size_t k = 0; k < 4; k++) one = 100 * one + passes[k];
    return one;
}

static int32_t lent(size_t i) {
    return 7000000 + (int32_t)i;
}

void lend(int32_t *out, size_t end) {
    for (size_t i = 0; i < end; i++) out[i] = lent(i);
}

void left(const char *file, int line, const char *what, const int32_t *out, size_t from, size_t end) {
    checks++;
    for (size_t i = from; i < end; i++) {
        if (out[i] == lent(i)) continue;
        failed++;
        printf("%s:%d: %s[%zu] was changed to %d\n", file, line, what, i, out[i]);
        return;
    }
}

uint32_t bits_of(float x) {
    union { float x; uint32_t bits; } both = {.x = x};
    return both.bits;
}

float float_of(uint32_t bits) {
    union { uint32_t bits; float x; } both = {.bits = bits};
    return both.x;
}

void parabola(int32_t *out, size_t corners) {
    for (size_t i = 0; i < corners; i++) {
        out[2 * i] = (int32_t)i;
        out[2 * i + 1] = (int32_t)(i * i);
    }
}

/* Half the edges of a quarter of the round outline, by rising slope; the other quarters are this one turned. */
static const int32_t edges[16][2] = {{6, 1}, {5, 1}, {4, 1}, {3, 1}, {5, 2}, {2, 1}, {3, 2}, {4, 3},
                                     {3, 4}, {2, 3}, {1, 2}, {2, 5}, {1, 3}, {1, 4}, {1, 5}, {1, 6}};

void round_outline(int32_t *out) {
    int32_t x = 0, y = 0;
    for (size_t i = 0; i < GERLYANTU_OUTLINE_CORNERS; i++) {
        const int32_t a = edges[i % 16][0], b = edges[i % 16][1];
        const int32_t turned[4][2] = {{a, b}, {-b, a}, {-a, -b}, {b, -a}};
        out[2 * i] = x;
        out[2 * i + 1] = y;
        x += 2 * turned[i / 16][0], y += 2 * turned[i / 16][1];
    }
}

int main(void) {
    check_words();
    check_millimetres();
    check_strokes();
    check_batches();
    check_corners();
    check_outlines();
    check_passes();
    check_drawings();
    check_books();
    check_no_books();
    check_listings();
    printf("linked: %d checks, %d failed\n", checks, failed);
    return failed == 0 ? 0 : 1;
}
