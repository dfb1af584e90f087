// From here on the program's code is what is counted: this file is linked before the tuned C, and the archive after it.
// The C library's own memset differs from machine to machine; with this one the counts do not.
#include "calls.h"

void counted_from(void) {}

typedef long long Two __attribute__((vector_size(16), aligned(1)));

__attribute__((no_builtin)) void *memset(void *to, int byte, usize n) {
    u8 *p = to, *end = p + n;
    Two two = { 0, 0 };
    for (int i = 0; i < 2; i++) two[i] = (long long)(0x0101010101010101ull * (u8)byte);
    // eight at a time, as a C library would
    for (; (usize)(end - p) >= 128; p += 128)
        for (int i = 0; i < 128; i += 16) *(Two *)(p + i) = two;
    for (; (usize)(end - p) >= 16; p += 16) *(Two *)p = two;
    for (; p < end; p++) *p = (u8)byte;
    return to;
}
