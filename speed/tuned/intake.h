// One millimetre number to the grid.
#ifndef INTAKE_H
#define INTAKE_H
#include "common.h"

union Bits { float f; u32 u; };

// Whether 32x falls on the table: also false for what is not a number.
static inline i32 taken(float y) { return y < 16383.5f && y > -16383.5f; }

// The whole number nearest to y, a half to the even one: from 2^23 to 2^24 an f32 counts in whole numbers.
static inline i32 nearest(float y) {
    union Bits b = { .f = y + 12582912.0f };
    return (i32)b.u - 0x4b400000;
}

#endif
