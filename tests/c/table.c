/* The table of the strip book's checks, and books to begin with. */
#include "table.h"

int32_t memory[ALL], want[ALL], listed[ROOM + GUARD];
int32_t *const book = memory + GUARD;

size_t place_of(int32_t renter, int32_t slot) {
    return (size_t)(HALF * renter + slot);
}

void want_slot(size_t k, int32_t mark, gerlyantu_window w) {
    const int32_t numbers[SLOT] = {mark, w.left, w.bottom, w.right, w.top};
    for (size_t i = 0; i < SLOT; i++) want[GUARD + SLOT * k + i] = numbers[i];
}

void put_slot(size_t k, int32_t mark, gerlyantu_window w) {
    want_slot(k, mark, w);
    for (size_t i = SLOT * k; i < SLOT * (k + 1); i++) book[i] = want[GUARD + i];
}

void put_number(size_t i, int32_t number) {
    book[i] = want[GUARD + i] = number;
}

void start(void) {
    for (size_t i = 0; i < ALL; i++) memory[i] = want[i] = 1;
    for (size_t i = 0; i < NUMBERS; i++) put_number(i, 0);
}

gerlyantu_window square(size_t k) {
    const int32_t x = 10 * (int32_t)(k % 8), y = 10 * (int32_t)(k / 8);
    return STRIP(x, y, x + 10, y + 10);
}

void start_full(void) {
    start();
    for (size_t k = 0; k < SLOTS; k++) put_slot(k, 1, square(k));
}
