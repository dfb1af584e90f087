/* The words of each refusal, for every number that a refusal can have; and that the version's number and text are one. */
#include "check.h"

static const char *const words[] = {
    [0] = "done",
    [2] = "a number of the window is off the table",
    [3] = "the window has no area, or its corners are not a strictly convex ring",
    [4] = "there is no such side order: they are 0 to 23",
    [5] = "the list has a wrong length",
    [6] = "a grid number is off the table",
    [7] = "the outline is not strictly convex counterclockwise",
    [8] = "the output is too short: the place says how many numbers it needs",
    [9] = "a number of millimetres is not a number",
    [10] = "a number of millimetres is infinite or off the table",
    [11] = "not a drawing file, or damaged",
    [16] = "the strip shares area with one in the book",
    [17] = "none of the renter's slots is free for the strip",
    [18] = "the slot to release is not one of the renter's slots in use",
    [19] = "there is no such renter: they are 0 and 1",
    [23] = "not a strip book, or damaged",
};

/* "1.2.3" as 10203. */
static int64_t version_of(const char *text) {
    int64_t all = 0, part = 0;
    for (; *text != 0; text++) {
        if (*text == '.') {
            all = 100 * (all + part);
            part = 0;
        } else {
            part = 10 * part + (*text - '0');
        }
    }
    return all + part;
}

void check_words(void) {
    for (size_t number = 0; number <= UINT8_MAX; number++) {
        const bool known = number < sizeof words / sizeof words[0] && words[number] != NULL;
        SAID(gerlyantu_words((gerlyantu_refusal)number), known ? words[number] : "unknown refusal");
    }
    SAME(version_of("12.3.45"), 120345);
    SAME(version_of(GERLYANTU_VERSION_TEXT), GERLYANTU_VERSION);
}
