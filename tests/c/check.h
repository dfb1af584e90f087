/* What each file of checks uses: numbers compared and counted, outputs lent and looked at again. */
#include <gerlyantu.h>

/* The window of the worked examples. */
static const gerlyantu_window ten = {0, 0, 10, 10};

/* Counts one check; prints a line where got is not want. */
#define SAME(got, want) same(__FILE__, __LINE__, #got, (int64_t)(got), (int64_t)(want))
void same(const char *file, int line, const char *what, int64_t got, int64_t want);

/* Counts one check: the text got is the text want. */
#define SAID(got, want) said(__FILE__, __LINE__, #got, got, want)
void said(const char *file, int line, const char *what, const char *got, const char *want);

/* Counts one check: the first `count` numbers of out are those of want. */
#define WROTE(out, want, count) wrote(__FILE__, __LINE__, #out, out, want, count)
void wrote(const char *file, int line, const char *what, const int32_t *out, const int32_t *want, size_t count);

/* Counts one check: the numbers of out from `from` to `end` are as lend left them. */
#define LEFT(out, from, end) left(__FILE__, __LINE__, #out, out, from, end)
void left(const char *file, int line, const char *what, const int32_t *out, size_t from, size_t end);

/* The corners that four passes left as one number, two digits a pass: one check then tells all four. */
int64_t in_one(const uint8_t passes[4]);

/* Fills out with numbers that no call writes. */
void lend(int32_t *out, size_t end);

/* The bits of a float, so that every value, -0.0 and NaN too, is told from every other. */
uint32_t bits_of(float x);
float float_of(uint32_t bits);

/* A strictly convex outline: `corners` points of the parabola y = x * x, counterclockwise from (0, 0). */
void parabola(int32_t *out, size_t corners);

/* A strictly convex outline of 64 corners that goes all round, counterclockwise from (0, 0), its lowest; all its
 * numbers are even. */
void round_outline(int32_t *out);

void check_words(void);
void check_millimetres(void);
void check_strokes(void);
void check_batches(void);
void check_corners(void);
void check_outlines(void);
void check_passes(void);
void check_drawings(void);
void check_books(void);
void check_no_books(void);
void check_listings(void);
