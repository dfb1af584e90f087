/* Reads a drawing on standard input, cuts it to its strip and prints the strip's job list, as the program listing does. The status is 1 where it
 * could not read, the drawing is refused, or it could not write; standard error says which. */
#include <gerlyantu.h>
#include <signal.h>
#include <stdio.h>

/* One byte more than a drawing may have, so that a longer one is seen to be. */
static uint8_t drawing[GERLYANTU_DRAWING_BYTES + 1];
static int32_t strokes[GERLYANTU_DRAWING_ROOM];
static int32_t rows[GERLYANTU_BATCH_ROOM];

/* Says on standard error what could not be done, and the system's reason. */
static int fail(const char *what) {
    perror(what);
    return 1;
}

/* Some writes fail only when the output is closed. */
static int finish(bool printed, int status) {
    return printed && fclose(stdout) == 0 ? status : fail("could not write");
}

static int refuse(gerlyantu_refusal number, size_t place) {
    fprintf(stderr, "refused %u place %zu: %s\n", (unsigned)number, place, gerlyantu_words(number));
    return finish(printf("refused %u place %zu\n", (unsigned)number, place) >= 0, 1);
}

static bool print_listing(gerlyantu_window strip, size_t kept, size_t drawn) {
    if (printf("strip %d %d %d %d\n", strip.left, strip.bottom, strip.right, strip.top) < 0) return false;
    for (size_t i = 0; i < kept; i++) {
        const int32_t *row = rows + GERLYANTU_BATCH_PER_STROKE * i;
        if (printf("%d %d %d %d %d\n", row[0], row[1], row[2], row[3], row[4]) < 0) return false;
    }
    return printf("kept %zu of %zu\n", kept, drawn) >= 0;
}

int main(void) {
    /* A pipe that nobody reads any more is then a write that fails. */
    signal(SIGPIPE, SIG_IGN);
    size_t length = fread(drawing, 1, sizeof drawing, stdin);
    if (ferror(stdin)) return fail("could not read");
    gerlyantu_drawing_answer read = gerlyantu_read_drawing(drawing, length, strokes, GERLYANTU_DRAWING_ROOM);
    if (read.number != GERLYANTU_DONE) return refuse(read.number, read.place);
    gerlyantu_answer cut = gerlyantu_batch(read.window, strokes, GERLYANTU_DRAWING_PER_STROKE * read.count, rows, GERLYANTU_BATCH_ROOM);
    if (cut.number != GERLYANTU_DONE) return refuse(cut.number, cut.place);
    return finish(print_listing(read.window, cut.count / GERLYANTU_BATCH_PER_STROKE, read.count), 0);
}
