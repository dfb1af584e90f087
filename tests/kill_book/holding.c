/* The answers of `book` and its file are held to the model's. */
#include "running.h"
#include <string.h>

static int is_after(const struct script *script, int changes, const struct text *found, int there) {
    if (changes == 0 && script->fresh) return !there;
    return changes <= script->changes && there && same(found, &script->file[changes]);
}

static int rest_of_line(const struct text *text, size_t at) {
    const char *end = memchr(text->bytes + at, '\n', text->length - at);
    return (int)(end ? end - text->bytes - (ssize_t)at : (ssize_t)(text->length - at));
}

int hold(const struct script *script, const struct text *heard, int *made) {
    static struct text found;
    int changes = answered_changes(script, heard->length), there = load(&found, file);
    if (heard->length > script->answers.length || (heard->length > 0 && memcmp(heard->bytes, script->answers.bytes, heard->length) != 0)) {
        size_t at = 0;
        while (at < heard->length && at < script->answers.length && heard->bytes[at] == script->answers.bytes[at]) at++;
        while (at > 0 && heard->bytes[at - 1] != '\n') at--;
        return wrong("answered: %.*s\nwanted: %.*s", rest_of_line(heard, at), heard->bytes + at, rest_of_line(&script->answers, at),
                     script->answers.bytes + at);
    }
    for (*made = changes; *made <= changes + 1; ++*made)
        if (is_after(script, *made, &found, there)) return 1;
    for (int other = 0; other <= script->changes; other++)
        if (is_after(script, other, &found, there)) return wrong("%d changes were answered, and the file has %d", changes, other);
    return wrong("%d changes were answered, and the file is no book of the run:\n%.*s", changes, there ? (int)found.length : 7,
                 there ? found.bytes : "missing");
}
