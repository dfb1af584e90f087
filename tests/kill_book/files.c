/* The files of the test: their names, the file that a run starts from, and which of them are there. */
#include "running.h"
#include <dirent.h>
#include <errno.h>
#include <stdio.h>
#include <stdlib.h>
#include <string.h>
#include <unistd.h>

char folder[4096], file[4200], file_new[4300], file_busy[4300], said[4200], said_first[4200];

int name_files(const char *in) {
    if (!realpath(in, folder)) return 0;
    snprintf(said, sizeof said, "%s.said", folder);
    snprintf(said_first, sizeof said_first, "%s.first", folder);
    snprintf(file, sizeof file, "%s/sheet.book", folder);
    snprintf(file_new, sizeof file_new, "%s.new", file);
    snprintf(file_busy, sizeof file_busy, "%s.busy", file);
    return 1;
}

int gone(const char *name) {
    return unlink(name) == 0 || errno == ENOENT;
}

int clear(void) {
    return (gone(file) && gone(file_new) && gone(file_busy)) || wrong("the folder cannot be cleared");
}

int lay(const struct script *script) {
    FILE *to;
    if (!clear()) return 0;
    if (script->fresh) return 1;
    to = fopen(file, "we");
    return (to && fwrite(script->file[0].bytes, 1, script->file[0].length, to) == script->file[0].length && fclose(to) == 0) ||
           wrong("the file cannot be written");
}

int none_left(void) {
    if (access(file_new, F_OK) == 0) return wrong("FILE.new is left");
    return access(file_busy, F_OK) != 0 || wrong("FILE.busy is left");
}

int only_ours(void) {
    DIR *list = opendir(folder);
    struct dirent *entry;
    int count = 0;
    if (!list) give_up("no folder");
    while ((entry = readdir(list))) {
        const char *name = entry->d_name;
        if (name[0] == '.' || strcmp(name, "sheet.book") == 0) continue;
        if (strcmp(name, "sheet.book.new") == 0 || strcmp(name, "sheet.book.busy") == 0) continue;
        count++, wrong("there is a file %s", name);
    }
    closedir(list);
    return count == 0;
}
