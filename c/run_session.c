// A small program for the C entry: runs the session in a file, or on standard input, and prints its answers.
#include <errno.h>
#include <stdbool.h>
#include <stdio.h>
#include <stdlib.h>
#include <string.h>

#include "monitor.h"

struct bytes {
    uint8_t *at;
    size_t len;
};

static bool failed(const char *what) {
    fprintf(stderr, "run_session: %s: %s\n", what, strerror(errno));
    return false;
}

// Makes room for twice as many bytes, and for MONITOR_TEXT_BYTES at first.
static bool grow(struct bytes *text, size_t *room) {
    size_t more = *room == 0 ? MONITOR_TEXT_BYTES : 2 * *room;
    uint8_t *at = realloc(text->at, more);
    if (at == NULL) {
        return failed("the text");
    }
    text->at = at;
    *room = more;
    return true;
}

// Reads the file to its end. There is room behind the text then, so its pointer is not null even where the file is empty.
static bool read_whole(FILE *file, const char *name, struct bytes *text) {
    size_t room = 0;
    do {
        if (text->len == room && !grow(text, &room)) {
            return false;
        }
        text->len += fread(text->at + text->len, 1, room - text->len, file);
    } while (text->len == room);
    return !ferror(file) || failed(name);
}

static bool read_named(const char *name, struct bytes *text) {
    FILE *file = fopen(name, "rb");
    if (file == NULL) {
        return failed(name);
    }
    bool is_read = read_whole(file, name, text);
    fclose(file);
    return is_read;
}

// Asks for the length that the answers need, and then for the answers in a space of that length.
static bool answer(const struct bytes *text, struct bytes *answers) {
    uint8_t none = 0;
    answers->len = monitor_session(text->at, text->len, &none, 0);
    answers->at = calloc(answers->len + 1, 1);
    if (answers->at == NULL) {
        return failed("the answers");
    }
    monitor_session(text->at, text->len, answers->at, answers->len);
    return true;
}

static bool print(const struct bytes *answers) {
    bool is_written = fwrite(answers->at, 1, answers->len, stdout) == answers->len;
    return (is_written && fflush(stdout) == 0) || failed("standard output");
}

int main(int argc, char **argv) {
    if (argc > 2) {
        fputs("usage: run_session [FILE]\n", stderr);
        return 1;
    }
    struct bytes text = {NULL, 0};
    struct bytes answers = {NULL, 0};
    bool is_read = argc == 2 ? read_named(argv[1], &text) : read_whole(stdin, "standard input", &text);
    bool is_done = is_read && answer(&text, &answers) && print(&answers);
    free(answers.at);
    free(text.at);
    return is_done ? 0 : 1;
}
