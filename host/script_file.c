#include "script.h"

#include "say.h"
#include "words.h"

#include <inttypes.h>
#include <stdio.h>
#include <stdlib.h>
#include <string.h>

#define MOST_BYTES (1u << 20) /* of a file */

struct line *script_add(struct script *script) {
    return script->count < MOST_LINES ? &script->lines[script->count++] : NULL;
}

void script_note(struct script *script, const struct line *line) {
    for (unsigned at = 0; at < line->count; at++)
        script->events |= UINT64_C(1) << line->events[at].kind;
}

/* The bytes of a file, and how many there are; NULL after it has printed why there are none. */
static char *bytes_of(const char *path, size_t *count) {
    char *bytes = malloc(MOST_BYTES + 1);
    FILE *file = bytes ? fopen(path, "rb") : NULL;
    *count = file ? fread(bytes, 1, MOST_BYTES + 1, file) : 0;
    bool is_read = file && !ferror(file) && *count <= MOST_BYTES;
    if (!is_read && *count > MOST_BYTES)
        say("%s: a script has at most %u bytes", path, MOST_BYTES);
    else if (!is_read)
        say("%s: it can't be read: %m", path);
    if (file)
        fclose(file);
    if (is_read)
        return bytes;
    free(bytes);
    return NULL;
}

/* Adds one line of a file, if it is right and is not empty. `statement` counts those that are not empty. */
static int read_line(struct script *script, struct words *words, unsigned server, unsigned *statement) {
    if (!words->count)
        return 0;
    struct line *line = script_add(script);
    if (!line) {
        words_expected(words, "at most %d lines with those of options", MOST_LINES);
        return -1;
    }
    if (line_take(line, words, server, ++*statement)) {
        script_note(script, line);
        return 0;
    }
    script->count--;
    return -1;
}

static int read_lines(struct script *script, unsigned server, const char *at, const char *end) {
    static struct words words;
    unsigned statement = 0;
    int wrong = 0;
    for (unsigned row = 1; at < end; row++) {
        const char *stop = memchr(at, '\n', (size_t)(end - at));
        size_t length = (size_t)((stop ? stop : end) - at);
        if (!words_split(&words, script->path, row, at, length) || read_line(script, &words, server, &statement))
            wrong = -1;
        at += length + 1;
    }
    return wrong;
}

int script_read(struct script *script, const char *path, unsigned server) {
    size_t count = 0;
    char *bytes = bytes_of(path, &count);
    if (!bytes)
        return -1;
    snprintf(script->path, sizeof script->path, "%s", path);
    int wrong = read_lines(script, server, bytes, bytes + count);
    free(bytes);
    return wrong;
}

int script_complete(const struct script *script, uint64_t sectors) {
    int wrong = 0;
    for (unsigned at = 0; at < script->count; at++) {
        const struct line *line = &script->lines[at];
        if (!line->has_sectors || line->last_lba < sectors)
            continue;
        wrong = -1;
        char value[32];
        snprintf(value, sizeof value, "%" PRIu64 "..", line->last_lba);
        if (line->row)
            say("%s:%u: sector %" PRIu64 ": the disk has %" PRIu64 " sectors", script->path, line->row, line->last_lba, sectors);
        else
            say_of(event_rows[line->events[0].kind].name, value, "the disk has %" PRIu64 " sectors", sectors);
    }
    return wrong;
}

int script_check(const char *path, unsigned server) {
    static struct script script;
    char text[MOST_PRINTED];
    script.count = 0;
    int wrong = script_read(&script, path, server);
    for (unsigned at = 0; !wrong && at < script.count; at++) {
        line_print(&script.lines[at], text);
        puts(text);
    }
    return wrong ? 2 : 0;
}
