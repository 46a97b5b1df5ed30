#include "say.h"

#include <errno.h>
#include <limits.h>
#include <stdarg.h>
#include <stdio.h>

#define MOST_LINE (4 * PATH_MAX) /* a line names up to three files */

static struct voice voice;

void say_begin(const struct voice *it) {
    voice = *it;
}

/* The text of a format that may have %m. */
static void spell(char text[MOST_LINE], const char *format, va_list rest, int why) {
    errno = why;
    vsnprintf(text, MOST_LINE, format, rest);
}

static void put(void (*to)(const char *line), const char *format, va_list rest, int why) {
    char text[MOST_LINE];
    spell(text, format, rest, why);
    to(text);
}

static void put_of(void (*to)(const char *line), const char *name, const char *value, const char *format, va_list rest, int why) {
    char text[MOST_LINE], line[2 * MOST_LINE];
    spell(text, format, rest, why);
    snprintf(line, sizeof line, "%s%s%s%s: %s", voice.before, name, voice.between, value, text);
    to(line);
}

void say(const char *format, ...) {
    va_list rest;
    va_start(rest, format);
    put(voice.put, format, rest, errno);
    va_end(rest);
}

void note(const char *format, ...) {
    va_list rest;
    va_start(rest, format);
    put(voice.note, format, rest, errno);
    va_end(rest);
}

void say_of(const char *name, const char *value, const char *format, ...) {
    va_list rest;
    va_start(rest, format);
    put_of(voice.put, name, value, format, rest, errno);
    va_end(rest);
}

void note_of(const char *name, const char *value, const char *format, ...) {
    va_list rest;
    va_start(rest, format);
    put_of(voice.note, name, value, format, rest, errno);
    va_end(rest);
}

void say_expected(const char *name, const char *value, const char *format, ...) {
    char text[MOST_LINE];
    va_list rest;
    va_start(rest, format);
    spell(text, format, rest, errno);
    va_end(rest);
    say("%s%s: expected %s, got \"%s\"", voice.before, name, text, value);
}
