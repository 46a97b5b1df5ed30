#include "words.h"

#include "say.h"

#include <ctype.h>
#include <stdarg.h>
#include <stdio.h>
#include <string.h>

#define MOST_GOT 40 /* characters of a word that are shown */

static bool is_blank(char it) {
    return it == ' ' || it == '\t' || it == '\r';
}

/* Whether all bytes are characters of a text: ASCII, or a part of UTF-8 in a comment. It prints where the first one is that is not. */
static bool is_text(const struct words *words, const char *line, size_t length) {
    bool in_comment = false;
    for (size_t at = 0; at < length; at++) {
        unsigned char it = (unsigned char)line[at];
        in_comment |= it == '#';
        if (is_blank(line[at]) || isprint(it) || (in_comment && it >= 0x80))
            continue;
        say("%s:%u:%zu: expected a character of ASCII, got the byte %02x", words->path, words->row, at + 1, it);
        return false;
    }
    return true;
}

/* Ends each word with a 0 byte. */
static void split(struct words *words) {
    char *at = words->text;
    for (;;) {
        while (is_blank(*at))
            *at++ = 0;
        if (!*at)
            break;
        words->list[words->count++] = at;
        while (*at && !is_blank(*at))
            at++;
    }
    words->list[words->count] = NULL;
}

bool words_split(struct words *words, const char *path, unsigned row, const char *line, size_t length) {
    words->path = path;
    words->row = row;
    words->at = words->count = 0;
    if (!is_text(words, line, length))
        return false;
    const char *comment = memchr(line, '#', length);
    size_t kept = comment ? (size_t)(comment - line) : length;
    while (kept && is_blank(line[kept - 1]))
        kept--;
    if (kept > MOST_TEXT) {
        say("%s:%u:%d: expected a line of at most %d characters", path, row, MOST_TEXT + 1, MOST_TEXT);
        return false;
    }
    memcpy(words->text, line, kept);
    words->text[kept] = 0;
    words->columns = (unsigned)kept;
    split(words);
    return true;
}

const char *words_next(const struct words *words) {
    return words->at < words->count ? words->list[words->at] : "";
}

bool words_are_at(const struct words *words, const char *word) {
    return !strcmp(words_next(words), word);
}

bool words_take(struct words *words, const char *word) {
    bool is = words_are_at(words, word);
    words->at += is;
    return is;
}

bool words_expected(const struct words *words, const char *format, ...) {
    const char *word = words_next(words);
    char what[1152];
    va_list rest;
    va_start(rest, format);
    vsnprintf(what, sizeof what, format, rest);
    va_end(rest);
    size_t column = *word ? (size_t)(word - words->text) + 1 : words->columns + 1;
    if (*word)
        say("%s:%u:%zu: expected %s, got \"%.*s%s\"", words->path, words->row, column, what, MOST_GOT, word, strlen(word) > MOST_GOT ? ".." : "");
    else
        say("%s:%u:%zu: expected %s, got the end of the line", words->path, words->row, column, what);
    return false;
}
