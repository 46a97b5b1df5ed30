#include "numbers.h"

#include "generator.h"

#include <ctype.h>
#include <errno.h>
#include <stddef.h>
#include <stdlib.h>
#include <string.h>

#define MOST_SECONDS (UINT64_C(1) << 32)

const char *take_digits(const char *text, uint64_t *number) {
    char *end = NULL;
    if (!text || !isdigit((unsigned char)*text))
        return NULL;
    errno = 0;
    *number = strtoull(text, &end, 10);
    return errno ? NULL : end;
}

const char *take_bytes(const char *text, uint64_t *bytes) {
    static const char units[] = "KMGT";
    text = take_digits(text, bytes);
    const char *unit = text && *text ? strchr(units, toupper((unsigned char)*text)) : NULL;
    if (!unit)
        return text;
    unsigned shift = 10 * (unsigned)(unit - units + 1);
    if (*bytes > UINT64_MAX >> shift)
        return NULL;
    *bytes <<= shift;
    return text + 1;
}

const char *take_mark(const char *text, char mark) {
    return text && *text == mark ? text + 1 : NULL;
}

const char *take_word(const char *text, const char *word) {
    size_t length = strlen(word);
    return text && !strncmp(text, word, length) ? text + length : NULL;
}

const char *take_span(const char *text, uint64_t *first, uint64_t *last) {
    text = take_digits(text, first);
    if (!text)
        return NULL;
    *last = *first;
    if (*text == '-')
        text = take_digits(text + 1, last);
    return text && *first <= *last ? text : NULL;
}

const char *take_error(const char *text, uint8_t *error) {
    if (!text || !isxdigit((unsigned char)text[0]) || !isxdigit((unsigned char)text[1]))
        return NULL;
    const char digits[] = {text[0], text[1], 0};
    *error = (uint8_t)strtoul(digits, NULL, 16);
    return text + 2;
}

const char *take_seconds(const char *text, uint64_t *microseconds) {
    uint64_t whole = 0, unit = 100000;
    text = take_digits(text, &whole);
    if (!text || whole > MOST_SECONDS)
        return NULL;
    *microseconds = whole * 1000000;
    if (*text == '.')
        for (text++; isdigit((unsigned char)*text) && unit; text++, unit /= 10)
            *microseconds += unit * (uint64_t)(*text - '0');
    return text;
}

/* The digits after a point, which may be missing: `part` out of `of`. */
static const char *take_part(const char *text, uint64_t *part, uint64_t *of) {
    *part = 0;
    *of = 1;
    if (!text || *text != '.')
        return text;
    for (text++; isdigit((unsigned char)*text) && *of < 1000000; text++, *of *= 10)
        *part = 10 * *part + (uint64_t)(*text - '0');
    return *of > 1 ? text : NULL;
}

const char *take_time(const char *text, uint64_t *microseconds) {
    static const struct {
        const char *name;
        uint64_t unit;
    } units[] = {{"us", 1}, {"ms", 1000}, {"s", 1000000}};
    uint64_t whole = 0, part = 0, of = 1;
    text = take_part(take_digits(text, &whole), &part, &of);
    for (unsigned at = 0; at < sizeof units / sizeof *units; at++) {
        const char *rest = take_word(text, units[at].name);
        if (!rest || whole > MOST_SECONDS * 1000000 / units[at].unit || part * units[at].unit % of)
            continue;
        *microseconds = whole * units[at].unit + part * units[at].unit / of;
        return rest;
    }
    return NULL;
}

/* A time and what is added to it, each by a parser. */
static const char *take_delay_by(const char *(*take)(const char *, uint64_t *), const char *text, struct delay *delay) {
    uint64_t least = 0, jitter = 0;
    text = take(text, &least);
    if (text && *text == '+')
        text = take(text + 1, &jitter);
    if (!text || least > MOST_DELAY || jitter > MOST_DELAY)
        return NULL;
    *delay = (struct delay){.least = (uint32_t)least, .jitter = (uint32_t)jitter};
    return text;
}

const char *take_delay(const char *text, struct delay *delay) {
    return take_delay_by(take_digits, text, delay);
}

const char *take_delay_with_units(const char *text, struct delay *delay) {
    return take_delay_by(take_time, text, delay);
}

uint64_t delay_drawn(const struct delay *delay, uint64_t *random) {
    return delay->least + (delay->jitter ? next_random(random) % ((uint64_t)delay->jitter + 1) : 0);
}
