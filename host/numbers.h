/* What the values of options are made of. A parser takes what it knows from the beginning of a text, and returns the rest of the text; NULL if
   it does not understand the text, or if it got NULL, so that parsers can be called one after the other. */
#ifndef AHCI_HOST_NUMBERS_H
#define AHCI_HOST_NUMBERS_H

#include <stdint.h>

#define MOST_DELAY 10000000u /* microseconds: ten seconds */

/* A number of decimal digits alone, below 2^64. */
const char *take_digits(const char *text, uint64_t *number);

/* A number of bytes: digits, with K, M, G or T after them for the powers of 1,024. Lower case does as well. */
const char *take_bytes(const char *text, uint64_t *bytes);

/* A character, or a word. */
const char *take_mark(const char *text, char mark);
const char *take_word(const char *text, const char *word);

/* A or A-B, where A is at most B. */
const char *take_span(const char *text, uint64_t *first, uint64_t *last);

/* An error byte: two hexadecimal digits. */
const char *take_error(const char *text, uint8_t *error);

/* Seconds with up to six digits after a point, as microseconds. */
const char *take_seconds(const char *text, uint64_t *microseconds);

/* A time with its unit, us, ms or s, and up to six digits after a point: 20ms, 2.5s. Whole microseconds. */
const char *take_time(const char *text, uint64_t *microseconds);

/* A time to wait. */
struct delay {
    uint32_t least;  /* microseconds */
    uint32_t jitter; /* how many more at most, at random */
};

/* MICROSECONDS or MICROSECONDS+JITTER, each at most MOST_DELAY. */
const char *take_delay(const char *text, struct delay *delay);

/* TIME or TIME+JITTER, each with its unit and at most MOST_DELAY microseconds. */
const char *take_delay_with_units(const char *text, struct delay *delay);

/* The microseconds to wait this time, by the state of a generator. */
uint64_t delay_drawn(const struct delay *delay, uint64_t *random);

#endif
