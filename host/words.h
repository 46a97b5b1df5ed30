/* A line of a script as words, and how it is said what is wrong with one. */
#ifndef AHCI_HOST_WORDS_H
#define AHCI_HOST_WORDS_H

#include <stdbool.h>
#include <stddef.h>

#define MOST_TEXT 1000 /* bytes of a line */

struct words {
    const char *path; /* of the file, for messages */
    unsigned row;     /* the line, the first being 1 */
    unsigned at;      /* the word that comes next */
    unsigned count;
    unsigned columns; /* of the text, without a comment: where the line's end is */
    char text[MOST_TEXT + 1];
    char *list[MOST_TEXT / 2 + 2]; /* the words, each with a 0 byte after it, and NULL at the end */
};

/* Splits a line of so many bytes at its blanks; a comment begins with #. It returns false after it has printed what is wrong: it is too long, or has a byte
   that is none of a text. */
bool words_split(struct words *words, const char *path, unsigned row, const char *line, size_t length);

/* The word that comes next; "" at the line's end. */
const char *words_next(const struct words *words);

/* Whether the next word is this one; and takes it then. */
bool words_are_at(const struct words *words, const char *word);
bool words_take(struct words *words, const char *word);

/* Prints `FILE:LINE:COLUMN: expected TEXT, got "WORD"` about the next word, and returns false. */
__attribute__((format(printf, 2, 3))) bool words_expected(const struct words *words, const char *format, ...);

#endif
