/* What play.c reads of a line: whether there is anything, and numbers and bytes by their digits. What is not understood ends the program with status 1. */
#include <stdbool.h>
#include <stddef.h>
#include <stdint.h>
#include <stdio.h>
#include <stdlib.h>
#include <string.h>

static unsigned line_number;

static void lost(void)
{
    fprintf(stderr, "play: line %u: not understood\n", line_number);
    fflush(stdout);
    exit(1);
}

/* Whether a line is empty or a comment. A comment's bytes are below 128, as in all lines. */
static bool is_skipped(const char *line)
{
    if (*line != '#')
        return !*line;
    for (; *line; line++)
        if ((unsigned char)*line > 127)
            lost();
    return true;
}

static uint64_t number(const char *word, uint64_t most)
{
    uint64_t value = 0;
    if (!*word || strlen(word) > 20)
        lost();
    for (; *word; word++) {
        if (*word < '0' || *word > '9' || value > (UINT64_MAX - (uint64_t)(*word - '0')) / 10)
            lost();
        value = 10 * value + (uint64_t)(*word - '0');
    }
    if (value > most)
        lost();
    return value;
}

static unsigned digit(char c)
{
    if (c >= '0' && c <= '9') return (unsigned)(c - '0');
    if (c >= 'a' && c <= 'f') return (unsigned)(c - 'a') + 10;
    if (c >= 'A' && c <= 'F') return (unsigned)(c - 'A') + 10;
    lost();
    return 0;
}

static uint32_t hexadecimal(const char *word, size_t most)
{
    uint32_t value = 0;
    if (!*word || strlen(word) > most)
        lost();
    for (; *word; word++)
        value = value << 4 | digit(*word);
    return value;
}

static uint8_t byte_of(const char *word)
{
    if (strlen(word) != 2)
        lost();
    return (uint8_t)hexadecimal(word, 2);
}

static size_t hex_bytes(const char *word, uint8_t *to)
{
    size_t n = strlen(word);
    if (!n || n % 2)
        lost();
    for (size_t i = 0; i < n / 2; i++)
        to[i] = (uint8_t)(digit(word[2 * i]) << 4 | digit(word[2 * i + 1]));
    return n / 2;
}
