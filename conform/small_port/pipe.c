/* The small port behind a pipe: requests come on standard input, answers go to standard output (adapter.py makes them). A request is a
   letter, two numbers of 64 bits with the low byte first, and for `w`, `p` and `c` as many bytes as the second number says. */
#include "port.h"

#include <stdio.h>
#include <stdlib.h>

static uint64_t number(const uint8_t *at)
{
    uint64_t found = 0;
    for (int byte = 7; byte >= 0; byte--)
        found = found << 8 | at[byte];
    return found;
}

static void take(void *bytes, size_t length)
{
    if (!bytes || fread(bytes, 1, length, stdin) != length)
        exit(bytes ? 0 : 1); /* the tool has closed the pipe, or has named a place that isn't there */
}

static void give(const void *bytes, size_t length)
{
    if (!bytes || fwrite(bytes, 1, length, stdout) != length || fflush(stdout))
        exit(1);
}

static void give_byte(bool answer)
{
    give(&(uint8_t){ answer }, 1);
}

static void give_word(uint32_t word)
{
    give((uint8_t[]){ word & 0xff, word >> 8 & 0xff, word >> 16 & 0xff, word >> 24 }, 4);
}

int main(void)
{
    for (;;) {
        uint8_t request[17], tags[32];
        take(request, sizeof request);
        uint64_t first = number(request + 1), second = number(request + 9);
        switch (request[0]) {
        case 's': port_start(first, second); break;
        case 'r': give(port_memory(first, second), second); break;
        case 'w': take(port_memory(first, second), second); break;
        case 'R': give_word(port_read(first)); break;
        case 'W': port_write(first, second); break;
        case 'c': take(second <= 32 ? tags : NULL, second); give_byte(port_complete(tags, second)); break;
        case 'f': give_byte(port_fail(first & 31, first >> 8, second)); break;
        case 'd': give(port_sectors(first, second / SECTOR), second); break;
        case 'p': take(port_sectors(first, second / SECTOR), second); break;
        default: return 1;
        }
    }
}
