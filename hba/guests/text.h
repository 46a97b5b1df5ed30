/* The text of a block: words that name the block, the version and their own place. checks/images.py has it too. */
#ifndef AHCI_GUEST_TEXT_H
#define AHCI_GUEST_TEXT_H

#include <stdbool.h>
#include <stdint.h>

static inline uint64_t text_word(uint64_t block, uint32_t version, uint64_t place) {
    return block << 40 | (uint64_t)(version & 0xFFFF) << 24 | (place & 0xFFFFFF);
}

static inline void text_fill(uint64_t *words, uint64_t bytes, uint64_t block, uint32_t version) {
    for (uint64_t i = 0; i < bytes / 8; i++)
        words[i] = text_word(block, version, i);
}

static inline bool text_is(const uint64_t *words, uint64_t bytes, uint64_t block, uint32_t version) {
    for (uint64_t i = 0; i < bytes / 8; i++)
        if (words[i] != text_word(block, version, i))
            return false;
    return true;
}

#endif
