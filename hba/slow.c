#include "slow.h"

#include <ahci.h>

/* Where a slow bit is. */
static const struct {
    uint32_t offset, bit;
} places[SLOW_BITS] = {
    [SLOW_CR] = {AHCI_REG_PXCMD, 15},
    [SLOW_FR] = {AHCI_REG_PXCMD, 14},
    [SLOW_CLO] = {AHCI_REG_PXCMD, 3},
    [SLOW_HR] = {AHCI_REG_GHC, 0},
};

bool slow_is_on(const struct slow *slow) {
    return slow->reads != 0 || slow->is_timed;
}

void slow_arm(struct slow *slow, enum slow_bit it, uint64_t microseconds) {
    slow->armed[it] = microseconds;
    slow->is_timed = true;
}

static void hold(struct slow *slow, enum slow_bit it, bool old, uint64_t now) {
    slow->old[it] = old;
    slow->left[it] = slow->reads;
    slow->until[it] = now + 1000 * slow->armed[it];
    slow->armed[it] = 0;
}

/* The bit that an access has of a slow one: where it is in the value, or -1. */
static int shift_of(enum slow_bit it, uint32_t offset, uint32_t bytes) {
    uint32_t at = places[it].offset + places[it].bit / 8;
    return offset <= at && at - offset < bytes ? (int)(8 * (at - offset) + places[it].bit % 8) : -1;
}

bool slow_sets(enum slow_bit it, uint32_t offset, uint32_t bytes, uint64_t value) {
    int shift = shift_of(it, offset, bytes);
    return shift >= 0 && value >> shift & 1;
}

void slow_write(struct slow *slow, uint32_t offset, uint32_t bytes, uint64_t value, uint32_t command_before, uint32_t command_now, uint64_t now) {
    uint32_t changed = command_before ^ command_now;
    for (enum slow_bit it = SLOW_CR; it <= SLOW_FR; it++)
        if (changed >> places[it].bit & 1)
            hold(slow, it, command_before >> places[it].bit & 1, now);
    if (slow_sets(SLOW_CLO, offset, bytes, value))
        hold(slow, SLOW_CLO, true, now);
    if (!slow_sets(SLOW_HR, offset, bytes, value))
        return;
    slow_reset(slow);
    hold(slow, SLOW_HR, true, now);
}

uint64_t slow_read(struct slow *slow, uint32_t offset, uint32_t bytes, uint64_t value, uint64_t now) {
    for (enum slow_bit it = SLOW_CR; it < SLOW_BITS; it++) {
        int shift = shift_of(it, offset, bytes);
        if (shift < 0 || (slow->left[it] == 0 && now >= slow->until[it]))
            continue;
        slow->left[it] -= slow->left[it] > 0;
        value = (value & ~(UINT64_C(1) << shift)) | (uint64_t)slow->old[it] << shift;
    }
    return value;
}

void slow_reset(struct slow *slow) {
    for (enum slow_bit it = SLOW_CR; it < SLOW_BITS; it++)
        slow->left[it] = 0, slow->until[it] = 0;
}
