#include "hold.h"

#define TRUST 8    /* messages that are held in vain, one after the other, before others are sent at once */
#define SKIPPED 32 /* messages that are sent at once then */

bool hold_takes(struct hold *hold, uint64_t now) {
    if (!hold->settings.longest)
        return true;
    if (hold->is_owed)
        return false;
    if (!hold->trust && hold->skipped) {
        hold->skipped--;
        return true;
    }
    hold->is_owed = true;
    hold->issued = 0;
    hold->since = hold->last = now;
    return false;
}

void hold_issued(struct hold *hold, uint64_t now) {
    if (!hold->is_owed)
        return;
    hold->issued++;
    hold->last = now;
}

int64_t hold_waits(const struct hold *hold, bool is_idle, uint64_t now) {
    if (!hold->is_owed)
        return -1;
    uint64_t due = hold->since + UINT64_C(1000) * hold->settings.longest, quiet = hold->last + UINT64_C(1000) * hold->settings.gap;
    if (is_idle && hold->issued >= hold->settings.most)
        return 0;
    if (is_idle && quiet < due)
        due = quiet;
    return due <= now ? 0 : (int64_t)(due - now);
}

void hold_end(struct hold *hold) {
    hold->is_owed = false;
    if (hold->issued)
        hold->trust = TRUST;
    else if (hold->trust)
        hold->trust--;
    if (!hold->trust)
        hold->skipped = SKIPPED;
}
