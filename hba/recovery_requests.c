/* What becomes of the commands that were outstanding at an event. */
#include "judge.h"

#include <string.h>

#define HEADER_BYTES 32
#define PRDT_AT 0x80 /* of a command table */

/* ---- which they are ---- */

static uint64_t address_of(const uint8_t *bytes) {
    uint64_t address = 0;
    for (unsigned i = 0; i < 8; i++)
        address |= (uint64_t)bytes[i] << 8 * i;
    return address;
}

/* The command of a slot, from the driver's memory. */
static bool find_command(const struct judge *judge, uint64_t list, uint32_t slot, struct followed *request) {
    uint8_t header[HEADER_BYTES], fis[COMMAND_FIS_BYTES], entry[AHCI_PRD_BYTES];
    if (!memory_read(judge->memory, list + HEADER_BYTES * slot, header, sizeof header))
        return false;
    uint64_t table = address_of(header + 8) & ~UINT64_C(0x7F);
    if (!memory_read(judge->memory, table, fis, sizeof fis))
        return false;
    bool has_data = (header[2] || header[3]) && memory_read(judge->memory, table + PRDT_AT, entry, sizeof entry);
    *request = (struct followed){.command = command_of(fis), .data = has_data ? address_of(entry) : 0, .slot = slot};
    return request->command.is_command;
}

/* A request that is followed already and is in a slot; NULL if none is. */
static struct followed *request_in(struct recovery *recovery, uint32_t slot) {
    for (unsigned i = 0; i < recovery->count; i++)
        if (recovery->requests[i].slot == slot)
            return &recovery->requests[i];
    return NULL;
}

static enum recovery_fate fate_of(const struct followed *it) {
    switch (it->state) {
    case REQUEST_UNSEEN:
    case REQUEST_SEEN:
        return FATE_ANSWERED;
    case REQUEST_FAILED:
        return FATE_FAILED;
    case REQUEST_OTHER:
        return FATE_OTHER;
    case REQUEST_DONE:
        return it->was_answered ? FATE_TWICE : FATE_AGAIN;
    case REQUEST_WAITS:
    case REQUEST_DROPPED:
    case REQUEST_ISSUED:
        break;
    }
    return FATE_LOST;
}

/* Counts the first request, and forgets it. */
static void conclude_first(struct recovery *recovery) {
    recovery->report.fates[fate_of(&recovery->requests[0])]++;
    memmove(recovery->requests, recovery->requests + 1, --recovery->count * sizeof *recovery->requests);
}

void requests_begin(struct judge *judge, ahci_hba *hba) {
    struct recovery *recovery = &judge->recovery;
    uint32_t outstanding = judge_peek(hba, AHCI_REG_PXCI) | judge_peek(hba, AHCI_REG_PXSACT);
    uint64_t list = judge_list(hba);
    for (uint32_t slot = 0; slot < AHCI_MOST_TAGS; slot++) {
        struct followed request;
        if (!(outstanding >> slot & 1) || request_in(recovery, slot) || !find_command(judge, list, slot, &request))
            continue;
        if (recovery->count == MOST_REQUESTS)
            conclude_first(recovery);
        recovery->requests[recovery->count++] = request;
    }
}

/* ---- what becomes of them ---- */

void requests_look(struct recovery *recovery, uint32_t outstanding) {
    for (unsigned i = 0; i < recovery->count; i++) {
        struct followed *it = &recovery->requests[i];
        if (it->slot == NO_SLOT || outstanding >> it->slot & 1)
            continue;
        if (it->state == REQUEST_WAITS)
            it->state = REQUEST_UNSEEN;
        else if (it->state == REQUEST_ISSUED)
            it->state = REQUEST_DONE;
    }
}

/* The driver knows that the command of a slot has ended. */
static void see(struct followed *it) {
    if (it->state == REQUEST_UNSEEN)
        it->state = REQUEST_SEEN;
    if (it->state == REQUEST_SEEN || it->state == REQUEST_DONE)
        it->slot = NO_SLOT;
}

void requests_read(struct recovery *recovery, bool is_active, uint32_t mask, uint32_t word) {
    for (unsigned i = 0; i < recovery->count; i++) {
        struct followed *it = &recovery->requests[i];
        if (it->slot != NO_SLOT && it->command.queued == is_active && (mask & ~word) >> it->slot & 1)
            see(it);
    }
}

void requests_write(struct recovery *recovery, uint32_t word) {
    for (unsigned i = 0; i < recovery->count; i++)
        if (recovery->requests[i].slot != NO_SLOT && word >> recovery->requests[i].slot & 1)
            see(&recovery->requests[i]);
}

void requests_fail(struct recovery *recovery, uint32_t slot) {
    struct followed *it = request_in(recovery, slot);
    if (!it)
        return;
    it->state = REQUEST_FAILED;
    it->slot = NO_SLOT;
}

void requests_drop(struct recovery *recovery) {
    for (unsigned i = 0; i < recovery->count; i++) {
        struct followed *it = &recovery->requests[i];
        if (it->state == REQUEST_WAITS || it->state == REQUEST_ISSUED)
            it->state = REQUEST_DROPPED;
        it->slot = NO_SLOT;
    }
}

void requests_leave(struct recovery *recovery) {
    while (recovery->count)
        conclude_first(recovery);
}

/* Whether a command moves sectors of a request, and none besides or all of them; one without sectors has to be the same command. */
static bool is_same(const struct command *request, const struct command *it) {
    uint64_t end = request->lba + request->sectors, its_end = it->lba + it->sectors;
    if (!request->sectors || !it->sectors)
        return !request->sectors && !it->sectors && request->code == it->code;
    return request->writes == it->writes && ((it->lba >= request->lba && its_end <= end) || (it->lba <= request->lba && its_end >= end));
}

/* Whether a request is over without an answer that its driver has read, so that a command can be it again. */
static bool is_open(const struct followed *it) {
    return it->slot == NO_SLOT && (it->state == REQUEST_DROPPED || it->state == REQUEST_OTHER || it->state == REQUEST_FAILED || it->state == REQUEST_UNSEEN);
}

void requests_match(struct recovery *recovery, uint32_t slot, const struct command *command, uint64_t data) {
    for (unsigned i = 0; i < recovery->count; i++) {
        struct followed *it = &recovery->requests[i];
        if (!is_open(it))
            continue;
        if (is_same(&it->command, command)) {
            it->was_answered |= it->state == REQUEST_UNSEEN;
            it->state = REQUEST_ISSUED;
            it->slot = slot;
        } else if (it->state == REQUEST_DROPPED && data && data == it->data && command->sectors && command->writes == it->command.writes) {
            it->state = REQUEST_OTHER;
        }
    }
}

/* ---- the end ---- */

static bool is_settled(const struct followed *it) {
    return it->state == REQUEST_SEEN || it->state == REQUEST_DONE;
}

bool requests_are_settled(const struct recovery *recovery) {
    for (unsigned i = 0; i < recovery->count; i++)
        if (!is_settled(&recovery->requests[i]))
            return false;
    return true;
}

void requests_end(struct recovery *recovery, bool carries) {
    unsigned kept = 0;
    for (unsigned i = 0; i < recovery->count; i++) {
        struct followed *it = &recovery->requests[i];
        if (carries && !is_settled(it))
            recovery->requests[kept++] = *it;
        else
            recovery->report.fates[fate_of(it)]++;
    }
    recovery->report.carried = recovery->count = kept;
}
