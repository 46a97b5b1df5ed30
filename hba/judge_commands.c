/* The judge's part for commands: the library's rules for each header, command FIS and PRDT, and the rules over time and over memory. */
#include "judge.h"

#include <inttypes.h>
#include <stdlib.h>
#include <string.h>

#define H2D 0x27
#define IS_COMMAND 0x80 /* C of a command FIS */
#define SRST 0x04       /* of its control byte */
#define NCQ_NON_DATA 0x63
#define RECEIVE_FPDMA_QUEUED 0x65 /* SEND FPDMA QUEUED is 64h */
#define READ_LOG_EXT 0x2F
#define READ_LOG_DMA_EXT 0x47
#define ERROR_LOG 0x10
#define SNCQ UINT32_C(0x40000000) /* of CAP */
#define TABLE_BYTES 0x80 /* before the PRDT */

/* ---- what was read ---- */

/* A sum of bytes (FNV-1a), in which PRDBC of a header, which the controller writes, does not count. */
static uint64_t sum_of(const uint8_t *bytes, size_t count, bool is_header) {
    uint64_t sum = UINT64_C(0xcbf29ce484222325);
    for (size_t i = 0; i < count; i++)
        sum = (sum ^ (is_header && i >= 4 && i < 8 ? 0 : bytes[i])) * UINT64_C(0x100000001b3);
    return sum;
}

/* Keeps a run that was read; without memory it is not compared. */
static void keep(struct judged *judged, uint64_t address, const uint8_t *bytes, size_t count, enum own_rule rule, bool is_header) {
    if (judged->run_count == judged->run_room) {
        size_t room = judged->run_room ? 2 * judged->run_room : 8;
        struct judged_run *runs = realloc(judged->runs, room * sizeof *runs);
        if (!runs)
            return;
        judged->runs = runs;
        judged->run_room = room;
    }
    judged->runs[judged->run_count++] = (struct judged_run){.address = address, .bytes = count, .sum = sum_of(bytes, count, is_header), .rule = rule};
}

void judge_fetch(struct judge *judge, uint32_t slot) {
    struct judged *judged = &judge->slots[slot];
    judged->stage = 0;
    judged->run_count = 0;
    judged->entries_left = 0;
    judged->total = 0;
    judge->commands += judge->on;
}

/* ---- the header ---- */

#define FLAG_A 0x20 /* of a header's byte 0 */
#define FLAG_W 0x40
#define FLAG_B 0x02 /* of byte 1 */

/* The rules that are asked of a header, since the controller reads no FIS that a header with such a fault is about. With these flags the FIS matters, too. */
static const struct {
    uint32_t rule;
    uint8_t flags[2];
} header_rules[] = {
    {AHCI_RULE_FIS_LENGTH, {0, FLAG_B}}, {AHCI_RULE_ATAPI_FLAG, {FLAG_A, 0}}, {AHCI_RULE_RESERVED_HEADER, {0, 0}},
    {AHCI_RULE_TABLE_UNALIGNED, {0, 0}}, {AHCI_RULE_BIST_FLAG, {0, FLAG_B}},
};
#define HEADER_RULES (sizeof header_rules / sizeof *header_rules)

static bool is_header_rule(uint32_t rule) {
    for (size_t i = 0; i < HEADER_RULES; i++)
        if (header_rules[i].rule == rule)
            return true;
    return false;
}

/* The address of a header's table, or of an entry of a PRDT. */
static uint64_t address_of(const uint8_t *bytes) {
    uint64_t address = 0;
    for (unsigned i = 0; i < 8; i++)
        address |= (uint64_t)bytes[i] << 8 * i;
    return address;
}

/* Where the command table is that a header names, and how many bytes it has. */
static uint64_t named_table(const struct judged *judged) {
    return address_of(judged->header + 8) & ~UINT64_C(0x7F);
}

static uint64_t table_bytes(const struct judged *judged) {
    return TABLE_BYTES + AHCI_PRD_BYTES * ((uint64_t)judged->header[2] | (uint64_t)judged->header[3] << 8);
}

static uint64_t table_of(ahci_hba *hba, const struct judged *judged) {
    return judge_taken(hba, named_table(judged));
}

/* W of a header: the data are read from memory. */
static bool reads_memory(const struct judged *judged) {
    return judged->header[0] & FLAG_W;
}

/* Judges the header of a slot. A rule for which the FIS matters is not asked where its memory can't be read. */
static void judge_header(struct judge *judge, ahci_hba *hba, uint32_t slot) {
    const struct judged *judged = &judge->slots[slot];
    uint8_t fis[sizeof judged->fis] = {0};
    uint64_t bytes = table_bytes(judged), table = judge_reach(judge, hba, "a table", named_table(judged));
    bool has_fis = memory_read(judge->memory, table, fis, sizeof fis);
    for (size_t i = 0; i < HEADER_RULES; i++) {
        uint32_t broken = 0, rule = header_rules[i].rule;
        const uint8_t *flags = header_rules[i].flags, *header = judged->header;
        if (has_fis || !(header[0] & flags[0] || header[1] & flags[1]))
            ahci_command_breaks(rule, slot, 0, judged->header, sizeof judged->header, fis, sizeof fis, &broken);
        if (broken)
            judge_find(judge, rule, "slot %" PRIu32 ", header %02x %02x", slot, judged->header[0], judged->header[1]);
    }
    judge_overlap(judge, "a table", table, bytes, "the list", judge_list(hba), JUDGE_LIST_BYTES);
    judge_overlap(judge, "a table", table, bytes, "the received FIS area", judge_area(hba), JUDGE_AREA_BYTES);
}

/* ---- the command FIS ---- */

/* Whether a command is one of the NCQ feature set (ACS-3). */
static bool is_queued(const uint8_t *fis) {
    bool has_code = fis[2] == AHCI_READ_FPDMA_QUEUED || fis[2] == AHCI_WRITE_FPDMA_QUEUED || (fis[2] >= NCQ_NON_DATA && fis[2] <= RECEIVE_FPDMA_QUEUED);
    return fis[0] == H2D && fis[1] & IS_COMMAND && has_code;
}

/* Whether a command reads the log of failed queued commands (ACS-3, READ LOG EXT). */
static bool reads_error_log(const uint8_t *fis) {
    return (fis[2] == READ_LOG_EXT || fis[2] == READ_LOG_DMA_EXT) && fis[4] == ERROR_LOG;
}

/* Whether a command FIS is of a software reset: C is 0 in both of its FISes. */
static bool is_control(const uint8_t *fis) {
    return fis[0] == H2D && !(fis[1] & IS_COMMAND);
}

bool judge_is_control(const struct judge *judge, ahci_hba *hba, uint32_t slot) {
    struct judged judged = {0};
    return memory_read(judge->memory, judge_list(hba) + sizeof judged.header * (uint64_t)slot, judged.header, sizeof judged.header)
           && memory_read(judge->memory, table_of(hba, &judged), judged.fis, sizeof judged.fis) && is_control(judged.fis);
}

/* A FIS of a software reset, which comes in pairs: SRST is set, then cleared (section 10.4.1). */
static void judge_control(struct judge *judge, uint32_t slot, bool sets) {
    struct judged_port *port = &judge->port;
    if (!sets && !port->is_resetting)
        judge_find(judge, JUDGE_RESET_ALONE, "slot %" PRIu32 ", SRST is 0", slot);
    port->is_resetting = sets;
    port->was_reset |= sets;
}

/* After a failed queued command the log comes next, or a reset; whether the log could be read is the device's part (section 6.2.2). */
static void judge_recovery(struct judge *judge, ahci_hba *hba, uint32_t slot, const uint8_t *fis) {
    struct judged_port *port = &judge->port;
    ahci_state queue;
    bool has_failed = ahci_hba_port(hba, &queue) == AHCI_OK && queue.halted;
    port->has_asked_log = has_failed && (port->has_asked_log || reads_error_log(fis));
    port->was_reset &= has_failed;
    if (has_failed && !port->has_asked_log && !port->was_reset)
        judge_find(judge, JUDGE_LOG_NOT_READ, "slot %" PRIu32 ", command %02x", slot, fis[2]);
}

/* The rules for a queued command. */
static void judge_queued(struct judge *judge, ahci_hba *hba, uint32_t slot, bool active, const uint8_t *fis) {
    uint32_t tag = fis[12] >> 3;
    if (tag >= judge->depth)
        judge_find(judge, JUDGE_TAG_ABOVE_DEPTH, "slot %" PRIu32 ", tag %" PRIu32 ", depth %" PRIu32, slot, tag, judge->depth);
    if (!active && !(judge_peek(hba, AHCI_REG_CAP) & SNCQ))
        judge_find(judge, AHCI_RULE_QUEUE_WITHOUT_CAPABILITY, "slot %" PRIu32 ", command %02x", slot, fis[2]);
}

/* The rules for the length of a list, of which some entries may be left that the controller doesn't read: each of them names a byte at least. */
static void judge_list_length(struct judge *judge, uint32_t slot, uint32_t unread) {
    const struct judged *judged = &judge->slots[slot];
    uint64_t total = judged->total + unread;
    for (uint32_t rule = 0; rule < AHCI_RULES; rule++) {
        uint32_t broken = 0;
        ahci_length_breaks(rule, judged->fis, sizeof judged->fis, total, &broken);
        if (broken)
            judge_find(judge, rule, "slot %" PRIu32 ", command %02x, %s%" PRIu64 " bytes in the list", slot, judged->fis[2], unread ? "at least " : "", total);
    }
}

/* Whether the entries that were read name fewer bytes than the command moves. */
static bool is_short(const struct judged *judged) {
    uint32_t broken = 0;
    ahci_length_breaks(AHCI_RULE_LIST_TOO_SHORT, judged->fis, sizeof judged->fis, judged->total, &broken);
    return broken;
}

/* Judges the list once the controller reads no more of it: it reads as far as the data need it. What comes then is data. */
static void end_list(struct judge *judge, uint32_t slot) {
    struct judged *judged = &judge->slots[slot];
    if (judged->entries_left > 0 && is_short(judged))
        return;
    judge_list_length(judge, slot, judged->entries_left);
    judged->entries_left = 0;
}

/* The library's rules for the command FIS of a slot, with its header. */
static void judge_fis(struct judge *judge, uint32_t slot, bool active) {
    const struct judged *judged = &judge->slots[slot];
    for (uint32_t rule = 0; rule < AHCI_RULES; rule++) {
        uint32_t broken = 0;
        if (is_header_rule(rule))
            continue;
        ahci_command_breaks(rule, slot, active, judged->header, sizeof judged->header, judged->fis, sizeof judged->fis, &broken);
        if (broken)
            judge_find(judge, rule, "slot %" PRIu32 ", command %02x", slot, judged->fis[2]);
    }
}

static void judge_command(struct judge *judge, ahci_hba *hba, uint32_t slot) {
    const struct judged *judged = &judge->slots[slot];
    const uint8_t *fis = judged->fis;
    bool active = judge_peek(hba, AHCI_REG_PXSACT) >> slot & 1;
    judge_fis(judge, slot, active);
    if (is_queued(fis))
        judge_queued(judge, hba, slot, active, fis);
    if (is_control(fis)) {
        judge_control(judge, slot, fis[15] & SRST);
    } else if (judge->port.is_resetting) {
        judge_find(judge, JUDGE_RESET_ALONE, "slot %" PRIu32 ", command %02x while SRST is 1", slot, fis[2]);
        judge->port.is_resetting = false;
    }
    judge_recovery(judge, hba, slot, fis);
    recovery_command(judge, slot, fis, table_of(hba, judged), judged->entries_left);
    end_list(judge, slot);
}

/* ---- the PRDT ---- */

/* Data that are written over what the controller reads or writes itself; data that are read from there harm nothing. */
static void judge_data(struct judge *judge, ahci_hba *hba, const struct judged *judged, uint64_t address, uint64_t length) {
    judge_overlap(judge, "data", address, length, "the list", judge_list(hba), JUDGE_LIST_BYTES);
    judge_overlap(judge, "data", address, length, "the received FIS area", judge_area(hba), JUDGE_AREA_BYTES);
    judge_overlap(judge, "data", address, length, "its table", table_of(hba, judged), table_bytes(judged));
}

static void judge_entry(struct judge *judge, ahci_hba *hba, uint32_t slot, const uint8_t *entry) {
    struct judged *judged = &judge->slots[slot];
    uint32_t length = ((uint32_t)entry[12] | (uint32_t)entry[13] << 8 | (uint32_t)(entry[14] & 0x3F) << 16) + 1;
    uint64_t address = judge_reach(judge, hba, "data", address_of(entry));
    for (uint32_t rule = 0; rule < AHCI_RULES; rule++) {
        uint32_t broken = 0;
        ahci_entry_breaks(rule, entry, AHCI_PRD_BYTES, &broken);
        if (broken)
            judge_find(judge, rule, "slot %" PRIu32 ", %" PRIu32 " bytes", slot, length);
    }
    if (!reads_memory(judged))
        judge_data(judge, hba, judged, address, length);
    judged->total += length;
    judged->entries_left -= judged->entries_left > 0;
}

/* Judges some entries of the PRDT, and the list once no more of it is read. */
static void judge_entries(struct judge *judge, ahci_hba *hba, uint32_t slot, const uint8_t *bytes, size_t count) {
    for (size_t at = 0; at + AHCI_PRD_BYTES <= count; at += AHCI_PRD_BYTES)
        judge_entry(judge, hba, slot, bytes + at);
    end_list(judge, slot);
}

/* ---- runs ---- */

void judge_run(struct judge *judge, ahci_hba *hba, uint32_t slot, uint64_t address, const uint8_t *bytes, size_t count) {
    struct judged *judged = &judge->slots[slot];
    if (!judge->on)
        return;
    if (judged->stage == 0 && count == sizeof judged->header) {
        memcpy(judged->header, bytes, count);
        judged->entries_left = (uint32_t)bytes[2] | (uint32_t)bytes[3] << 8;
        keep(judged, address, bytes, count, JUDGE_TABLE_CHANGED, true);
        judge_header(judge, hba, slot);
    } else if (judged->stage == 1 && count == sizeof judged->fis) {
        memcpy(judged->fis, bytes, count);
        keep(judged, address, bytes, count, JUDGE_TABLE_CHANGED, false);
        judge_command(judge, hba, slot);
    } else if (judged->entries_left > 0) {
        keep(judged, address, bytes, count, JUDGE_TABLE_CHANGED, false);
        judge_entries(judge, hba, slot, bytes, count);
    } else {
        keep(judged, address, bytes, count, JUDGE_DATA_CHANGED, false);
    }
    judged->stage++;
}

/* Compares a run with the guest's memory. */
static void compare(struct judge *judge, uint32_t slot, const struct judged_run *run, bool is_header) {
    uint8_t *bytes = malloc((size_t)run->bytes);
    if (!bytes)
        return;
    if (memory_read(judge->memory, run->address, bytes, (size_t)run->bytes) && sum_of(bytes, (size_t)run->bytes, is_header) != run->sum)
        judge_find(judge, run->rule, "slot %" PRIu32 ", %" PRIu64 " bytes at %" PRIx64, slot, run->bytes, run->address);
    free(bytes);
}

void judge_answer(struct judge *judge, uint32_t slot) {
    struct judged *judged = &judge->slots[slot];
    for (size_t i = 0; judge->on && i < judged->run_count; i++)
        compare(judge, slot, &judged->runs[i], i == 0);
    judged->run_count = 0;
}
