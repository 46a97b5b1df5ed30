#include "judge.h"

#include <stdlib.h>

#define ST 0x1u
#define CLO 0x8u
#define FRE 0x10u
#define CCS 0x1F00u
#define CR 0x8000u
#define BUSY 0x88u             /* BSY and DRQ of PxTFD */
#define DET 0xFu
#define HALTS 0x78000000u      /* TFES, HBFS, HBDS and IFS of PxIS */
#define LINK_CHANGES 0x00400040u /* PRCS and PCS */
#define H2D 0x27
#define IS_COMMAND 0x80
#define SRST 0x04
#define MOST_AFTER 256    /* commands that are followed once the port is started again */
#define MOST_REPORTS 65536

static uint32_t bit(unsigned of) {
    return UINT32_C(1) << of;
}

/* ---- reports ---- */

/* Keeps the report, if there is room. */
static void store(struct judge *judge) {
    struct recovery *it = &judge->recovery;
    if (it->report.stretch < judge->from)
        return;
    if (it->reports_count == it->reports_room) {
        size_t room = it->reports_room ? 2 * it->reports_room : 64;
        struct recovery_report *reports = room <= MOST_REPORTS ? realloc(it->reports, room * sizeof *reports) : NULL;
        if (!reports) {
            it->unstored++;
            return;
        }
        it->reports = reports;
        it->reports_room = room;
    }
    it->reports[it->reports_count++] = it->report;
}

static void close_report(struct judge *judge, enum recovery_ending ending) {
    struct recovery *it = &judge->recovery;
    it->report.ending = ending;
    recovery_sort(it);
    if (ending == ENDING_NEXT && !it->report.cut && requests_are_settled(it))
        it->report.ending = ENDING_DONE;
    requests_end(it, it->report.ending == ENDING_NEXT);
    it->is_open = false;
    store(judge);
}

/* What an event asks for: nothing, if it changes nothing. */
static enum recovery_flow flow_of(ahci_hba *hba, enum event_kind kind) {
    bool is_up = (judge_peek(hba, AHCI_REG_PXSSTS) & DET) == 3;
    switch (kind) {
    case EVENT_FATAL_DECODE_ERROR:
    case EVENT_FATAL_CRC_ERROR:
    case EVENT_FATAL_HANDSHAKE_ERROR:
    case EVENT_FATAL_SEQUENCE_ERROR:
    case EVENT_FATAL_TRANSPORT_ERROR:
        if (!is_up)
            return FLOW_NOTHING;
        /* fall through */
    case EVENT_STALL:
    case EVENT_FAIL:
    case EVENT_END:
    case EVENT_NO_MEMORY:
    case EVENT_MEMORY_ERROR:
        return judge_peek(hba, AHCI_REG_PXSACT) ? FLOW_QUEUED : FLOW_SINGLE;
    case EVENT_LOSE_LINK:
        return is_up ? FLOW_LINK : FLOW_NOTHING;
    case EVENT_FIND_LINK:
    case EVENT_PLUG:
        return is_up ? FLOW_NOTHING : FLOW_LINK;
    case EVENT_UNPLUG:
        return is_up ? FLOW_GONE : FLOW_NOTHING;
    case EVENT_POWER_ON:
        return FLOW_POWER;
    default:
        return FLOW_NOTHING;
    }
}

static bool is_followed(enum event_kind kind) {
    return kind != EVENT_SLOW && kind != EVENT_WAIT;
}

/* Whether the driver can know of the event: a command that fails is reported by its last FIS, and memory that isn't there by the next access to it. */
static bool is_visible(const struct recovery *it) {
    switch (it->report.kind) {
    case EVENT_FAIL:
    case EVENT_END:
    case EVENT_NO_MEMORY:
    case EVENT_MEMORY_ERROR:
        return it->had_status;
    default:
        return true;
    }
}

/* Looks at what the controller has by now. */
static void look(struct judge *judge, ahci_hba *hba) {
    struct recovery *it = &judge->recovery;
    it->had_errors |= judge_peek(hba, AHCI_REG_PXSERR) != 0;
    it->had_status |= (judge_peek(hba, AHCI_REG_PXIS) & HALTS) != 0;
    requests_look(it, judge_peek(hba, AHCI_REG_PXCI) | judge_peek(hba, AHCI_REG_PXSACT));
}

/* Begins to follow an event. The requests of the last report that are not settled stay. */
static void open_report(struct judge *judge, ahci_hba *hba, enum event_kind kind, enum recovery_flow flow, unsigned row) {
    struct recovery *it = &judge->recovery;
    it->is_open = true;
    it->report = (struct recovery_report){.kind = kind, .flow = flow, .row = row, .stretch = judge->stretch};
    for (unsigned step = 0; step < RECOVERY_STEPS; step++)
        it->chains[step] = (struct recovery_chain){.steps = 0};
    it->stamp = it->came = it->apart = 0;
    it->was_started = judge_peek(hba, AHCI_REG_PXCMD) & ST;
    it->had_errors = it->had_status = it->was_busy = it->was_reset = false;
    it->left = MOST_AFTER;
    requests_begin(judge, hba);
    it->had_commands = it->count > 0;
}

void recovery_event(struct judge *judge, ahci_hba *hba, enum event_kind kind, unsigned row, uint32_t failed) {
    struct recovery *it = &judge->recovery;
    if (!judge->on || !is_followed(kind))
        return;
    enum recovery_flow flow = flow_of(hba, kind);
    if (it->is_open && flow == FLOW_NOTHING && it->report.flow != FLOW_NOTHING) {
        it->report.beside++;
        return;
    }
    if (it->is_open) {
        look(judge, hba);
        close_report(judge, ENDING_NEXT);
    }
    open_report(judge, hba, kind, flow, row);
    if (failed != NO_SLOT)
        requests_fail(it, failed);
}

void recovery_power_on(struct judge *judge) {
    if (judge->recovery.is_open)
        requests_drop(&judge->recovery);
}

void recovery_exchange(struct judge *judge) {
    if (judge->recovery.is_open)
        requests_leave(&judge->recovery);
}

void recovery_end(struct judge *judge) {
    if (judge->recovery.is_open)
        close_report(judge, ENDING_RUN);
}

/* ---- what the driver does ---- */

/* The device is reset, or BSY and DRQ are cleared. A reset while ST is 1 comes too early. */
static void take_reset(struct recovery *it, ahci_hba *hba, enum recovery_extra extra) {
    it->report.extras |= bit(extra);
    it->was_busy |= (judge_peek(hba, AHCI_REG_PXTFD) & BUSY) != 0;
    it->was_reset |= extra != EXTRA_CLO;
    it->apart |= judge_peek(hba, AHCI_REG_PXCMD) & ST ? 0 : bit(STEP_RESET);
    recovery_take(it, STEP_RESET);
}

static void take_command_word(struct recovery *it, ahci_hba *hba, uint32_t word) {
    uint32_t before = judge_peek(hba, AHCI_REG_PXCMD), set = word & ~before;
    if (before & ~word & ST) {
        requests_drop(it);
        recovery_take(it, STEP_STOP);
        it->report.extras |= it->report.flow == FLOW_NOTHING ? bit(EXTRA_STOP) : 0;
    }
    if (word & CLO)
        take_reset(it, hba, EXTRA_CLO);
    if (set & FRE)
        recovery_take(it, STEP_RECEIVE);
    if (!(set & ST))
        return;
    it->was_busy |= !(it->came & bit(STEP_RESET)) && judge_peek(hba, AHCI_REG_PXTFD) & BUSY;
    recovery_take(it, STEP_START);
    it->left = MOST_AFTER;
}

/* The HBA is reset, and so are its port and the device: the port is stopped, and PxSERR and PxIS are cleared. */
static void take_global(struct recovery *it, ahci_hba *hba) {
    static const enum recovery_step taken[] = {STEP_STOP, STEP_STOPPED, STEP_ERRORS, STEP_STATUS};
    requests_drop(it);
    for (unsigned i = 0; i < sizeof taken / sizeof *taken; i++)
        recovery_take(it, taken[i]);
    it->report.extras |= bit(EXTRA_HBA_RESET);
    it->was_busy |= (judge_peek(hba, AHCI_REG_PXTFD) & BUSY) != 0;
    it->was_reset = true;
    it->apart |= bit(STEP_RESET);
    recovery_take(it, STEP_RESET);
}

/* Whether a word clears all bits of a register that are 1, of which there are some. */
static bool clears(uint32_t bits, uint32_t word) {
    return bits && !(bits & ~word);
}

void recovery_write(struct judge *judge, ahci_hba *hba, uint32_t offset, uint32_t word) {
    struct recovery *it = &judge->recovery;
    if (!it->is_open)
        return;
    look(judge, hba);
    switch (offset) {
    case AHCI_REG_GHC:
        if (word & AHCI_GHC_HR)
            take_global(it, hba);
        break;
    case AHCI_REG_PXCLB:
        recovery_take(it, STEP_LIST);
        break;
    case AHCI_REG_PXFB:
        recovery_take(it, STEP_AREA);
        break;
    case AHCI_REG_PXIS:
        if (clears(judge_peek(hba, AHCI_REG_PXIS) & HALTS, word))
            recovery_take(it, STEP_STATUS);
        break;
    case AHCI_REG_PXCMD:
        take_command_word(it, hba, word);
        break;
    case AHCI_REG_PXSCTL:
        if ((word & DET) == 1 && (judge_peek(hba, AHCI_REG_PXSCTL) & DET) != 1) {
            take_reset(it, hba, EXTRA_COMRESET);
            requests_drop(it);
        }
        break;
    case AHCI_REG_PXSERR:
        if (clears(judge_peek(hba, AHCI_REG_PXSERR), word))
            recovery_take(it, STEP_ERRORS);
        break;
    case AHCI_REG_PXSACT:
    case AHCI_REG_PXCI:
        requests_write(it, word);
        break;
    default:
        break;
    }
}

void recovery_read(struct judge *judge, ahci_hba *hba, uint32_t offset, uint32_t mask, uint32_t word) {
    struct recovery *it = &judge->recovery;
    if (!it->is_open)
        return;
    look(judge, hba);
    if (offset == AHCI_REG_PXSACT || offset == AHCI_REG_PXCI)
        requests_read(it, offset == AHCI_REG_PXSACT, mask, word);
    if (!is_visible(it))
        return;
    bool is_started = judge_peek(hba, AHCI_REG_PXCMD) & ST, is_stopped = !it->was_started || it->came & bit(STEP_STOP);
    switch (offset) {
    case AHCI_REG_PXIS:
        if (word & (HALTS | LINK_CHANGES))
            recovery_take(it, STEP_CAUSE);
        break;
    case AHCI_REG_PXSACT:
    case AHCI_REG_PXCI:
        if (!is_stopped)
            recovery_take(it, offset == AHCI_REG_PXSACT ? STEP_ACTIVE : STEP_ISSUED);
        break;
    case AHCI_REG_PXCMD:
        if (!is_stopped && mask & CCS)
            recovery_take(it, STEP_SLOT);
        if (!is_started && mask & ~word & CR)
            recovery_take(it, STEP_STOPPED);
        break;
    case AHCI_REG_PXSSTS:
        if (mask & 1 && (word & DET) == 3)
            recovery_take(it, STEP_LINK);
        break;
    case AHCI_REG_PXTFD:
        if (!is_started && (mask & ~word & BUSY) == BUSY)
            recovery_take(it, STEP_READY);
        break;
    default:
        break;
    }
}

void recovery_command(struct judge *judge, uint32_t slot, const uint8_t *fis, uint64_t table, uint32_t entries) {
    struct recovery *it = &judge->recovery;
    uint8_t address[8] = {0};
    if (!it->is_open)
        return;
    struct command command = command_of(fis);
    if (fis[0] == H2D && !(fis[1] & IS_COMMAND) && fis[15] & SRST) {
        it->report.extras |= bit(EXTRA_SOFT_RESET);
        it->was_reset = true;
    }
    if (command.reads_error_log)
        recovery_take(it, STEP_LOG);
    if (entries)
        memory_read(judge->memory, table + 0x80, address, sizeof address);
    uint64_t data = 0;
    for (unsigned i = 0; i < sizeof address; i++)
        data |= (uint64_t)address[i] << 8 * i;
    if (command.is_command)
        requests_match(it, slot, &command, data);
    bool is_over = it->report.flow == FLOW_NOTHING || it->came & bit(STEP_START); /* the driver may need a while to find out */
    if (is_over && --it->left == 0)
        close_report(judge, ENDING_DONE);
}
