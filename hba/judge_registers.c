/* The judge's part for accesses to registers: the library's rules for each word, and the rules over time. */
#include "judge.h"

#include <inttypes.h>
#include <time.h>

#define ST 0x1u
#define CLO 0x8u
#define FRE 0x10u
#define FR 0x4000u
#define CR 0x8000u
#define DET 0xFu
#define CAP2 0x24u
#define EXCHANGED 0x04000000u /* DIAG.X of PxSERR */
#define MILLISECOND UINT64_C(1000000)

static uint64_t now(void) {
    struct timespec it;
    clock_gettime(CLOCK_MONOTONIC, &it);
    return (uint64_t)it.tv_sec * 1000 * MILLISECOND + (uint64_t)it.tv_nsec;
}

/* What the driver of a port that was reset has still to do. The bases stay (section 10.4.3). */
static struct judged_port port_after_reset(const struct judged_port *before) {
    return (struct judged_port){.has_list = before->has_list, .has_area = before->has_area, .is_master = before->is_master, .has_seen_port = true, .seen = UINT32_MAX};
}

void judge_power_on(struct judge *judge) {
    judge->port = port_after_reset(&(struct judged_port){.is_master = judge->port.is_master});
    recovery_power_on(judge);
}

/* A device whose link was reset or lost is in no software reset any more. */
static void follow_link(struct judge *judge, ahci_hba *hba) {
    struct judged_port *port = &judge->port;
    bool is_exchanged = judge_peek(hba, AHCI_REG_PXSERR) & EXCHANGED;
    if ((judge_peek(hba, AHCI_REG_PXSSTS) & DET) != 3 || (is_exchanged && !port->was_exchanged))
        port->is_resetting = false;
    port->was_exchanged = is_exchanged;
}

/* ---- each register ---- */

/* A wait that the driver has left out. It is found once. */
static void find_awaited(struct judge *judge, bool *awaits, unsigned rule, uint32_t offset, uint32_t word) {
    if (*awaits)
        judge_find(judge, rule, "%08" PRIx32 " at %03" PRIx32, word, offset);
    *awaits = false;
}

/* GHC: HR begins another stretch. */
static void take_global(struct judge *judge, uint32_t word) {
    if (!(word & AHCI_GHC_HR))
        return;
    judge->port = port_after_reset(&judge->port);
    judge->port.awaits_reset = true;
    judge->stretch++;
    judge->first_of_stretch = judge->breach_count;
}

/* ST is set. */
static void take_start(struct judge *judge, ahci_hba *hba, uint32_t word) {
    struct judged_port *port = &judge->port;
    if (!port->has_list)
        judge_find(judge, JUDGE_LIST_NOT_GIVEN, "%08" PRIx32 " at %03x", word, AHCI_REG_PXCMD);
    if (!port->is_master)
        judge_find(judge, JUDGE_MASTER_OFF, "%08" PRIx32 " at %03x", word, AHCI_REG_PXCMD);
    port->awaits_clear_busy |= (word & CLO) != 0;
    find_awaited(judge, &port->awaits_running, JUDGE_RUNNING_NOT_AWAITED, AHCI_REG_PXCMD, word);
    find_awaited(judge, &port->awaits_clear_busy, JUDGE_CLEAR_BUSY_NOT_AWAITED, AHCI_REG_PXCMD, word);
    find_awaited(judge, &port->awaits_link, JUDGE_LINK_NOT_AWAITED, AHCI_REG_PXCMD, word);
    judge_overlap(judge, "the list", judge_list(hba), JUDGE_LIST_BYTES, "the received FIS area", judge_area(hba), JUDGE_AREA_BYTES);
}

static void take_command(struct judge *judge, ahci_hba *hba, uint32_t word) {
    struct judged_port *port = &judge->port;
    uint32_t before = judge_peek(hba, AHCI_REG_PXCMD), set = word & ~before, cleared = before & ~word;
    if (set & ST)
        take_start(judge, hba, word);
    if (set & FRE && !port->has_area)
        judge_find(judge, JUDGE_AREA_NOT_GIVEN, "%08" PRIx32 " at %03x", word, AHCI_REG_PXCMD);
    if (cleared & FRE && !(before & ST))
        find_awaited(judge, &port->awaits_running, JUDGE_RUNNING_NOT_AWAITED, AHCI_REG_PXCMD, word);
    if (word & CLO)
        port->awaits_clear_busy = true;
    if (cleared & ST) {
        port->awaits_running = true;
        port->armed = 0;
    }
    port->awaits_receiving = cleared & FRE || (port->awaits_receiving && !(set & FRE));
}

/* PxSCTL: COMRESET, and the link afterwards. */
static void take_link(struct judge *judge, ahci_hba *hba, uint32_t word) {
    struct judged_port *port = &judge->port;
    uint32_t before = judge_peek(hba, AHCI_REG_PXSCTL) & DET, after = word & DET;
    if (before == after)
        return;
    if (before == 1 && now() - port->comreset < MILLISECOND)
        judge_find(judge, JUDGE_SHORT_COMRESET, "%" PRIu64 " microseconds", (now() - port->comreset) / 1000);
    if (after == 1) {
        port->comreset = now();
        port->was_reset = true;
        port->is_resetting = false;
    }
    port->awaits_link = after == 0;
}

/* The FISes of a software reset stand in the list alone, one after the other or both at once (section 10.4.1). It is asked as they are issued, since
   the commands beside them may have ended before such a FIS is read. */
static void take_resets(struct judge *judge, ahci_hba *hba, uint32_t issued, uint32_t word) {
    struct judged_port *port = &judge->port;
    uint32_t new = word & ~issued;
    port->control_slots &= issued;
    for (uint32_t slot = 0; slot < AHCI_MOST_TAGS; slot++)
        if (new >> slot & 1)
            port->control_slots |= (uint32_t)judge_is_control(judge, hba, slot) << slot;
    uint32_t others = (issued | word | judge_peek(hba, AHCI_REG_PXSACT)) & ~port->control_slots;
    if (new && port->control_slots && others)
        judge_find(judge, JUDGE_RESET_BESIDE_COMMANDS, "slots %08" PRIx32 ", others %08" PRIx32, port->control_slots, others);
}

/* PxCI: a slot that PxSACT still has from an earlier command; a software reset beside other commands. */
static void take_issue(struct judge *judge, ahci_hba *hba, uint32_t word) {
    struct judged_port *port = &judge->port;
    uint32_t issued = judge_peek(hba, AHCI_REG_PXCI), again = word & judge_peek(hba, AHCI_REG_PXSACT) & ~port->armed & ~issued;
    if (again)
        judge_find(judge, AHCI_RULE_SLOT_USED_AGAIN, "%08" PRIx32 " at %03x", word, AHCI_REG_PXCI);
    port->armed &= ~word;
    if (judge_peek(hba, AHCI_REG_PXCMD) & ST)
        take_resets(judge, hba, issued, word);
}

/* A received FIS area that changes. */
static void take_area(struct judge *judge, uint32_t offset, uint32_t word) {
    find_awaited(judge, &judge->port.awaits_receiving, JUDGE_RECEIVING_NOT_AWAITED, offset, word);
    judge->port.has_area |= offset == AHCI_REG_PXFB;
}

/* The rules over time, of a word that is about to be written. */
static void take_word(struct judge *judge, ahci_hba *hba, uint32_t offset, uint32_t word) {
    struct judged_port *port = &judge->port;
    find_awaited(judge, &port->awaits_reset, JUDGE_RESET_NOT_AWAITED, offset, word);
    switch (offset) {
    case AHCI_REG_GHC:
        take_global(judge, word);
        break;
    case AHCI_REG_IS:
        port->has_seen_port &= !(word & 1);
        break;
    case AHCI_REG_PXIS:
        port->seen &= ~word;
        break;
    case AHCI_REG_PXCLB:
        port->has_list = true;
        break;
    case AHCI_REG_PXCLBU:
        judge_reach(judge, hba, "the list", (uint64_t)word << 32 | judge_peek(hba, AHCI_REG_PXCLB));
        break;
    case AHCI_REG_PXFBU:
        judge_reach(judge, hba, "the received FIS area", (uint64_t)word << 32 | judge_peek(hba, AHCI_REG_PXFB));
        take_area(judge, offset, word);
        break;
    case AHCI_REG_PXFB:
        take_area(judge, offset, word);
        break;
    case AHCI_REG_PXCMD:
        take_command(judge, hba, word);
        break;
    case AHCI_REG_PXSCTL:
        take_link(judge, hba, word);
        break;
    case AHCI_REG_PXSACT:
        port->armed |= word;
        break;
    case AHCI_REG_PXCI:
        take_issue(judge, hba, word);
        break;
    default:
        break;
    }
}

/* ---- writes ---- */

/* Whether a rule of the library that is broken is a race: what the driver could not know is no breach. */
static bool is_race(const struct judge *judge, ahci_hba *hba, uint32_t rule, uint32_t offset, uint32_t word) {
    const struct judged_port *port = &judge->port;
    uint32_t status = judge_peek(hba, AHCI_REG_PXIS) & port->seen, enabled = judge_peek(hba, AHCI_REG_PXIE);
    if (rule == AHCI_RULE_INTERRUPT_NOT_CLEARED)
        return !(status & enabled);
    if (rule == AHCI_RULE_ENABLE_OVER_STATUS)
        return offset == AHCI_REG_GHC ? !port->has_seen_port : !(status & word & ~enabled);
    return false;
}

/* Whether a place without a register may be written: CAP2, which is read-only here and has no bit, and what is the vendor's (chapter 3: A0h to FFh, and
   PxVS of the port). */
static bool is_free(uint32_t offset) {
    return offset == CAP2 || (offset >= 0xA0 && offset < 0x100) || (offset >= 0x170 && offset < 0x180);
}

/* Asks the library for each rule of a word that is about to be written, and then those over time. */
static void judge_word(struct judge *judge, ahci_hba *hba, uint32_t offset, uint32_t word) {
    for (uint32_t rule = 0; rule < AHCI_RULES; rule++) {
        uint32_t broken = 0;
        uint32_t status = ahci_hba_write_breaks(hba, rule, offset, word, &broken);
        if (status == AHCI_NO_SUCH_REGISTER) {
            if (word && !is_free(offset))
                judge_find(judge, JUDGE_NO_REGISTER, "%08" PRIx32 " at %03" PRIx32, word, offset);
            break;
        }
        if (broken && !is_race(judge, hba, rule, offset, word))
            judge_find(judge, rule, "%08" PRIx32 " at %03" PRIx32, word, offset);
    }
    take_word(judge, hba, offset, word);
    recovery_write(judge, hba, offset, word);
}

/* Whether writing 1 to a register's bits clears or sets them, so that the bytes beside an access count as 0. */
static bool takes_ones(uint32_t offset) {
    return offset == AHCI_REG_IS || offset == AHCI_REG_PXIS || offset == AHCI_REG_PXSERR || offset == AHCI_REG_PXSACT || offset == AHCI_REG_PXCI;
}

/* The bits of a register's word that an access of 1 or 2 bytes has. */
static uint32_t mask_of(uint32_t offset, uint32_t bytes) {
    return (bytes == 1 ? 0xFFu : 0xFFFFu) << 8 * (offset & 3u);
}

/* The word that an access of 1 or 2 bytes makes. */
static uint32_t word_of(ahci_hba *hba, uint32_t offset, uint32_t bytes, uint64_t value) {
    uint32_t at = offset & ~3u, mask = mask_of(offset, bytes);
    uint32_t before = takes_ones(at) ? 0 : judge_peek(hba, at);
    return (before & ~mask) | ((uint32_t)value << 8 * (offset & 3u) & mask);
}

void judge_write(struct judge *judge, ahci_hba *hba, uint32_t offset, uint32_t bytes, uint64_t value) {
    if (!judge->on)
        return;
    judge->writes++;
    follow_link(judge, hba);
    if (offset % bytes) {
        judge_find(judge, JUDGE_UNALIGNED_ACCESS, "%" PRIu32 " bytes at %03" PRIx32, bytes, offset);
        return;
    }
    if (bytes < 4) {
        judge_find(judge, JUDGE_SMALL_ACCESS, "%" PRIu32 " bytes at %03" PRIx32, bytes, offset);
        judge_word(judge, hba, offset & ~3u, word_of(hba, offset, bytes, value));
        return;
    }
    judge_word(judge, hba, offset, (uint32_t)value);
    if (bytes == 8)
        judge_word(judge, hba, offset + 4, (uint32_t)(value >> 32));
}

void judge_master(struct judge *judge, ahci_hba *hba, bool is_master) {
    if (!judge->on)
        return;
    if (judge->port.is_master && !is_master && judge_peek(hba, AHCI_REG_PXCMD) & ST)
        judge_find(judge, JUDGE_MASTER_OFF, "bit 2 of the PCI command register is cleared");
    judge->port.is_master = is_master;
}

/* ---- reads ---- */

/* The driver has read some bits of a register, a mask. */
static void see_word(struct judge *judge, ahci_hba *hba, uint32_t offset, uint32_t mask, uint32_t word) {
    struct judged_port *port = &judge->port;
    recovery_read(judge, hba, offset, mask, word);
    switch (offset) {
    case AHCI_REG_GHC:
        port->awaits_reset &= !(mask & ~word & AHCI_GHC_HR);
        break;
    case AHCI_REG_IS:
        port->has_seen_port = mask & 1 ? word & 1 : port->has_seen_port;
        port->seen |= word & 1 ? judge_peek(hba, AHCI_REG_PXIS) : 0;
        break;
    case AHCI_REG_PXIS:
        port->seen = (port->seen & ~mask) | word;
        break;
    case AHCI_REG_PXCMD:
        port->awaits_running &= !(mask & ~word & CR);
        port->awaits_receiving &= !(mask & ~word & FR);
        port->awaits_clear_busy &= !(mask & ~word & CLO);
        break;
    case AHCI_REG_PXSSTS:
        port->awaits_link &= !(mask & 1) || (word & DET) != 3;
        break;
    default:
        break;
    }
}

void judge_read(struct judge *judge, ahci_hba *hba, uint32_t offset, uint32_t bytes, uint64_t value) {
    if (!judge->on || offset % bytes)
        return;
    follow_link(judge, hba);
    if (bytes < 4) {
        uint32_t mask = mask_of(offset, bytes);
        see_word(judge, hba, offset & ~3u, mask, (uint32_t)value << 8 * (offset & 3u) & mask);
        return;
    }
    see_word(judge, hba, offset, UINT32_MAX, (uint32_t)value);
    if (bytes == 8)
        see_word(judge, hba, offset + 4, UINT32_MAX, (uint32_t)(value >> 32));
}
