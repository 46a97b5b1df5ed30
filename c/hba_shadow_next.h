/* What is next of each slot of the shadow, and all that it knows, beside what the library has. */
#include "hba_shadow_answers.h"

/* The controller may take a step with its list; the device may move, which it doesn't in Sleep. */
static bool is_listening(void) { return reg.on && !reg.halted && reg.link == UP && !fetch.on && !answer.on && !transfer.on; }
static bool is_ready(void) { return is_listening() && reg.receiving && soft == OFF && power != SLEEP; }

static bool waits(uint32_t slot) { return reg.ci >> slot & 1 && !slots[slot].there; }

/* The slot to issue from next (AHCI 1.3.1, section 3.3.7, CCS): from the one behind CCS on, the first whose command waits. 32: none, or not now. */
static uint32_t next_slot(void)
{
    if (!is_listening() || is_busy_with_one())
        return 32;
    for (uint32_t slot = 0; slot < 32; slot++)
        if (slots[slot].there && !slots[slot].queued)
            return 32;
    for (uint32_t i = 0; i < can.ncs; i++)
        if (waits((reg.first + i) % can.ncs))
            return (reg.first + i) % can.ncs;
    return 32;
}

/* The next step of a slot (docs/LAYOUTS.md, "The controller's commands"); `issued` is the one to issue from next. */
static uint32_t next_step(uint32_t slot, uint32_t issued)
{
    const struct command *it = &slots[slot];
    const bool moves = it->kind == QUEUE || it->kind == READ || it->kind == WRITE;
    uint64_t lba;
    if (transfer.on && slot == transfer.slot)
        return reg.on && !reg.halted && reg.receiving && !answer.on ? AHCI_STEP_DELIVER : AHCI_STEP_NONE;
    if (it->there && it->kind == CONTROL)
        return is_listening() ? AHCI_STEP_CONTROL : AHCI_STEP_NONE;
    if (slot == issued)
        return AHCI_STEP_FETCH;
    if (!it->there || !is_ready())
        return AHCI_STEP_NONE;
    if (it->sent)
        return it->accepted ? AHCI_STEP_SERVE : AHCI_STEP_ACCEPT;
    if (it->error_log && failed && !is_aborted(slot))
        return AHCI_STEP_RECOVER;
    if (it->kind == QUEUE)
        return failed || mixed ? AHCI_STEP_EXECUTE : AHCI_STEP_SEND;
    return moves && !is_aborted(slot) && !is_past(it) && !meets_unreadable(it, &lba) ? AHCI_STEP_SEND : AHCI_STEP_EXECUTE;
}

/* All that the shadow knows, beside what is there. */
static void compare(void)
{
    CHECK(driven(AHCI_REG_PXCLB) == reg.clb && driven(AHCI_REG_PXCLBU) == reg.clbu && driven(AHCI_REG_PXFB) == reg.fb && driven(AHCI_REG_PXFBU) == reg.fbu);
    CHECK(driven(AHCI_REG_PXIE) == reg.ie && driven(AHCI_REG_PXSCTL) == reg.sctl && driven(AHCI_REG_GHC) == (0x80000000u | reg.enabled << 1));
    CHECK(driven(AHCI_REG_PXCMD) == (4u | (reg.sud ? AHCI_PXCMD_SUD : 0) | (reg.on ? 0x8001u | reg.ccs << 8 : 0) | (reg.receiving ? 0x4010u : 0) | reg.lights));
    CHECK(driven(AHCI_REG_PXSSTS) == (reg.link == UP ? 0x103u + (reg.speed << 4) : reg.link == OFFLINE ? 4u : 0));
    CHECK(driven(AHCI_REG_PXSACT) == reg.sact);
    CHECK(driven(AHCI_REG_PXCI) == reg.ci);
    CHECK(driven(AHCI_REG_PXTFD) == reg.tfd);
    CHECK(driven(AHCI_REG_PXIS) == interrupts());
    CHECK(driven(AHCI_REG_IS) == reg.pending && driven(AHCI_REG_PXSERR) == reg.serr && driven(AHCI_REG_PXSIG) == reg.sig);
    CHECK(ahci_hba_look(&hba, &look) == AHCI_OK && look.depth == depth);
    CHECK(look.interrupt == (reg.enabled && reg.pending));
    CHECK(look.want == (uint32_t)(fetch.on ? AHCI_WANT_READ : answer.on ? AHCI_WANT_WRITE : AHCI_WANT_NOTHING));
    CHECK(look.sign == (signature_moves() && !fetch.on && !answer.on && !transfer.on));
    const uint32_t issued = next_slot();
    for (uint32_t slot = 0; slot < 32; slot++)
        CHECK(look.next[slot] == next_step(slot, issued));
}
