/* The registers of the shadow: what a FIS of the device and an error leave in them, what a write of the driver does, and what the link, the disk and the interface do by themselves. */
#include "hba_shadow.h"

/* ---- errors, FISes and the signature ---- */

static void halts(void)
{
    counted.halts++;
    reg.halted = true;
    fetch.on = answer.on = transfer.on = false;
}

/* A fatal error (ERR:Fatal; section 6.1). */
static void fatal(uint32_t bit)
{
    reg.is |= bit;
    halts();
}

/* ERR of a status halts the port (ERR:FatalTaskfile; section 6.2.2). */
static void is_judged(uint8_t status)
{
    if (status & ERR)
        fatal(TFES);
}

/* Whether the port accepts a FIS that it has not asked for (NDR:Accept; sections 3.3.7, FRE, and 6.2.2). */
static bool accepts(void) { return reg.link == UP && reg.receiving && !(reg.on && reg.halted); }

/* One event more. */
static void counts(uint16_t *counter) { *counter += *counter < 0xFFFF; }

/* A command has ended: counter 001h is of those with ERR and ICRC. */
static void is_ended(uint8_t status, uint8_t error)
{
    if (status & ERR && error & 0x80)
        counts(&icrc_ends);
}

/* What a FIS of the device leaves once it is accepted (section 5.3, RegFIS, SDB and PIO:Entry). A D2H Register FIS that comes while ST is 0 goes from P:NotRunning to
   P:RegFisUpdate and P:RegFisPostToMem (section 5.3.2), and neither sets an interrupt. The error of a PIO Setup FIS is pPioErr until PIO:Update. */
static void receives(const struct fis *fis, uint32_t slot)
{
    const uint8_t status = fis->bytes[2], error = fis->bytes[3], wants = fis->bytes[1] & 0x40;
    switch (fis->size ? fis->bytes[0] : 0) {
    case 0x34:
        reg.tfd = status | (uint32_t)error << 8;
        reg.is |= wants && reg.on ? DHRS : 0;
        counted.done += wants && !(status & ERR);
        reg.ci &= ~(status & (ERR | BSY | DRQ) || answer.unasked ? 0 : 1u << slot); /* without a command pIssueSlot is none */
        is_judged(status);
        break;
    case 0xA1:
        reg.tfd = (reg.tfd & (BSY | DRQ)) | (status & 0x77) | (uint32_t)error << 8;
        reg.sact &= ~(uint32_t)little(fis->bytes + 4, 4);
        reg.is |= wants ? SDBS : 0;
        counted.done += !(status & ERR);
        is_judged(status);
        break;
    case 0x5F:
        reg.tfd = (reg.tfd & ~0xFFu) | status;
        break;
    case 0x55: /* the UFIS states, for which it is posted first */
        if (accepts())
            reg.serr |= DIAG_F;
        break;
    }
}

/* What a PIO Setup FIS leaves after its data (PIO:Update): PSS comes with ERR too (section 3.3.5, PSS). */
static void ends_block(const struct fis *fis, uint32_t slot)
{
    const uint8_t status = fis->bytes[15];
    counted.blocks++;
    reg.tfd = status | (uint32_t)fis->bytes[3] << 8;
    reg.is |= fis->bytes[1] & 0x40 ? PSS : 0;
    if (!(status & (ERR | BSY | DRQ))) {
        counted.done++;
        reg.ci &= ~(1u << slot);
    }
    is_judged(status);
}

/* Whether the FIS of the signature can be taken, or was taken and can be posted. A halted port takes none (ERR:WaitForClear). */
static bool signature_moves(void) { return signature == DUE ? !reg.on || (reg.receiving && !reg.halted) : signature == UNPOSTED && reg.receiving; }

/* It is: a signature that is taken ends the command of a software reset's second FIS. */
static void is_signed(void)
{
    if (signature_moves() && signature == DUE) {
        reg.tfd = answer.after.bytes[2] | (uint32_t)answer.after.bytes[3] << 8;
        reg.sig = told = answer.signature;
        reg.ci &= ~(soft == ENDING ? 1u << soft_slot : 0);
        soft = OFF;
        signature = reg.receiving ? PAST : UNPOSTED;
    } else if (signature_moves()) {
        signature = PAST;
    }
}

/* What the last byte of an answer does: its FISes take effect, and data that had no room set OFS, which is no fatal error (DR:Receive; sections 3.3.5, 6.1.5
   and 6.2.1). Before the FIS behind the data comes, those of an entry with I set DPS once all of them have moved (sections 3.3.5, 4.2.3.3 and 5.4.2). */
static void ends(void)
{
    const bool is_block = answer.before.size && answer.before.bytes[0] == 0x5F;
    answer.on = false;
    receives(&answer.before, answer.slot);
    reg.is |= answer.spills ? OFS : 0;
    counted.spilled += answer.spills;
    reg.is |= answer.tells ? DPS : 0;
    counted.told += answer.tells;
    if (answer.signs) {
        is_signed();
    } else if (is_block) {
        ends_block(&answer.before, answer.slot);
    } else {
        receives(&answer.after, answer.slot);
    }
}

static bool is_over(void) { return !answer.before.due && answer.left == 0 && !answer.counts && !answer.after.due; }

/* While FRE is 0 no FIS is posted. */
static void post_none(void)
{
    answer.before.due = answer.after.due = false;
    if (answer.on && is_over())
        ends();
}

/* ---- what the driver writes ---- */

static void takes_command(uint32_t value)
{
    const bool stops = reg.on && !(value & 1);
    reg.receiving = value >> 4 & 1;
    reg.lights = value & (can.salp ? 0x0F000000 : 0x03000000);
    reg.halted = reg.halted && reg.on && value & 1;
    if (stops) {
        reg.sact = reg.ci = reg.ccs = reg.first = 0;
        soft = soft == ENDING ? OFF : soft;
        drop();
    }
    reg.on = value & 1;
    if (can.sclo && value & 8)
        reg.tfd &= ~(uint32_t)(BSY | DRQ);
    spin(!can.sss || value & AHCI_PXCMD_SUD);
    if (!reg.receiving)
        post_none();
}

/* A write of a word (AHCI 1.3.1, sections 3.1 and 3.3). */
static void takes(uint32_t offset, uint32_t value)
{
    switch (offset) {
    case AHCI_REG_GHC:
        reg.enabled = value >> 1 & 1;
        if (value & 1)
            reset_hba();
        break;
    case AHCI_REG_IS: reg.pending = reg.pending && !(value & 1); break;
    case AHCI_REG_PXCLB: reg.clb = reg.on ? reg.clb : value & ~0x3FFu; break;
    case AHCI_REG_PXCLBU: reg.clbu = reg.on ? reg.clbu : can.s64a ? value : 0; break;
    case AHCI_REG_PXFB: reg.fb = reg.receiving ? reg.fb : value & ~0xFFu; break;
    case AHCI_REG_PXFBU: reg.fbu = reg.receiving ? reg.fbu : can.s64a ? value : 0; break;
    case AHCI_REG_PXIS: reg.is &= ~value; break;
    case AHCI_REG_PXIE: reg.ie = value & 0x7DC0007Fu; break;
    case AHCI_REG_PXCMD: takes_command(value); break;
    case AHCI_REG_PXSCTL:
        reg.sctl = value & 0xFFFFF;
        if ((value & 15) == RESET || (value & 15) == OFFLINE)
            link_to(value & 15);
        else if ((value & 15) == 0 && (reg.link == RESET || reg.link == OFFLINE)) /* 0 over 0 asks for nothing (section 3.3.11) */
            link_to(reg.sud ? UP : LISTENS);
        break;
    case AHCI_REG_PXSERR: reg.serr &= ~value; break;
    case AHCI_REG_PXSACT: reg.sact |= reg.on ? listed(value) : 0; break;
    case AHCI_REG_PXCI: reg.ci |= reg.on ? listed(value) : 0; break;
    }
    interrupt();
}

/* ---- events: what the link, the disk and the interface do by themselves ---- */

/* PhyRdy is lost: DET is 0 and DIAG.N tells it (sections 3.3.10 and 3.3.12; 7, "Hot Plug Operation"). A port that runs can't go on with its command, and waits for
   the driver to clear ST, which clears PxCI and PxSACT (sections 3.3.13, 3.3.14 and 6.2.2). What AHCI leaves open: PxTFD and PxSIG are as without a device, whose
   status is 7Fh (Serial ATA), and a signature that was taken and not posted is forgotten. The device has its commands no more. */
static void loses_link(void)
{
    if (reg.link != UP)
        return;
    counted.lost++;
    reg.link = LISTENS;
    reg.serr |= DIAG_N;
    reg.tfd = 0x7F;
    reg.sig = 0xFFFFFFFF;
    if (reg.on)
        halts();
    failed = mixed = false;
    signature = PAST;
    soft = OFF;
    reverts();
    drop();
}

/* COMINIT comes: DIAG.X is set whenever it does (section 3.3.12), but none comes from a disk that is pulled out or is held in COMRESET, nor to a Phy that is
   offline (section 3.3.11). A port that waits for it answers, and the link comes up; without SUD it only listens, and DET stays 0 (section 10.10). */
static void finds_link(void)
{
    if (pulled || reg.link == RESET || reg.link == OFFLINE)
        return;
    counted.found++;
    reg.serr |= DIAG_X;
    if (reg.link == LISTENS && reg.sud)
        link_to(UP);
}

/* The disk is pulled out: PhyRdy is lost, and the disk's power with it. A Phy that is offline stays so (section 3.3.10, DET). */
static void is_pulled(void)
{
    loses_link();
    reverts();
    mixed = false;
    icrc_ends = signatures = 0;
    counted.pulled += !pulled;
    pulled = true;
}

/* It is plugged in: its power comes on, so that it is Active, and it sends COMINIT (Serial ATA, "Out of band signaling"); so does one that was not pulled out. */
static void is_plugged(void)
{
    power = pulled ? ACTIVE : power;
    pulled = false;
    finds_link();
}

/* Another disk is plugged in, where one was pulled out: nothing of that one is left but its slot. Its power comes on, and it sends COMINIT. */
static void is_exchanged(const char *name, uint32_t sectors)
{
    counted.other++;
    has_base = true;
    is_new(name, sectors);
    mixed = false;
    icrc_ends = signatures = 0;
    is_plugged();
}

/* A FIS meets an error of the interface (sections 3.3.12 and 6.1.2): S and T are violations of the protocol; B, C and H are of the data's integrity, which the
   interface recovers by sending the FIS again, or does not. An error that it does not recover is fatal. */
static void meets_error(uint32_t error, bool is_fatal)
{
    if (reg.link != UP)
        return;
    counted.broken++;
    reg.serr |= 1u << error | (error >= AHCI_INTERFACE_LINK_SEQUENCE ? ERR_P : is_fatal ? ERR_T : ERR_I);
    if (is_fatal)
        fatal(IFS);
    else
        reg.is |= INFS;
}
