#include "driver_rules.h"

#include <stddef.h>

const struct driver_rule driver_rules[JUDGE_RULES] = {
    [AHCI_RULE_START_WITHOUT_RECEIVING] = {"StartWithoutReceiving", "10.3.1", VERDICT_BROKEN, "ST is set while FRE is 0 and stays 0"},
    [AHCI_RULE_START_WITH_RECEIVING] = {"StartWithReceiving", "10.3.1", VERDICT_OPEN, "ST and FRE are set by one write"},
    [AHCI_RULE_START_WHILE_BUSY] = {"StartWhileBusy", "10.3.1", VERDICT_BROKEN, "ST is set while BSY or DRQ is 1"},
    [AHCI_RULE_START_WITHOUT_DEVICE] = {"StartWithoutDevice", "10.3.1", VERDICT_BROKEN, "ST is set while PxSSTS.DET is not 3"},
    [AHCI_RULE_RECEIVING_CLEARED_WHILE_STARTED] = {"ReceivingClearedWhileStarted", "10.3.2", VERDICT_BROKEN, "FRE is cleared while ST is 1"},
    [AHCI_RULE_LIST_MOVED_WHILE_STARTED] = {"ListMovedWhileStarted", "10.3.1", VERDICT_BROKEN, "PxCLB or PxCLBU is changed while ST is 1"},
    [AHCI_RULE_AREA_MOVED_WHILE_RECEIVING] = {"AreaMovedWhileReceiving", "3.3.7", VERDICT_BROKEN, "PxFB or PxFBU is changed while FRE is 1"},
    [AHCI_RULE_CLEAR_BUSY_WHILE_STARTED] = {"ClearBusyWhileStarted", "3.3.7", VERDICT_BROKEN, "CLO is set while ST is 1"},
    [AHCI_RULE_LINK_CHANGED_WHILE_STARTED] = {"LinkChangedWhileStarted", "3.3.11", VERDICT_BROKEN, "PxSCTL.DET is changed while ST is 1"},
    [AHCI_RULE_RESERVED_LINK_STATE] = {"ReservedLinkState", "3.3.11", VERDICT_BROKEN, "PxSCTL.DET is set to a reserved value"},
    [AHCI_RULE_ACTIVE_WHILE_STOPPED] = {"ActiveWhileStopped", "3.3.13", VERDICT_ODD, "a bit of PxSACT is set while ST is 0"},
    [AHCI_RULE_COMMAND_WHILE_STOPPED] = {"CommandWhileStopped", "3.3.14", VERDICT_BROKEN, "a bit of PxCI is set while ST is 0"},
    [AHCI_RULE_COMMAND_WHILE_HALTED] = {"CommandWhileHalted", "6.2.2", VERDICT_ODD, "a bit of PxCI is set after an error and before ST is cleared"},
    [AHCI_RULE_MIXED_COMMANDS] = {"MixedCommands", "5.5.1", VERDICT_BROKEN, "queued commands and others begin to be outstanding together"},
    [AHCI_RULE_INTERRUPT_NOT_CLEARED] = {"InterruptNotCleared", "10.7.2", VERDICT_ODD, "IS is cleared while an enabled bit of PxIS is 1: it comes again"},
    [AHCI_RULE_RESERVED_BITS] = {"ReservedBits", "3", VERDICT_BROKEN, "reserved bits of a register are written 1"},
    [AHCI_RULE_FIS_LENGTH] = {"FisLength", "4.2.2", VERDICT_BROKEN, "CFL is not the five dwords of a Register FIS - Host to Device, or the three of BIST Activate"},
    [AHCI_RULE_NO_COMMAND_FIS] = {"NoCommandFis", "4.2.3", VERDICT_BROKEN, "CFIS is no Register FIS - Host to Device, and no BIST Activate FIS with B"},
    [AHCI_RULE_ATAPI_FLAG] = {"AtapiFlag", "4.2.2", VERDICT_BROKEN, "A is 1 for another command than PACKET"},
    [AHCI_RULE_WRITE_FLAG] = {"WriteFlag", "4.2.2", VERDICT_BROKEN, "W is not the direction of the data"},
    [AHCI_RULE_ACTIVE_WITHOUT_QUEUE] = {"ActiveWithoutQueue", "3.3.13", VERDICT_BROKEN, "PxSACT has the slot of a command that is not queued"},
    [AHCI_RULE_QUEUE_WITHOUT_ACTIVE] = {"QueueWithoutActive", "5.5.1", VERDICT_BROKEN, "PxSACT does not have the slot of a queued command"},
    [AHCI_RULE_TAG_NOT_SLOT] = {"TagNotSlot", "3.3.13", VERDICT_BROKEN, "the tag of a queued command is not its slot"},
    [AHCI_RULE_RESERVED_HEADER] = {"ReservedHeader", "4.2.2", VERDICT_BROKEN, "reserved bits of a command header are not 0"},
    [AHCI_RULE_TABLE_UNALIGNED] = {"TableUnaligned", "4.2.2", VERDICT_BROKEN, "CTBA is not a multiple of 128"},
    [AHCI_RULE_ODD_ADDRESS] = {"OddAddress", "4.2.3", VERDICT_BROKEN, "DBA of a PRDT entry is odd"},
    [AHCI_RULE_EVEN_COUNT] = {"EvenCount", "4.2.3", VERDICT_BROKEN, "bit 0 of DBC is 0: the length is odd"},
    [AHCI_RULE_LIST_TOO_SHORT] = {"ListTooShort", "6.1.5", VERDICT_BROKEN, "the PRDT has fewer bytes than the command moves"},
    [AHCI_RULE_LIST_TOO_LONG] = {"ListTooLong", "6.1.6", VERDICT_ODD, "the PRDT has more bytes than the command moves"},
    [AHCI_RULE_LIST_UNALIGNED] = {"ListUnaligned", "3.3.1", VERDICT_BROKEN, "PxCLB is written an address that is not a multiple of 1,024"},
    [AHCI_RULE_AREA_UNALIGNED] = {"AreaUnaligned", "3.3.3", VERDICT_BROKEN, "PxFB is written an address that is not a multiple of 256"},
    [AHCI_RULE_SLOT_USED_AGAIN] = {"SlotUsedAgain", "5.5.1", VERDICT_BROKEN, "a slot is used while PxCI or PxSACT still has it"},
    [AHCI_RULE_ACTIVE_AFTER_ISSUE] = {"ActiveAfterIssue", "3.3.13", VERDICT_BROKEN, "a bit of PxSACT is set after its bit of PxCI, not before"},
    [AHCI_RULE_START_WITH_ERRORS] = {"StartWithErrors", "6.2.2", VERDICT_BROKEN, "ST is set while TFES, HBFS, HBDS or IFS of PxIS is 1"},
    [AHCI_RULE_START_WITH_SERR] = {"StartWithSerr", "10.1.2", VERDICT_BROKEN, "ST is set while PxSERR is not 0"},
    [AHCI_RULE_ENABLE_OVER_STATUS] = {"EnableOverStatus", "10.1.2", VERDICT_BROKEN, "PxIE or GHC.IE enables what PxIS or IS already has"},
    [AHCI_RULE_SPEED_ABOVE_INTERFACE] = {"SpeedAboveInterface", "3.3.11", VERDICT_ODD, "PxSCTL.SPD is above CAP.ISS, or reserved"},
    [AHCI_RULE_POWER_WITHOUT_CAPABILITY] = {"PowerWithoutCapability", "3.1.1", VERDICT_BROKEN, "ICC, ALPE or ASP is set without the capability"},
    [AHCI_RULE_QUEUE_WITHOUT_CAPABILITY] = {"QueueWithoutCapability", "3.1.1", VERDICT_ODD, "a bit of PxSACT is set while CAP.SNCQ is 0"},
    [AHCI_RULE_PREFETCH_WITH_QUEUE] = {"PrefetchWithQueue", "4.2.2", VERDICT_BROKEN, "P is 1 for a queued command"},
    [AHCI_RULE_PORT_OF_MULTIPLIER] = {"PortOfMultiplier", "4.2.2", VERDICT_BROKEN, "PMP of a header or PM Port of a FIS is not 0, without port multipliers"},
    [AHCI_RULE_BIST_FLAG] = {"BistFlag", "4.2.2", VERDICT_BROKEN, "B is 1 for a FIS that is no BIST Activate FIS"},
    [AHCI_RULE_RESET_FLAGS] = {"ResetFlags", "10.4.1", VERDICT_BROKEN, "R and C are not 1 for the FIS that sets SRST, or are 1 for another"},
    [AHCI_RULE_RESERVED_FIS] = {"ReservedFis", "4.2.3", VERDICT_BROKEN, "reserved bits of a Register FIS - Host to Device are not 0"},
    [AHCI_RULE_RESERVED_ENTRY] = {"ReservedEntry", "4.2.3", VERDICT_BROKEN, "reserved bits of a PRDT entry are not 0"},
    [AHCI_RULE_SLOT_ABOVE_LIST] = {"SlotAboveList", "3.1.1", VERDICT_BROKEN, "a bit of PxSACT or PxCI is set for a slot at or above CAP.NCS"},
    [JUDGE_UNALIGNED_ACCESS] = {"UnalignedAccess", "3", VERDICT_BROKEN, "an access is not aligned to its size"},
    [JUDGE_SMALL_ACCESS] = {"SmallAccess", "3", VERDICT_ODD, "a register is written in 1 or 2 bytes"},
    [JUDGE_NO_REGISTER] = {"NoRegister", "3", VERDICT_BROKEN, "a value other than 0 is written where no register is"},
    [JUDGE_TABLE_CHANGED] = {"TableChanged", "5.5.1", VERDICT_BROKEN, "a command header or table is changed before its command has ended"},
    [JUDGE_DATA_CHANGED] = {"DataChanged", "5.5.1", VERDICT_ODD, "the data of a write are changed before its command has ended"},
    [JUDGE_LOG_NOT_READ] = {"LogNotRead", "6.2.2", VERDICT_BROKEN, "after a failed queued command a command comes before READ LOG EXT of log 10h or a reset"},
    [JUDGE_LIST_NOT_GIVEN] = {"ListNotGiven", "10.1.2", VERDICT_BROKEN, "ST is set before PxCLB was ever written"},
    [JUDGE_AREA_NOT_GIVEN] = {"AreaNotGiven", "3.3.7", VERDICT_BROKEN, "FRE is set before PxFB was ever written"},
    [JUDGE_RUNNING_NOT_AWAITED] = {"RunningNotAwaited", "10.3.1", VERDICT_BROKEN, "after ST was cleared, FRE is cleared or ST is set before CR was read as 0"},
    [JUDGE_RECEIVING_NOT_AWAITED] = {"ReceivingNotAwaited", "3.3.7", VERDICT_BROKEN, "after FRE was cleared, PxFB is changed before FR was read as 0"},
    [JUDGE_CLEAR_BUSY_NOT_AWAITED] = {"ClearBusyNotAwaited", "3.3.7", VERDICT_BROKEN, "after CLO was set, ST is set before CLO was read as 0"},
    [JUDGE_RESET_NOT_AWAITED] = {"ResetNotAwaited", "10.4.3", VERDICT_OPEN, "after HR was set, a register is written before HR was read as 0"},
    [JUDGE_LINK_NOT_AWAITED] = {"LinkNotAwaited", "10.3.1", VERDICT_BROKEN, "after PxSCTL.DET went to 0, ST is set before PxSSTS.DET was read as 3"},
    [JUDGE_SHORT_COMRESET] = {"ShortComreset", "10.4.2", VERDICT_BROKEN, "PxSCTL.DET is 1 for less than a millisecond"},
    [JUDGE_RESET_ALONE] = {"ResetAlone", "10.4.1", VERDICT_BROKEN, "a FIS that sets SRST comes without the one that clears it, or the other way round"},
    [JUDGE_RESET_BESIDE_COMMANDS] = {"ResetBesideCommands", "10.4.1", VERDICT_BROKEN, "a software reset is issued while other commands are outstanding"},
    [JUDGE_TAG_ABOVE_DEPTH] = {"TagAboveDepth", "ACS-3", VERDICT_BROKEN, "a queued command's tag is at or above the queue depth of IDENTIFY DEVICE, word 75"},
    [JUDGE_MEMORY_OVERLAPS] = {"MemoryOverlaps", "4.2", VERDICT_OPEN, "the list, the received FIS area, a command table and the data of a read overlap"},
    [JUDGE_MASTER_OFF] = {"MasterOff", "2.1.2", VERDICT_BROKEN, "the function is no bus master while ST is 1"},
    [JUDGE_ADDRESS_ABOVE_REACH] = {"AddressAboveReach", "4.2.2", VERDICT_ODD, "the upper half of an address is not 0 while CAP.S64A is 0"},
    [JUDGE_NO_MEMORY] = {"NoMemory", "3.3.5", VERDICT_BROKEN, "an address that the controller has to read or to write is no memory"},
};

const char *verdict_text(enum verdict verdict) {
    switch (verdict) {
    case VERDICT_BROKEN:
        return "broken";
    case VERDICT_OPEN:
        return "the standard leaves it open";
    case VERDICT_ODD:
        return "allowed, and odd";
    }
    return NULL;
}
