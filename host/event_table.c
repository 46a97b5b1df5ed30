#include "event_table.h"

const struct event_row event_rows[EVENT_KINDS] = {
    [EVENT_STALL] = {"stall", ARGUMENT_NONE, SERVER_HBA, SCOPE_COMMAND, "the command is never answered: the driver has to drop it", "6.2.2"},
    [EVENT_SLOW] = {"slow", ARGUMENT_DELAY, SERVER_HBA | SERVER_NBD, SCOPE_COMMAND, "the command takes so long, and up to JITTER longer, at random", ""},
    [EVENT_FAIL] = {"fail", ARGUMENT_ERROR, SERVER_HBA | SERVER_NBD, SCOPE_COMMAND, "the command fails with the error byte EE", "6.2.2"},
    [EVENT_END] = {"end", ARGUMENT_STATUS, SERVER_HBA, SCOPE_COMMAND, "a command that isn't queued ends with the status SS in place of being done", "5.3"},
    [EVENT_NO_MEMORY] = {"no_memory", ARGUMENT_NONE, SERVER_HBA, SCOPE_EITHER, "the next access to the driver's memory finds none: HBFS, and the port halts", "6.1.1"},
    [EVENT_MEMORY_ERROR] = {"memory_error", ARGUMENT_NONE, SERVER_HBA, SCOPE_EITHER, "the next access to the driver's memory meets wrong data: HBDS, and the port halts", "6.1.1"},
    [EVENT_LOSE_INTERRUPT] = {"lose_interrupt", ARGUMENT_NONE, SERVER_HBA, SCOPE_EITHER, "the next interrupt does not come, and PxIS and IS have its cause", "10.7.2"},
    [EVENT_LATE_INTERRUPT] = {"late_interrupt", ARGUMENT_TIME, SERVER_HBA, SCOPE_EITHER, "the next interrupt comes so much later", "10.7.2"},
    [EVENT_SEND_INTERRUPT] = {"send_interrupt", ARGUMENT_NONE, SERVER_HBA, SCOPE_CONTROLLER, "an interrupt comes that has no cause", "10.7.2"},
    [EVENT_POWER_ON] = {"power_on", ARGUMENT_NONE, SERVER_HBA, SCOPE_CONTROLLER, "the controller's registers are as after power-on, and its commands are dropped", "10.1.2"},
    [EVENT_POWER_LOSS] = {"power_loss", ARGUMENT_SEED, SERVER_HBA, SCOPE_CONTROLLER,
                          "the disk loses its power and has it again: unflushed writes are kept or lost, and the registers are as after power-on", "10.1.2"},
    [EVENT_LOSE_LINK] = {"lose_link", ARGUMENT_NONE, SERVER_HBA, SCOPE_CONTROLLER, "the link is lost: PRCS, and the disk drops its commands", "7"},
    [EVENT_FIND_LINK] = {"find_link", ARGUMENT_NONE, SERVER_HBA, SCOPE_CONTROLLER, "the disk makes itself known by COMINIT: PCS, and its signature comes", "6.2.2.3"},
    [EVENT_UNPLUG] = {"unplug", ARGUMENT_NONE, SERVER_HBA, SCOPE_CONTROLLER, "the disk is pulled out: PRCS, and nothing brings the link up", "7"},
    [EVENT_PLUG] = {"plug", ARGUMENT_DISK, SERVER_HBA, SCOPE_CONTROLLER,
                    "the disk is plugged in again, with the sectors that it had, or another one, with those of FILE or none: PCS, and its signature comes", "7"},
    [EVENT_DECODE_ERROR] = {"decode_error", ARGUMENT_NONE, SERVER_HBA, SCOPE_CONTROLLER, "a character that can't be decoded was received, and the FIS is sent again: INFS, DIAG.B", "6.1.2"},
    [EVENT_FATAL_DECODE_ERROR] = {"fatal_decode_error", ARGUMENT_NONE, SERVER_HBA, SCOPE_CONTROLLER, "a character that can't be decoded was received: IFS, DIAG.B, and the port halts", "6.1.2"},
    [EVENT_CRC_ERROR] = {"crc_error", ARGUMENT_NONE, SERVER_HBA, SCOPE_CONTROLLER, "a FIS was received whose CRC is wrong, and the FIS is sent again: INFS, DIAG.C", "6.1.2"},
    [EVENT_FATAL_CRC_ERROR] = {"fatal_crc_error", ARGUMENT_NONE, SERVER_HBA, SCOPE_CONTROLLER, "a FIS was received whose CRC is wrong: IFS, DIAG.C, and the port halts", "6.1.2"},
    [EVENT_HANDSHAKE_ERROR] = {"handshake_error", ARGUMENT_NONE, SERVER_HBA, SCOPE_CONTROLLER, "the disk answered a FIS with R_ERR, and the FIS is sent again: INFS, DIAG.H", "6.1.2"},
    [EVENT_FATAL_HANDSHAKE_ERROR] = {"fatal_handshake_error", ARGUMENT_NONE, SERVER_HBA, SCOPE_CONTROLLER, "the disk answered a FIS with R_ERR: IFS, DIAG.H, and the port halts", "6.1.2"},
    [EVENT_SEQUENCE_ERROR] = {"sequence_error", ARGUMENT_NONE, SERVER_HBA, SCOPE_CONTROLLER, "the link layer met an erroneous transition, and the FIS is sent again: INFS, DIAG.S", "6.1.2"},
    [EVENT_FATAL_SEQUENCE_ERROR] = {"fatal_sequence_error", ARGUMENT_NONE, SERVER_HBA, SCOPE_CONTROLLER, "the link layer met an erroneous transition: IFS, DIAG.S, and the port halts", "6.1.2"},
    [EVENT_TRANSPORT_ERROR] = {"transport_error", ARGUMENT_NONE, SERVER_HBA, SCOPE_CONTROLLER, "the transport layer met an erroneous transition, and the FIS is sent again: INFS, DIAG.T", "6.1.2"},
    [EVENT_FATAL_TRANSPORT_ERROR] = {"fatal_transport_error", ARGUMENT_NONE, SERVER_HBA, SCOPE_CONTROLLER, "the transport layer met an erroneous transition: IFS, DIAG.T, and the port halts", "6.1.2"},
    [EVENT_PACKET_SIGNATURE] = {"packet_signature", ARGUMENT_NONE, SERVER_HBA, SCOPE_CONTROLLER, "the next signature is that of an ATAPI device: PxSIG EB140101h", "3.3.9"},
    [EVENT_BRIDGE_SIGNATURE] = {"bridge_signature", ARGUMENT_NONE, SERVER_HBA, SCOPE_CONTROLLER, "the next signature is that of an enclosure management bridge: PxSIG C33C0101h", "3.3.9"},
    [EVENT_MULTIPLIER_SIGNATURE] = {"multiplier_signature", ARGUMENT_NONE, SERVER_HBA, SCOPE_CONTROLLER, "the next signature is that of a port multiplier: PxSIG 96690101h", "3.3.9"},
    [EVENT_NOTIFICATION] = {"notification", ARGUMENT_NONE, SERVER_HBA, SCOPE_CONTROLLER, "a Set Device Bits FIS comes with N and I that names no tag: SDBS", "5.3"},
    [EVENT_SPURIOUS_BITS] = {"spurious_bits", ARGUMENT_NONE, SERVER_HBA, SCOPE_CONTROLLER, "a Set Device Bits FIS comes with I that names no tag: SDBS", "5.3"},
    [EVENT_SPURIOUS_REGISTER] = {"spurious_register", ARGUMENT_NONE, SERVER_HBA, SCOPE_CONTROLLER, "a D2H Register FIS comes that no command asks for: DHRS, if ST is 1", "5.3"},
    [EVENT_UNKNOWN_FIS] = {"unknown_fis", ARGUMENT_NONE, SERVER_HBA, SCOPE_CONTROLLER, "a FIS of a type that isn't known comes: UFS, DIAG.F", "3.3.5"},
    [EVENT_HOLD_SIGNATURE] = {"hold_signature", ARGUMENT_TIME, SERVER_HBA, SCOPE_CONTROLLER, "the disk's next signature comes so much later: BSY stays 1 meanwhile", "10.4.2"},
    [EVENT_LOSE_SIGNATURE] = {"lose_signature", ARGUMENT_NONE, SERVER_HBA, SCOPE_CONTROLLER, "the disk's next signature does not come: BSY stays 1 until another reset", "10.4.2"},
    [EVENT_WRONG_LOG_TAG] = {"wrong_log_tag", ARGUMENT_NONE, SERVER_HBA, SCOPE_EITHER, "the next log 10h that is read names the tag after the one that failed", "6.2.2.2"},
    [EVENT_WRONG_LOG_NQ] = {"wrong_log_nq", ARGUMENT_NONE, SERVER_HBA, SCOPE_EITHER, "the next log 10h that is read has NQ: no queued command has failed", "6.2.2.2"},
    [EVENT_WRONG_LOG_SUM] = {"wrong_log_sum", ARGUMENT_NONE, SERVER_HBA, SCOPE_EITHER, "the next log 10h that is read has a wrong checksum", "6.2.2.2"},
    [EVENT_SLOW_CR] = {"slow_cr", ARGUMENT_TIME, SERVER_HBA, SCOPE_CONTROLLER, "the next change of PxCMD.CR is seen so much later", "10.3.1"},
    [EVENT_SLOW_FR] = {"slow_fr", ARGUMENT_TIME, SERVER_HBA, SCOPE_CONTROLLER, "the next change of PxCMD.FR is seen so much later", "10.3.2"},
    [EVENT_SLOW_CLO] = {"slow_clo", ARGUMENT_TIME, SERVER_HBA, SCOPE_CONTROLLER, "PxCMD.CLO that is set next is seen as 0 so much later", "3.3.7"},
    [EVENT_SLOW_HR] = {"slow_hr", ARGUMENT_TIME, SERVER_HBA, SCOPE_CONTROLLER, "GHC.HR that is set next is seen as 0 so much later", "10.4.3"},
    [EVENT_WAIT] = {"wait", ARGUMENT_TIME, SERVER_HBA, SCOPE_BETWEEN, "the events after it come so much later", ""},
};

const char *event_arguments(enum event_kind kind) {
    static const char *const texts[] = {[ARGUMENT_NONE] = "", [ARGUMENT_ERROR] = "EE", [ARGUMENT_STATUS] = "SS",
                                        [ARGUMENT_DELAY] = "TIME[+JITTER]", [ARGUMENT_TIME] = "TIME",
                                        [ARGUMENT_SEED] = "[seed N]", [ARGUMENT_DISK] = "[another [FILE]]"};
    return texts[event_rows[kind].argument];
}

const char *server_name(unsigned server) {
    return server == SERVER_HBA ? "hba" : "nbd";
}
