/* The rules that the judge knows: those of the library (ahci_rule), and the program's own. */
#ifndef AHCI_HBA_DRIVER_RULES_H
#define AHCI_HBA_DRIVER_RULES_H

#include <ahci.h>

enum own_rule {
    JUDGE_UNALIGNED_ACCESS = AHCI_RULES,
    JUDGE_SMALL_ACCESS,
    JUDGE_NO_REGISTER,
    JUDGE_TABLE_CHANGED,
    JUDGE_DATA_CHANGED,
    JUDGE_LOG_NOT_READ,
    JUDGE_LIST_NOT_GIVEN,
    JUDGE_AREA_NOT_GIVEN,
    JUDGE_RUNNING_NOT_AWAITED,
    JUDGE_RECEIVING_NOT_AWAITED,
    JUDGE_CLEAR_BUSY_NOT_AWAITED,
    JUDGE_RESET_NOT_AWAITED,
    JUDGE_LINK_NOT_AWAITED,
    JUDGE_SHORT_COMRESET,
    JUDGE_RESET_ALONE,
    JUDGE_RESET_BESIDE_COMMANDS,
    JUDGE_TAG_ABOVE_DEPTH,
    JUDGE_MEMORY_OVERLAPS,
    JUDGE_MASTER_OFF,
    JUDGE_ADDRESS_ABOVE_REACH,
    JUDGE_NO_MEMORY,
    JUDGE_RULES /* how many there are in all */
};

enum verdict { VERDICT_BROKEN, VERDICT_OPEN, VERDICT_ODD };

/* A rule, named for what breaks it. */
struct driver_rule {
    const char *name;
    const char *section; /* of AHCI 1.3.1; or another standard */
    enum verdict verdict;
    const char *text;
};

extern const struct driver_rule driver_rules[JUDGE_RULES];

/* A verdict in words. */
const char *verdict_text(enum verdict verdict);

#endif
