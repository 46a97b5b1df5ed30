/* What a script can let happen: a row for each event. A new event is a name here, a row in event_table.c, and what the server does for it
   (hba/provoke.c for those of the controller). */
#ifndef AHCI_HOST_EVENT_TABLE_H
#define AHCI_HOST_EVENT_TABLE_H

/* In the order in which they are decided for a command: one that is never answered neither is slow nor fails. */
enum event_kind {
    EVENT_STALL,
    EVENT_SLOW,
    EVENT_FAIL,
    EVENT_END,
    EVENT_NO_MEMORY,
    EVENT_MEMORY_ERROR,
    EVENT_LOSE_INTERRUPT,
    EVENT_LATE_INTERRUPT,
    EVENT_SEND_INTERRUPT,
    EVENT_POWER_ON,
    EVENT_POWER_LOSS,
    EVENT_LOSE_LINK,
    EVENT_FIND_LINK,
    EVENT_UNPLUG,
    EVENT_PLUG,
    EVENT_DECODE_ERROR,
    EVENT_FATAL_DECODE_ERROR,
    EVENT_CRC_ERROR,
    EVENT_FATAL_CRC_ERROR,
    EVENT_HANDSHAKE_ERROR,
    EVENT_FATAL_HANDSHAKE_ERROR,
    EVENT_SEQUENCE_ERROR,
    EVENT_FATAL_SEQUENCE_ERROR,
    EVENT_TRANSPORT_ERROR,
    EVENT_FATAL_TRANSPORT_ERROR,
    EVENT_PACKET_SIGNATURE,
    EVENT_BRIDGE_SIGNATURE,
    EVENT_MULTIPLIER_SIGNATURE,
    EVENT_NOTIFICATION,
    EVENT_SPURIOUS_BITS,
    EVENT_SPURIOUS_REGISTER,
    EVENT_UNKNOWN_FIS,
    EVENT_HOLD_SIGNATURE,
    EVENT_LOSE_SIGNATURE,
    EVENT_WRONG_LOG_TAG,
    EVENT_WRONG_LOG_NQ,
    EVENT_WRONG_LOG_SUM,
    EVENT_SLOW_CR,
    EVENT_SLOW_FR,
    EVENT_SLOW_CLO,
    EVENT_SLOW_HR,
    EVENT_WAIT, /* between others */
    EVENT_KINDS
};

/* The servers, as bits. */
#define SERVER_HBA 1u
#define SERVER_NBD 2u

/* What follows an event's name. */
enum argument {
    ARGUMENT_NONE,
    ARGUMENT_ERROR,  /* EE: an error byte */
    ARGUMENT_STATUS, /* SS: a status byte */
    ARGUMENT_DELAY,  /* TIME or TIME+JITTER, each at most MOST_DELAY */
    ARGUMENT_TIME,   /* TIME */
    ARGUMENT_SEED,   /* nothing, or seed N */
    ARGUMENT_DISK    /* nothing, or another, or another FILE: the disk's image */
};

/* What an event is about. */
enum scope {
    SCOPE_COMMAND,    /* a command: it is decided when the device accepts the command */
    SCOPE_EITHER,     /* the answer of the command, or without a command what comes next */
    SCOPE_CONTROLLER, /* no command */
    SCOPE_BETWEEN     /* nothing: it stands between others */
};

struct event_row {
    const char *name;
    enum argument argument;
    unsigned servers;    /* those that have it */
    enum scope scope;
    const char *does;    /* in a few words */
    const char *section; /* of AHCI 1.3.1, or "" */
};

extern const struct event_row event_rows[EVENT_KINDS];

/* The arguments as they are written: "EE", "SS", "TIME[+JITTER]", "TIME", "[seed N]", "[another [FILE]]" or "". */
const char *event_arguments(enum event_kind kind);

/* The name of one server: "hba" or "nbd". */
const char *server_name(unsigned server);

#endif
