/* The controller with its disk, and the device's turn: it moves the bytes that the controller reads and writes, and chooses which command
   goes on. All registers, FISes and interrupts are the library's, and so is what a command does. */
#ifndef AHCI_HBA_DEVICE_H
#define AHCI_HBA_DEVICE_H

#include "cache.h"
#include "command.h"
#include "disk.h"
#include "history.h"
#include "judge.h"
#include "memory.h"
#include "other.h"
#include "provoke.h"
#include "settings.h"
#include "slow.h"
#include "stepping.h"
#include "writeback.h"

#include <ahci.h>
#include <poll.h>

/* Why the device takes no step although there is one. */
enum wait { WAIT_NOTHING, WAIT_DELAY, WAIT_MEMORY };

/* What became of the write-back that a flush waits for. */
enum kept { KEPT_NOT_YET, KEPT, KEPT_NOT };

/* The command of a slot, as it was read there last. */
struct task {
    struct command command;
    uint64_t number;            /* of those that name sectors, the first being 1 */
    bool is_decided;            /* the script was asked */
    struct decisions decided;   /* what it has said and was not done yet */
    uint64_t ready;             /* a slow one goes on then, in nanoseconds of CLOCK_MONOTONIC; 0: at once */
    enum kept kept;             /* of a flush */
};

struct device {
    struct settings *settings;
    struct memory *memory; /* the guest's */
    ahci_hba hba;
    ahci_hba_state state;  /* what the controller does next */
    struct extent zeros[AHCI_MOST_TAGS]; /* by slot: the sectors that its next step makes zeros, those of one entry of a TRIM; none of most steps */
    struct disk disk;      /* its sectors, for the image and the record */
    bool is_over;          /* the disk is over the image, and not in memory as a whole */
    bool is_out;           /* it is pulled out */
    struct other other;    /* the disks that were plugged in after it */
    struct cache cache;    /* writes that a loss of power may lose */
    uint64_t losses;       /* how many there were */
    struct history history;
    struct judge judge;
    struct slow slow;
    struct provoked provoked;
    struct task tasks[AHCI_MOST_TAGS]; /* by slot */
    uint64_t commands; /* how many that name sectors were read */
    uint32_t reading; /* the slot whose command is read */
    uint32_t runs;    /* how many runs of it were read */
    bool marks;        /* a WRITE UNCORRECTABLE EXT was carried out */
    uint32_t answered; /* the slot whose answer was begun last */
    uint32_t stuck;   /* slots whose step was refused, until the driver writes a register */
    uint32_t stalled; /* slots whose command is never answered, until the driver drops it */
    uint32_t flushing; /* slots whose flush waits for the image */
    uint32_t covered; /* those of them that the write-back is enough for that has begun */
    struct writeback writeback;
    bool mute;        /* no signature is sent until then either, since there was no memory for the last FIS */
    uint64_t random;  /* the state of --pick random, and of --delay's jitter */
    uint32_t next;    /* the place after the slot that was chosen last for an answer */
    uint64_t started; /* nanoseconds of CLOCK_MONOTONIC */
    enum wait wait;
    uint64_t due;     /* until when, in nanoseconds of CLOCK_MONOTONIC */
    bool starved;     /* memory was refused once, and this was said */
    uint64_t starves_since; /* when the turn was that got no memory first, with none that did since; or 0 */
    bool gives_up;    /* that is too long ago, and the program ends */
    uint8_t *buffer;  /* for a run of the guest's memory */
    size_t room;
};

/* Makes the controller over the image's sectors. It returns 0, or -1 once it has printed why. */
int device_begin(struct device *device, struct settings *settings, struct memory *memory);

/* Writes the image back, and the judge's table, and frees all. It returns 0, or -1 if something could not be written. *broken is how many rules
   the driver broke, if it was judged. */
int device_end(struct device *device, int *broken);

/* An access of the driver to the registers, in 1, 2, 4 or 8 bytes. */
uint64_t device_read(struct device *device, uint32_t offset, uint32_t bytes);
void device_write(struct device *device, uint32_t offset, uint32_t bytes, uint64_t value);

/* The driver makes the function a bus master, or none. */
void device_master(struct device *device, bool is_master);

/* The PCI function is reset, or taken out: the controller is as after power-on, bases and all, and the disk keeps its sectors. */
void device_reset(struct device *device);

/* What the link, the disk and the interface do by themselves, as ahci.h has it. */
void device_lose_link(struct device *device);
void device_find_link(struct device *device);
void device_unplug(struct device *device);
void device_plug(struct device *device);
void device_plug_other(struct device *device, const char *file);
void device_fail_interface(struct device *device, ahci_interface_error error, bool is_fatal);

/* Sends a FIS that no command asks for. It returns false if the port doesn't accept it now. */
bool device_receive(struct device *device, enum unasked fis);

/* Writes the image back if a command has written, without waiting for it. */
void device_save(struct device *device);

/* Files that are readable once a thread of the device has done something: how many; and takes what it has done. */
#define DEVICE_FILES 2
unsigned device_watch(const struct device *device, struct pollfd *files);
void device_take_events(struct device *device, const struct pollfd *files);

/* Takes the device's next step, if there is one that is due. */
void device_turn(struct device *device);

/* How many nanoseconds until the next step: 0 if it is due, -1 if there is none. */
int64_t device_waits(const struct device *device);

/* ---- for the parts of the device ---- */

/* Nanoseconds of CLOCK_MONOTONIC. */
uint64_t device_now(void);

/* Ends the program after a status that can't come: it and the library disagree. */
void device_must(const char *call, uint32_t status);

/* Makes sure that the library reads no page from the image that was written since the start, so that the pages can be written back into it: a disk over an
   image keeps them once the queue's journal is trimmed. It returns false if the queue has a request. */
bool device_can_save(struct device *device);

/* Makes the controller in its empty place over the image's sectors. It returns 0, or -1 once it has printed why. */
int device_make(struct device *device);

/* Looks at what the controller does next. */
void device_look(struct device *device);

/* The library got no memory: what was asked can be asked again later. */
void device_starve(struct device *device);

#endif
