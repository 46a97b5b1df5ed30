/* A script of events: which commands fail, are slow or are never answered, and what else happens, and when. Each line has its conditions and its events; the
   options fail, slow and stall become lines too (rules.h). A line is decided once for each command, when the device first accepts it. */
#ifndef AHCI_HOST_SCRIPT_H
#define AHCI_HOST_SCRIPT_H

#include "event_table.h"
#include "numbers.h"

#include <stdbool.h>
#include <stddef.h>
#include <stdint.h>

#define MOST_LINES 1024  /* of a script, with those of options */
#define MOST_EVENTS 16   /* of a line */
#define MOST_NAMED 1001  /* characters of the names of files in a line, which has at most 1,000 */
#define MOST_PRINTED 2048 /* characters of a line as it is printed */
#define NO_END UINT64_MAX
#define MOST_PATH 4096

struct event {
    enum event_kind kind;
    uint8_t error;      /* ARGUMENT_ERROR, ARGUMENT_STATUS */
    struct delay delay; /* ARGUMENT_DELAY */
    uint64_t time;      /* ARGUMENT_TIME: microseconds */
    bool has_seed;      /* ARGUMENT_SEED */
    uint64_t seed;      /* the line's, if none is given */
    bool is_other;      /* ARGUMENT_DISK: another disk */
    uint16_t file;      /* its image: a place in the line's `files`, counted from 1; 0: it has none */
};

/* What a line waits for. */
enum about { ABOUT_COMMAND, ABOUT_REGISTER /* a write of it */, ABOUT_TIME };

struct line {
    unsigned row; /* of the file, the first being 1; 0: an option */
    enum about about;
    /* a command: all that is said of it holds */
    bool reads, writes; /* of those that name sectors */
    bool has_code;      /* it has this one; else it names sectors */
    uint8_t code;
    bool has_sectors;   /* it touches one of these sectors */
    uint64_t first_lba, last_lba;
    uint64_t first_tag, last_tag;
    uint64_t first_number, last_number; /* the first command since the start that names sectors being 1 */
    uint64_t begins, ends; /* of a command or a write: so many microseconds after the start, without the last */
    uint32_t offset;       /* ABOUT_REGISTER */
    uint64_t time;         /* ABOUT_TIME: microseconds after the start, and between two times */
    uint64_t first, step;  /* of those that the conditions hold for: the first one, and each so many after it */
    uint64_t most;         /* how often it happens at most */
    uint64_t hits, of;     /* the probability */
    bool has_seed;
    uint64_t seed;
    unsigned count;
    unsigned about_command; /* how many of the events, from the first on, are about the command itself */
    struct event events[MOST_EVENTS];
    char files[MOST_NAMED]; /* the names that events have, each with a 0 byte after it */
    uint16_t named;         /* characters of them */
    /* so far */
    uint64_t random;   /* the state of the generator */
    uint64_t matched;  /* how often the conditions held */
    uint64_t happened; /* how often it happened */
    int answer;        /* to the question whether it applies to the command at hand: see script_run.c */
    bool is_under_way; /* events are left that wait for their time */
    unsigned next;     /* the first of these */
    uint64_t due;      /* when it happens */
};

struct script {
    unsigned count;
    uint64_t events; /* the kinds that some line has, as bits */
    unsigned given[EVENT_KINDS]; /* how many lines come from the option of this name */
    char path[MOST_PATH]; /* of the file that was read */
    struct line lines[MOST_LINES];
};

/* A command, as lines know it. */
struct occasion {
    uint8_t code;
    uint8_t tag; /* or slot */
    bool is_queued;
    bool writes;
    uint64_t lba;
    uint32_t sectors; /* 0: it names none */
    uint64_t number;  /* of those that name sectors, the first being 1; else 0 */
    uint64_t since;   /* microseconds since the start */
};

/* What is decided for a command: by kind, the event and its line; NULL for what does not happen. */
struct decision {
    struct line *line;
    const struct event *event;
};
struct decisions {
    struct decision of[EVENT_KINDS];
};

/* ---- lines (script_line.c, script_print.c, script_file.c) ---- */

struct words;

/* A line without conditions, for commands that name sectors: it happens without end. */
void line_begin(struct line *line, uint64_t seed);

/* Parses the words of a line for a server. It returns false after it has printed what was expected. */
bool line_take(struct line *line, struct words *words, unsigned server, uint64_t seed);

/* The file that an event of a line names; NULL if it names none. */
const char *line_file(const struct line *line, const struct event *event);

/* Writes a line as it can be parsed again, and always in the same form. */
void line_print(const struct line *line, char text[MOST_PRINTED]);

/* Room for one more line; NULL if there is none. */
struct line *script_add(struct script *script);

/* The events of a line that was added are known now. */
void script_note(struct script *script, const struct line *line);

/* Adds the lines of a file for a server. It returns 0, or -1 after it has printed all that is wrong. */
int script_read(struct script *script, const char *path, unsigned server);

/* Whether the sectors of each line are on the disk. It returns 0, or -1 after it has printed which are not. */
int script_complete(const struct script *script, uint64_t sectors);

/* Judges a file for a server, and prints its lines as line_print does. It returns an exit status: 0 or 2. */
int script_check(const char *path, unsigned server);

/* ---- events (script_run.c) ---- */

/* The start: lines about a time wait for it from here on. */
void script_begin(struct script *script);

/* Whether some line has an event of a kind. */
bool script_has(const struct script *script, enum event_kind kind);

/* Decides what becomes of a command. For each kind the first line decides that applies. */
void script_decide(struct script *script, const struct occasion *occasion, struct decisions *all);

/* The driver has written the bytes from an offset of the registers on. */
void script_wrote(struct script *script, uint32_t offset, uint32_t bytes, uint64_t since);

/* The next event that is due and that is about no command; false if none is. */
bool script_take(struct script *script, uint64_t since, struct decision *due);

/* When the next such event is due, in microseconds after the start; UINT64_MAX if none is known. */
uint64_t script_next(const struct script *script);

/* Prints a line for each line of the file that never happened. */
void script_end(const struct script *script, void (*put)(const char *line));

#endif
