#include "settings.h"

#include "options.h"
#include "record.h"
#include "rules.h"
#include "say.h"
#include "request.h"

#include <ahci.h>
#include <inttypes.h>
#include <stdlib.h>
#include <string.h>

#define NBDKIT_API_VERSION 2
#include <nbdkit-plugin.h>

const char settings_help[] =
    "sectors=N            sectors of 512 bytes, 1 to 4294967295 (default: those of the image, or 131072)\n"
    "size=BYTES           the same in bytes, such as 100G or 1T; \"size=\" can be left out\n"
    "image=FILE           the sectors at the start; those that are written are written back to it\n"
    "sync=end|flush       when: at the end, or also at each flush and each write with FUA (default end)\n"
    "depth=N              slots of the port, 1 to 32 (default 32)\n"
    "pick=low|high|all|random|roundrobin   the tag that the device goes on with; roundrobin: the next one\n"
    "                     after the last, going round past 31 to 0 (default low)\n"
    "seed=N               of pick=random, and of the jitter of delay= (default 1)\n"
    "together=N           tags that one Set Device Bits FIS completes, 1 to 32 (default 1; all: 32)\n"
    "delay=MICROSECONDS[+JITTER]   the device waits so long before each step, and up to JITTER more\n"
    "fail=WHERE:EE[:COUNT][,CONDITION]...  the device fails commands with the error byte EE, two\n"
    "                     hexadecimal digits. WHERE: LBA, LBA-LBA or any, the sectors that they touch;\n"
    "                     COUNT: how many, or ever (default 1; with a condition from the second line\n"
    "                     below, ever); CONDITION: reads, writes, seed=S,\n"
    "                     commands=A-B, seconds=A-B, rate=N/M. May be given up to 64 times\n"
    "slow=WHERE:MICROSECONDS[+JITTER][:COUNT][,CONDITION]...  commands that take so long (default\n"
    "                     COUNT: ever). May be given up to 64 times\n"
    "script=FILE          what happens and when, a line for each: on 3rd write sectors 100-199 do fail 40.\n"
    "                     host/README.md has the language; what never happened is said at the end\n"
    "most-journal=BYTES   size of the port's journal at which it is trimmed (default: 4 times the disk's\n"
    "                     size, at least 4M and at most 256M)\n"
    "record=FOLDER        a record of all that happens; ahci-stretch (host/stretch) turns any part of it into\n"
    "                     a script\n"
    "record-limit=BYTES   the oldest half of the record is dropped so that it has no more bytes. BYTES may\n"
    "                     have a unit: 512K, 64M, 1G";


void settings_begin(struct settings *settings) {
    static struct script script;
    *settings = (struct settings){.depth = AHCI_MOST_TAGS, .seed = 1, .script = &script};
    mapped_begin(&settings->mapped);
}

void settings_end(struct settings *settings) {
    mapped_end(&settings->mapped);
    free(settings->record);
    free(settings->script_file);
}

static int take_pick(const char *text, struct settings *settings) {
    settings->picks_all = !strcmp(text, "all");
    return settings->picks_all ? 0 : pick_take("pick", text, "low, high, all, random or roundrobin", &settings->pick);
}

static int take_sync(const char *text, enum sync *sync) {
    static const char *const words[] = {[SYNC_END] = "end", [SYNC_FLUSH] = "flush", NULL};
    unsigned place = 0;
    int wrong = option_word("sync", text, words, "end or flush", &place);
    *sync = (enum sync)place;
    return wrong;
}

/* sectors= or size=. */
static int take_sectors(const char *key, const char *value, uint32_t *sectors) {
    if (*sectors) {
        say_of(key, value, "sectors= and size= are given, and both say how large the disk is");
        return -1;
    }
    return strcmp(key, "size") ? option_small(key, value, 1, LARGEST_DISK, sectors) : option_size(key, value, sectors);
}

static int take_path(const char *text, char **path) {
    *path = nbdkit_absolute_path(text);
    return *path ? 0 : -1;
}

/* The name of a file, as it is. */
static int take_file(const char *text, char **path) {
    *path = strdup(text);
    return *path ? 0 : -1;
}

static int take_one(struct settings *settings, const char *key, const char *value) {
    if (!strcmp(key, "sectors") || !strcmp(key, "size"))
        return take_sectors(key, value, &settings->sectors);
    if (!strcmp(key, "depth"))
        return option_small(key, value, 1, AHCI_MOST_TAGS, &settings->depth);
    if (!strcmp(key, "pick"))
        return take_pick(value, settings);
    if (!strcmp(key, "seed"))
        return option_number(key, value, 0, UINT64_MAX, &settings->seed);
    if (!strcmp(key, "together"))
        return option_small(key, value, 1, AHCI_MOST_TAGS, &settings->together);
    if (!strcmp(key, "delay"))
        return option_delay(key, value, &settings->delay);
    if (!strcmp(key, "most-journal"))
        return option_bytes(key, value, &settings->most_journal);
    if (!strcmp(key, "image"))
        return image_find(&settings->mapped.image, value);
    if (!strcmp(key, "sync"))
        return take_sync(value, &settings->sync);
    if (!strcmp(key, "script"))
        return take_file(value, &settings->script_file);
    if (!strcmp(key, "record"))
        return take_path(value, &settings->record);
    return option_bytes(key, value, &settings->record_limit);
}

int settings_take(struct settings *settings, const char *key, const char *value) {
    static const char *const keys[] = {"sectors", "size", "depth", "pick", "seed", "together", "delay", "most-journal", "image", "sync", "record", "record-limit", "script"};
    enum event_kind rule = rules_kind(key, SERVER_NBD);
    if (rule != EVENT_KINDS)
        return rules_take(settings->script, rule, value);
    for (unsigned at = 0; at < sizeof keys / sizeof *keys; at++) {
        if (strcmp(key, keys[at]))
            continue;
        if (settings->given >> at & 1) {
            say_of(key, value, "%s= is given twice", key);
            return -1;
        }
        settings->given |= UINT32_C(1) << at;
        return take_one(settings, key, value);
    }
    say("%s: there is no such parameter", key);
    return -1;
}

/* Parameters that mean nothing without another one, or that are too small beside it. */
static int look_at_pairs(const struct settings *settings) {
    uint64_t least = record_least_limit(settings->sectors, REQUEST_MOST_SECTORS);
    if (settings->sync == SYNC_FLUSH && !settings->mapped.image.path)
        say_of("sync", "flush", "there is no image= to write");
    else if (settings->record_limit && !settings->record)
        say("record-limit: there is no record=");
    else if (settings->record_limit && settings->record_limit < least)
        say("record-limit: a disk of %" PRIu32 " sectors needs %" PRIu64 " bytes at least", settings->sectors, least);
    else
        return 0;
    return -1;
}

int settings_complete(struct settings *settings) {
    if (mapped_open(&settings->mapped) || image_settle(&settings->mapped.image, &settings->sectors, LARGEST_DISK) || look_at_pairs(settings))
        return -1;
    if (settings->together == 0)
        settings->together = settings->picks_all ? AHCI_MOST_TAGS : 1;
    if (settings->most_journal == 0)
        settings->most_journal = usual_journal(settings->sectors);
    if (settings->script_file && script_read(settings->script, settings->script_file, SERVER_NBD))
        return -1;
    return script_complete(settings->script, settings->sectors);
}

bool settings_have_waits(const struct settings *settings) {
    return settings->delay.least || settings->delay.jitter || script_has(settings->script, EVENT_SLOW);
}
