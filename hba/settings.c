#include "settings.h"

#include "capabilities.h"
#include "identity.h"
#include "options.h"
#include "other.h"
#include "record.h"
#include "rules.h"
#include "say.h"

#include <inttypes.h>
#include <stdio.h>
#include <string.h>

static const char help[] =
    "An AHCI controller with one disk, for a guest of QEMU or for User Mode Linux\n"
    "\n"
    "Usage: ahci-hba run [OPTIONS] -- qemu-system-x86_64 ARGUMENTS..\n"
    "       ahci-hba serve --socket PATH [OPTIONS]\n"
    "       ahci-hba uml [OPTIONS] -- KERNEL ARGUMENTS..\n"
    "       ahci-hba --check-script FILE [--for nbd]\n"
    "\n"
    "Commands:\n"
    "  run    Starts QEMU with the controller as a PCI function of its guest. Added to the arguments is what is missing of:\n"
    "         a memory backend, and the device vfio-user-pci; for a QEMU before 10.1 the device x-pci-proxy-dev, a socket for\n"
    "         interrupts, and one thread for the emulation\n"
    "  serve  Waits at a socket for any client of vfio-user, one after the other, until a signal comes, and prints the\n"
    "         arguments by which QEMU is one\n"
    "  uml    Starts a kernel of User Mode Linux with the controller as its PCI function\n"
    "  --check-script\n"
    "         Judges a script of events without running it, and prints its lines in one form\n"
    "\n"
    "Options:\n"
    "      --transport WAY          How QEMU has the controller: by vfio-user, or by proxy, as QEMU before 10.1 does (default: vfio-user\n"
    "                               if QEMU has the device)\n"
    "      --socket PATH            The socket of vfio-user (default of run: one in a folder of its own). Only this user can\n"
    "                               come to it, unless its mode is changed\n"
    "      --hold MICROSECONDS[:GAP[:COUNT]]\n"
    "                               By vfio-user an interrupt message waits so long at most, so that a driver takes several answers by one;\n"
    "                               it is sent before if the device is idle, and no command came for GAP microseconds, or COUNT\n"
    "                               came (default 2000:300:16; 0, no wait, with --judge and without vfio-user)\n"
    "      --sectors N              The disk's sectors of 512 bytes, 1 to 4294967295 (default: those of the image, or 131072)\n"
    "      --size BYTES             The same in bytes, such as 2G or 1T\n"
    "      --image FILE             The sectors at the start. Those that are written are written back to FILE\n"
    "      --sync WHEN              When the image is written back: at each flush of the guest, before that is answered, and at the\n"
    "                               end (flush), or only then (end) (default flush)\n"
    "      --depth N                The queue depth that IDENTIFY DEVICE reports, 1 to 32 (default 32). Queued commands whose tag is\n"
    "                               not below it are aborted\n"
    "      --cap FIELD=NUMBER[,FIELD=NUMBER]..\n"
    "                               What the controller can do, by the fields of its register CAP: ncs, the number of command slots, 1\n"
    "                               to 32; iss, the fastest generation of the link, 1 to 3; and with 0 or 1 s64a, 64-bit addresses;\n"
    "                               sncq, queued commands; sss, a disk that waits for spin-up; sclo, the command list override; salp,\n"
    "                               link power management; pmd, PIO of several blocks. (default\n"
    "                               ncs=32,iss=2,s64a=1,sncq=1,sss=0,sclo=1,salp=0,pmd=1) A driver takes other paths then: with\n"
    "                               sncq=0,s64a=0 it queues no command and keeps its memory below 4 GiB\n"
    "      --model TEXT             The model number in IDENTIFY DEVICE, of at most 40 characters (default SOFTWARE NCQ DISK)\n"
    "      --serial TEXT            The serial number, of at most 20 (default 00000001)\n"
    "      --firmware TEXT          The firmware revision, of at most 8 (default 1.0)\n"
    "      --rpm N                  The rotation rate: 0, not reported; 1, a disk that doesn't rotate; or 1025 to 65534 (default 0)\n"
    "      --write-cache            The disk has a volatile write cache, which IDENTIFY DEVICE reports, so that the guest flushes it: with --sync\n"
    "                               flush the image has then what the guest has flushed. A power_loss of a script may lose writes that were\n"
    "                               answered, unless a flush came after them, they have FUA, or the\n"
    "                               guest had disabled the cache\n"
    "      --trim HOW               What DATA SET MANAGEMENT with TRIM does: the sectors that it names are zeros, which IDENTIFY DEVICE reports\n"
    "                               (zeros), or they stay as they are (advice) (default zeros)\n"
    "      --pick WHICH             The command that the device goes on with: that of the low, the high or a random slot, or by roundrobin that\n"
    "                               of the next slot after the one answered last, going round past 31 to 0 (default low)\n"
    "      --seed N                 The seed of --pick random, and of the jitter of --delay (default 1)\n"
    "      --fail WHERE:EE[:COUNT][,CONDITION]..\n"
    "                               The device fails commands with the error byte EE, two hexadecimal digits. WHERE is LBA, LBA-LBA\n"
    "                               or any, the sectors that they touch; COUNT is how many, or ever (default 1; ever with one of\n"
    "                               the last three conditions); CONDITION is reads, writes, seed=S, commands=A-B, seconds=A-B or\n"
    "                               rate=N/M\n"
    "      --slow WHERE:MICROSECONDS[+JITTER][:COUNT][,CONDITION]..\n"
    "                               Commands that take so long (default COUNT: ever)\n"
    "      --stall WHERE[:COUNT][,CONDITION]..\n"
    "                               The device never answers these commands; the driver has to drop them. --fail, --slow and\n"
    "                               --stall may be given up to 64 times each\n"
    "      --script FILE            What happens and when, a line for each: `on 3rd write sectors 100-199 do fail 40`. host/README.md has\n"
    "                               the language; what never happened is said at the end\n"
    "      --refuse-log             The device aborts each command that reads the log of a failed queued command\n"
    "      --delay MICROSECONDS[+JITTER]\n"
    "                               The device waits so long before it answers a command, and up to JITTER more (default 0)\n"
    "      --record FOLDER          A record of all that the disk's queue does; ahci-stretch turns any part of it into a script of\n"
    "                               `ahci replay`\n"
    "      --record-limit BYTES     The oldest half of the record is dropped so that it has no more bytes\n"
    "      --most-journal BYTES     The size of the queue's journal at which it is trimmed (default: 4 times the disk's size, at\n"
    "                               least 4M and at most 256M). BYTES may have a unit: 512K, 64M, 1G\n"
    "      --memory-wait SECONDS    The program ends with status 1 if a step has got no memory for so long, 1 to 1000000; a step is tried\n"
    "                               again every 10 ms (default: without end)\n"
    "      --log FILE               A line for each access of the guest\n"
    "      --judge                  Writes which rules of AHCI 1.3.1 the guest's driver breaks to standard error, as it breaks them,\n"
    "                               and a table at the end; then what it did about each event of the script, and what became of its\n"
    "                               commands\n"
    "      --json FILE              The same tables as JSON, to standard output if FILE is -; judges also without --judge\n"
    "      --judge-from N           Only the stretches from number N on count, in both tables and for the status. Stretch 1 begins\n"
    "                               with the guest, and another one with each reset of the HBA (GHC.HR) (default 1)\n"
    "      --slow-bits N            CR and FR of PxCMD change only after N reads of them, and CLO and HR go to 0 only then\n"
    "                               (default 0)\n"
    "  -h, --help                   Writes this text\n"
    "      --version                Writes the version\n"
    "\n"
    "Status: 0 if the guest's program ended with 0 and all was written; 1 if it did not, or if the image, the record or the log\n"
    "could not be written; 2 if the command line is wrong, or the image can't be served; 3 if all went well but the driver broke a rule that the standard has.\n";

#define MOST_HOLD 1000000u /* microseconds */
#define MOST_SLOW_READS 1000000
#define MOST_MEMORY_WAIT 1000000 /* seconds */

static int take_sync(const char *text, enum sync *sync) {
    static const char *const words[] = {[SYNC_END] = "end", [SYNC_FLUSH] = "flush", NULL};
    unsigned place = 0;
    int wrong = option_word("sync", text, words, "end or flush", &place);
    *sync = (enum sync)place;
    return wrong;
}

static int take_trim(const char *text, bool *zeros) {
    static const char *const words[] = {"advice", "zeros", NULL};
    unsigned place = 0;
    int wrong = option_word("trim", text, words, "zeros or advice", &place);
    *zeros = place;
    return wrong;
}

static int take_way(const char *text, enum way *way) {
    static const char *const words[] = {"vfio-user", "proxy", NULL};
    unsigned place = 0;
    int wrong = option_word("transport", text, words, "vfio-user or proxy", &place);
    *way = place ? WAY_PROXY : WAY_VFIO_USER;
    return wrong;
}

static const char *take_number_below(const char *text, uint32_t *number) {
    uint64_t taken = 0;
    text = take_digits(text, &taken);
    *number = (uint32_t)taken;
    return taken <= MOST_HOLD ? text : NULL;
}

static int take_hold(struct settings *settings, const char *text) {
    struct hold_settings *hold = &settings->hold;
    const char *end = take_number_below(text, &hold->longest);
    if (end && *end == ':')
        end = take_number_below(end + 1, &hold->gap);
    if (end && *end == ':')
        end = take_number_below(end + 1, &hold->most);
    settings->has_hold = true;
    if (end && !*end)
        return 0;
    say_expected("hold", text, "MICROSECONDS[:GAP[:COUNT]], each a decimal number up to %u", MOST_HOLD);
    return -1;
}

static int take_path(const char *name, const char *text, const char **path) {
    if (!*text || (!strcmp(text, "-") && strcmp(name, "json"))) {
        say_expected(name, text, "%s", !strcmp(name, "record") ? "a folder" : !strcmp(name, "socket") ? "a path" : "a file");
        return -1;
    }
    *path = text;
    return 0;
}

/* Where the path that an option names is kept; NULL if it names none. */
static const char **path_of(struct settings *settings, const char *name) {
    const struct {
        const char *name;
        const char **path;
    } paths[] = {{"socket", &settings->socket}, {"record", &settings->record}, {"log", &settings->log}, {"script", &settings->script_file}, {"json", &settings->json}};
    for (unsigned at = 0; at < sizeof paths / sizeof *paths; at++)
        if (!strcmp(name, paths[at].name))
            return paths[at].path;
    return NULL;
}

/* Takes an option whose value is one of some words. It returns 1 if it is none of these. */
static int take_choice(struct settings *settings, const char *name, const char *value) {
    if (!strcmp(name, "transport"))
        return take_way(value, &settings->way);
    if (!strcmp(name, "pick"))
        return pick_take(name, value, "low, high, random or roundrobin", &settings->pick);
    if (!strcmp(name, "sync"))
        return take_sync(value, &settings->sync);
    if (!strcmp(name, "trim"))
        return take_trim(value, &settings->trim_zeros);
    return 1;
}

static int take_one(struct settings *settings, const char *name, const char *value) {
    const char **path = path_of(settings, name);
    settings->judge |= !strcmp(name, "json");
    if (path)
        return take_path(name, value, path);
    if (!strcmp(name, "sectors"))
        return option_small(name, value, 1, LARGEST_DISK, &settings->sectors);
    if (!strcmp(name, "size"))
        return option_size(name, value, &settings->sectors);
    if (!strcmp(name, "depth"))
        return option_small(name, value, 1, AHCI_MOST_TAGS, &settings->depth);
    if (!strcmp(name, "cap"))
        return capabilities_take(&settings->capabilities, value);
    int named = identity_take(&settings->identity, name, value);
    if (named > 0)
        named = take_choice(settings, name, value);
    if (named <= 0)
        return named;
    if (!strcmp(name, "hold"))
        return take_hold(settings, value);
    if (!strcmp(name, "seed"))
        return option_number(name, value, 0, UINT64_MAX, &settings->seed);
    if (!strcmp(name, "delay"))
        return option_delay(name, value, &settings->delay);
    if (!strcmp(name, "image"))
        return image_find(&settings->mapped.image, value);
    if (!strcmp(name, "most-journal"))
        return option_bytes(name, value, &settings->most_journal);
    if (!strcmp(name, "memory-wait"))
        return option_small(name, value, 1, MOST_MEMORY_WAIT, &settings->memory_wait);
    if (!strcmp(name, "record-limit"))
        return option_bytes(name, value, &settings->record_limit);
    if (!strcmp(name, "judge-from"))
        return option_small(name, value, 1, UINT32_MAX, &settings->judge_from);
    return option_small(name, value, 0, MOST_SLOW_READS, &settings->slow_bits);
}

/* Takes one option with its value. */
static int take_option(struct settings *settings, const char *word, const char *value) {
    static const char *const names[] = {"sectors", "depth", "cap", "pick", "seed", "delay", "image", "sync", "most-journal", "record", "record-limit", "log",
                                        "judge-from", "slow-bits", "json", "transport", "socket", "hold", "size", "script", "model", "serial", "firmware", "rpm", "memory-wait", "trim"};
    const char *name = word + 2;
    enum event_kind rule = rules_kind(name, SERVER_HBA);
    if (rule != EVENT_KINDS)
        return rules_take(settings->script, rule, value);
    for (unsigned at = 0; at < sizeof names / sizeof *names; at++) {
        if (strcmp(name, names[at]))
            continue;
        if (settings->given >> at & 1) {
            say_of(name, value, "%s is given twice", word);
            return -1;
        }
        if (settings->sectors && (!strcmp(name, "size") || !strcmp(name, "sectors"))) {
            say_of(name, value, "--sectors and --size are given, and both say how large the disk is");
            return -1;
        }
        settings->given |= UINT32_C(1) << at;
        return take_one(settings, name, value);
    }
    say("%s: there is no such option", word);
    return -1;
}

/* Options that mean nothing without another one, or that are too small beside it. */
static int look_at_pairs(const struct settings *settings) {
    uint64_t least = record_least_limit(settings->sectors, AHCI_MOST_COUNT);
    if (settings->record_limit && !settings->record)
        say("--record-limit: there is no --record");
    else if (settings->record_limit && settings->record_limit < least)
        say("--record-limit: a disk of %" PRIu32 " sectors needs %" PRIu64 " bytes at least", settings->sectors, least);
    else
        return 0;
    return -1;
}

/* What a loss of power leaves is in the image, and has no limit in the record. */
static int look_at_losses(const struct settings *settings) {
    const char *path = settings->script_file;
    if (!script_has(settings->script, EVENT_POWER_LOSS))
        return 0;
    if (!settings->mapped.image.path)
        say_of("script", path, "power_loss needs --image, where the sectors are that it leaves");
    else if (settings->record_limit)
        say_of("script", path, "power_loss and --record-limit: what it leaves of the sectors is in the record, and may have more bytes");
    else
        return 0;
    return -1;
}

/* Whether the command is there that is needed, and the socket. */
static int look_at_command(const struct settings *settings) {
    bool has_command = settings->command && settings->command[0];
    if (settings->guest != GUEST_CLIENT && !has_command)
        say("expected a command after `--`");
    else if (settings->guest == GUEST_CLIENT && has_command)
        say("serve starts no command, got \"%s\"", settings->command[0]);
    else if (settings->guest == GUEST_CLIENT && !settings->socket)
        say("expected --socket PATH");
    else
        return 0;
    return -1;
}

static int settle(struct settings *settings) {
    if (look_at_command(settings))
        return -1;
    if (mapped_open(&settings->mapped) || image_settle(&settings->mapped.image, &settings->sectors, LARGEST_DISK) || look_at_pairs(settings))
        return -1;
    if (settings->most_journal == 0)
        settings->most_journal = usual_journal(settings->sectors);
    if (settings->script_file && script_read(settings->script, settings->script_file, SERVER_HBA))
        return -1;
    uint32_t most = settings->sectors;
    return look_at_losses(settings) || other_check(settings, &most) ? -1 : script_complete(settings->script, most);
}

/* Whether a word is an option without a value, which is taken. */
static bool take_flag(struct settings *settings, const char *word) {
    bool judges = !strcmp(word, "--judge"), refuses = !strcmp(word, "--refuse-log"), caches = !strcmp(word, "--write-cache");
    settings->judge |= judges;
    settings->refuse_log |= refuses;
    settings->write_cache |= caches;
    return judges || refuses || caches;
}

/* Reads the words after the subcommand, --NAME VALUE or --NAME=VALUE, up to the guest's command. */
static int take_words(struct settings *settings, char **words) {
    for (; *words && strcmp(*words, "--"); words++) {
        char *equals = strchr(*words, '=');
        if (strncmp(*words, "--", 2)) {
            say("expected an option, or `--` and a command, got \"%s\"", *words);
            return -1;
        }
        if (equals)
            *equals = 0;
        if (!equals && take_flag(settings, *words))
            continue;
        const char *name = *words, *value = equals ? equals + 1 : *++words;
        if (!value || (!equals && !strcmp(value, "--"))) {
            say("%s: expected a value", name);
            return -1;
        }
        if (take_option(settings, name, value))
            return -1;
    }
    settings->command = *words ? words + 1 : NULL;
    return settle(settings);
}

static bool is_help(const char *word) {
    return !strcmp(word, "--help") || !strcmp(word, "-h");
}

static enum asked write_version(void) {
    printf("ahci-hba %d.%d.%d\n", AHCI_VERSION >> 16, AHCI_VERSION >> 8 & 255, AHCI_VERSION & 255);
    return ASKED_NOTHING;
}

/* --check-script FILE, perhaps with --for SERVER. */
static enum asked check_script(char **words) {
    static const char *const servers[] = {"hba", "nbd", NULL};
    unsigned place = 0;
    if (!words[0] || (words[1] && (strcmp(words[1], "--for") || !words[2] || words[3]))) {
        say("expected --check-script FILE, or --check-script FILE --for hba or nbd");
        return ASKED_WRONGLY;
    }
    if (words[1] && option_word("for", words[2], servers, "hba or nbd", &place))
        return ASKED_WRONGLY;
    return script_check(words[0], place ? SERVER_NBD : SERVER_HBA) ? ASKED_WRONGLY : ASKED_NOTHING;
}

enum asked settings_read(struct settings *settings, int count, char **words) {
    *settings = (struct settings){.hold = {.longest = 2000, .gap = 300, .most = 16}, .depth = AHCI_MOST_TAGS, .capabilities = AHCI_HBA_USUAL,
                                  .identity = identity_usual(), .seed = 1, .judge_from = 1, .sync = SYNC_FLUSH, .trim_zeros = true};
    static struct script script;
    settings->script = &script;
    mapped_begin(&settings->mapped);
    const char *first = count > 1 ? words[1] : "";
    if (is_help(first) || (count > 2 && is_help(words[2]))) {
        fputs(help, stdout);
        return ASKED_NOTHING;
    }
    if (!strcmp(first, "--version"))
        return write_version();
    if (!strcmp(first, "--check-script"))
        return check_script(words + 2);
    static const char *const guests[] = {[GUEST_QEMU] = "run", [GUEST_UML] = "uml", [GUEST_CLIENT] = "serve"};
    unsigned guest = 0;
    while (guest <= GUEST_CLIENT && strcmp(first, guests[guest]))
        guest++;
    if (guest > GUEST_CLIENT) {
        say("expected run, serve or uml, got \"%s\"; see ahci-hba --help", first);
        return ASKED_WRONGLY;
    }
    settings->guest = (enum guest)guest;
    return take_words(settings, words + 2) ? ASKED_WRONGLY : ASKED_RUN;
}

void settings_end(struct settings *settings) {
    mapped_end(&settings->mapped);
}
