/* The calls of host/, one after the other, for the checks: a program whose arguments and input say which. Its disk is plain memory.

     probe numbers                      lines "KIND TEXT": what the parser of that kind makes of it
     probe rules KIND SECTORS RULE..    lines "LBA COUNT r|w NUMBER MICROSECONDS": which rule applies to that command
     probe draws SEED COUNT             numbers of the generator
     probe pages                        lines "add LBA COUNT", "settle"
     probe mapped FILE SECTORS          lines "fill LBA COUNT BYTE", "zero LBA COUNT", "save", "show LBA"; it is saved at the end
     probe record FOLDER LIMIT SECTORS  lines of the record, see `record_line`
     probe least SECTORS COUNT          the smallest limit of a record
     probe events, fuzz                 scripts: see probe_events.h */
#include "generator.h"
#include "mapped.h"
#include "options.h"
#include "probe_events.h"
#include "record.h"
#include "rules.h"
#include "say.h"

#include <inttypes.h>
#include <stdio.h>
#include <stdlib.h>
#include <string.h>
#include <sys/mman.h>

static uint8_t *bytes; /* of the disk */
static struct disk disk;

static void put(const char *line) {
    printf("said %s\n", line);
}

static void copy(void *it, uint32_t lba, uint8_t *sector) {
    (void)it;
    memcpy(sector, bytes + (size_t)lba * SECTOR_BYTES, SECTOR_BYTES);
}

static char *line_of(char *line, int room) {
    fflush(stdout);
    if (!fgets(line, room, stdin))
        return NULL;
    line[strcspn(line, "\n")] = 0;
    return line;
}

/* ---- numbers, rules, draws ---- */

static void number_line(const char *kind, const char *text) {
    static const char *const words[] = {"end", "flush", NULL};
    uint64_t number = 0;
    unsigned place = 0;
    struct delay delay = {0};
    if (!strcmp(kind, "number") && !option_number("number", text, 1, 100, &number))
        printf("%" PRIu64 "\n", number);
    else if (!strcmp(kind, "any") && !option_number("any", text, 0, UINT64_MAX, &number))
        printf("%" PRIu64 "\n", number);
    else if (!strcmp(kind, "bytes") && !option_bytes("bytes", text, &number))
        printf("%" PRIu64 "\n", number);
    else if (!strcmp(kind, "delay") && !option_delay("delay", text, &delay))
        printf("%" PRIu32 "+%" PRIu32 "\n", delay.least, delay.jitter);
    else if (!strcmp(kind, "word") && !option_word("word", text, words, "end or flush", &place))
        printf("%u\n", place);
}

static int numbers(void) {
    char line[4096];
    while (line_of(line, sizeof line)) {
        char *text = strchr(line, ' ');
        *text = 0;
        number_line(line, text + 1);
    }
    return 0;
}

static struct script script;

/* Adds the lines of an option that is given so often. */
static int take_lines(enum event_kind kind, char **values) {
    for (; *values; values++)
        if (rules_take(&script, kind, *values))
            return 1;
    return 0;
}

/* What is decided for a command of one option: the place of its rule, and what that says. */
static void print_rule(enum event_kind kind, const struct decision *decision) {
    if (!decision->line)
        puts("-");
    else if (kind == EVENT_FAIL)
        printf("%td %02x\n", decision->line - script.lines, decision->event->error);
    else if (kind == EVENT_SLOW)
        printf("%td %" PRIu64 "\n", decision->line - script.lines, delay_drawn(&decision->event->delay, &decision->line->random));
    else
        printf("%td\n", decision->line - script.lines);
}

static int try_rules(char **words) {
    char line[256], kind;
    struct occasion it = {0};
    struct decisions decided;
    enum event_kind event = rules_kind(words[0], SERVER_HBA);
    if (event == EVENT_KINDS || take_lines(event, words + 2) || script_complete(&script, strtoull(words[1], NULL, 10)))
        return 1;
    script_begin(&script);
    while (line_of(line, sizeof line)) {
        sscanf(line, "%" SCNu64 " %" SCNu32 " %c %" SCNu64 " %" SCNu64, &it.lba, &it.sectors, &kind, &it.number, &it.since);
        it.writes = kind == 'w';
        script_decide(&script, &it, &decided);
        print_rule(event, &decided.of[event]);
    }
    return 0;
}

static int draws(char **words) {
    uint64_t state = generator_of(strtoull(words[0], NULL, 10));
    for (unsigned long count = strtoul(words[1], NULL, 10); count; count--)
        printf("%" PRIu64 "\n", next_random(&state));
    return 0;
}

/* ---- the image ---- */

static int try_pages(void) {
    static struct pages pages;
    char line[256];
    uint32_t lba, count;
    while (line_of(line, sizeof line)) {
        if (sscanf(line, "add %" SCNu32 " %" SCNu32, &lba, &count) == 2) {
            if (!pages_reserve(&pages, 1))
                return 1;
            pages_add(&pages, lba, count);
            continue;
        }
        printf("%" PRIu64 " of %zu", pages_settle(&pages), pages.room);
        for (size_t at = 0; at < pages.count; at++)
            printf(" %" PRIu32 "+%" PRIu32, pages.runs[at].first, pages.runs[at].count);
        puts("");
    }
    pages_free(&pages);
    return 0;
}

static struct mapped mapped;

static void mapped_line(const char *line) {
    uint32_t lba, count, byte;
    if (sscanf(line, "fill %" SCNu32 " %" SCNu32 " %" SCNx32, &lba, &count, &byte) == 3 && mapped_reserve(&mapped, 1)) {
        memset(bytes + (size_t)lba * SECTOR_BYTES, (int)byte, (size_t)count * SECTOR_BYTES);
        mapped_wrote(&mapped, lba, count);
    } else if (sscanf(line, "zero %" SCNu32 " %" SCNu32, &lba, &count) == 2 && mapped_reserve(&mapped, 1)) {
        memset(bytes + (size_t)lba * SECTOR_BYTES, 0, (size_t)count * SECTOR_BYTES);
        mapped_zeroed(&mapped, lba, count);
    } else if (sscanf(line, "show %" SCNu32, &lba) == 1)
        printf("%02x\n", bytes[(size_t)lba * SECTOR_BYTES]);
    else
        printf("saved %d\n", mapped_write(&mapped, &disk));
}

static int try_mapped(char **words) {
    char line[256];
    uint32_t sectors = (uint32_t)strtoul(words[1], NULL, 10);
    mapped_begin(&mapped);
    if (image_find(&mapped.image, words[0]) || mapped_open(&mapped) || image_settle(&mapped.image, &sectors, UINT32_MAX) || mapped_map(&mapped)) {
        mapped_end(&mapped);
        return 1;
    }
    bytes = mapped_copy(&mapped, sectors);
    if (!bytes)
        return 1;
    disk = (struct disk){.sectors = sectors, .copy = copy};
    printf("disk %" PRIu32 "\n", sectors);
    while (line_of(line, sizeof line))
        mapped_line(line);
    int why = mapped_write(&mapped, &disk);
    mapped_end(&mapped);
    free(bytes);
    return why ? 2 : 0;
}

/* ---- the record ---- */

static struct record record;

/* A write's bytes: the first is as given, and all are the same unless the line says that they differ. They stay until the group is written. */
static const uint8_t *written(uint32_t sectors, uint32_t byte, bool differ) {
    static uint8_t room[32 * MOST_SLOTS * SECTOR_BYTES];
    static size_t used;
    size_t count = (size_t)sectors * SECTOR_BYTES;
    if (used + count > sizeof room) {
        record_sync(&record);
        used = 0;
    }
    uint8_t *at = room + used;
    used += count;
    for (size_t i = 0; i < count; i++)
        at[i] = (uint8_t)(byte + (differ ? i / 7 : 0));
    return at;
}

static struct write {
    uint64_t lba;
    uint32_t sectors;
    uint8_t *bytes;
} writes[MOST_SLOTS];

static void keep(uint32_t tag, uint64_t lba, uint32_t sectors, const uint8_t *from) {
    struct write *it = &writes[tag];
    it->lba = lba;
    it->sectors = from ? sectors : 0;
    it->bytes = realloc(it->bytes, (size_t)sectors * SECTOR_BYTES);
    if (from)
        memcpy(it->bytes, from, (size_t)sectors * SECTOR_BYTES);
}

static void serve(char *tags) {
    uint8_t list[MOST_SLOTS];
    uint32_t count = 0;
    for (char *tag = strtok(tags, " "); tag; tag = strtok(NULL, " ")) {
        const struct write *it = &writes[list[count++] = (uint8_t)atoi(tag)];
        memcpy(bytes + it->lba * SECTOR_BYTES, it->bytes, (size_t)it->sectors * SECTOR_BYTES);
    }
    record_served(&record, list, count);
}

static void make_room(uint64_t count) {
    if (!record_has_room(&record, count))
        record_next_part(&record);
}

/* "read TAG LBA COUNT", "write TAG LBA COUNT BYTE DIFFER FUA", "serve TAG ..", "fail TAG EE LBA", "entry KIND TAG", "sync", "room BYTES", "space WRITES
   COUNT", and "fill LBA COUNT BYTE", which is no entry: the disk has such sectors */
static void record_line(char *line) {
    uint32_t tag, sectors, byte, differ, fua;
    uint64_t lba;
    if (sscanf(line, "read %" SCNu32 " %" SCNu64 " %" SCNu32, &tag, &lba, &sectors) == 3) {
        keep(tag, lba, sectors, NULL);
        record_command(&record, false, tag, lba, sectors, false, NULL);
    } else if (sscanf(line, "write %" SCNu32 " %" SCNu64 " %" SCNu32 " %" SCNu32 " %" SCNu32 " %" SCNu32, &tag, &lba, &sectors, &byte, &differ, &fua) == 6) {
        const uint8_t *from = written(sectors, byte, differ);
        keep(tag, lba, sectors, from);
        record_command(&record, true, tag, lba, sectors, fua, from);
    } else if (!strncmp(line, "serve ", 6))
        serve(line + 6);
    else if (sscanf(line, "fail %" SCNu32 " %" SCNx32 " %" SCNu64, &tag, &byte, &lba) == 3)
        record_failed(&record, tag, (uint8_t)byte, lba);
    else if (sscanf(line, "fill %" SCNu64 " %" SCNu32 " %" SCNu32, &lba, &sectors, &byte) == 3)
        memset(bytes + lba * SECTOR_BYTES, (int)byte, (size_t)sectors * SECTOR_BYTES);
    else if (sscanf(line, "entry %" SCNu32 " %" SCNu32, &byte, &tag) == 2)
        record_tag(&record, (enum record_kind)byte, tag);
    else if (sscanf(line, "room %" SCNu64, &lba) == 1)
        make_room(lba);
    else if (sscanf(line, "space %" SCNu32 " %" SCNu32, &byte, &sectors) == 2)
        make_room(record_bytes_of(disk.sectors, byte, sectors));
    else
        record_sync(&record);
}

/* Memory for a disk of any size, of which only what is used is there. */
static uint8_t *memory_of(uint32_t sectors) {
    void *found = mmap(NULL, (size_t)sectors * SECTOR_BYTES, PROT_READ | PROT_WRITE, MAP_PRIVATE | MAP_ANONYMOUS | MAP_NORESERVE, -1, 0);
    return found == MAP_FAILED ? NULL : found;
}

static int try_record(char **words) {
    char line[256];
    uint32_t sectors = (uint32_t)strtoul(words[2], NULL, 10);
    bytes = memory_of(sectors);
    disk = (struct disk){.sectors = sectors, .copy = copy};
    if (!bytes || record_begin(&record, words[0], strtoull(words[1], NULL, 10), &disk, MOST_SLOTS))
        return 1;
    puts("begun");
    while (line_of(line, sizeof line)) {
        record_line(line);
        if (!strcmp(line, "sync"))
            puts("synced");
    }
    int status = record_end(&record);
    for (uint32_t tag = 0; tag < MOST_SLOTS; tag++)
        free(writes[tag].bytes);
    munmap(bytes, (size_t)sectors * SECTOR_BYTES);
    return status ? 2 : 0;
}

int main(int count, char **words) {
    static const struct voice voice = {.put = put, .note = put, .before = "--", .between = " "};
    const char *what = count > 1 ? words[1] : "";
    say_begin(&voice);
    if (!strcmp(what, "numbers"))
        return numbers();
    if (count > 3 && !strcmp(what, "rules"))
        return try_rules(words + 2);
    if (count == 4 && !strcmp(what, "draws"))
        return draws(words + 2);
    if (!strcmp(what, "pages"))
        return try_pages();
    if (count == 4 && !strcmp(what, "mapped"))
        return try_mapped(words + 2);
    if (count == 5 && !strcmp(what, "record"))
        return try_record(words + 2);
    if (count == 4 && !strcmp(what, "least"))
        return printf("%" PRIu64 "\n", record_least_limit((uint32_t)strtoul(words[2], NULL, 10), (uint32_t)strtoul(words[3], NULL, 10))) < 0;
    if (count == 5 && !strcmp(what, "events"))
        return try_events(words + 2);
    if (count == 4 && !strcmp(what, "fuzz"))
        return try_fuzz(words + 2);
    return 9;
}
