#include "probe_events.h"

#include "generator.h"
#include "names.h"
#include "say.h"
#include "script.h"
#include "words.h"

#include <inttypes.h>
#include <stdio.h>
#include <stdlib.h>
#include <string.h>

static struct script script;

/* ---- what happens by a script ---- */

static void put(const char *line) {
    puts(line);
}

/* An event that was decided: its line, its name and its argument; a time that is drawn is drawn here. */
static void print_event(const struct decision *it) {
    const struct event *event = it->event;
    printf("%u %s", it->line->row, event_rows[event->kind].name);
    if (event->kind == EVENT_FAIL || event->kind == EVENT_END)
        printf(" %02X", event->error);
    if (event->kind == EVENT_SLOW)
        printf(" %" PRIu64, delay_drawn(&event->delay, &it->line->random));
    if (event->kind == EVENT_LATE_INTERRUPT)
        printf(" %" PRIu64, event->time);
    if (event->kind == EVENT_POWER_LOSS)
        printf(" %" PRIu64, event->seed);
    if (event->is_other)
        printf(" another%s%s", event->file ? " " : "", event->file ? line_file(it->line, event) : "");
    printf("; ");
}

/* "command CODE TAG r|w LBA COUNT NUMBER TIME", "wrote OFFSET BYTES TIME", "time TIME": what is decided, or due. */
static void happen(const char *line) {
    struct occasion it = {0};
    struct decisions decided;
    struct decision due;
    uint32_t code, tag, offset, count;
    char kind;
    if (sscanf(line, "command %" SCNx32 " %" SCNu32 " %c %" SCNu64 " %" SCNu32 " %" SCNu64 " %" SCNu64, &code, &tag, &kind, &it.lba, &it.sectors, &it.number,
               &it.since) == 7) {
        it.code = (uint8_t)code;
        it.is_queued = code == READ_FPDMA_QUEUED || code == WRITE_FPDMA_QUEUED;
        it.tag = (uint8_t)tag;
        it.writes = kind == 'w';
        script_decide(&script, &it, &decided);
        for (unsigned at = 0; at < EVENT_KINDS; at++)
            if (decided.of[at].line)
                print_event(&decided.of[at]);
    } else if (sscanf(line, "wrote %" SCNx32 " %" SCNu32 " %" SCNu64, &offset, &count, &it.since) == 3)
        script_wrote(&script, offset, count, it.since);
    else if (sscanf(line, "time %" SCNu64, &it.since) == 1)
        while (script_take(&script, it.since, &due))
            print_event(&due);
    puts("");
}

int try_events(char **words) {
    char line[256];
    if (script_read(&script, words[1], strcmp(words[0], "nbd") ? SERVER_HBA : SERVER_NBD) || script_complete(&script, strtoull(words[2], NULL, 10)))
        return 1;
    script_begin(&script);
    while (fgets(line, sizeof line, stdin))
        happen(line);
    script_end(&script, put);
    return 0;
}

/* ---- lines at random ---- */

#define MOST_GOOD 200
#define ROOM 1500

static char good[MOST_GOOD][ROOM];
static unsigned goods;
static uint64_t random_state;
static unsigned said;  /* lines since the last one that was parsed */
static bool is_placed; /* they name the place */

static uint64_t drawn(uint64_t below) {
    return next_random(&random_state) % below;
}

static void listen(const char *line) {
    said++;
    is_placed = !strncmp(line, "fuzz.events:7:", 14);
}

/* The beginning of some word of a text. */
static size_t word_in(const char *text) {
    size_t at = (size_t)drawn(strlen(text) + 1);
    while (at && text[at - 1] != ' ')
        at--;
    return at;
}

/* Cuts a range out of a text, and puts another text into its place. */
static void replace(char text[ROOM], size_t from, size_t count, const char *by, size_t length) {
    char next[3 * ROOM];
    snprintf(next, sizeof next, "%.*s%.*s%s", (int)from, text, (int)length, by, text + from + count);
    snprintf(text, ROOM, "%.*s", ROOM - 1, next);
}

/* One change: a byte, a range, a word, or the rest of another line. */
static void change(char text[ROOM]) {
    static const char signs[] = "0123456789-+/.#sm \tADFX";
    const char *other = good[drawn(goods)];
    size_t length = strlen(text), at = (size_t)drawn(length + 1), word = word_in(text), taken = word_in(other);
    char byte[2] = {drawn(20) ? signs[drawn(sizeof signs - 1)] : (char)(1 + drawn(255)), 0};
    switch (drawn(6)) {
    case 0:
        replace(text, at, at < length, byte, 1);
        break;
    case 1:
        replace(text, at, 0, byte, 1);
        break;
    case 2:
        replace(text, at, (size_t)drawn(length - at + 1), "", 0);
        break;
    case 3:
        replace(text, word, strcspn(text + word, " "), other + taken, strcspn(other + taken, " "));
        break;
    case 4:
        replace(text, word, 0, other + taken, strcspn(other + taken, " ") + (other[taken + strcspn(other + taken, " ")] == ' '));
        break;
    default:
        replace(text, word, length - word, other + taken, strlen(other + taken));
    }
}

static bool parse(struct line *line, const char *text, unsigned server) {
    static struct words words;
    said = 0;
    return words_split(&words, "fuzz.events", 7, text, strlen(text)) && words.count && line_take(line, &words, server, 3);
}

/* A line that is accepted is printed, and what is printed parses to the same line, and is printed so again. */
static bool is_kept(const struct line *line, unsigned server) {
    static struct line again;
    char text[MOST_PRINTED], twice[MOST_PRINTED];
    line_print(line, text);
    if (!parse(&again, text, server) || memcmp(line, &again, sizeof again))
        return false;
    line_print(&again, twice);
    return !strcmp(text, twice);
}

/* Lets a line meet some commands, writes and times. */
static void meet(const struct line *line) {
    struct decisions decided;
    struct decision due;
    script.count = 1;
    script.lines[0] = *line;
    script_note(&script, line);
    script_begin(&script);
    for (uint64_t since = 0; since < 8000000; since += 1000000) {
        const struct occasion it = {.code = line->code, .tag = (uint8_t)drawn(32), .writes = drawn(2), .lba = line->first_lba, .sectors = (uint32_t)drawn(2),
                                    .number = drawn(9), .since = since};
        script_decide(&script, &it, &decided);
        script_wrote(&script, line->offset, 4, since);
        for (unsigned most = 0; most < 40 && script_take(&script, since, &due); most++)
            ;
    }
}

/* Mutates lines of a script, parses them, and judges each as `is_kept` does; one that is refused is refused by one message, which names the place. It prints
   how many were accepted and how many refused. */
int try_fuzz(char **words) {
    static const struct voice quiet = {.put = listen, .note = listen, .before = "--", .between = " "};
    static struct line line;
    char text[ROOM];
    unsigned long accepted = 0, count = strtoul(words[1], NULL, 10);
    random_state = generator_of(strtoull(words[0], NULL, 10));
    for (; goods < MOST_GOOD && fgets(good[goods], ROOM, stdin); goods++)
        good[goods][strcspn(good[goods], "\n")] = 0;
    say_begin(&quiet);
    for (unsigned long at = 0; at < count; at++) {
        strcpy(text, good[drawn(goods)]);
        for (uint64_t changes = drawn(5); changes; changes--)
            change(text);
        unsigned server = drawn(4) ? SERVER_HBA : SERVER_NBD;
        bool is_empty = !text[strspn(text, " \t\r")] || text[strspn(text, " \t\r")] == '#';
        bool is_right = parse(&line, text, server);
        if (is_right ? said || !is_kept(&line, server) : !is_empty && (said != 1 || !is_placed)) {
            printf("wrong %s\n", text);
            return 1;
        }
        if (is_right)
            meet(&line);
        accepted += is_right;
    }
    printf("%lu accepted, %lu refused\n", accepted, count - accepted);
    return 0;
}
