/* The grammar of a line, in the order of README.md's.

     LINE      = "on" PLACE CONDITION.. "do" EVENTS REPEAT
               | "from" NTH "on" CONDITION.. "do" EVENTS REPEAT
               | "on" "time" TIME "do" EVENTS REPEAT
     PLACE     = "every" | "every" NTH | "first" | NTH
     CONDITION = "any" | "read" | "write" | NAME | "command" XX | "command" NAME | "write" REGISTER
               | "sectors" SPAN | "tag" SPAN | "number" SPAN | "during" TIME-TIME | "probability" N/M | "seed" S
     EVENTS    = EVENT ("then" EVENT)..       EVENT has arguments as its row of event_table.c says
     REPEAT    = nothing | "repeat" COUNT | "repeat" "ever" */
#include "generator.h"
#include "names.h"
#include "script.h"
#include "words.h"

#include <stdio.h>
#include <string.h>

/* ---- places ---- */

/* Whether the next word is a place in a row, such as 3rd. */
static bool is_nth(const struct words *words, uint64_t *place) {
    static const char *const ends[] = {"st", "nd", "rd", "th"};
    const char *rest = take_digits(words_next(words), place);
    for (unsigned at = 0; rest && *place && at < sizeof ends / sizeof *ends; at++)
        if (!strcmp(rest, ends[at]))
            return true;
    return false;
}

static bool take_nth(struct words *words, uint64_t *place, const char *expected) {
    if (!is_nth(words, place))
        return words_expected(words, "%s", expected);
    words->at++;
    return true;
}

/* What comes after `on`. */
static bool take_place(struct line *line, struct words *words) {
    if (words_take(words, "every")) {
        if (is_nth(words, &line->first)) {
            line->step = line->first;
            words->at++;
        }
        return true;
    }
    line->most = 1;
    return words_take(words, "first") || take_nth(words, &line->first, "every, first, a place such as 3rd, or time");
}

/* ---- conditions ---- */

/* What a condition is about. Each may be given once. */
enum group { GROUP_KIND = 1, GROUP_SECTORS = 2, GROUP_TAG = 4, GROUP_NUMBER = 8, GROUP_DURING = 16, GROUP_PROBABILITY = 32, GROUP_SEED = 64 };
#define OF_COMMANDS (GROUP_SECTORS | GROUP_TAG | GROUP_NUMBER)

/* The line as far as it is parsed. */
struct parsing {
    struct line *line;
    struct words *words;
    unsigned server;
    unsigned given; /* groups */
};

/* A whole word that a parser of numbers.h takes: `rest` is what it has left of it. */
static bool is_whole(struct parsing *it, const char *rest, const char *expected) {
    if (!rest || *rest)
        return words_expected(it->words, "%s", expected);
    it->words->at++;
    return true;
}

static bool take_code(struct parsing *it, bool is_bare) {
    struct line *line = it->line;
    const char *word = words_next(it->words);
    unsigned count = command_named(it->words->list + it->words->at, &line->code);
    if (!count && !is_bare && strlen(word) == 2 && take_error(word, &line->code))
        count = 1;
    if (!count)
        return words_expected(it->words, is_bare ? "a condition, such as a command's name, or do" : "a command's name or number");
    line->has_code = true;
    if (it->server == SERVER_NBD && line->code != 0x60 && line->code != 0x61)
        return words_expected(it->words, "READ FPDMA QUEUED or WRITE FPDMA QUEUED, which are all that nbd issues");
    it->words->at += count;
    return true;
}

/* A write of a register, if the next word is one. */
static bool take_register(struct parsing *it, int offset) {
    if (it->server == SERVER_NBD)
        return words_expected(it->words, "a condition of commands, since nbd has no registers");
    if (it->given & OF_COMMANDS)
        return words_expected(it->words, "do or a condition, and no register beside sectors, tags or numbers of commands");
    it->line->about = ABOUT_REGISTER;
    it->line->offset = (uint32_t)offset;
    it->words->at++;
    return true;
}

/* any, reads, writes, a command, a write of a register. */
static bool take_kind(struct parsing *it) {
    struct words *words = it->words;
    if (words_take(words, "any"))
        return true;
    if (words_take(words, "command"))
        return take_code(it, false);
    if (words_take(words, "read") || words_take(words, "reads")) {
        it->line->writes = false;
        return true;
    }
    if (!words_take(words, "write") && !words_take(words, "writes"))
        return take_code(it, true);
    int offset = register_named(words_next(words));
    if (offset >= 0)
        return take_register(it, offset);
    if (take_word(words_next(words), "Px"))
        return words_expected(words, "a register, such as PxCMD");
    it->line->reads = false;
    return true;
}

static bool take_sectors(struct parsing *it) {
    it->line->has_sectors = true;
    return is_whole(it, take_span(words_next(it->words), &it->line->first_lba, &it->line->last_lba), "a sector or a span of sectors, such as 100-199");
}

static bool take_tags(struct parsing *it) {
    const char *rest = take_span(words_next(it->words), &it->line->first_tag, &it->line->last_tag);
    return is_whole(it, it->line->last_tag < 32 ? rest : NULL, "a tag or slot from 0 to 31, or a span of them");
}

static bool take_numbers(struct parsing *it) {
    const char *rest = take_span(words_next(it->words), &it->line->first_number, &it->line->last_number);
    return is_whole(it, it->line->first_number ? rest : NULL, "a command's number from 1 on, or a span such as 5000-5009");
}

static bool take_during(struct parsing *it) {
    struct line *line = it->line;
    const char *rest = take_time(take_mark(take_time(words_next(it->words), &line->begins), '-'), &line->ends);
    return is_whole(it, line->begins < line->ends ? rest : NULL, "two times, the first one less, such as 10s-12.5s");
}

static bool take_probability(struct parsing *it) {
    struct line *line = it->line;
    const char *rest = take_digits(take_mark(take_digits(words_next(it->words), &line->hits), '/'), &line->of);
    return is_whole(it, line->hits && line->hits <= line->of ? rest : NULL, "a fraction of at most 1, such as 1/100");
}

static bool take_seed(struct parsing *it) {
    it->line->has_seed = true;
    return is_whole(it, take_digits(words_next(it->words), &it->line->seed), "a number");
}

static bool take_condition(struct parsing *it) {
    static const struct {
        const char *word;
        enum group group;
        bool (*take)(struct parsing *it);
    } conditions[] = {
        {"sectors", GROUP_SECTORS, take_sectors}, {"sector", GROUP_SECTORS, take_sectors}, {"tag", GROUP_TAG, take_tags},
        {"tags", GROUP_TAG, take_tags}, {"slot", GROUP_TAG, take_tags}, {"slots", GROUP_TAG, take_tags}, {"number", GROUP_NUMBER, take_numbers},
        {"numbers", GROUP_NUMBER, take_numbers}, {"during", GROUP_DURING, take_during}, {"probability", GROUP_PROBABILITY, take_probability},
        {"seed", GROUP_SEED, take_seed},
    };
    unsigned at = 0, count = sizeof conditions / sizeof *conditions;
    while (at < count && !words_are_at(it->words, conditions[at].word))
        at++;
    enum group group = at < count ? conditions[at].group : GROUP_KIND;
    if (it->given & group)
        return words_expected(it->words, "do, or a condition that is not given yet");
    if (it->line->about == ABOUT_REGISTER && group & OF_COMMANDS)
        return words_expected(it->words, "do, during, probability or seed, since a register is written");
    it->given |= group;
    it->words->at += at < count;
    return at < count ? conditions[at].take(it) : take_kind(it);
}

/* ---- events ---- */

#define MOST_NAMES 2048 /* characters of the list of events */

/* The events that a server has, as a list. */
static const char *events_of(unsigned server, char text[MOST_NAMES]) {
    size_t length = 0;
    for (enum event_kind kind = 0; kind < EVENT_KINDS; kind++)
        if (event_rows[kind].servers & server)
            length += (size_t)snprintf(text + length, MOST_NAMES - length, "%s%s", length ? ", " : "", event_rows[kind].name);
    return text;
}

static bool take_event_kind(struct parsing *it, enum event_kind *kind) {
    char text[MOST_NAMES];
    unsigned at = 0;
    while (at < EVENT_KINDS && !words_are_at(it->words, event_rows[at].name))
        at++;
    if (at == EVENT_KINDS || !(event_rows[at].servers & it->server))
        return words_expected(it->words, "an event that %s has (%s)", server_name(it->server), events_of(it->server, text));
    *kind = (enum event_kind)at;
    return true;
}

static bool has_event(const struct line *line, enum event_kind kind) {
    for (unsigned at = 0; at < line->about_command; at++)
        if (line->events[at].kind == kind)
            return true;
    return false;
}

/* Whether an event may come next in a line; counts it as one about the command if it is. */
static bool fits(struct parsing *it, enum event_kind kind) {
    struct line *line = it->line;
    enum scope scope = event_rows[kind].scope;
    bool is_ended = kind == EVENT_FAIL || kind == EVENT_END, is_answered = kind == EVENT_SLOW || is_ended;
    bool is_first = line->about == ABOUT_COMMAND && line->about_command == line->count;
    if (scope == SCOPE_COMMAND && line->about != ABOUT_COMMAND)
        return words_expected(it->words, "an event that is about no command, since none is at hand");
    if (scope == SCOPE_COMMAND && !is_first)
        return words_expected(it->words, "no event about the command after a wait or an event about the controller");
    if (is_first && (scope == SCOPE_COMMAND || scope == SCOPE_EITHER)) {
        bool has_end = has_event(line, EVENT_FAIL) || has_event(line, EVENT_END);
        if (has_event(line, kind) || (is_ended && has_end) || (is_answered && has_event(line, EVENT_STALL)) || (kind == EVENT_STALL && (has_event(line, EVENT_SLOW) || has_end)))
            return words_expected(it->words, "an event that can come beside those before it");
        if (kind == EVENT_END && line->has_code && (line->code == READ_FPDMA_QUEUED || line->code == WRITE_FPDMA_QUEUED))
            return words_expected(it->words, "an event that a queued command can have");
        line->about_command++;
    }
    return true;
}

/* Keeps the name of a file in the line. */
static uint16_t keep_file(struct line *line, const char *name) {
    const uint16_t place = (uint16_t)(line->named + 1);
    const size_t length = strlen(name) + 1;
    memcpy(line->files + line->named, name, length);
    line->named = (uint16_t)(line->named + length);
    return place;
}

/* Nothing, or `another`, perhaps with its image, which a word names that the line doesn't go on with. */
static bool take_disk(struct parsing *it, struct event *event) {
    event->is_other = words_take(it->words, "another");
    if (!event->is_other || !*words_next(it->words) || words_are_at(it->words, "then") || words_are_at(it->words, "repeat"))
        return true;
    event->file = keep_file(it->line, words_next(it->words));
    it->words->at++;
    return true;
}

const char *line_file(const struct line *line, const struct event *event) {
    return event->file ? line->files + event->file - 1 : NULL;
}

static bool take_argument(struct parsing *it, struct event *event) {
    const char *word = words_next(it->words);
    switch (event_rows[event->kind].argument) {
    case ARGUMENT_ERROR:
        return is_whole(it, take_error(word, &event->error), "an error byte of two hexadecimal digits, such as 40");
    case ARGUMENT_STATUS:
        return is_whole(it, take_error(word, &event->error), "a status byte of two hexadecimal digits, such as 61");
    case ARGUMENT_DELAY:
        return is_whole(it, take_delay_with_units(word, &event->delay), "a time of at most 10s, such as 20ms, perhaps with one to be added at random, such as 20ms+5ms");
    case ARGUMENT_TIME:
        return is_whole(it, take_time(word, &event->time), "a time, such as 20ms or 2.5s");
    case ARGUMENT_SEED:
        event->has_seed = words_take(it->words, "seed");
        return !event->has_seed || is_whole(it, take_digits(words_next(it->words), &event->seed), "a number");
    case ARGUMENT_DISK:
        return take_disk(it, event);
    default:
        return true;
    }
}

static bool take_event(struct parsing *it) {
    struct line *line = it->line;
    enum event_kind kind = EVENT_WAIT;
    if (line->count == MOST_EVENTS)
        return words_expected(it->words, "at most %d events", MOST_EVENTS);
    if (!take_event_kind(it, &kind) || !fits(it, kind))
        return false;
    struct event *event = &line->events[line->count++];
    event->kind = kind;
    it->words->at++;
    return take_argument(it, event);
}

/* Events up to the last one, which is no wait. */
static bool take_events(struct parsing *it) {
    do
        if (!take_event(it))
            return false;
    while (words_take(it->words, "then"));
    if (it->line->events[it->line->count - 1].kind == EVENT_WAIT)
        return words_expected(it->words, "then and an event, for which to wait");
    return true;
}

/* ---- the line ---- */

static bool take_repeat(struct parsing *it) {
    struct line *line = it->line;
    if (!words_take(it->words, "repeat"))
        return *words_next(it->words) ? words_expected(it->words, "then, repeat or the end of the line") : true;
    line->most = NO_END;
    if (!words_take(it->words, "ever") && !is_whole(it, take_digits(words_next(it->words), &line->most), "a number from 1 on, or ever"))
        return false;
    if (!line->most) {
        it->words->at--;
        return words_expected(it->words, "a number from 1 on, or ever");
    }
    return *words_next(it->words) ? words_expected(it->words, "the end of the line") : true;
}

static bool take_conditions(struct parsing *it) {
    if (words_are_at(it->words, "do"))
        return words_expected(it->words, "a condition, such as any, write or sectors 100-199");
    while (!words_are_at(it->words, "do"))
        if (!take_condition(it))
            return false;
    return true;
}

/* What comes before `do`. */
static bool take_match(struct parsing *it) {
    struct words *words = it->words;
    struct line *line = it->line;
    if (words_take(words, "from")) {
        if (!take_nth(words, &line->first, "a place such as 5th"))
            return false;
        return words_take(words, "on") ? take_conditions(it) : words_expected(words, "on");
    }
    if (!words_take(words, "on"))
        return words_expected(words, "on or from");
    if (!words_take(words, "time"))
        return take_place(line, words) && take_conditions(it);
    line->about = ABOUT_TIME;
    line->most = 1;
    const char *rest = take_time(words_next(words), &line->time);
    return is_whole(it, line->time ? rest : NULL, "a time since the start, such as 2.5s");
}

void line_begin(struct line *line, uint64_t seed) {
    memset(line, 0, sizeof *line);
    line->reads = line->writes = true;
    line->last_lba = line->last_tag = line->last_number = line->ends = line->most = NO_END;
    line->first = line->step = line->hits = line->of = 1;
    line->seed = seed;
}

bool line_take(struct line *line, struct words *words, unsigned server, uint64_t seed) {
    struct parsing it = {.line = line, .words = words, .server = server};
    line_begin(line, seed);
    line->row = words->row;
    if (!take_match(&it))
        return false;
    if (!words_take(words, "do"))
        return words_expected(words, "do");
    if (!take_events(&it) || !take_repeat(&it))
        return false;
    line->random = generator_of(line->seed);
    for (unsigned at = 0; at < line->count; at++)
        if (event_rows[line->events[at].kind].argument == ARGUMENT_SEED && !line->events[at].has_seed)
            line->events[at].seed = line->seed;
    return true;
}
