#include "script.h"

#include "generator.h"

#include <stdio.h>

/* Whether a line applies to the command at hand: not asked yet, or asked. */
enum { NOT_ASKED, APPLIES, APPLIES_NOT };

bool script_has(const struct script *script, enum event_kind kind) {
    return script->events >> kind & 1;
}

/* ---- the events that come by themselves: those after the ones about the command ---- */

/* Passes over waits. After the last event a line about a time begins again, if it may. */
static void settle(struct line *line) {
    while (line->next < line->count && line->events[line->next].kind == EVENT_WAIT)
        line->due += line->events[line->next++].time;
    line->is_under_way = line->next < line->count;
    if (line->is_under_way || line->about != ABOUT_TIME || line->happened == line->most)
        return;
    line->due += line->time;
    line->next = 0;
    line->is_under_way = true;
}

static void set_out(struct line *line, uint64_t since) {
    line->next = line->about_command;
    line->due = since;
    settle(line);
}

void script_begin(struct script *script) {
    for (unsigned at = 0; at < script->count; at++)
        if (script->lines[at].about == ABOUT_TIME)
            set_out(&script->lines[at], script->lines[at].time);
}

/* The line whose next event comes first; NULL if none waits. */
static struct line *first_due(const struct script *script) {
    const struct line *first = NULL;
    for (unsigned at = 0; at < script->count; at++) {
        const struct line *line = &script->lines[at];
        if (line->is_under_way && (!first || line->due < first->due))
            first = line;
    }
    return (struct line *)first;
}

uint64_t script_next(const struct script *script) {
    const struct line *line = first_due(script);
    return line ? line->due : UINT64_MAX;
}

/* Whether a line about a time begins: nothing but waits came before its next event. */
static bool is_beginning(const struct line *line) {
    unsigned at = 0;
    while (line->events[at].kind == EVENT_WAIT)
        at++;
    return line->about == ABOUT_TIME && line->next == at;
}

bool script_take(struct script *script, uint64_t since, struct decision *due) {
    struct line *line = first_due(script);
    if (!line || line->due > since)
        return false;
    *due = (struct decision){.line = line, .event = &line->events[line->next]};
    line->happened += is_beginning(line);
    line->next++;
    settle(line);
    return true;
}

/* ---- which lines apply ---- */

/* The line's event of a kind that is about the command; NULL if it has none. */
static const struct event *event_of(const struct line *line, enum event_kind kind) {
    for (unsigned at = 0; at < line->about_command; at++)
        if (line->events[at].kind == kind)
            return &line->events[at];
    return NULL;
}

static bool is_kind(const struct line *line, const struct occasion *it) {
    if (line->has_code ? line->code != it->code : !it->sectors)
        return false;
    if (it->is_queued && event_of(line, EVENT_END))
        return false; /* a queued command can't end so */
    return !it->sectors || (it->writes ? line->writes : line->reads);
}

/* Whether a command touches the sectors of a line. */
static bool touches(const struct line *line, const struct occasion *it) {
    return !line->has_sectors || (line->last_lba >= it->lba && line->first_lba < it->lba + it->sectors);
}

static bool is_in_time(const struct line *line, uint64_t since) {
    return since >= line->begins && since < line->ends;
}

static bool is_about(const struct line *line, const struct occasion *it) {
    return line->about == ABOUT_COMMAND && is_kind(line, it) && touches(line, it) && it->tag >= line->first_tag && it->tag <= line->last_tag &&
           it->number >= line->first_number && it->number <= line->last_number && is_in_time(line, it->since);
}

/* Whether the place in the row of those that the conditions hold for is one of the line's. */
static bool is_place(const struct line *line) {
    return line->matched >= line->first && (line->matched - line->first) % line->step == 0;
}

static bool is_drawn(struct line *line) {
    return line->of <= 1 || next_random(&line->random) % line->of < line->hits;
}

/* Whether a line happens whose conditions hold. What comes by itself sets out. */
static bool happens(struct line *line, uint64_t since) {
    if (!is_place(line) || line->happened >= line->most || line->is_under_way || !is_drawn(line))
        return false;
    line->happened++;
    set_out(line, since);
    return true;
}

/* The same for the command at hand, once: a line may be asked for several of its events. */
static bool applies(struct line *line, uint64_t since) {
    if (line->answer == NOT_ASKED)
        line->answer = happens(line, since) ? APPLIES : APPLIES_NOT;
    return line->answer == APPLIES;
}

/* The first line that applies and has an event of a kind decides it. */
static struct decision decision_of(struct script *script, enum event_kind kind, uint64_t since) {
    for (unsigned at = 0; script_has(script, kind) && at < script->count; at++) {
        struct line *line = &script->lines[at];
        const struct event *event = event_of(line, kind);
        if (event && applies(line, since))
            return (struct decision){.line = line, .event = event};
    }
    return (struct decision){.line = NULL};
}

void script_decide(struct script *script, const struct occasion *it, struct decisions *all) {
    *all = (struct decisions){0};
    for (unsigned at = 0; at < script->count; at++) {
        struct line *line = &script->lines[at];
        bool holds = is_about(line, it);
        line->matched += holds;
        line->answer = holds ? NOT_ASKED : APPLIES_NOT;
    }
    for (enum event_kind kind = 0; kind < EVENT_KINDS; kind++)
        if (!all->of[EVENT_STALL].line || (kind != EVENT_SLOW && kind != EVENT_FAIL && kind != EVENT_END))
            all->of[kind] = decision_of(script, kind, it->since);
    for (unsigned at = 0; at < script->count; at++)
        if (script->lines[at].about_command < script->lines[at].count)
            applies(&script->lines[at], it->since); /* its other events come by themselves */
}

void script_wrote(struct script *script, uint32_t offset, uint32_t bytes, uint64_t since) {
    for (unsigned at = 0; at < script->count; at++) {
        struct line *line = &script->lines[at];
        if (line->about != ABOUT_REGISTER || offset >= line->offset + 4 || line->offset >= offset + bytes || !is_in_time(line, since))
            continue;
        line->matched++;
        happens(line, since);
    }
}

void script_end(const struct script *script, void (*put)(const char *line)) {
    char text[MOST_PRINTED], note[MOST_PATH + MOST_PRINTED + 64];
    for (unsigned at = 0; at < script->count; at++) {
        const struct line *line = &script->lines[at];
        if (!line->row || line->happened)
            continue;
        line_print(line, text);
        snprintf(note, sizeof note, "%s:%u: it never happened: %s", script->path, line->row, text);
        put(note);
    }
}
