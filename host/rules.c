#include "rules.h"

#include "generator.h"
#include "say.h"

#include <stddef.h>
#include <string.h>

#define REST "[:COUNT][,reads|writes][,commands=A-B][,seconds=A-B][,rate=N/M][,seed=S], where WHERE is LBA, LBA-LBA or any, COUNT a number from 1 on or ever"

/* What is different between the options. */
static const struct {
    const char *form;
    uint64_t usual; /* the count without conditions that bound it */
} kinds[] = {
    [EVENT_FAIL] = {"WHERE:EE" REST ", and EE two hexadecimal digits", 1},
    [EVENT_SLOW] = {"WHERE:MICROSECONDS[+JITTER]" REST ", and both times 10000000 at most", NO_END},
    [EVENT_STALL] = {"WHERE" REST, 1},
};

enum event_kind rules_kind(const char *name, unsigned server) {
    for (enum event_kind kind = 0; kind < sizeof kinds / sizeof *kinds; kind++)
        if (kinds[kind].form && event_rows[kind].servers & server && !strcmp(event_rows[kind].name, name))
            return kind;
    return EVENT_KINDS;
}

/* LBA, LBA-LBA or any. */
static const char *take_where(const char *text, struct line *line) {
    const char *rest = take_word(text, "any");
    line->has_sectors = !rest;
    return rest ? rest : take_span(text, &line->first_lba, &line->last_lba);
}

/* What comes between WHERE and COUNT. */
static const char *take_action(const char *text, struct event *event) {
    if (event->kind == EVENT_STALL)
        return text;
    text = take_mark(text, ':');
    return event->kind == EVENT_FAIL ? take_error(text, &event->error) : take_delay(text, &event->delay);
}

/* :COUNT or :ever, which may be left out. */
static const char *take_count(const char *text, struct line *line, bool *is_given) {
    if (!text || *text != ':')
        return text;
    *is_given = true;
    const char *rest = take_word(text + 1, "ever");
    if (rest)
        return rest;
    text = take_digits(text + 1, &line->most);
    return line->most ? text : NULL;
}

/* One of the conditions that say when a rule applies, after a comma. */
static const char *take_bound(const char *text, struct line *line) {
    const char *rest;
    if ((rest = take_word(text, "commands="))) {
        rest = take_span(rest, &line->first_number, &line->last_number);
        return line->first_number ? rest : NULL;
    }
    if ((rest = take_word(text, "seconds="))) {
        rest = take_seconds(take_mark(take_seconds(rest, &line->begins), '-'), &line->ends);
        return line->begins < line->ends ? rest : NULL;
    }
    if ((rest = take_word(text, "rate="))) {
        rest = take_digits(take_mark(take_digits(rest, &line->hits), '/'), &line->of);
        return line->hits && line->hits <= line->of ? rest : NULL;
    }
    return NULL;
}

static const char *take_condition(const char *text, struct line *line, bool *is_bounded) {
    const char *rest;
    if ((rest = take_word(text, "reads"))) {
        line->writes = false;
        return rest;
    }
    if ((rest = take_word(text, "writes"))) {
        line->reads = false;
        return rest;
    }
    if ((rest = take_word(text, "seed=")))
        return take_digits(rest, &line->seed);
    *is_bounded = true;
    return take_bound(text, line);
}

/* The whole value. A rule without a count applies as often as its kind says, or for ever if a condition bounds it. */
static bool is_taken(const char *text, struct line *line) {
    bool is_given = false, is_bounded = false;
    text = take_count(take_action(take_where(text, line), &line->events[0]), line, &is_given);
    while (text && *text == ',')
        text = take_condition(text + 1, line, &is_bounded);
    if (!is_given)
        line->most = is_bounded ? NO_END : kinds[line->events[0].kind].usual;
    line->random = generator_of(line->seed);
    return text && !*text && (line->reads || line->writes);
}

int rules_take(struct script *script, enum event_kind kind, const char *value) {
    const char *name = event_rows[kind].name;
    struct line *line = script->given[kind] < MOST_RULES ? script_add(script) : NULL;
    if (!line) {
        say_of(name, value, "it may be given %d times at most", MOST_RULES);
        return -1;
    }
    line_begin(line, ++script->given[kind]);
    line->events[0].kind = kind;
    line->count = line->about_command = 1;
    script_note(script, line);
    if (is_taken(value, line))
        return 0;
    say_expected(name, value, "%s", kinds[kind].form);
    return -1;
}
