#include "script.h"

#include "names.h"

#include <inttypes.h>
#include <stdarg.h>
#include <stdio.h>

/* A text that grows. */
struct text {
    char *at;
    size_t left;
};

__attribute__((format(printf, 2, 3))) static void add(struct text *text, const char *format, ...) {
    va_list rest;
    va_start(rest, format);
    int count = vsnprintf(text->at, text->left, format, rest);
    va_end(rest);
    size_t taken = count < 0 ? 0 : (size_t)count < text->left ? (size_t)count : text->left - 1;
    text->at += taken;
    text->left -= taken;
}

/* A time by the largest unit of which it has one, with as many digits after the point as it needs. */
static void add_time(struct text *text, uint64_t microseconds) {
    const char *name = microseconds >= 1000000 || !microseconds ? "s" : microseconds >= 1000 ? "ms" : "us";
    uint64_t unit = *name == 's' ? 1000000 : *name == 'm' ? 1000 : 1, part = microseconds % unit;
    add(text, "%" PRIu64, microseconds / unit);
    if (part)
        add(text, ".");
    for (; part; part %= unit) {
        unit /= 10;
        add(text, "%" PRIu64, part / unit);
    }
    add(text, "%s", name);
}

/* 1st, 2nd, 3rd, 4th, 11th, 21st. */
static void add_nth(struct text *text, uint64_t place) {
    static const char *const ends[] = {"th", "st", "nd", "rd", "th", "th", "th", "th", "th", "th"};
    add(text, "%" PRIu64 "%s", place, place / 10 % 10 == 1 ? "th" : ends[place % 10]);
}

/* ---- conditions ---- */

/* Whether `repeat` is left out, since what comes first says how often the line happens. */
static bool is_plain(const struct line *line) {
    return line->most == (line->about == ABOUT_TIME || (line->step == 1 && line->most != NO_END) ? 1 : NO_END);
}

static void add_place(struct text *text, const struct line *line) {
    if (line->step == 1 && line->most == NO_END && line->first > 1) {
        add(text, "from ");
        add_nth(text, line->first);
        add(text, " on");
        return;
    }
    add(text, "on ");
    if (line->step > 1 || line->most == NO_END)
        add(text, "every%s", line->step > 1 ? " " : "");
    else if (line->first == 1)
        add(text, "first");
    if (line->step > 1 || (line->most != NO_END && line->first > 1))
        add_nth(text, line->first);
}

static void add_kind(struct text *text, const struct line *line) {
    if (line->about == ABOUT_REGISTER)
        add(text, " write %s", register_name(line->offset));
    else if (line->has_code && command_name(line->code))
        add(text, " %s", command_name(line->code));
    else if (line->has_code)
        add(text, " command %02X", line->code);
    else
        add(text, " %s", !line->writes ? "read" : !line->reads ? "write" : "any");
}

static void add_span(struct text *text, const char *name, uint64_t first, uint64_t last) {
    add(text, first == last ? " %s %" PRIu64 : " %ss %" PRIu64, name, first);
    if (first != last)
        add(text, "-%" PRIu64, last);
}

static void add_conditions(struct text *text, const struct line *line) {
    add_kind(text, line);
    if (line->has_sectors)
        add_span(text, "sector", line->first_lba, line->last_lba);
    if (line->last_tag != NO_END)
        add_span(text, "tag", line->first_tag, line->last_tag);
    if (line->first_number)
        add_span(text, "number", line->first_number, line->last_number);
    if (line->ends != NO_END) {
        add(text, " during ");
        add_time(text, line->begins);
        add(text, "-");
        add_time(text, line->ends);
    }
    if (line->of > 1)
        add(text, " probability %" PRIu64 "/%" PRIu64, line->hits, line->of);
    if (line->has_seed)
        add(text, " seed %" PRIu64, line->seed);
}

/* ---- events ---- */

static void add_event(struct text *text, const struct line *line, const struct event *event) {
    add(text, " %s", event_rows[event->kind].name);
    switch (event_rows[event->kind].argument) {
    case ARGUMENT_ERROR:
    case ARGUMENT_STATUS:
        add(text, " %02X", event->error);
        break;
    case ARGUMENT_DELAY:
        add(text, " ");
        add_time(text, event->delay.least);
        if (event->delay.jitter) {
            add(text, "+");
            add_time(text, event->delay.jitter);
        }
        break;
    case ARGUMENT_TIME:
        add(text, " ");
        add_time(text, event->time);
        break;
    case ARGUMENT_SEED:
        if (event->has_seed)
            add(text, " seed %" PRIu64, event->seed);
        break;
    case ARGUMENT_DISK:
        if (event->is_other)
            add(text, " another");
        if (event->file)
            add(text, " %s", line_file(line, event));
        break;
    default:
        break;
    }
}

void line_print(const struct line *line, char text[MOST_PRINTED]) {
    struct text it = {.at = text, .left = MOST_PRINTED};
    if (line->about == ABOUT_TIME) {
        add(&it, "on time ");
        add_time(&it, line->time);
    } else {
        add_place(&it, line);
        add_conditions(&it, line);
    }
    add(&it, " do");
    for (unsigned at = 0; at < line->count; at++) {
        if (at)
            add(&it, " then");
        add_event(&it, line, &line->events[at]);
    }
    if (!is_plain(line) && line->most == NO_END)
        add(&it, " repeat ever");
    else if (!is_plain(line))
        add(&it, " repeat %" PRIu64, line->most);
}
