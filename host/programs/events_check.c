/* Judges scripts of events without running them, and prints their lines in one form:

     events-check [--for hba|nbd] FILE..
     events-check --list

   The status is 0 if all are right, and 2 if not. `--list` prints the table of events. */
#include "say.h"
#include "script.h"

#include <stdio.h>
#include <string.h>

static void put(const char *line) {
    fprintf(stderr, "%s\n", line);
}

static int list(void) {
    for (enum event_kind kind = 0; kind < EVENT_KINDS; kind++) {
        const struct event_row *row = &event_rows[kind];
        const char *arguments = event_arguments(kind);
        printf("%s%s%s; %s%s%s; %s; %s\n", row->name, *arguments ? " " : "", arguments, row->servers & SERVER_HBA ? "hba" : "",
               row->servers == (SERVER_HBA | SERVER_NBD) ? ", " : "", row->servers & SERVER_NBD ? "nbd" : "", row->does, *row->section ? row->section : "-");
    }
    return 0;
}

int main(int count, char **words) {
    static const struct voice voice = {.put = put, .before = "--", .between = " "};
    unsigned server = SERVER_HBA;
    int at = 1, status = 0;
    say_begin(&voice);
    if (count == 2 && !strcmp(words[1], "--list"))
        return list();
    if (count > 2 && !strcmp(words[1], "--for")) {
        server = strcmp(words[2], "nbd") ? SERVER_HBA : SERVER_NBD;
        at = strcmp(words[2], server_name(server)) ? count : 3;
    }
    if (at >= count) {
        put("usage: events-check [--for hba|nbd] FILE.., or events-check --list");
        return 2;
    }
    for (; at < count; at++)
        if (script_check(words[at], server))
            status = 2;
    return status;
}
