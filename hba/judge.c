#include "judge.h"

#include "say.h"
#include "settings.h"

#include <inttypes.h>
#include <stdarg.h>
#include <stdio.h>
#include <stdlib.h>
#include <string.h>

#define MOST_SHOWN 5    /* of the times that one rule is broken */
#define S64A UINT32_C(0x80000000) /* of CAP */

void judge_begin(struct judge *judge, const struct settings *settings, const struct memory *memory) {
    *judge = (struct judge){.on = settings->judge, .json = settings->json, .from = settings->judge_from, .depth = settings->depth, .memory = memory, .stretch = 1};
    judge_power_on(judge);
}

/* ---- what is found ---- */

/* The breach of a rule in this stretch; NULL without memory. */
static struct breach *breach_of(struct judge *judge, unsigned rule) {
    for (size_t i = judge->first_of_stretch; i < judge->breach_count; i++)
        if (judge->breaches[i].rule == rule)
            return &judge->breaches[i];
    if (judge->breach_count == judge->breach_room) {
        size_t room = judge->breach_room ? 2 * judge->breach_room : 64;
        struct breach *breaches = realloc(judge->breaches, room * sizeof *breaches);
        if (!breaches)
            return NULL;
        judge->breaches = breaches;
        judge->breach_room = room;
    }
    struct breach *breach = &judge->breaches[judge->breach_count++];
    *breach = (struct breach){.rule = rule, .stretch = judge->stretch};
    return breach;
}

void judge_find(struct judge *judge, unsigned rule, const char *format, ...) {
    const struct driver_rule *it = &driver_rules[rule];
    char where[sizeof judge->breaches->first];
    va_list arguments;
    if (judge->stretch < judge->from)
        return;
    va_start(arguments, format);
    vsnprintf(where, sizeof where, format, arguments);
    va_end(arguments);
    struct breach *breach = breach_of(judge, rule);
    if (breach && breach->times++ == 0)
        memcpy(breach->first, where, sizeof where);
    if (judge->shown[rule]++ < MOST_SHOWN)
        say("judge: %s (%s%s; %s): %s: %s", it->name, *it->section <= '9' ? "AHCI 1.3.1, section " : "", it->section, verdict_text(it->verdict), it->text, where);
}

uint32_t judge_peek(ahci_hba *hba, uint32_t offset) {
    uint64_t word = 0;
    ahci_hba_read(hba, offset, 4, &word);
    return (uint32_t)word;
}

uint64_t judge_list(ahci_hba *hba) {
    return judge_peek(hba, AHCI_REG_PXCLB) | (uint64_t)judge_peek(hba, AHCI_REG_PXCLBU) << 32;
}

uint64_t judge_area(ahci_hba *hba) {
    return judge_peek(hba, AHCI_REG_PXFB) | (uint64_t)judge_peek(hba, AHCI_REG_PXFBU) << 32;
}

void judge_overlap(struct judge *judge, const char *what, uint64_t at, uint64_t bytes, const char *other, uint64_t other_at, uint64_t other_bytes) {
    bool is_apart = at >= other_at ? at - other_at >= other_bytes : other_at - at >= bytes;
    if (!is_apart)
        judge_find(judge, JUDGE_MEMORY_OVERLAPS, "%s at %" PRIx64 ", %s at %" PRIx64, what, at, other, other_at);
}

uint64_t judge_reach(struct judge *judge, ahci_hba *hba, const char *what, uint64_t address) {
    uint64_t taken = judge_taken(hba, address);
    if (taken != address)
        judge_find(judge, JUDGE_ADDRESS_ABOVE_REACH, "%s at %" PRIx64, what, address);
    return taken;
}

uint64_t judge_taken(ahci_hba *hba, uint64_t address) {
    return judge_peek(hba, AHCI_REG_CAP) & S64A ? address : (uint32_t)address;
}

void judge_unmapped(struct judge *judge, uint64_t address, uint64_t bytes) {
    if (judge->on)
        judge_find(judge, JUDGE_NO_MEMORY, "%" PRIu64 " bytes at %" PRIx64, bytes, address);
}

/* ---- the end ---- */

static void write_table(const struct judge *judge) {
    fprintf(stderr, "%-30s %-8s %-28s %8s %10s  %s\n", "rule", "section", "verdict", "stretch", "times", "first");
    for (unsigned rule = 0; rule < JUDGE_RULES; rule++)
        for (size_t i = 0; i < judge->breach_count; i++) {
            const struct breach *it = &judge->breaches[i];
            if (it->rule == rule)
                fprintf(stderr, "%-30s %-8s %-28s %8" PRIu32 " %10" PRIu64 "  %s\n", driver_rules[rule].name, driver_rules[rule].section,
                        verdict_text(driver_rules[rule].verdict), it->stretch, it->times, it->first);
        }
    fprintf(stderr, "%" PRIu64 " writes and %" PRIu64 " commands were judged by %d rules; stretches: %" PRIu32 "\n", judge->writes, judge->commands, JUDGE_RULES, judge->stretch);
}

/* No text here has a character that JSON wants escaped. */
static void write_breach(FILE *file, const struct breach *it) {
    const struct driver_rule *rule = &driver_rules[it->rule];
    fprintf(file, "\n  {\"rule\": \"%s\", \"section\": \"%s\", \"verdict\": \"%s\", \"stretch\": %" PRIu32 ", \"times\": %" PRIu64 ", \"text\": \"%s\", \"first\": \"%s\"}", rule->name,
            rule->section, verdict_text(rule->verdict), it->stretch, it->times, rule->text, it->first);
}

static int write_json(const struct judge *judge) {
    bool is_output = !strcmp(judge->json, "-");
    FILE *file = is_output ? stdout : fopen(judge->json, "w");
    if (!file)
        return -1;
    fprintf(file, "{\"writes\": %" PRIu64 ", \"commands\": %" PRIu64 ", \"stretches\": %" PRIu32 ", \"rules\": [", judge->writes, judge->commands, judge->stretch);
    for (size_t i = 0; i < judge->breach_count; i++) {
        fputs(i ? "," : "", file);
        write_breach(file, &judge->breaches[i]);
    }
    fputs("\n], ", file);
    recovery_write_json(&judge->recovery, file);
    fputs("}\n", file);
    bool failed = ferror(file);
    return (is_output ? fflush(file) : fclose(file)) || failed ? -1 : 0;
}

/* How many rules were broken that the standard has. */
static int broken_rules(const struct judge *judge) {
    bool is_broken[JUDGE_RULES] = {false};
    int broken = 0;
    for (size_t i = 0; i < judge->breach_count; i++) {
        unsigned rule = judge->breaches[i].rule;
        broken += !is_broken[rule] && driver_rules[rule].verdict == VERDICT_BROKEN;
        is_broken[rule] = true;
    }
    return broken;
}

int judge_end(struct judge *judge) {
    int broken = broken_rules(judge);
    for (uint32_t slot = 0; slot < AHCI_MOST_TAGS; slot++)
        free(judge->slots[slot].runs);
    if (!judge->on)
        return 0;
    recovery_end(judge);
    write_table(judge);
    recovery_write_table(&judge->recovery, stderr);
    if (judge->json && write_json(judge)) {
        say_of("json", judge->json, "it could not be written");
        broken = -1;
    }
    free(judge->breaches);
    free(judge->recovery.reports);
    judge->breaches = NULL;
    judge->recovery.reports = NULL;
    return broken;
}
