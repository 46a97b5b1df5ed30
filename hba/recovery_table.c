/* The words of reports of recovery: the steps of the standard, and the tables. */
#include "recovery.h"

#include <inttypes.h>
#include <stdbool.h>

const char *const recovery_steps[RECOVERY_STEPS] = {
    [STEP_CAUSE] = "reads PxIS",
    [STEP_ISSUED] = "reads PxCI before ST is cleared",
    [STEP_ACTIVE] = "reads PxSACT before ST is cleared",
    [STEP_SLOT] = "reads CCS before ST is cleared",
    [STEP_STOP] = "clears ST",
    [STEP_STOPPED] = "reads CR as 0",
    [STEP_LIST] = "writes PxCLB",
    [STEP_AREA] = "writes PxFB",
    [STEP_RECEIVE] = "sets FRE",
    [STEP_LINK] = "reads PxSSTS.DET as 3",
    [STEP_ERRORS] = "clears PxSERR",
    [STEP_STATUS] = "clears PxIS",
    [STEP_RESET] = "COMRESET or CLO, since BSY or DRQ is 1",
    [STEP_READY] = "reads BSY and DRQ as 0",
    [STEP_START] = "sets ST",
    [STEP_LOG] = "READ LOG EXT of log 10h",
};

const char *const recovery_extras[RECOVERY_EXTRAS] = {
    [EXTRA_STOP] = "ST is cleared",
    [EXTRA_COMRESET] = "COMRESET",
    [EXTRA_CLO] = "CLO",
    [EXTRA_SOFT_RESET] = "software reset",
    [EXTRA_HBA_RESET] = "reset of the HBA",
    [EXTRA_LOG] = "READ LOG EXT of log 10h",
};

static const char *const fates[RECOVERY_FATES] = {
    [FATE_ANSWERED] = "answered", [FATE_AGAIN] = "again", [FATE_FAILED] = "failed", [FATE_LOST] = "lost", [FATE_TWICE] = "twice", [FATE_OTHER] = "other",
};

static const char *const endings[] = {[ENDING_DONE] = "done", [ENDING_NEXT] = "next event", [ENDING_RUN] = "end of the run"};

/* What each flow is, and its steps in the standard's order. STEP_RESET comes behind the registers that are cleared in section 6.2.2, and before PxSERR is cleared
   in section 10.4.2: it is in order anywhere while ST is 0. */
static const struct {
    const char *section;
    enum recovery_step order[RECOVERY_STEPS + 1];
} flows[RECOVERY_FLOWS] = {
    [FLOW_NOTHING] = {"", {RECOVERY_STEPS}},
    [FLOW_SINGLE] = {"6.2.2.1", {STEP_CAUSE, STEP_ISSUED, STEP_SLOT, STEP_STOP, STEP_STOPPED, STEP_RESET, STEP_ERRORS, STEP_STATUS, STEP_START, RECOVERY_STEPS}},
    [FLOW_QUEUED] = {"6.2.2.2", {STEP_CAUSE, STEP_ACTIVE, STEP_STOP, STEP_STOPPED, STEP_RESET, STEP_ERRORS, STEP_STATUS, STEP_START, STEP_LOG, RECOVERY_STEPS}},
    [FLOW_LINK] = {"6.2.2.3", {STEP_CAUSE, STEP_STOP, STEP_STOPPED, STEP_RESET, STEP_LINK, STEP_ERRORS, STEP_READY, STEP_START, RECOVERY_STEPS}},
    [FLOW_GONE] = {"7.3", {STEP_CAUSE, STEP_STOP, STEP_STOPPED, STEP_ERRORS, RECOVERY_STEPS}},
    [FLOW_POWER] = {"10.1.2", {STEP_LIST, STEP_AREA, STEP_RECEIVE, STEP_LINK, STEP_ERRORS, STEP_READY, STEP_START, RECOVERY_STEPS}},
};

const enum recovery_step *recovery_order(enum recovery_flow flow) {
    return flows[flow].order;
}

bool recovery_has(enum recovery_flow flow, enum recovery_step step) {
    for (const enum recovery_step *it = flows[flow].order; *it != RECOVERY_STEPS; it++)
        if (*it == step)
            return true;
    return false;
}

/* ---- the table: a row for all reports of an event and a flow ---- */

struct total {
    uint64_t times, fates[RECOVERY_FATES], seen[RECOVERY_STEPS], late[RECOVERY_STEPS], missing[RECOVERY_STEPS], cut[RECOVERY_STEPS], extras[RECOVERY_EXTRAS], carried;
};

static void count_bits(uint64_t *counts, unsigned most, uint32_t bits) {
    for (unsigned at = 0; at < most; at++)
        counts[at] += bits >> at & 1;
}

static struct total total_of(const struct recovery *recovery, enum event_kind kind, enum recovery_flow flow) {
    struct total total = {.times = 0};
    for (size_t i = 0; i < recovery->reports_count; i++) {
        const struct recovery_report *it = &recovery->reports[i];
        if (it->kind != kind || it->flow != flow)
            continue;
        total.times++;
        total.carried += it->carried;
        count_bits(total.seen, RECOVERY_STEPS, it->seen);
        count_bits(total.late, RECOVERY_STEPS, it->late);
        count_bits(total.missing, RECOVERY_STEPS, it->missing);
        count_bits(total.cut, RECOVERY_STEPS, it->cut);
        count_bits(total.extras, RECOVERY_EXTRAS, it->extras);
        for (unsigned fate = 0; fate < RECOVERY_FATES; fate++)
            total.fates[fate] += it->fates[fate];
    }
    return total;
}

static void write_count(FILE *file, const char **before, uint64_t count, const char *what) {
    if (!count)
        return;
    fprintf(file, "%s%" PRIu64 " %s", *before, count, what);
    *before = ", ";
}

static void write_steps(FILE *file, const struct total *total, enum recovery_flow flow) {
    for (const enum recovery_step *step = recovery_order(flow); *step != RECOVERY_STEPS; step++) {
        const char *before = "";
        if (!(total->seen[*step] + total->late[*step] + total->missing[*step] + total->cut[*step]))
            continue;
        fprintf(file, "    %-40s ", recovery_steps[*step]);
        write_count(file, &before, total->seen[*step], "seen");
        write_count(file, &before, total->late[*step], "out of order");
        write_count(file, &before, total->missing[*step], "missing");
        write_count(file, &before, total->cut[*step], "not before the next event");
        fputc('\n', file);
    }
    for (unsigned extra = 0; extra < RECOVERY_EXTRAS; extra++)
        if (total->extras[extra])
            fprintf(file, "    also: %-34s %" PRIu64 "\n", recovery_extras[extra], total->extras[extra]);
}

void recovery_write_table(const struct recovery *recovery, FILE *file) {
    if (!recovery->reports_count)
        return;
    fprintf(file, "%-24s %-8s %8s", "recovery from", "section", "times");
    for (unsigned fate = 0; fate < RECOVERY_FATES; fate++)
        fprintf(file, " %8s", fates[fate]);
    fputc('\n', file);
    for (enum event_kind kind = 0; kind < EVENT_KINDS; kind++)
        for (enum recovery_flow flow = 0; flow < RECOVERY_FLOWS; flow++) {
            struct total total = total_of(recovery, kind, flow);
            if (!total.times)
                continue;
            fprintf(file, "%-24s %-8s %8" PRIu64, event_rows[kind].name, flows[flow].section, total.times);
            for (unsigned fate = 0; fate < RECOVERY_FATES; fate++)
                fprintf(file, " %8" PRIu64, total.fates[fate]);
            fputc('\n', file);
            write_steps(file, &total, flow);
        }
    if (recovery->unstored)
        fprintf(file, "%" PRIu64 " more are not in this table\n", recovery->unstored);
}

/* ---- JSON: an object for each report. No text here has a character that JSON wants escaped. ---- */

static const char *state_of(const struct recovery_report *it, enum recovery_step step) {
    uint32_t bit = UINT32_C(1) << step;
    return it->seen & bit ? "seen" : it->late & bit ? "out of order" : it->missing & bit ? "missing" : it->cut & bit ? "not before the next event" : NULL;
}

static void write_report(FILE *file, const struct recovery_report *it) {
    const char *before = "";
    fprintf(file, "\n  {\"event\": \"%s\", \"line\": %u, \"stretch\": %" PRIu32 ", \"section\": \"%s\", \"ended\": \"%s\", \"steps\": {", event_rows[it->kind].name, it->row, it->stretch,
            flows[it->flow].section, endings[it->ending]);
    for (const enum recovery_step *step = recovery_order(it->flow); *step != RECOVERY_STEPS; step++) {
        const char *state = state_of(it, *step);
        if (state)
            fprintf(file, "%s\"%s\": \"%s\"", before, recovery_steps[*step], state);
        before = state ? ", " : before;
    }
    fprintf(file, "}, \"also\": [");
    before = "";
    for (unsigned extra = 0; extra < RECOVERY_EXTRAS; extra++) {
        if (it->extras >> extra & 1)
            fprintf(file, "%s\"%s\"", before, recovery_extras[extra]);
        before = it->extras >> extra & 1 ? ", " : before;
    }
    fprintf(file, "], \"requests\": {");
    for (unsigned fate = 0; fate < RECOVERY_FATES; fate++)
        fprintf(file, "\"%s\": %" PRIu32 ", ", fates[fate], it->fates[fate]);
    fprintf(file, "\"carried\": %" PRIu32 "}, \"beside\": %" PRIu32 "}", it->carried, it->beside);
}

void recovery_write_json(const struct recovery *recovery, FILE *file) {
    fputs("\"recoveries\": [", file);
    for (size_t i = 0; i < recovery->reports_count; i++) {
        fputs(i ? "," : "", file);
        write_report(file, &recovery->reports[i]);
    }
    fputs("\n]", file);
}
