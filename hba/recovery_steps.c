/* The steps that a driver takes: which came in the standard's order, and which are missing. */
#include "recovery.h"

static uint32_t bit(unsigned of) {
    return UINT32_C(1) << of;
}

/* Which of two rows is better: the longer one; of two that are as long, the one that was there first. */
static bool is_better(const struct recovery_chain *it, const struct recovery_chain *than) {
    return it->length > than->length || (it->length && it->length == than->length && it->stamp < than->stamp);
}

/* The best row that a step can end is kept. PxIS is read in time if that is before ST is cleared, and a reset has no place in it either. */
void recovery_take(struct recovery *it, enum recovery_step step) {
    struct recovery_chain longest = {.steps = 0};
    it->came |= bit(step);
    it->apart |= step == STEP_CAUSE && !(it->came & bit(STEP_STOP)) ? bit(STEP_CAUSE) : 0;
    if (step == STEP_CAUSE || step == STEP_RESET || !recovery_has(it->report.flow, step))
        return;
    for (const enum recovery_step *before = recovery_order(it->report.flow); *before != step; before++)
        if (is_better(&it->chains[*before], &longest))
            longest = it->chains[*before];
    if (longest.length + 1 > it->chains[step].length)
        it->chains[step] = (struct recovery_chain){.steps = longest.steps | bit(step), .length = longest.length + 1, .stamp = ++it->stamp};
}

/* The steps that came in the standard's order: the most of them that did. */
static uint32_t in_order(const struct recovery *it) {
    const struct recovery_chain *longest = &it->chains[0];
    for (unsigned step = 1; step < RECOVERY_STEPS; step++)
        if (is_better(&it->chains[step], longest))
            longest = &it->chains[step];
    return longest->steps | it->apart;
}

/* Whether the event asks for a step of its flow. */
static bool is_needed(const struct recovery *it, enum recovery_step step) {
    switch (step) {
    case STEP_CAUSE:
        return it->report.kind != EVENT_STALL; /* nothing reports it */
    case STEP_ISSUED:
    case STEP_ACTIVE:
    case STEP_SLOT:
        return it->was_started && it->had_commands;
    case STEP_STOP:
    case STEP_STOPPED:
        return it->was_started;
    case STEP_ERRORS:
        return it->had_errors;
    case STEP_STATUS:
        return it->had_status;
    case STEP_RESET:
        return it->was_busy;
    case STEP_LOG:
        return !it->was_reset;
    default:
        return true;
    }
}

void recovery_sort(struct recovery *it) {
    struct recovery_report *report = &it->report;
    uint32_t ordered = in_order(it);
    for (const enum recovery_step *step = recovery_order(report->flow); *step != RECOVERY_STEPS; step++) {
        if (!is_needed(it, *step))
            continue;
        if (ordered & bit(*step))
            report->seen |= bit(*step);
        else if (it->came & bit(*step))
            report->late |= bit(*step);
        else if (report->ending == ENDING_NEXT)
            report->cut |= bit(*step);
        else
            report->missing |= bit(*step);
    }
    if ((report->seen | report->late) & bit(STEP_RESET))
        report->extras &= ~(bit(EXTRA_COMRESET) | bit(EXTRA_CLO));
    if (it->came & bit(STEP_LOG) && !((report->seen | report->late) & bit(STEP_LOG)))
        report->extras |= bit(EXTRA_LOG);
}
