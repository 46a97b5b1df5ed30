#include "device.h"

#include "say.h"

#include <errno.h>
#include <string.h>
#include <time.h>

#define SECOND UINT64_C(1000000000)

static uint64_t now(void) {
    struct timespec time;
    clock_gettime(CLOCK_MONOTONIC, &time);
    return (uint64_t)time.tv_sec * SECOND + (uint64_t)time.tv_nsec;
}

static uint32_t lowest(uint32_t set) {
    return (uint32_t)__builtin_ctz(set);
}

/* ---- which step ---- */

/* Chooses the tags of a set that the device completes next, or the one that it fails; how many there are. */
static size_t choose(struct driver *driver, uint32_t set, uint32_t failing, uint8_t *tags) {
    ahci_order order = driver->settings->pick;
    uint32_t together = driver->settings->together;
    uint64_t draws[AHCI_MOST_TAGS];
    size_t count = 0;
    for (uint32_t at = 0; at < together; at++)
        draws[at] = pick_draw(order, &driver->random, driver->next);
    driver_must("ahci_choose_tags", ahci_choose_tags(order, set, failing, together, draws, together, tags, AHCI_MOST_TAGS, &count));
    driver->next = tags[count - 1] + UINT32_C(1);
    return count;
}

/* Asks the script about the command of a tag, once: a command that is issued again keeps what was decided. */
static void decide(struct driver *driver, uint32_t tag) {
    struct command *it = &driver->commands[tag];
    if (it->is_decided || !driver->settings->script->count)
        return;
    uint64_t time = now();
    struct decisions all;
    bool writes = it->request->kind == REQUEST_WRITE;
    const struct occasion occasion = {.code = writes ? AHCI_WRITE_FPDMA_QUEUED : AHCI_READ_FPDMA_QUEUED, .tag = (uint8_t)tag, .is_queued = true, .writes = writes, .lba = it->request->lba,
                                      .sectors = it->request->sectors, .number = it->serial, .since = (time - driver->started) / 1000};
    script_decide(driver->settings->script, &occasion, &all);
    const struct decision *slow = &all.of[EVENT_SLOW];
    it->is_decided = true;
    it->failure = all.of[EVENT_FAIL];
    it->ready = slow->line ? time + 1000 * delay_drawn(&slow->event->delay, &slow->line->random) : 0;
}

/* Those accepted commands that are not slow, or whose time has come. */
static uint32_t ready_of(const struct driver *driver) {
    uint32_t ready = driver->accepted;
    if (!script_has(driver->settings->script, EVENT_SLOW))
        return ready;
    uint64_t time = now();
    for (uint32_t set = ready; set; set &= set - 1)
        if (driver->commands[lowest(set)].ready > time)
            ready &= ~(UINT32_C(1) << lowest(set));
    return ready;
}

/* Those commands of a set that the device is to fail. */
static uint32_t failing_of(const struct driver *driver, uint32_t set) {
    uint32_t failing = 0;
    if (!script_has(driver->settings->script, EVENT_FAIL))
        return failing;
    for (; set; set &= set - 1)
        if (driver->commands[lowest(set)].failure.line)
            failing |= UINT32_C(1) << lowest(set);
    return failing;
}

/* ---- steps ---- */

static void accept_all(struct driver *driver) {
    while (driver->issued) {
        uint32_t tag = 0;
        ahci_stepped done;
        driver_must("ahci_choose_tag", ahci_choose_tag(AHCI_ORDER_LOWEST, driver->issued, 0, &tag));
        driver_must("ahci_port_accept", ahci_port_accept(&driver->port, tag, &done));
        record_tag(&driver->record, RECORD_ACCEPT, tag);
        decide(driver, tag);
        driver->issued &= ~(UINT32_C(1) << tag);
        driver->accepted |= UINT32_C(1) << tag;
    }
    uint32_t deep = (uint32_t)__builtin_popcount(driver->accepted);
    if (deep > driver->counts.deepest)
        driver->counts.deepest = deep;
}

static void fail(struct driver *driver, uint32_t tag) {
    const struct command *it = &driver->commands[tag];
    uint64_t first = it->failure.line->first_lba, lba = first > it->request->lba ? first : it->request->lba;
    uint8_t error = it->failure.event->error;
    ahci_stepped done;
    driver_must("ahci_port_fail", ahci_port_fail(&driver->port, tag, error, lba, &done));
    record_failed(&driver->record, tag, error, lba);
    driver->counts.failed++;
    driver_recover(driver);
}

/* Counts a tag that overtakes a request which came before its own. */
static void count_order(struct driver *driver, uint32_t tag, uint32_t waiting) {
    driver->counts.served++;
    for (; waiting; waiting &= waiting - 1)
        if (driver->commands[lowest(waiting)].number < driver->commands[tag].number) {
            driver->counts.out_of_order++;
            return;
        }
}

static void serve(struct driver *driver, uint32_t ready, const uint8_t *tags, size_t count) {
    ahci_stepped done;
    for (size_t at = 0; at < count; at++) {
        ready &= ~(UINT32_C(1) << tags[at]);
        count_order(driver, tags[at], ready);
    }
    driver_must("ahci_port_serve", ahci_port_serve(&driver->port, tags, count, &done));
    record_served(&driver->record, tags, (uint32_t)count);
    driver->counts.lists += count > 1;
    for (size_t at = 0; at < count; at++)
        driver_collect(driver, tags[at]);
}

/* Serves some of the commands, or fails one. */
static void serve_some(struct driver *driver, uint32_t ready) {
    uint8_t tags[AHCI_MOST_TAGS];
    uint32_t failing = failing_of(driver, ready);
    if (!ready)
        return;
    size_t count = choose(driver, ready, failing, tags);
    if (failing >> tags[0] & 1)
        fail(driver, tags[0]);
    else
        serve(driver, ready, tags, count);
}

void device_step(struct driver *driver) {
    accept_all(driver);
    serve_some(driver, ready_of(driver));
}

/* ---- a thread of its own ---- */

/* Waits as long as delay= says. */
static void wait_a_step(struct driver *driver) {
    uint64_t delay = delay_drawn(&driver->settings->delay, &driver->random);
    struct timespec wait = {.tv_sec = (time_t)(delay / 1000000), .tv_nsec = (long)(1000 * (delay % 1000000))};
    if (delay)
        while (nanosleep(&wait, &wait) && errno == EINTR)
            ;
}

/* Sleeps until a request comes in, or a slow command can be served. */
static void sleep_until_ready(struct driver *driver) {
    uint64_t first = UINT64_MAX;
    for (uint32_t set = driver->accepted; set; set &= set - 1)
        if (driver->commands[lowest(set)].ready < first)
            first = driver->commands[lowest(set)].ready;
    const struct timespec until = {.tv_sec = (time_t)(first / SECOND), .tv_nsec = (long)(first % SECOND)};
    if (first > now())
        gate_sleep(&driver->gate, driver->accepted ? &until : NULL);
}

/* The last request says that no more come; the queue is empty then. */
static bool must_stop(const struct driver *driver) {
    return driver->first && driver->first->kind == REQUEST_STOP;
}

static void *run(void *it) {
    struct driver *driver = it;
    for (;;) {
        driver_take(driver);
        if (must_stop(driver))
            break;
        if (!driver->first && !driver->issued && !ready_of(driver)) {
            sleep_until_ready(driver);
            continue;
        }
        wait_a_step(driver);
        driver_take(driver);
        driver_issue(driver);
        device_step(driver);
        driver_wake(driver_answered(driver));
    }
    driver_wake(driver->first);
    return NULL;
}

int device_begin(struct driver *driver, pthread_t *thread) {
    driver->started = now();
    if (!driver->has_thread)
        return 0;
    gate_keep(&driver->gate);
    int why = pthread_create(thread, NULL, run, driver);
    if (why)
        say("the device's thread can't be started: %s", strerror(why));
    return why ? -1 : 0;
}

void device_end(struct driver *driver, pthread_t thread) {
    struct request last = {.kind = REQUEST_STOP};
    if (!driver->has_thread)
        return;
    driver_submit(driver, &last);
    pthread_join(thread, NULL);
}
