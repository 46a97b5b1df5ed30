#include "loop.h"

#include "log.h"
#include "say.h"

#include <errno.h>
#include <signal.h>
#include <stddef.h>
#include <stdint.h>
#include <sys/prctl.h>
#include <time.h>

#define QUIET 100000000 /* nanoseconds without an access after which the log is flushed */
#define STEPS 16        /* of the device between two looks at the guest's socket */
#define LONG 1000000    /* nanoseconds after which no other step begins before a look: one may move many bytes */
#define LOOKS 64        /* after which signals and other files are looked at, too */

static volatile sig_atomic_t stopped; /* a signal has ended the run */
static volatile sig_atomic_t child_changed;
static uint64_t deadline; /* of the guest's program to end, in nanoseconds of CLOCK_MONOTONIC; 0 before it was asked to */
static sigset_t waiting; /* the mask while the loop waits: signals come only then */

static void note_signal(int number) {
    if (number == SIGCHLD)
        child_changed = 1;
    else
        stopped = 1;
}

void loop_begin(void) {
    static const int numbers[] = {SIGCHLD, SIGTERM, SIGINT, SIGHUP};
    struct sigaction action = {.sa_handler = note_signal, .sa_flags = SA_NOCLDSTOP};
    sigset_t held;
    sigemptyset(&held);
    for (unsigned i = 0; i < sizeof numbers / sizeof *numbers; i++) {
        sigaction(numbers[i], &action, NULL);
        sigaddset(&held, numbers[i]);
    }
    signal(SIGPIPE, SIG_IGN);
    signal(SIGXFSZ, SIG_IGN); /* a write past a limit of the system fails instead */
    sigprocmask(SIG_BLOCK, &held, &waiting);
    prctl(PR_SET_TIMERSLACK, 1); /* a wait of some microseconds is not rounded up to 50 more */
}

bool loop_is_stopped(void) {
    return stopped;
}

/* How many nanoseconds the loop waits at most: until the next step is due, or until the guest's program has no more time to end. */
static int64_t longest_wait(const struct pci *pci) {
    int64_t step = pci_waits(pci), rest = deadline ? (int64_t)(deadline - device_now()) : -1;
    if (deadline && rest < 0)
        rest = 0;
    if (step < 0 || rest < 0)
        return step < 0 ? rest : step;
    return step < rest ? step : rest;
}

/* Waits for files until the next step is due. The log is flushed once nothing has come for a while. */
static int wait_for(struct pci *pci, struct pollfd *files, unsigned count) {
    int64_t left = longest_wait(pci), first = left < 0 || left > QUIET ? QUIET : left;
    struct timespec until = {.tv_nsec = first};
    int ready = ppoll(files, count, &until, &waiting);
    if (ready != 0 || left == first)
        return ready;
    log_flush();
    until = (struct timespec){.tv_sec = (left - first) / 1000000000, .tv_nsec = (left - first) % 1000000000};
    return ppoll(files, count, left < 0 ? NULL : &until, &waiting);
}

static bool is_end(enum found found) {
    return found == FOUND_END || found == FOUND_WRONG;
}

/* Takes some steps of the device. */
static void take_steps(struct pci *pci, unsigned most) {
    const uint64_t until = device_now() + LONG;
    for (; most && pci_waits(pci) == 0; most--) {
        pci_turn(pci);
        if (device_now() >= until)
            return;
    }
}

/* Takes what is there without waiting, with a turn of the device after each message; then some steps, and another look, for as long as there is something
   to do, or for many looks. */
static enum found work(struct pci *pci, const struct transport *transport) {
    enum found found = FOUND_MESSAGE;
    for (unsigned looks = 0; looks < LOOKS; looks++) {
        found = transport->look(transport->it);
        bool is_idle = found == FOUND_NOTHING && pci_waits(pci) != 0;
        if (is_idle || is_end(found))
            break;
        take_steps(pci, found == FOUND_MESSAGE ? 1 : STEPS);
    }
    return found;
}

/* Waits for the guest, the next step or what a thread does, and takes what comes. It doesn't wait if a message may be there already that the transport
   has received. */
static enum found wait_and_take(struct pci *pci, const struct transport *transport, bool has_more) {
    static const struct timespec at_once;
    struct pollfd files[MOST_WATCHED + DEVICE_FILES];
    const unsigned first = transport->watch(transport->it, files), count = first + device_watch(pci->device, files + first);
    int ready = has_more ? ppoll(files, count, &at_once, &waiting) : wait_for(pci, files, count);
    if (ready < 0 && errno != EINTR) {
        say("the guest can't be waited for: %m");
        return FOUND_WRONG;
    }
    if (ready <= 0)
        return FOUND_NOTHING;
    device_take_events(pci->device, files + first);
    return transport->serve(transport->it, files);
}

/* One round of the loop; `before` is what was found last. */
static enum found go_round(struct pci *pci, const struct transport *transport, enum found before) {
    enum found found = wait_and_take(pci, transport, transport->look && before == FOUND_MESSAGE);
    if (is_end(found))
        return found;
    pci_turn(pci);
    return transport->look ? work(pci, transport) : found;
}

int loop_run(struct pci *pci, struct transport transport) {
    enum found found = FOUND_NOTHING;
    while (!stopped && !child_changed && !is_end(found) && !pci->device->gives_up)
        found = go_round(pci, &transport, found);
    return found == FOUND_WRONG || pci->device->gives_up ? -1 : 0;
}

void loop_finish(struct pci *pci, struct transport transport, unsigned seconds) {
    enum found found = FOUND_NOTHING;
    deadline = device_now() + UINT64_C(1000000000) * seconds;
    while (!child_changed && device_now() < deadline && !is_end(found))
        found = go_round(pci, &transport, found);
}
