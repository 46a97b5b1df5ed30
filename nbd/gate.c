#include "gate.h"

#include <errno.h>

/* How often a request looks for its answer before its thread sleeps: some microseconds, which is as long as the player needs for a few
   small commands. */
#define SPINS 200

void gate_begin(struct gate *gate) {
    atomic_init(&gate->arrived, NULL);
    atomic_init(&gate->asleep, false);
    sem_init(&gate->wake, 0, 0);
}

void gate_end(struct gate *gate) {
    sem_destroy(&gate->wake);
}

void gate_keep(struct gate *gate) {
    atomic_store(&gate->arrived, &gate->end);
}

static void pause_a_moment(void) {
#if defined(__x86_64__) || defined(__i386__)
    __builtin_ia32_pause();
#endif
}

bool gate_enter(struct gate *gate, struct request *mine) {
    struct request *top = atomic_load(&gate->arrived);
    do
        mine->next = top ? top : &gate->end;
    while (!atomic_compare_exchange_weak(&gate->arrived, &top, mine));
    if (atomic_load(&gate->asleep) && atomic_exchange(&gate->asleep, false))
        sem_post(&gate->wake);
    return !top;
}

void gate_wait(struct request *mine, bool is_soon) {
    for (unsigned spin = 0; is_soon && spin < SPINS; spin++) {
        if (!sem_trywait(&mine->answered))
            return;
        pause_a_moment();
    }
    while (sem_wait(&mine->answered) && errno == EINTR)
        ;
}

struct request *gate_take(struct gate *gate) {
    struct request *newest = atomic_exchange(&gate->arrived, &gate->end);
    struct request *oldest = NULL;
    while (newest != &gate->end) {
        struct request *next = newest->next;
        newest->next = oldest;
        oldest = newest;
        newest = next;
    }
    return oldest;
}

bool gate_leave(struct gate *gate) {
    struct request *nothing = &gate->end;
    return atomic_compare_exchange_strong(&gate->arrived, &nothing, NULL);
}

/* Says that it sleeps before it looks once more: whoever pushes after that look sees it, and wakes it. */
void gate_sleep(struct gate *gate, const struct timespec *until) {
    atomic_store(&gate->asleep, true);
    if (atomic_load(&gate->arrived) == &gate->end) {
        int failed;
        do
            failed = until ? sem_clockwait(&gate->wake, CLOCK_MONOTONIC, until) : sem_wait(&gate->wake);
        while (failed && errno == EINTR);
    }
    atomic_store(&gate->asleep, false);
}
