#include "worker.h"

#include "socket.h"

#include <errno.h>
#include <signal.h>
#include <stdint.h>
#include <stdlib.h>
#include <sys/eventfd.h>
#include <unistd.h>

int thread_start(pthread_t *thread, void *(*run)(void *it), void *it) {
    sigset_t all, before;
    sigfillset(&all);
    pthread_sigmask(SIG_SETMASK, &all, &before);
    int failed = pthread_create(thread, NULL, run, it);
    pthread_sigmask(SIG_SETMASK, &before, NULL);
    return failed;
}

/* Makes an eventfd readable once more. */
static void set(int event) {
    const uint64_t one = 1;
    if (write(event, &one, sizeof one) != sizeof one)
        abort(); /* its count has room: each one is read before the next but one */
}

static bool take(int event) {
    uint64_t one;
    return read(event, &one, sizeof one) == sizeof one;
}

static void *run(void *of) {
    struct worker *worker = of;
    while (take(worker->given)) {
        if (!worker->has_work && worker->is_ended)
            return NULL;
        worker->work(worker->it);
        worker->has_work = false;
        set(worker->done);
    }
    abort(); /* a read of an eventfd that waits does not fail */
}

struct worker worker_none(void) {
    return (struct worker){.given = -1, .done = -1};
}

int worker_start(struct worker *worker, void (*work)(void *it), void *it) {
    *worker = (struct worker){.work = work, .it = it, .given = eventfd(0, EFD_CLOEXEC | EFD_SEMAPHORE), .done = eventfd(0, EFD_CLOEXEC | EFD_NONBLOCK)};
    int failed = worker->given < 0 || worker->done < 0 ? errno : thread_start(&worker->thread, run, worker);
    worker->is_there = !failed;
    if (failed) {
        file_close(&worker->given);
        file_close(&worker->done);
    }
    return failed;
}

void worker_give(struct worker *worker) {
    worker->has_work = true;
    set(worker->given);
}

bool worker_take(struct worker *worker) {
    return worker->is_there && take(worker->done);
}

void worker_end(struct worker *worker) {
    if (!worker->is_there)
        return;
    worker->is_ended = true;
    set(worker->given);
    pthread_join(worker->thread, NULL);
    file_close(&worker->given);
    file_close(&worker->done);
    worker->is_there = false;
}
