/* A thread that does what is slow, beside the device's turn. Neither side waits for the other: what there is to do, and that it is done, are said by
   eventfds, so that a thread that has no processor holds up nobody. */
#ifndef AHCI_HBA_WORKER_H
#define AHCI_HBA_WORKER_H

#include <pthread.h>
#include <stdbool.h>

struct worker {
    void (*work)(void *it);
    void *it;
    bool is_there; /* the thread was started */
    bool has_work; /* between worker_give and its end */
    bool is_ended;
    int given; /* an eventfd that is readable once there is something to do */
    int done;  /* one that is readable once it is done, or -1 */
    pthread_t thread;
};

/* Starts a thread, which takes no signals. It returns 0 or an errno. */
int thread_start(pthread_t *thread, void *(*run)(void *it), void *it);

/* A worker that is not there. */
struct worker worker_none(void);

/* Starts a worker: `work` is called in its thread after each worker_give. It returns 0 or an errno. */
int worker_start(struct worker *worker, void (*work)(void *it), void *it);

/* Lets it work. What it did before was taken. */
void worker_give(struct worker *worker);

/* Takes what it has done. It returns false if it has done nothing. */
bool worker_take(struct worker *worker);

/* Waits until what it was given is done, and ends the thread. */
void worker_end(struct worker *worker);

#endif
