/* The disk's side of the port: it accepts what is issued, and serves or fails it. Without waits the player takes its steps; with delay= or
   slow= it has a thread of its own. */
#ifndef AHCI_NBD_DEVICE_H
#define AHCI_NBD_DEVICE_H

#include "driver.h"

#include <pthread.h>

/* Accepts every command that is issued, and takes one step with those that can be served now. */
void device_step(struct driver *driver);

/* Starts the device's own thread, if it has one. It returns 0, or -1 once it has printed why. */
int device_begin(struct driver *driver, pthread_t *thread);

/* Ends it. Every request has its answer by now. */
void device_end(struct driver *driver, pthread_t thread);

#endif
