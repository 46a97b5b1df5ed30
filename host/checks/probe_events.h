/* The calls of script.h, as lines of input of the probe. */
#ifndef AHCI_HOST_PROBE_EVENTS_H
#define AHCI_HOST_PROBE_EVENTS_H

/* probe events SERVER FILE SECTORS     lines of what happens, see `happen`
   probe fuzz SEED COUNT                lines of a script: so many more are made of them, see `try_fuzz` */
int try_events(char **words);
int try_fuzz(char **words);

#endif
