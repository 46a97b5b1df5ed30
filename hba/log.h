/* The log: a line for each access, with the seconds since the start; and what goes wrong, on standard error too. */
#ifndef AHCI_HBA_LOG_H
#define AHCI_HBA_LOG_H

#include <stdbool.h>

/* Opens the log; without a path nothing is logged. It returns 0, or -1 once it has printed why. */
int log_begin(const char *path);

/* Whether there is a log, so that no line is put together for nothing. */
bool log_is_open(void);

/* Writes a line. Lines that are the same as the one before are counted, and their number is written before the next other line. */
__attribute__((format(printf, 1, 2))) void log_line(const char *format, ...);

/* Writes a line to standard error, after the program's name, and to the log. */
void log_complaint(const char *line);

/* Gives the lines so far to the thread that writes them. */
void log_flush(void);

/* Closes the log. It returns 0, or -1 if some line could not be written. */
int log_end(void);

#endif
