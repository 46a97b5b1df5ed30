/* A writev that takes its time, for the check of what waits for a slow record: AHCI_STALL of the environment says how many milliseconds. The record alone
   writes by it. The program is linked with it by --wrap. */
#include <stdlib.h>
#include <sys/uio.h>
#include <time.h>

ssize_t __real_writev(int file, const struct iovec *pieces, int count);
ssize_t __wrap_writev(int file, const struct iovec *pieces, int count);

ssize_t __wrap_writev(int file, const struct iovec *pieces, int count) {
    const char *stall = getenv("AHCI_STALL");
    long millis = stall ? strtol(stall, NULL, 10) : 0;
    nanosleep(&(struct timespec){.tv_sec = millis / 1000, .tv_nsec = millis % 1000 * 1000000}, NULL);
    return __real_writev(file, pieces, count);
}
