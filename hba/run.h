/* How the guest's program is started: with the sockets that it gets, and the arguments that it needs for the controller. */
#ifndef AHCI_HBA_RUN_H
#define AHCI_HBA_RUN_H

#include <stdbool.h>
#include <sys/types.h>

/* The files of QEMU that its arguments name. */
#define RUN_PROXY_FILE 40
#define RUN_QTEST_FILE 41

/* Whether the command's program of QEMU has the device vfio-user-pci: it is asked for the device's help, and its child is gone when this returns. A
   command in which no word names a QEMU is not asked, and has it. */
bool run_has_vfio_user(char *const *command);

/* Whether the command's QEMU is known to crash with the device x-pci-proxy-dev, by its version, once that was said. Of one that was not tried it is said, too. */
bool run_crashes_by_proxy(char *const *command);

/* Starts QEMU with the command and what is missing of: a memory backend that can be shared, and the device vfio-user-pci at a socket. It returns
   the process, or -1 once the reason was written to standard error; so does each call here. */
pid_t run_vfio_user(char *const *command, const char *socket_path);

/* Starts QEMU with the command and what is missing of: a memory backend that can be shared, the device x-pci-proxy-dev, a qtest socket for messages of
   interrupts, and one thread for TCG. *proxy and *qtest are this side's ends. */
pid_t run_proxy(char *const *command, int *proxy, int *qtest);

/* Starts a kernel of User Mode Linux with the command and the device of a vhost-user socket. */
pid_t run_uml(char *const *command, const char *socket_path);

/* Prints the arguments by which a QEMU has the device at a socket. */
void run_print_arguments(const char *socket_path);

#endif
