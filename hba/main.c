/* An AHCI controller with one disk for a guest: the registers, commands and interrupts are the library's, and this program moves the bytes. */
#include "device.h"
#include "log.h"
#include "loop.h"
#include "memory.h"
#include "pci.h"
#include "proxy.h"
#include "run.h"
#include "say.h"
#include "settings.h"
#include "vfio_user.h"
#include "vhost.h"

#include <limits.h>
#include <malloc.h>
#include <signal.h>
#include <stdio.h>
#include <sys/wait.h>
#include <time.h>

#define GRACE 10 /* seconds in which the guest's program ends after it was asked to */

/* Waits for the guest's program, for a while at most. */
static bool wait_for_child(pid_t child, int *status) {
    struct timespec pause = {.tv_nsec = 20000000};
    for (int i = 0; i < GRACE * 50; i++) {
        if (waitpid(child, status, WNOHANG) == child)
            return true;
        nanosleep(&pause, NULL);
    }
    return false;
}

/* Says how the guest's program ended that did not end well. */
static void say_end(int status, bool by_proxy) {
    if (!WIFSIGNALED(status))
        say("the guest's program ended with status %d", WEXITSTATUS(status));
    else if (by_proxy && WTERMSIG(status) == SIGSEGV)
        say("the guest's program was ended by signal %d; QEMU since 10.0 crashes with the device of --transport proxy, and 10.1 has vfio-user", SIGSEGV);
    else
        say("the guest's program was ended by signal %d", WTERMSIG(status));
}

/* Ends the guest's program if it has not ended: at once if this one was asked to stop, or could not serve it. It returns 0 if it ended with status
   0 or since this program was asked to stop. */
static int end_child(pid_t child, bool has_failed, bool by_proxy) {
    int status = 0;
    if (loop_is_stopped() || has_failed)
        kill(child, SIGTERM);
    if (!wait_for_child(child, &status)) {
        say("the guest's program doesn't end, and is killed");
        kill(child, SIGKILL);
        waitpid(child, &status, 0);
    }
    if (has_failed)
        return -1;
    if (loop_is_stopped() || (WIFEXITED(status) && WEXITSTATUS(status) == 0))
        return 0;
    say_end(status, by_proxy);
    return -1;
}

/* Runs QEMU on the device as QEMU before 10.1 has it. */
static int run_by_proxy(const struct settings *settings, struct device *device, struct memory *memory) {
    struct proxy proxy;
    struct pci pci;
    int socket = -1, qtest = -1;
    pid_t child = run_proxy(settings->command, &socket, &qtest);
    if (child < 0)
        return -1;
    proxy_begin(&proxy, socket, qtest, &pci, memory);
    pci_begin(&pci, device, proxy_wire(&proxy));
    bool has_failed = loop_run(&pci, proxy_transport(&proxy));
    proxy_end(&proxy);
    return end_child(child, has_failed, true);
}

/* Serves the device by vfio-user: to QEMU, which is started, or to whoever comes. */
static int run_by_vfio_user(const struct settings *settings, struct device *device, struct memory *memory) {
    static struct vfio_user it; /* it has room for messages */
    struct pci pci;
    bool starts = settings->guest == GUEST_QEMU;
    pid_t child = 0;
    if (vfio_user_begin(&it, settings->socket, starts, &pci, memory))
        return -1;
    pci_begin(&pci, device, vfio_user_wire(&it));
    if (starts)
        child = run_vfio_user(settings->command, it.place.path);
    else
        run_print_arguments(it.place.path);
    bool has_failed = child < 0 || loop_run(&pci, vfio_user_transport(&it));
    if (child > 0 && (loop_is_stopped() || device->gives_up)) { /* QEMU has messages to be answered still when it ends */
        kill(child, SIGTERM);
        loop_finish(&pci, vfio_user_transport(&it), GRACE);
    }
    vfio_user_end(&it);
    return child > 0 ? end_child(child, has_failed, false) : has_failed ? -1 : 0;
}

/* Runs a kernel of User Mode Linux on the device. */
static int run_with_uml(const struct settings *settings, struct device *device, struct memory *memory) {
    struct vhost vhost;
    struct pci pci;
    if (vhost_begin(&vhost, &pci, memory))
        return -1;
    pci_begin(&pci, device, vhost_wire(&vhost));
    pid_t child = run_uml(settings->command, vhost_path(&vhost));
    bool has_failed = child < 0 || loop_run(&pci, vhost_transport(&vhost));
    vhost_end(&vhost);
    return child < 0 ? -1 : end_child(child, has_failed, false);
}

/* Whether QEMU is not started: it has no other way than the proxy, and is known to crash by that. As all that asks QEMU, it comes before signals are taken. */
static bool is_hopeless(const struct settings *settings, bool by_vfio_user) {
    return settings->guest == GUEST_QEMU && !by_vfio_user && run_crashes_by_proxy(settings->command) && settings->way == WAY_ASKED;
}

static bool is_by_vfio_user(const struct settings *settings) {
    if (settings->guest == GUEST_QEMU && settings->way == WAY_ASKED)
        return run_has_vfio_user(settings->command);
    return settings->guest == GUEST_CLIENT || (settings->guest == GUEST_QEMU && settings->way == WAY_VFIO_USER);
}

/* Runs the guest. The answer is the exit status. */
static int run(struct settings *settings) {
    static struct memory memory;
    static struct device device;
    int broken = 0, failed;
    const bool by_vfio_user = is_by_vfio_user(settings);
    if (!settings->has_hold && (!by_vfio_user || settings->judge))
        settings->hold.longest = 0;
    if (is_hopeless(settings, by_vfio_user) || device_begin(&device, settings, &memory))
        return 1;
    memory_begin();
    loop_begin();
    if (settings->guest == GUEST_UML)
        failed = run_with_uml(settings, &device, &memory);
    else
        failed = by_vfio_user ? run_by_vfio_user(settings, &device, &memory) : run_by_proxy(settings, &device, &memory);
    memory_clear(&memory);
    if (device_end(&device, &broken) || failed)
        return 1;
    return broken ? 3 : 0;
}

static const struct voice voice = {.put = log_complaint, .note = log_complaint, .before = "--", .between = " "};

/* The journal takes and frees the bytes of every write: the process keeps freed memory, and no page of it comes and goes. */
static void keep_memory(void) {
    mallopt(M_MMAP_THRESHOLD, 32 << 20);
    mallopt(M_TRIM_THRESHOLD, INT_MAX);
}

int main(int count, char **words) {
    static struct settings settings; /* too large for the stack of a small thread */
    keep_memory();
    say_begin(&voice);
    enum asked asked = settings_read(&settings, count, words);
    if (asked != ASKED_RUN)
        return asked == ASKED_NOTHING ? (fflush(stdout) ? 1 : 0) : 2;
    if (log_begin(settings.log))
        return 1;
    int status = run(&settings);
    script_end(settings.script, log_complaint);
    settings_end(&settings);
    if (log_end()) {
        say_of("log", settings.log, "it could not be written");
        status = 1;
    }
    return status;
}
