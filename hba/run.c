#include "run.h"

#include "log.h"
#include "numbers.h"
#include "say.h"

#include <errno.h>
#include <fcntl.h>
#include <inttypes.h>
#include <signal.h>
#include <stdbool.h>
#include <stdint.h>
#include <stdio.h>
#include <stdlib.h>
#include <string.h>
#include <sys/prctl.h>
#include <sys/socket.h>
#include <sys/wait.h>
#include <unistd.h>

#define MOST_ADDED 16

/* A command line that is put together. */
struct line {
    char **words;
    size_t count;
};

static int begin_line(struct line *line, char *const *command) {
    line->count = 0;
    while (command[line->count])
        line->count++;
    line->words = calloc(line->count + MOST_ADDED + 1, sizeof *line->words);
    if (!line->words) {
        say("there is no memory for a command line");
        return -1;
    }
    memcpy(line->words, command, line->count * sizeof *line->words);
    return 0;
}

static void add(struct line *line, char *word) {
    line->words[line->count++] = word;
}

/* Whether an option of the command, or its value, has a text. */
static bool has(char *const *command, const char *option, const char *text) {
    for (; *command; command++)
        if (!strcmp(*command, option) && (!text || (command[1] && strstr(command[1], text))))
            return true;
    return false;
}

static bool has_option(char *const *command, const char *option) {
    return has(command, option, NULL);
}

/* The size of -m in bytes (QEMU's default is 128 MiB, and its unit MiB); 0 once it was said that it can't be read. */
static uint64_t memory_size(char *const *command) {
    const char *text = "128";
    uint64_t size = 0;
    for (; *command; command++)
        if (!strcmp(*command, "-m") && command[1])
            text = command[1];
    if (!strncmp(text, "size=", 5))
        text += 5;
    const char *digits = take_digits(text, &size), *end = take_bytes(text, &size);
    bool has_unit = end != digits;
    if (!end || (*end && *end != ',') || (!has_unit && size > UINT64_MAX >> 20)) {
        say("-m %s: the size of the guest's memory can't be read", text);
        return 0;
    }
    return has_unit ? size : size << 20;
}

/* A memory backend, if the command names none for its machine. `backend` has room for it. */
static int add_memory(struct line *line, char *const *command, char *backend, size_t room) {
    if (has(command, "-machine", "memory-backend=") || has(command, "-M", "memory-backend="))
        return 0;
    uint64_t size = memory_size(command);
    if (size == 0)
        return -1;
    snprintf(backend, room, "memory-backend-memfd,id=ahci-hba-memory,size=%" PRIu64 ",share=on", size);
    add(line, "-object");
    add(line, backend);
    add(line, "-machine");
    add(line, "memory-backend=ahci-hba-memory");
    return 0;
}

/* One thread for all processors of TCG: with several, interrupts that come by the qtest socket are lost. */
static void add_accelerator(struct line *line, char *const *command) {
    if (has_option(command, "-accel") || has_option(command, "-enable-kvm") || has(command, "-machine", "accel=") || has(command, "-M", "accel="))
        return;
    add(line, "-accel");
    add(line, "tcg,thread=single");
}

static void add_proxy(struct line *line, char *const *command, char *proxy, char *qtest, size_t room) {
    if (!has(command, "-device", "x-pci-proxy-dev")) {
        snprintf(proxy, room, "x-pci-proxy-dev,id=ahci-hba,fd=%d", RUN_PROXY_FILE);
        add(line, "-device");
        add(line, proxy);
    }
    snprintf(qtest, room, "socket,id=ahci-hba-messages,fd=%d", RUN_QTEST_FILE);
    add(line, "-chardev");
    add(line, qtest);
    add(line, "-object");
    add(line, "qtest,id=ahci-hba-qtest,chardev=ahci-hba-messages,log=none");
}

/* Gives two files their numbers in the program that is started. */
static void hand_over(int proxy, int qtest) {
    int high_proxy = fcntl(proxy, F_DUPFD_CLOEXEC, RUN_QTEST_FILE + 1), high_qtest = fcntl(qtest, F_DUPFD_CLOEXEC, RUN_QTEST_FILE + 1);
    dup2(high_proxy, RUN_PROXY_FILE);
    dup2(high_qtest, RUN_QTEST_FILE);
}

/* What the child does before its program begins: it ends with its parent, and takes signals again. */
static void begin_child(void) {
    sigset_t none;
    signal(SIGPIPE, SIG_DFL);
    signal(SIGXFSZ, SIG_DFL);
    sigemptyset(&none);
    sigprocmask(SIG_SETMASK, &none, NULL);
    prctl(PR_SET_PDEATHSIG, SIGKILL);
}

static void become(char **words) {
    execvp(words[0], words);
    fprintf(stderr, "ahci-hba: %s: %s\n", words[0], strerror(errno));
    _exit(127);
}

static void log_command(char *const *words) {
    char text[200];
    size_t at = 0;
    text[0] = 0;
    for (; *words && at + strlen(*words) + 2 < sizeof text; words++)
        at += (size_t)snprintf(text + at, sizeof text - at, " %s", *words);
    log_line("starts%s%s", text, *words ? " .." : "");
}

/* Starts the program of a command line, with two files if they are not -1. */
static pid_t start(struct line *line, int proxy, int qtest) {
    log_command(line->words);
    pid_t child = fork();
    if (child < 0)
        say("no process can be made: %m");
    if (child == 0) {
        begin_child();
        if (proxy >= 0)
            hand_over(proxy, qtest);
        become(line->words);
    }
    return child;
}

static int make_sockets(int proxy[2], int qtest[2]) {
    if (socketpair(AF_UNIX, SOCK_STREAM | SOCK_CLOEXEC, 0, proxy) == 0) {
        if (socketpair(AF_UNIX, SOCK_STREAM | SOCK_CLOEXEC, 0, qtest) == 0)
            return 0;
        close(proxy[0]);
        close(proxy[1]);
    }
    say("no socket can be made: %m");
    return -1;
}

pid_t run_proxy(char *const *command, int *proxy, int *qtest) {
    char backend[96], device[64], chardev[64];
    int proxies[2], qtests[2];
    struct line line;
    pid_t child = -1;
    if (begin_line(&line, command))
        return -1;
    add_accelerator(&line, command);
    add_proxy(&line, command, device, chardev, sizeof device);
    if (add_memory(&line, command, backend, sizeof backend) == 0 && make_sockets(proxies, qtests) == 0) {
        child = start(&line, proxies[1], qtests[1]);
        close(proxies[1]);
        close(qtests[1]);
        *proxy = proxies[0];
        *qtest = qtests[0];
    }
    free(line.words);
    return child;
}

/* ---- vfio-user ---- */

/* How many words of a command come before QEMU's options: `nice qemu-system-x86_64 -m 1G` begins with two. 0 if none of them names a QEMU. */
static size_t words_of_program(char *const *command) {
    for (size_t count = 0; command[count] && command[count][0] != '-'; count++) {
        const char *slash = strrchr(command[count], '/');
        if (strstr(slash ? slash : command[count], "qemu"))
            return count + 1;
    }
    return 0;
}

/* What a program prints, up to so many bytes. */
static void read_answer(char **words, char *text, size_t room) {
    int pipes[2], status, nothing = open("/dev/null", O_RDWR | O_CLOEXEC);
    size_t count = 0;
    ssize_t got = 1;
    if (pipe2(pipes, O_CLOEXEC))
        return;
    pid_t child = fork();
    if (child == 0) {
        begin_child();
        dup2(nothing, STDIN_FILENO);
        dup2(pipes[1], STDOUT_FILENO);
        dup2(nothing, STDERR_FILENO);
        become(words);
    }
    close(pipes[1]);
    close(nothing);
    for (; got > 0 && count < room - 1; count += got > 0 ? (size_t)got : 0)
        got = read(pipes[0], text + count, room - 1 - count);
    close(pipes[0]);
    text[count] = 0;
    while (child > 0 && waitpid(child, &status, 0) < 0 && errno == EINTR)
        continue;
}

/* What the QEMU of a command prints when it is asked by an option, with its value if there is one. False if the command names no QEMU. */
static bool ask(char *const *command, char *option, char *value, char *text, size_t room) {
    struct line line;
    size_t program = words_of_program(command);
    text[0] = 0;
    if (program == 0 || begin_line(&line, command))
        return false;
    line.count = program;
    add(&line, option);
    if (value)
        add(&line, value);
    line.words[line.count] = NULL;
    read_answer(line.words, text, room);
    free(line.words);
    return true;
}

/* QEMU ends with status 0, too, if it does not know the device, so the text counts. */
bool run_has_vfio_user(char *const *command) {
    char text[256];
    return !ask(command, "-device", "vfio-user-pci,help", text, sizeof text) || strstr(text, "vfio-user-pci options");
}

bool run_crashes_by_proxy(char *const *command) {
    char text[256];
    unsigned major = 0, minor = 0;
    if (!ask(command, "--version", NULL, text, sizeof text) || sscanf(text, "QEMU emulator version %u.%u", &major, &minor) != 2)
        return false;
    if (major >= 10)
        say("QEMU %u.%u crashes with the device of --transport proxy; QEMU 7.2 has the controller by it, and QEMU 10.1 or later by vfio-user", major, minor);
    else if (major != 7 || minor != 2)
        say("QEMU %u.%u was not tried with the device of --transport proxy; QEMU 7.2 was", major, minor);
    return major >= 10;
}

#define DEVICE_ROOM 256 /* bytes of the device's argument */

/* QEMU gives a message 60 seconds instead of 5, since a machine may be busy; after that the device is gone for its guest. */
static void write_device(char *device, const char *path) {
    snprintf(device, DEVICE_ROOM, "{\"driver\":\"vfio-user-pci\",\"id\":\"ahci-hba\",\"socket\":{\"type\":\"unix\",\"path\":\"%s\"},\"x-msg-timeout\":60000}", path);
}

pid_t run_vfio_user(char *const *command, const char *socket_path) {
    char backend[96], device[DEVICE_ROOM];
    struct line line;
    pid_t child = -1;
    if (begin_line(&line, command))
        return -1;
    if (!has(command, "-device", "vfio-user-pci")) {
        write_device(device, socket_path);
        add(&line, "-device");
        add(&line, device);
    }
    if (add_memory(&line, command, backend, sizeof backend) == 0)
        child = start(&line, -1, -1);
    free(line.words);
    return child;
}

void run_print_arguments(const char *socket_path) {
    char device[DEVICE_ROOM];
    write_device(device, socket_path);
    printf("-object memory-backend-memfd,id=ahci-hba-memory,size=512M,share=on -machine memory-backend=ahci-hba-memory -m 512M -device '%s'\n", device);
    fflush(stdout);
}

/* ---- User Mode Linux ---- */

pid_t run_uml(char *const *command, const char *socket_path) {
    char device[DEVICE_ROOM];
    struct line line;
    if (begin_line(&line, command))
        return -1;
    snprintf(device, sizeof device, "virtio_uml.device=%s:1234", socket_path);
    add(&line, device);
    pid_t child = start(&line, -1, -1);
    free(line.words);
    return child;
}
