#include "proxy.h"

#include "log.h"
#include "say.h"
#include "socket.h"

#include <errno.h>
#include <fcntl.h>
#include <inttypes.h>
#include <stdio.h>
#include <string.h>
#include <sys/socket.h>
#include <unistd.h>

/* The messages of QEMU 7.2 (include/hw/remote/mpqemu-link.h): a header, and data of as many bytes as it says, in this machine's own layout. */
enum kind { SYNC_SYSMEM, RETURN, CONFIG_WRITE, CONFIG_READ, BAR_WRITE, BAR_READ, SET_IRQFD, DEVICE_RESET };

struct header {
    int32_t kind;
    uint32_t padding;
    uint64_t bytes;
};

/* Of SYNC_SYSMEM: regions of the guest's memory, one for each file. */
struct regions {
    uint64_t addresses[MOST_FILES];
    uint64_t sizes[MOST_FILES];
    uint64_t offsets[MOST_FILES];
};

/* Of CONFIG_WRITE and CONFIG_READ. */
struct config_access {
    uint32_t at;
    uint32_t value;
    uint32_t bytes;
};

/* Of BAR_WRITE and BAR_READ. The address is the guest's. */
struct bar_access {
    uint64_t address;
    uint64_t value;
    uint32_t bytes;
    uint32_t is_memory;
};

union data {
    struct regions regions;
    struct config_access config;
    struct bar_access bar;
};

void proxy_begin(struct proxy *proxy, int socket, int qtest, struct pci *pci, struct memory *memory) {
    *proxy = (struct proxy){.socket = socket, .qtest = qtest, .trigger = -1, .resample = -1, .pci = pci, .memory = memory};
}

static enum found answer(struct proxy *proxy, uint64_t value) {
    struct {
        struct header header;
        uint64_t value;
    } message = {.header = {.kind = RETURN, .bytes = sizeof value}, .value = value};
    return socket_send(proxy->socket, &message, sizeof message) ? FOUND_MESSAGE : FOUND_END;
}

static void take_memory(struct proxy *proxy, const struct regions *regions, const struct files *files) {
    memory_clear(proxy->memory);
    for (unsigned i = 0; i < files->count; i++) {
        const struct region wanted = {.base = regions->addresses[i], .bytes = regions->sizes[i], .is_readable = true, .is_writable = true};
        int failed = memory_add(proxy->memory, &wanted, files->at[i], regions->offsets[i]);
        if (failed)
            say("the guest's memory at %" PRIx64 " of %" PRIu64 " bytes can't be used: %s", wanted.base, wanted.bytes, strerror(failed));
    }
}

/* ---- interrupts ---- */

static void take_irqfd(struct proxy *proxy, struct files *files) {
    file_close(&proxy->trigger);
    file_close(&proxy->resample);
    proxy->trigger = files_take(files, 0);
    proxy->resample = files_take(files, 1);
    if (proxy->trigger >= 0)
        fcntl(proxy->trigger, F_SETFL, O_NONBLOCK);
    if (proxy->resample >= 0)
        fcntl(proxy->resample, F_SETFL, O_NONBLOCK);
}

static void trigger(struct proxy *proxy) {
    uint64_t one = 1;
    if (proxy->trigger >= 0 && write(proxy->trigger, &one, sizeof one) != sizeof one)
        log_line("the interrupt line can't be asserted: %m");
}

/* The guest has handled the line's interrupt. If the line is asserted still, it is asserted again. */
static void take_resample(struct proxy *proxy) {
    uint64_t times;
    if (read(proxy->resample, &times, sizeof times) == sizeof times && proxy->level)
        trigger(proxy);
}

static void set_line(void *it, bool level) {
    struct proxy *proxy = it;
    proxy->level = level;
    if (level)
        trigger(proxy);
}

/* A message is a write to the place of the local APICs, which the qtest server does for the function. */
static void send_message(void *it, uint64_t address, uint32_t data) {
    struct proxy *proxy = it;
    char line[64];
    int count = snprintf(line, sizeof line, "writel 0x%" PRIx64 " 0x%" PRIx32 "\n", address, data);
    if (proxy->qtest < 0 || send(proxy->qtest, line, (size_t)count, MSG_DONTWAIT | MSG_NOSIGNAL) != count)
        say("an interrupt was lost, since QEMU's qtest socket doesn't take it");
}

/* Throws away what the qtest server answers. */
static void drain_qtest(struct proxy *proxy) {
    char answers[4096];
    ssize_t got = read(proxy->qtest, answers, sizeof answers);
    if (got == 0 || (got < 0 && errno != EINTR && errno != EAGAIN))
        file_close(&proxy->qtest);
}

struct wire proxy_wire(struct proxy *proxy) {
    return (struct wire){.it = proxy, .message = send_message, .line = set_line};
}

/* ---- messages ---- */

static enum found take_config(struct proxy *proxy, enum kind kind, const struct config_access *it) {
    uint32_t value = 0;
    if (kind == CONFIG_READ)
        value = pci_config_read(proxy->pci, it->at, it->bytes);
    else
        pci_config_write(proxy->pci, it->at, it->bytes, it->value);
    return answer(proxy, value);
}

static enum found take_bar(struct proxy *proxy, enum kind kind, const struct bar_access *it) {
    uint32_t at = (uint32_t)(it->address & (PCI_BAR_BYTES - 1));
    uint64_t value = 0;
    if (kind == BAR_READ)
        value = pci_register_read(proxy->pci, at, it->bytes);
    else
        pci_register_write(proxy->pci, at, it->bytes, it->value);
    return answer(proxy, value);
}

static enum found take_message(struct proxy *proxy, const struct header *header, const union data *data, struct files *files) {
    enum kind kind = (enum kind)header->kind;
    switch (kind) {
    case SYNC_SYSMEM:
        take_memory(proxy, &data->regions, files);
        return FOUND_MESSAGE;
    case CONFIG_WRITE:
    case CONFIG_READ:
        return take_config(proxy, kind, &data->config);
    case BAR_WRITE:
    case BAR_READ:
        return take_bar(proxy, kind, &data->bar);
    case SET_IRQFD:
        take_irqfd(proxy, files);
        return FOUND_MESSAGE;
    case DEVICE_RESET:
        pci_reset(proxy->pci);
        return answer(proxy, 0);
    default:
        say("QEMU sent a message of kind %d, which is not known here", header->kind);
        return FOUND_WRONG;
    }
}

/* Receives the rest of a message behind its header. */
static enum found receive_data(struct proxy *proxy, const struct header *header, struct files *files) {
    union data data;
    memset(&data, 0, sizeof data);
    if (header->bytes > sizeof data) {
        say("QEMU sent a message of %" PRIu64 " bytes, of which %zu are known here", header->bytes, sizeof data);
        return FOUND_WRONG;
    }
    enum found found = socket_receive(proxy->socket, &data, (size_t)header->bytes, files);
    if (found == FOUND_END)
        say("the guest's program ended in the middle of a message");
    if (found != FOUND_MESSAGE)
        return FOUND_WRONG;
    return take_message(proxy, header, &data, files);
}

static enum found receive(struct proxy *proxy) {
    struct header header;
    struct files files = {.count = 0};
    enum found found = socket_receive(proxy->socket, &header, sizeof header, &files);
    if (found == FOUND_MESSAGE)
        found = receive_data(proxy, &header, &files);
    files_close(&files);
    return found;
}

/* ---- the main loop's view ---- */

static unsigned watch(void *it, struct pollfd *files) {
    const struct proxy *proxy = it;
    files[0] = (struct pollfd){.fd = proxy->socket, .events = POLLIN};
    files[1] = (struct pollfd){.fd = proxy->qtest, .events = POLLIN};
    files[2] = (struct pollfd){.fd = proxy->resample, .events = POLLIN};
    return 3;
}

static enum found serve(void *it, const struct pollfd *files) {
    struct proxy *proxy = it;
    if (files[1].revents)
        drain_qtest(proxy);
    if (files[2].revents & POLLIN)
        take_resample(proxy);
    return files[0].revents ? receive(proxy) : FOUND_NOTHING;
}

struct transport proxy_transport(struct proxy *proxy) {
    return (struct transport){.it = proxy, .watch = watch, .serve = serve};
}

void proxy_end(struct proxy *proxy) {
    file_close(&proxy->socket);
    file_close(&proxy->qtest);
    file_close(&proxy->trigger);
    file_close(&proxy->resample);
}
