#include "vfio_user.h"

#include "log.h"
#include "numbers.h"
#include "say.h"

#include <errno.h>
#include <inttypes.h>
#include <stdio.h>
#include <string.h>

#define MOST_ACCESS 8 /* bytes of one access to registers; configuration space is also read as a whole */

/* ---- replies ---- */

/* Replies with no data: 0, or an errno. */
static bool answer(struct vfio_user *it, const struct vfio_message *message, int error) {
    return link_reply(&it->link, &message->header, error, NULL, 0);
}

static bool reply(struct vfio_user *it, const struct vfio_message *message, const void *data, size_t bytes) {
    const struct vfio_part part = {data, bytes};
    return link_reply(&it->link, &message->header, 0, &part, 1);
}

static bool reply_both(struct vfio_user *it, const struct vfio_message *message, const void *first, size_t first_bytes, const void *second, size_t second_bytes) {
    const struct vfio_part parts[] = {{first, first_bytes}, {second, second_bytes}};
    return link_reply(&it->link, &message->header, 0, parts, 2);
}

/* ---- what the device is ---- */

/* A number of the version's capabilities, which are JSON; or what holds if it isn't there. */
static uint64_t capability(const char *text, const char *name, uint64_t otherwise) {
    uint64_t number;
    const char *found = strstr(text, name);
    if (!found)
        return otherwise;
    found += strlen(name);
    found += strspn(found, "\": \t\n");
    return take_digits(found, &number) != found ? number : otherwise;
}

static bool agree(struct vfio_user *it, const struct vfio_message *message) {
    static const char ours[] = "{\"capabilities\":{\"max_msg_fds\":8,\"max_data_xfer_size\":65536,\"max_dma_maps\":256,\"write_multiple\":true}}";
    _Static_assert(MOST_FILES == 8 && VFIO_MOST_DATA == 65536 && MOST_REGIONS == 256, "these numbers are in the text");
    struct vfio_version version;
    memcpy(&version, message->data, sizeof version);
    bool has_text = message->bytes > sizeof version && message->data[message->bytes - 1] == 0;
    const char *text = has_text ? (const char *)message->data + sizeof version : "";
    log_line("vfio-user %" PRIu16 ".%" PRIu16 " %s", version.major, version.minor, text);
    if (version.major != 0)
        return answer(it, message, EINVAL);
    uint64_t most = capability(text, "\"max_data_xfer_size\"", it->link.most_data);
    it->link.most_data = most == 0 ? 1 : most < VFIO_MOST_DATA ? (uint32_t)most : VFIO_MOST_DATA;
    it->has_agreed = true;
    version.minor = version.minor < 1 ? version.minor : 1;
    return reply_both(it, message, &version, sizeof version, ours, sizeof ours);
}

static bool answer_device(struct vfio_user *it, const struct vfio_message *message) {
    const struct vfio_device_info info = {.argsz = sizeof info, .flags = VFIO_INFO_RESET | VFIO_INFO_PCI, .regions = VFIO_REGIONS, .irqs = VFIO_IRQ_KINDS};
    return reply(it, message, &info, sizeof info);
}

static uint64_t size_of_region(uint32_t index) {
    return index == VFIO_BAR5 ? PCI_BAR_BYTES : index == VFIO_CONFIG ? PCI_CONFIG_BYTES : 0;
}

static bool answer_region(struct vfio_user *it, const struct vfio_message *message) {
    struct vfio_region_info info;
    memcpy(&info, message->data, sizeof info);
    if (info.index >= VFIO_REGIONS)
        return answer(it, message, EINVAL);
    info = (struct vfio_region_info){.argsz = sizeof info, .index = info.index, .size = size_of_region(info.index)};
    info.flags = info.size ? VFIO_REGION_READABLE | VFIO_REGION_WRITABLE : 0;
    return reply(it, message, &info, sizeof info);
}

/* No part of a region has a file of its own. */
static bool answer_io_files(struct vfio_user *it, const struct vfio_message *message) {
    struct vfio_io_files info;
    memcpy(&info, message->data, sizeof info);
    if (info.index >= VFIO_REGIONS)
        return answer(it, message, EINVAL);
    info = (struct vfio_io_files){.argsz = sizeof info, .index = info.index};
    return reply(it, message, &info, sizeof info);
}

static bool answer_interrupts(struct vfio_user *it, const struct vfio_message *message) {
    struct vfio_irq_info info;
    memcpy(&info, message->data, sizeof info);
    int error = interrupts_info(&info);
    return error ? answer(it, message, error) : reply(it, message, &info, sizeof info);
}

static bool set_interrupts(struct vfio_user *it, const struct vfio_message *message) {
    struct vfio_irq_set set;
    memcpy(&set, message->data, sizeof set);
    int error = interrupts_set(&it->interrupts, &set, message->data + sizeof set, message->bytes - sizeof set, message->files);
    log_line("interrupts %" PRIu32 ", flags %02" PRIx32 ", %" PRIu32 " from %" PRIu32 " on%s", set.index, set.flags, set.count, set.start, error ? ": refused" : "");
    return answer(it, message, error);
}

/* ---- memory ---- */

static bool map(struct vfio_user *it, const struct vfio_message *message) {
    struct vfio_dma_map map;
    memcpy(&map, message->data, sizeof map);
    return answer(it, message, vfio_memory_map(&it->memory, &map, message->files));
}

static bool unmap(struct vfio_user *it, const struct vfio_message *message) {
    struct vfio_dma_unmap unmap;
    memcpy(&unmap, message->data, sizeof unmap);
    int error = vfio_memory_unmap(&it->memory, &unmap);
    return error ? answer(it, message, error) : reply(it, message, &unmap, sizeof unmap);
}

/* ---- regions ---- */

/* Whether an access is one that the region takes: registers in 1, 2, 4 or 8 bytes, configuration space in any number. */
static bool is_access(const struct vfio_access *access) {
    uint64_t size = access->region < VFIO_REGIONS ? size_of_region(access->region) : 0;
    if (access->count == 0 || access->offset >= size || access->count > size - access->offset)
        return false;
    return access->region == VFIO_CONFIG || (access->count <= MOST_ACCESS && (access->count & (access->count - 1)) == 0);
}

static void read_config(struct pci *pci, uint32_t at, uint8_t *to, uint32_t count) {
    while (count) {
        uint32_t part = count < 4 ? 1 : 4, value = pci_config_read(pci, at, part);
        memcpy(to, &value, part);
        to += part;
        at += part;
        count -= part;
    }
}

static void write_config(struct pci *pci, uint32_t at, const uint8_t *from, uint32_t count) {
    while (count) {
        uint32_t part = count >= 4 ? 4 : count >= 2 ? 2 : 1, value = 0;
        memcpy(&value, from, part);
        pci_config_write(pci, at, part, value);
        from += part;
        at += part;
        count -= part;
    }
}

static bool read_region(struct vfio_user *it, const struct vfio_message *message) {
    struct vfio_access access;
    uint8_t data[PCI_CONFIG_BYTES];
    memcpy(&access, message->data, sizeof access);
    if (!is_access(&access))
        return answer(it, message, EINVAL);
    if (access.region == VFIO_CONFIG) {
        read_config(it->pci, (uint32_t)access.offset, data, access.count);
    } else {
        uint64_t value = pci_register_read(it->pci, (uint32_t)access.offset, access.count);
        memcpy(data, &value, access.count);
    }
    return reply_both(it, message, &access, sizeof access, data, access.count);
}

static int write_one(struct vfio_user *it, const struct vfio_access *access, const uint8_t *data) {
    uint64_t value = 0;
    if (!is_access(access))
        return EINVAL;
    if (access->region == VFIO_CONFIG) {
        write_config(it->pci, (uint32_t)access->offset, data, access->count);
        return 0;
    }
    memcpy(&value, data, access->count);
    pci_register_write(it->pci, (uint32_t)access->offset, access->count, value);
    return 0;
}

static bool write_region(struct vfio_user *it, const struct vfio_message *message) {
    struct vfio_access access;
    memcpy(&access, message->data, sizeof access);
    int error = access.count > message->bytes - sizeof access ? EINVAL : write_one(it, &access, message->data + sizeof access);
    return error ? answer(it, message, error) : reply(it, message, &access, sizeof access);
}

static bool write_many(struct vfio_user *it, const struct vfio_message *message) {
    uint64_t count, done;
    const uint8_t *at = message->data + sizeof count;
    memcpy(&count, message->data, sizeof count);
    if (count > (message->bytes - sizeof count) / sizeof(struct vfio_small_write))
        return answer(it, message, EINVAL);
    for (done = 0; done < count; done++, at += sizeof(struct vfio_small_write)) {
        struct vfio_small_write one;
        memcpy(&one, at, sizeof one);
        int error = one.access.count > sizeof one.value ? EINVAL : write_one(it, &one.access, (const uint8_t *)&one.value);
        if (error)
            return answer(it, message, error);
    }
    return reply(it, message, &done, sizeof done);
}

/* ---- messages ---- */

static bool reset(struct vfio_user *it, const struct vfio_message *message) {
    interrupts_reset(&it->interrupts);
    pci_reset(it->pci);
    return answer(it, message, 0);
}

struct handler {
    size_t least; /* bytes of data */
    bool (*take)(struct vfio_user *it, const struct vfio_message *message);
};

static const struct handler handlers[] = {
    [VFIO_VERSION] = {sizeof(struct vfio_version), agree},
    [VFIO_DMA_MAP] = {sizeof(struct vfio_dma_map), map},
    [VFIO_DMA_UNMAP] = {sizeof(struct vfio_dma_unmap), unmap},
    [VFIO_GET_INFO] = {0, answer_device},
    [VFIO_GET_REGION_INFO] = {sizeof(struct vfio_region_info), answer_region},
    [VFIO_GET_REGION_IO_FDS] = {sizeof(struct vfio_io_files), answer_io_files},
    [VFIO_GET_IRQ_INFO] = {sizeof(struct vfio_irq_info), answer_interrupts},
    [VFIO_SET_IRQS] = {sizeof(struct vfio_irq_set), set_interrupts},
    [VFIO_REGION_READ] = {sizeof(struct vfio_access), read_region},
    [VFIO_REGION_WRITE] = {sizeof(struct vfio_access), write_region},
    [VFIO_DEVICE_RESET] = {0, reset},
    [VFIO_REGION_WRITE_MULTI] = {sizeof(uint64_t), write_many},
};

/* Takes a message. It returns false if the other side is gone. */
static bool take(struct vfio_user *it, const struct vfio_message *message) {
    uint16_t command = message->header.command;
    if (message->header.flags & VFIO_REPLY) {
        vfio_memory_answered(&it->memory, message);
        return true;
    }
    const struct handler *handler = command < sizeof handlers / sizeof *handlers && handlers[command].take ? &handlers[command] : NULL;
    if (!handler) { /* migration, and what is newer */
        log_line("a message of command %" PRIu16 " is refused", command);
        return answer(it, message, ENOTTY);
    }
    if (message->bytes < handler->least || (!it->has_agreed && command != VFIO_VERSION)) {
        log_line("a message of command %" PRIu16 " and %zu bytes is refused", command, message->bytes);
        return answer(it, message, EINVAL);
    }
    return handler->take(it, message);
}

/* The other side has taken the device away, or has ended. */
static void drop(struct vfio_user *it) {
    vfio_memory_drop(&it->memory);
    interrupts_end(&it->interrupts);
    link_end(&it->link);
    it->has_agreed = false;
    pci_unplug(it->pci);
}

/* ---- the main loop's view ---- */

static enum found look(void *of) {
    struct vfio_user *it = of;
    struct vfio_message message;
    if (it->link.socket < 0)
        return FOUND_NOTHING;
    enum found found = link_next(&it->link, &message);
    if (found == FOUND_MESSAGE && !take(it, &message))
        found = FOUND_END;
    if (found != FOUND_END && found != FOUND_WRONG)
        return found;
    drop(it);
    return found == FOUND_WRONG && it->trusts_client ? FOUND_WRONG : FOUND_NOTHING;
}

static unsigned watch(void *of, struct pollfd *files) {
    const struct vfio_user *it = of;
    files[0] = (struct pollfd){.fd = it->link.socket < 0 ? it->place.listening : it->link.socket, .events = POLLIN};
    files[1] = (struct pollfd){.fd = it->interrupts.unmask, .events = POLLIN};
    return 2;
}

static enum found serve(void *of, const struct pollfd *files) {
    struct vfio_user *it = of;
    if (files[1].revents & POLLIN)
        interrupts_unmask(&it->interrupts);
    if (!files[0].revents)
        return FOUND_NOTHING;
    if (it->link.socket >= 0)
        return look(it);
    int socket = place_accept(&it->place);
    if (socket >= 0)
        link_begin(&it->link, socket);
    return FOUND_NOTHING;
}

struct transport vfio_user_transport(struct vfio_user *it) {
    return (struct transport){.it = it, .watch = watch, .serve = serve, .look = look};
}

struct wire vfio_user_wire(struct vfio_user *it) {
    return interrupts_wire(&it->interrupts);
}

int vfio_user_begin(struct vfio_user *it, const char *path, bool trusts_client, struct pci *pci, struct memory *memory) {
    it->trusts_client = trusts_client;
    it->has_agreed = false;
    it->pci = pci;
    it->link.socket = -1;
    interrupts_begin(&it->interrupts);
    vfio_memory_begin(&it->memory, memory, &it->link);
    if (place_begin(&it->place, path))
        return -1;
    if (!strpbrk(it->place.path, "\"\\'"))
        return 0;
    say("the socket's path %s can't be written in an argument of QEMU", it->place.path);
    place_end(&it->place);
    return -1;
}

void vfio_user_end(struct vfio_user *it) {
    link_end(&it->link);
    interrupts_end(&it->interrupts);
    vfio_memory_end(&it->memory);
    place_end(&it->place);
}
