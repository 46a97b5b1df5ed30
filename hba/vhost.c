#include "vhost.h"

#include "log.h"
#include "say.h"
#include "socket.h"

#include <inttypes.h>
#include <string.h>
#include <unistd.h>

/* Requests of vhost-user (QEMU's docs/interop/vhost-user.rst). */
enum request {
    GET_FEATURES = 1,
    SET_FEATURES = 2,
    SET_OWNER = 3,
    SET_MEM_TABLE = 5,
    SET_VRING_NUM = 8,
    SET_VRING_ADDR = 9,
    SET_VRING_BASE = 10,
    GET_VRING_BASE = 11,
    SET_VRING_KICK = 12,
    SET_VRING_CALL = 13,
    GET_PROTOCOL_FEATURES = 15,
    SET_PROTOCOL_FEATURES = 16,
    SET_VRING_ENABLE = 18,
    SET_SLAVE_REQ_FD = 21
};

#define VERSION_1 (UINT64_C(1) << 32)        /* VIRTIO_F_VERSION_1 */
#define PROTOCOL_FEATURES (UINT64_C(1) << 30)
#define SLAVE_REQUESTS (UINT64_C(1) << 5) /* without it the kernel asks for interrupt 0 */
#define REPLY 5                           /* version 1, and the bit of a reply */

/* Operations of the PCI bus (Linux, include/uapi/linux/virtio_pcidev.h). */
enum operation { CONFIG_READ = 1, CONFIG_WRITE = 2, REGISTER_READ = 3, REGISTER_WRITE = 4, MESSAGE = 7 };

#define OPERATION_BYTES 16 /* before the data: operation, BAR, two reserved bytes, size, address */

enum { ACCESSES, INTERRUPTS }; /* the two rings */

#define MOST_UNSIGNALLED 32 /* the kernel waits for no signal, but wants its buffers back */

struct header {
    uint32_t request;
    uint32_t flags;
    uint32_t bytes;
};

struct region_of_table {
    uint64_t address;
    uint64_t bytes;
    uint64_t user_address;
    uint64_t offset;
};

struct ring_state {
    uint32_t index;
    uint32_t value;
};

struct ring_addresses {
    uint32_t index;
    uint32_t flags;
    uint64_t descriptors;
    uint64_t used;
    uint64_t available;
    uint64_t log;
};

union data {
    uint64_t word;
    struct ring_state state;
    struct ring_addresses addresses;
    struct {
        uint32_t count;
        uint32_t padding;
        struct region_of_table regions[MOST_FILES];
    } table;
};

/* ---- requests ---- */

static bool reply(struct vhost *vhost, uint32_t request, uint64_t word) {
    struct {
        uint32_t request, flags, bytes, low, high;
    } message = {request, REPLY, 8, (uint32_t)word, (uint32_t)(word >> 32)};
    return socket_send(vhost->socket, &message, sizeof message);
}

static void take_memory(struct vhost *vhost, const union data *data, const struct files *files) {
    memory_clear(vhost->memory);
    for (unsigned i = 0; i < files->count && i < data->table.count; i++) {
        const struct region_of_table *it = &data->table.regions[i];
        const struct region wanted = {.base = it->address, .bytes = it->bytes, .is_readable = true, .is_writable = true};
        int failed = memory_add(vhost->memory, &wanted, files->at[i], it->offset);
        if (failed)
            say("the guest's memory at %" PRIx64 " of %" PRIu64 " bytes can't be used: %s", wanted.base, wanted.bytes, strerror(failed));
    }
}

static void replace(int *file, int with) {
    if (*file >= 0)
        close(*file);
    *file = with;
}

static bool take_ring_request(struct vhost *vhost, uint32_t request, const union data *data, struct files *files) {
    uint32_t index = data->state.index & 0xFF;
    if (index >= VHOST_RINGS) {
        say("the kernel names queue %" PRIu32 ", and there are %d", index, VHOST_RINGS);
        return false;
    }
    struct ring *ring = &vhost->rings[index];
    switch (request) {
    case SET_VRING_NUM:
        ring->entries = data->state.value <= 32768 ? data->state.value : 0;
        return true;
    case SET_VRING_BASE:
        ring->next = (uint16_t)data->state.value;
        return true;
    case GET_VRING_BASE:
        replace(&ring->kick, -1);
        return reply(vhost, request, index | (uint64_t)ring->next << 32);
    case SET_VRING_KICK:
        replace(&ring->kick, files_take(files, 0));
        return true;
    default: /* SET_VRING_CALL */
        replace(&ring->call, files_take(files, 0));
        return true;
    }
}

static bool take_addresses(struct vhost *vhost, const struct ring_addresses *it) {
    if (it->index >= VHOST_RINGS)
        return false;
    struct ring *ring = &vhost->rings[it->index];
    ring->descriptors = it->descriptors;
    ring->used = it->used;
    ring->available = it->available;
    return it->available % 2 == 0 && it->used % 4 == 0;
}

static bool take_request(struct vhost *vhost, uint32_t request, const union data *data, struct files *files) {
    switch (request) {
    case GET_FEATURES:
        return reply(vhost, request, VERSION_1 | PROTOCOL_FEATURES);
    case GET_PROTOCOL_FEATURES:
        return reply(vhost, request, SLAVE_REQUESTS);
    case SET_MEM_TABLE:
        take_memory(vhost, data, files);
        return true;
    case SET_VRING_ADDR:
        return take_addresses(vhost, &data->addresses);
    case SET_VRING_NUM:
    case SET_VRING_BASE:
    case GET_VRING_BASE:
    case SET_VRING_KICK:
    case SET_VRING_CALL:
        return take_ring_request(vhost, request, data, files);
    case SET_SLAVE_REQ_FD:
        replace(&vhost->back, files_take(files, 0));
        return true;
    case SET_FEATURES:
    case SET_OWNER:
    case SET_PROTOCOL_FEATURES:
    case SET_VRING_ENABLE:
        return true;
    default:
        say("the kernel sent the vhost-user request %" PRIu32 ", which is not known here", request);
        return false;
    }
}

/* Receives the rest of a request behind its header. */
static enum found receive_data(struct vhost *vhost, const struct header *header, struct files *files) {
    union data data;
    memset(&data, 0, sizeof data);
    if (header->bytes > sizeof data) {
        say("the kernel sent a request of %" PRIu32 " bytes, of which %zu are known here", header->bytes, sizeof data);
        return FOUND_WRONG;
    }
    enum found found = socket_receive(vhost->socket, &data, header->bytes, files);
    if (found == FOUND_END)
        say("the guest's program ended in the middle of a message");
    if (found != FOUND_MESSAGE)
        return FOUND_WRONG;
    return take_request(vhost, header->request, &data, files) ? FOUND_MESSAGE : FOUND_WRONG;
}

static enum found receive(struct vhost *vhost) {
    struct header header;
    struct files files = {.count = 0};
    enum found found = socket_receive(vhost->socket, &header, sizeof header, &files);
    if (found == FOUND_MESSAGE)
        found = receive_data(vhost, &header, &files);
    files_close(&files);
    return found;
}

/* ---- accesses and interrupts ---- */

static uint64_t get(const uint8_t *from, uint32_t bytes) {
    uint64_t value = 0;
    for (uint32_t i = 0; i < bytes && i < 8; i++)
        value |= (uint64_t)from[i] << 8 * i;
    return value;
}

static void put(uint8_t *to, uint32_t bytes, uint64_t value) {
    for (uint32_t i = 0; i < bytes && i < 8; i++)
        to[i] = (uint8_t)(value >> 8 * i);
}

/* Reads of more than 8 bytes are taken word by word. */
static void read_registers(struct vhost *vhost, struct chain *chain, uint32_t at, uint32_t bytes) {
    uint32_t each = bytes <= 8 ? bytes : 4;
    for (uint32_t done = 0; done + each <= bytes && done + each <= chain->answer_bytes; done += each)
        put(chain->answer + done, each, pci_register_read(vhost->pci, at + done, each));
}

/* Carries out one access of the kernel; the answer is how many bytes were read for it. */
static uint32_t take_access(struct vhost *vhost, struct chain *chain) {
    const uint8_t *it = chain->request;
    uint32_t bytes = (uint32_t)get(it + 4, 4), at = (uint32_t)get(it + 8, 8);
    uint64_t value = chain->request_bytes > OPERATION_BYTES ? get(it + OPERATION_BYTES, chain->request_bytes - OPERATION_BYTES) : 0;
    switch (it[0]) {
    case CONFIG_READ:
        if (bytes <= chain->answer_bytes)
            put(chain->answer, bytes, pci_config_read(vhost->pci, at, bytes));
        return bytes;
    case CONFIG_WRITE:
        pci_config_write(vhost->pci, at, bytes, (uint32_t)value);
        return 0;
    case REGISTER_READ:
        read_registers(vhost, chain, at, bytes);
        return bytes;
    case REGISTER_WRITE:
        pci_register_write(vhost->pci, at, bytes, value);
        return 0;
    default:
        log_line("the operation %u of the PCI bus is not known here", it[0]);
        return 0;
    }
}

static void take_accesses(struct vhost *vhost) {
    struct ring *ring = &vhost->rings[ACCESSES];
    struct chain chain;
    while (ring_take(ring, vhost->memory, &chain)) {
        ring_give(ring, vhost->memory, &chain, take_access(vhost, &chain));
        vhost->unsignalled++;
    }
    if (vhost->unsignalled < MOST_UNSIGNALLED)
        return;
    vhost->unsignalled = 0;
    ring_signal(ring);
}

static void send_message(void *it, uint64_t address, uint32_t data) {
    struct vhost *vhost = it;
    struct ring *ring = &vhost->rings[INTERRUPTS];
    struct chain chain;
    (void)address; /* the kernel looks at the data alone */
    if (!ring_take(ring, vhost->memory, &chain) || chain.answer_bytes < OPERATION_BYTES + 4) {
        say("an interrupt was lost, since the kernel has no buffer for it");
        return;
    }
    memset(chain.answer, 0, OPERATION_BYTES);
    chain.answer[0] = MESSAGE;
    put(chain.answer + 4, 4, 4);
    put(chain.answer + OPERATION_BYTES, 4, data);
    ring_give(ring, vhost->memory, &chain, OPERATION_BYTES + 4);
    ring_signal(ring);
}

static void set_line(void *it, bool level) {
    (void)it;
    log_line("the interrupt line is %d, and this kernel takes messages alone", level);
}

struct wire vhost_wire(struct vhost *vhost) {
    return (struct wire){.it = vhost, .message = send_message, .line = set_line};
}

/* ---- the main loop's view ---- */

static unsigned watch(void *it, struct pollfd *files) {
    const struct vhost *vhost = it;
    files[0] = (struct pollfd){.fd = vhost->socket >= 0 ? vhost->socket : vhost->place.listening, .events = POLLIN};
    files[1] = (struct pollfd){.fd = vhost->rings[ACCESSES].kick, .events = POLLIN};
    files[2] = (struct pollfd){.fd = vhost->rings[INTERRUPTS].kick, .events = POLLIN};
    return 3;
}

/* Reads an eventfd's count, which says nothing more. */
static void drain(int file) {
    uint64_t times;
    if (read(file, &times, sizeof times) != sizeof times)
        log_line("the kernel's signal can't be read: %m");
}

static enum found serve(void *it, const struct pollfd *files) {
    struct vhost *vhost = it;
    for (unsigned i = 0; i < VHOST_RINGS; i++)
        if (files[1 + i].revents & POLLIN)
            drain(files[1 + i].fd);
    take_accesses(vhost);
    if (!files[0].revents)
        return FOUND_NOTHING;
    if (vhost->socket >= 0)
        return receive(vhost);
    vhost->socket = place_accept(&vhost->place);
    return FOUND_NOTHING;
}

struct transport vhost_transport(struct vhost *vhost) {
    return (struct transport){.it = vhost, .watch = watch, .serve = serve};
}

const char *vhost_path(const struct vhost *vhost) {
    return vhost->place.path;
}

/* ---- the beginning and the end ---- */

int vhost_begin(struct vhost *vhost, struct pci *pci, struct memory *memory) {
    *vhost = (struct vhost){.socket = -1, .back = -1, .pci = pci, .memory = memory};
    for (unsigned i = 0; i < VHOST_RINGS; i++)
        vhost->rings[i].kick = vhost->rings[i].call = -1;
    return place_begin(&vhost->place, NULL);
}

void vhost_end(struct vhost *vhost) {
    replace(&vhost->socket, -1);
    replace(&vhost->back, -1);
    for (unsigned i = 0; i < VHOST_RINGS; i++) {
        replace(&vhost->rings[i].kick, -1);
        replace(&vhost->rings[i].call, -1);
    }
    place_end(&vhost->place);
}
