#include "vfio_interrupts.h"

#include "log.h"

#include <errno.h>
#include <fcntl.h>
#include <inttypes.h>
#include <stdio.h>
#include <string.h>
#include <unistd.h>

void interrupts_begin(struct vfio_interrupts *interrupts) {
    *interrupts = (struct vfio_interrupts){.triggers = {-1, -1}, .unmask = -1};
}

void interrupts_end(struct vfio_interrupts *interrupts) {
    for (unsigned i = 0; i < VFIO_MSIX; i++)
        file_close(&interrupts->triggers[i]);
    file_close(&interrupts->unmask);
    interrupts_begin(interrupts);
}

void interrupts_reset(struct vfio_interrupts *interrupts) {
    interrupts->is_due = false;
}

/* ---- eventfds ---- */

/* Whether a file is an eventfd: a write to a pipe or a socket could wait without end. */
static bool is_eventfd(int file) {
    char path[32], name[32];
    snprintf(path, sizeof path, "/proc/self/fd/%d", file);
    ssize_t length = readlink(path, name, sizeof name - 1);
    if (length < 0)
        return false;
    name[length] = 0;
    return !strcmp(name, "anon_inode:[eventfd]");
}

/* Takes the message's file instead of one that is there; with none there is none any more. */
static int take_eventfd(int *file, struct files *files) {
    int taken = files_take(files, 0);
    if (taken >= 0 && (!is_eventfd(taken) || fcntl(taken, F_SETFL, O_NONBLOCK))) {
        file_close(&taken);
        return EINVAL;
    }
    file_close(file);
    *file = taken;
    return 0;
}

/* Adds one to an eventfd's count. If it has no room, the other side has many to take still. */
static void trigger(int file) {
    uint64_t one = 1;
    if (write(file, &one, sizeof one) != sizeof one)
        log_line("an interrupt was not triggered: %m");
}

/* ---- INTx ---- */

/* Triggers INTx if it is asserted and not masked; that masks it. */
static void settle_line(struct vfio_interrupts *interrupts) {
    if (!interrupts->level || interrupts->is_masked || interrupts->triggers[VFIO_INTX] < 0)
        return;
    interrupts->is_masked = true;
    trigger(interrupts->triggers[VFIO_INTX]);
}

static void set_mask(struct vfio_interrupts *interrupts, bool is_masked) {
    interrupts->is_masked = is_masked;
    settle_line(interrupts);
}

void interrupts_unmask(struct vfio_interrupts *interrupts) {
    uint64_t times;
    if (read(interrupts->unmask, &times, sizeof times) == sizeof times)
        set_mask(interrupts, false);
}

static void set_line(void *it, bool level) {
    struct vfio_interrupts *interrupts = it;
    interrupts->level = level;
    settle_line(interrupts);
}

/* ---- messages ---- */

/* The other side knows the message's address and data, since it has the capability too. */
static void send_message(void *it, uint64_t address, uint32_t data) {
    struct vfio_interrupts *interrupts = it;
    (void)address;
    (void)data;
    interrupts->is_due = interrupts->triggers[VFIO_MSI] < 0;
    if (!interrupts->is_due)
        trigger(interrupts->triggers[VFIO_MSI]);
}

struct wire interrupts_wire(struct vfio_interrupts *interrupts) {
    return (struct wire){.it = interrupts, .message = send_message, .line = set_line};
}

/* ---- what is asked ---- */

int interrupts_info(struct vfio_irq_info *info) {
    if (info->index > VFIO_MSIX) /* QEMU warns that it can't enable the others if there are none of them */
        return EINVAL;
    info->argsz = sizeof *info;
    info->count = info->index < VFIO_MSIX;
    info->flags = info->index == VFIO_INTX ? VFIO_IRQ_EVENTFD | VFIO_IRQ_MASKABLE | VFIO_IRQ_AUTOMASKED : info->index == VFIO_MSI ? VFIO_IRQ_EVENTFD | VFIO_IRQ_NORESIZE : 0;
    return 0;
}

/* All interrupts of a kind are disabled. */
static int disable(struct vfio_interrupts *interrupts, uint32_t index) {
    file_close(&interrupts->triggers[index]);
    if (index == VFIO_INTX)
        file_close(&interrupts->unmask);
    return 0;
}

static int take_trigger(struct vfio_interrupts *interrupts, uint32_t index, struct files *files) {
    int failed = take_eventfd(&interrupts->triggers[index], files);
    if (failed || interrupts->triggers[index] < 0)
        return failed;
    if (index == VFIO_INTX)
        set_mask(interrupts, false);
    else if (interrupts->is_due)
        send_message(interrupts, 0, 0);
    return 0;
}

/* The actions that come with eventfds. A mask's would report to the other side that the guest has masked INTx, which it does itself. */
static int set_files(struct vfio_interrupts *interrupts, const struct vfio_irq_set *set, struct files *files) {
    if (set->flags & VFIO_SET_TRIGGER)
        return take_trigger(interrupts, set->index, files);
    return set->flags & VFIO_SET_UNMASK && set->index == VFIO_INTX ? take_eventfd(&interrupts->unmask, files) : EINVAL;
}

/* The actions that are carried out at once. */
static int act(struct vfio_interrupts *interrupts, const struct vfio_irq_set *set) {
    if (set->flags & VFIO_SET_TRIGGER) {
        if (interrupts->triggers[set->index] >= 0)
            trigger(interrupts->triggers[set->index]);
        return 0;
    }
    if (set->index != VFIO_INTX || !(set->flags & (VFIO_SET_MASK | VFIO_SET_UNMASK)))
        return EINVAL;
    set_mask(interrupts, set->flags & VFIO_SET_MASK);
    return 0;
}

int interrupts_set(struct vfio_interrupts *interrupts, const struct vfio_irq_set *set, const uint8_t *data, size_t bytes, struct files *files) {
    if (set->index >= VFIO_MSIX)
        return set->count ? EINVAL : 0;
    if (set->start != 0 || set->count > 1)
        return EINVAL;
    if (set->count == 0)
        return set->flags == (VFIO_SET_NONE | VFIO_SET_TRIGGER) ? disable(interrupts, set->index) : EINVAL;
    if (set->flags & VFIO_SET_EVENTFD)
        return set_files(interrupts, set, files);
    if (set->flags & VFIO_SET_BOOL)
        return bytes < 1 ? EINVAL : data[0] ? act(interrupts, set) : 0;
    return set->flags & VFIO_SET_NONE ? act(interrupts, set) : EINVAL;
}
