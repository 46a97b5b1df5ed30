/* merged DEVICE reads|writes BLOCK: four adjacent requests of 4 KiB, the first at a block, which the kernel gets at once and past the page cache, so
   that it can merge them. Each block has its first text; writes bring the second one, and read it back by a request of its own. It prints one word,
   with a letter for each request: `r` was answered, and its block is right; `w` was answered, and its block is wrong; `e` failed. */
#define _GNU_SOURCE
#include "text.h"

#include <fcntl.h>
#include <linux/aio_abi.h>
#include <stdio.h>
#include <stdlib.h>
#include <string.h>
#include <sys/syscall.h>
#include <unistd.h>

#define REQUESTS 4
#define BYTES 4096
#define UNTOUCHED 0xEE /* what a buffer has before a read */

static void end(const char *why) {
    perror(why);
    exit(1);
}

static void *memory(void) {
    void *bytes = aligned_alloc(BYTES, BYTES);
    if (!bytes)
        end("merged");
    return bytes;
}

/* Hands over all requests by one call, and waits for their answers. */
static void perform(struct iocb *controls, struct io_event *events) {
    aio_context_t context = 0;
    struct iocb *list[REQUESTS];
    for (unsigned i = 0; i < REQUESTS; i++)
        list[i] = &controls[i];
    if (syscall(SYS_io_setup, REQUESTS, &context))
        end("io_setup");
    if (syscall(SYS_io_submit, context, REQUESTS, list) != REQUESTS)
        end("io_submit");
    if (syscall(SYS_io_getevents, context, REQUESTS, REQUESTS, events, NULL) != REQUESTS)
        end("io_getevents");
}

/* The requests, each with a buffer of its own. */
static void prepare(struct iocb *controls, int file, bool writes, uint64_t first) {
    for (unsigned i = 0; i < REQUESTS; i++) {
        uint64_t *bytes = memset(memory(), UNTOUCHED, BYTES);
        if (writes)
            text_fill(bytes, BYTES, first + i, 2);
        controls[i] = (struct iocb){.aio_data = i, .aio_lio_opcode = writes ? IOCB_CMD_PWRITE : IOCB_CMD_PREAD, .aio_fildes = (uint32_t)file,
                                    .aio_buf = (uintptr_t)bytes, .aio_nbytes = BYTES, .aio_offset = (int64_t)((first + i) * BYTES)};
    }
}

/* Whether a block is as its request has to leave it: what a read has in its buffer, or what another read finds after a write. */
static bool is_right(const struct iocb *control, bool writes) {
    uint64_t *words = (uint64_t *)(uintptr_t)control->aio_buf, block = (uint64_t)control->aio_offset / BYTES;
    if (writes && pread((int)control->aio_fildes, memset(words, UNTOUCHED, BYTES), BYTES, control->aio_offset) != BYTES)
        end("pread");
    return text_is(words, BYTES, block, writes ? 2 : 1);
}

int main(int count, char **words) {
    struct iocb controls[REQUESTS];
    struct io_event events[REQUESTS];
    char letters[REQUESTS + 1] = {0};
    if (count != 4)
        return 2;
    int file = open(words[1], O_RDWR | O_DIRECT);
    if (file < 0)
        end(words[1]);
    bool writes = !strcmp(words[2], "writes");
    prepare(controls, file, writes, strtoull(words[3], NULL, 0));
    perform(controls, events);
    for (unsigned i = 0; i < REQUESTS; i++) {
        uint64_t at = events[i].data;
        letters[at] = events[i].res != BYTES ? 'e' : is_right(&controls[at], writes) ? 'r' : 'w';
    }
    puts(letters);
    return 0;
}
