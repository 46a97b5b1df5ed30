/* An nbdkit plugin: each request of a client becomes commands of a proved AHCI port. */
#define NBDKIT_API_VERSION 2
#include <nbdkit-plugin.h>

#include "device.h"
#include "driver.h"
#include "say.h"
#include "settings.h"

#include <errno.h>
#include <inttypes.h>
#include <limits.h>
#include <malloc.h>
#include <pthread.h>
#include <signal.h>
#include <stdio.h>
#include <stdlib.h>

#define THREAD_MODEL NBDKIT_THREAD_MODEL_PARALLEL

static struct settings settings;
static struct driver driver;
static pthread_t thread; /* the device's, if it has one */
static bool has_port, has_device;

/* A line of the server's own. */
static void put(const char *line) {
    nbdkit_error("%s", line);
}

/* One that is no fault: what it does without memory, or of the image, or a line of the script that never happened. */
static void put_note(const char *line) {
    fprintf(stderr, "ahci: %s\n", line);
}

static const struct voice voice = {.put = put, .note = put_note, .before = "", .between = "="};

/* The port's journal takes and frees the bytes of every write. This keeps freed memory in the process: without it most of the time goes to
   pages that come and go. */
static void ahci_load(void) {
    mallopt(M_MMAP_THRESHOLD, 32 << 20);
    mallopt(M_TRIM_THRESHOLD, INT_MAX);
    mallopt(M_ARENA_MAX, 1);
    signal(SIGXFSZ, SIG_IGN); /* a write past a limit of the system fails instead */
    say_begin(&voice);
    settings_begin(&settings);
}

static void ahci_unload(void) {
    settings_end(&settings);
}

static int ahci_config(const char *key, const char *value) {
    return settings_take(&settings, key, value);
}

static int ahci_config_complete(void) {
    return settings_complete(&settings);
}

static int ahci_get_ready(void) {
    has_port = !driver_begin(&driver, &settings);
    return has_port ? 0 : -1;
}

/* Threads begin after the fork into the background. */
static int ahci_after_fork(void) {
    has_device = !device_begin(&driver, &thread);
    return has_device ? 0 : -1;
}

/* nbdkit has answered every request by now. */
static void ahci_cleanup(void) {
    if (has_device)
        device_end(&driver, thread);
    if (!has_port)
        return;
    script_end(settings.script, put_note);
    const struct counts *it = &driver.counts;
    fprintf(stderr,
            "ahci: %" PRIu64 " commands, %" PRIu64 " served, %" PRIu64 " of them out of order, %" PRIu64 " lists of several tags, %" PRIu32
            " tags at most, %" PRIu64 " failures, %" PRIu64 " recoveries, %" PRIu64 " trims\n",
            it->commands, it->served, it->out_of_order, it->lists, it->deepest, it->failed, it->recoveries, it->trims);
    if (driver_end(&driver))
        exit(EXIT_FAILURE);
}

static void *ahci_open(int readonly) {
    (void)readonly;
    return NBDKIT_HANDLE_NOT_NEEDED;
}

static int64_t ahci_get_size(void *handle) {
    (void)handle;
    return (int64_t)settings.sectors * AHCI_SECTOR_BYTES;
}

/* A flush of one connection holds for what all have written: there is one port. */
static int ahci_can_multi_conn(void *handle) {
    (void)handle;
    return 1;
}

static int ahci_can_fua(void *handle) {
    (void)handle;
    return NBDKIT_FUA_NATIVE;
}

static int ahci_block_size(void *handle, uint32_t *minimum, uint32_t *preferred, uint32_t *maximum) {
    (void)handle;
    *minimum = AHCI_SECTOR_BYTES;
    *preferred = 4096;
    *maximum = 32u << 20;
    return 0;
}

/* Whether a request is made of whole sectors. */
static bool is_whole(uint32_t count, uint64_t offset) {
    if (count % AHCI_SECTOR_BYTES == 0 && offset % AHCI_SECTOR_BYTES == 0)
        return true;
    say("%" PRIu32 " bytes at %" PRIu64 ": whole sectors of 512 bytes are wanted", count, offset);
    nbdkit_set_error(EINVAL);
    return false;
}

/* Hands the parts of a request to the port, one after the other. It returns 0 or an errno. */
static int submit_parts(struct request request, uint32_t sectors) {
    int outcome = 0;
    while (sectors && !outcome) {
        request.sectors = sectors < REQUEST_MOST_SECTORS ? sectors : REQUEST_MOST_SECTORS;
        size_t bytes = (size_t)request.sectors * AHCI_SECTOR_BYTES;
        outcome = driver_submit(&driver, &request);
        request.lba += request.sectors;
        if (request.kind == REQUEST_READ)
            request.into += bytes;
        else
            request.from += bytes;
        sectors -= request.sectors;
    }
    return outcome;
}

static int ended(int why) {
    if (why)
        nbdkit_set_error(why);
    return why ? -1 : 0;
}

static int ahci_pread(void *handle, void *bytes, uint32_t count, uint64_t offset, uint32_t flags) {
    (void)handle;
    (void)flags;
    if (!is_whole(count, offset))
        return -1;
    struct request request = {.kind = REQUEST_READ, .lba = offset / AHCI_SECTOR_BYTES, .into = bytes};
    return ended(submit_parts(request, count / AHCI_SECTOR_BYTES));
}

static int ahci_pwrite(void *handle, const void *bytes, uint32_t count, uint64_t offset, uint32_t flags) {
    (void)handle;
    if (!is_whole(count, offset))
        return -1;
    struct request request = {.kind = REQUEST_WRITE, .fua = flags & NBDKIT_FLAG_FUA, .lba = offset / AHCI_SECTOR_BYTES, .from = bytes};
    return ended(submit_parts(request, count / AHCI_SECTOR_BYTES));
}

static int ahci_flush(void *handle, uint32_t flags) {
    struct request request = {.kind = REQUEST_FLUSH};
    (void)handle;
    (void)flags;
    return ended(driver_submit(&driver, &request));
}

static struct nbdkit_plugin plugin = {
    .name = "ahci",
    .longname = "a proved AHCI port with its NCQ disk",
    .description = "Each request becomes READ or WRITE FPDMA QUEUED commands of a proved model of an AHCI port.",
    .version = "1.1.0",
    .load = ahci_load,
    .unload = ahci_unload,
    .config = ahci_config,
    .config_complete = ahci_config_complete,
    .config_help = settings_help,
    .magic_config_key = "size", /* nbdkit ahci 1G */
    .get_ready = ahci_get_ready,
    .after_fork = ahci_after_fork,
    .cleanup = ahci_cleanup,
    .open = ahci_open,
    .get_size = ahci_get_size,
    .can_multi_conn = ahci_can_multi_conn,
    .can_fua = ahci_can_fua,
    .block_size = ahci_block_size,
    .pread = ahci_pread,
    .pwrite = ahci_pwrite,
    .flush = ahci_flush,
};

NBDKIT_REGISTER_PLUGIN(plugin)
