/* Plays the script language of `ahci replay` (docs/PROGRAM.md) through the library: a line of answer for each command. The
   exit status is 1 at a line that is not understood or stands where it may not, and 3 where memory is refused. After each
   command the port's whole state is compared with what single calls answer, and at the end its journal is looked at: the exit
   status is 4 where they differ. */
#include "play_tokens.h"
#include "ahci.h"
#include <inttypes.h>

#define MOST_LINE 4096
static ahci_port port = AHCI_PORT_EMPTY;
static bool made;        /* whether a disk was accepted */
static uint64_t entries; /* since the port was made or trimmed */
static uint64_t first;   /* the number of the first of them */
static uint8_t *bytes;   /* room for the longest command's sectors */
static size_t room;

static const char *name_of(uint32_t status)
{
    static const struct { uint32_t status; const char *name; } names[] = {
        { AHCI_BAD_SIZE, "BadSize" }, { AHCI_BAD_DEPTH, "BadDepth" }, { AHCI_BAD_FIRST, "BadFirst" },
        { AHCI_UNALIGNED, "Unaligned" }, { AHCI_NO_SUCH_REGISTER, "NoSuchRegister" }, { AHCI_NO_SUCH_SECTOR, "NoSuchSector" },
        { AHCI_HALTED, "Halted" }, { AHCI_NO_SUCH_TAG, "NoSuchTag" }, { AHCI_SLOT_OWNED, "SlotOwned" },
        { AHCI_BAD_HEADER, "BadHeader" }, { AHCI_BAD_COMMAND, "BadCommand" }, { AHCI_WRONG_TAG, "WrongTag" },
        { AHCI_BAD_LIST, "BadList" }, { AHCI_BAD_COUNT, "BadCount" }, { AHCI_BAD_LBA, "BadLba" },
        { AHCI_NOT_ISSUED, "NotIssued" }, { AHCI_NOT_ACCEPTED, "NotAccepted" }, { AHCI_OUTSIDE_COMMAND, "OutsideCommand" },
        { AHCI_BAD_TAGS, "BadTags" }, { AHCI_NOT_HALTED, "NotHalted" }, { AHCI_NOT_HELD, "NotHeld" },
        { AHCI_QUEUE_BUSY, "QueueBusy" }, { AHCI_STRANGER, "Stranger" }, { AHCI_NOT_YET, "NotYet" },
        { AHCI_BUSY, "Busy" }, { AHCI_SPENT, "Spent" },
    };
    for (size_t i = 0; i < sizeof names / sizeof *names; i++)
        if (names[i].status == status)
            return names[i].name;
    return NULL;
}

/* Two calls have answered differently about one port. */
static void differs(const char *what)
{
    fprintf(stderr, "play: line %u: %s\n", line_number, what);
    fflush(stdout);
    exit(4);
}

/* Answers a refusal, and whether there was none. */
static bool done(uint32_t status)
{
    const char *name = name_of(status);
    if (status == AHCI_OK)
        return true;
    if (status == AHCI_OUT_OF_MEMORY) {
        fputs("play: out of memory\n", stderr);
        exit(3);
    }
    if (!name) {
        fprintf(stderr, "play: line %u: status %u\n", line_number, (unsigned)status);
        exit(1);
    }
    uint8_t text[32];
    size_t length;
    if (ahci_status_text(status, text, sizeof text, &length) != AHCI_OK || length != strlen(name) || strcmp((char *)text, name) != 0)
        differs("a status has another name");
    printf("refused %s\n", name);
    return false;
}

static void *filled(uint64_t sectors, uint8_t fill)
{
    size_t wanted = 512 * (size_t)sectors;
    if (room < wanted) {
        bytes = realloc(bytes, wanted);
        room = wanted;
        if (!bytes)
            exit(3);
    }
    if (wanted)
        memset(bytes, fill, wanted);
    return bytes;
}

static void make(char **words, int n)
{
    uint64_t sectors = number(words[1], UINT64_MAX), depth = number(words[2], UINT64_MAX), number_of_first = n == 4 ? number(words[3], UINT64_MAX) : 0;
    uint32_t status = !sectors || sectors > AHCI_MOST_SECTORS ? AHCI_BAD_SIZE : !depth || depth > AHCI_MOST_TAGS ? AHCI_BAD_DEPTH : AHCI_OK;
    if (status == AHCI_OK)
        status = ahci_port_resume(&port, filled(sectors, 0), 512 * (size_t)sectors, (uint32_t)depth, number_of_first);
    if (!done(status))
        return;
    made = true;
    entries = 0;
    first = number_of_first;
    printf(n == 4 ? "disk %" PRIu64 " %" PRIu64 " %" PRIu64 "\n" : "disk %" PRIu64 " %" PRIu64 "\n", sectors, depth, number_of_first);
}

/* The entry of a command that was issued, and the bytes of a write. */
static void issued(uint64_t k, uint32_t tag, bool is_write, uint64_t lba, uint32_t sectors, const uint8_t *data)
{
    ahci_entry entry;
    size_t size = 512 * (size_t)sectors;
    uint8_t *copy = malloc(size);
    if (!copy)
        exit(3);
    if (ahci_port_entry(&port, k, &entry) != AHCI_OK || entry.kind != (is_write ? AHCI_EVENT_WRITE : AHCI_EVENT_READ) || entry.tag != tag
        || entry.lba != lba || entry.sectors != sectors || entry.error != 0)
        differs("an entry is not that of its command");
    if (ahci_port_entry_bytes(&port, k, copy, size - 1) != (is_write ? AHCI_BUFFER_TOO_SMALL : AHCI_NO_SUCH_ENTRY))
        differs("bytes are copied where there is no room for them, or none");
    if (is_write && (ahci_port_entry_bytes(&port, k, copy, size) != AHCI_OK || memcmp(copy, data, size) != 0))
        differs("an entry has lost its bytes");
    free(copy);
    printf("issued %" PRIu64 "\n", k);
}

static void submit(char **words, bool is_write)
{
    uint32_t tag = (uint32_t)number(words[1], 31), sectors = (uint32_t)number(words[3], 131072);
    uint64_t lba = number(words[2], UINT64_MAX), k;
    uint8_t fill = is_write ? byte_of(words[4]) : 0;
    uint8_t *data = filled(is_write ? sectors : 1, fill);
    if (done(ahci_port_submit(&port, tag, is_write ? AHCI_WRITE : AHCI_READ, lba, sectors, data, is_write ? 512 * (size_t)sectors : 0, &k))) {
        entries++;
        issued(k, tag, is_write, lba, sectors, data);
    }
}

static void raw(char **words)
{
    uint8_t header[MOST_LINE];
    static uint8_t memory[MOST_LINE];
    uint32_t tag = (uint32_t)number(words[1], 31);
    uint64_t k;
    size_t header_bytes = hex_bytes(words[2], header), memory_bytes = hex_bytes(words[3], memory);
    ahci_command command;
    if (header_bytes != AHCI_HEADER_BYTES)
        lost();
    uint32_t checked = ahci_window_check(tag, header, header_bytes, memory, memory_bytes, &command);
    uint32_t status = ahci_port_issue(&port, tag, header, header_bytes, memory, memory_bytes, &k);
    if (status != checked && status != AHCI_HALTED && status != AHCI_NO_SUCH_TAG && status != AHCI_SLOT_OWNED)
        differs("a window is checked otherwise than it is issued");
    if (done(status)) {
        ahci_entry entry;
        if (ahci_port_entry(&port, k, &entry) != AHCI_OK || entry.kind != command.kind || entry.tag != command.tag || entry.lba != command.lba || entry.sectors != command.sectors)
            differs("a window asks for another command than was issued");
        entries++;
        printf("issued %" PRIu64 "\n", k);
    }
}

static void serve(char **words, int n)
{
    uint8_t tags[AHCI_MOST_TAGS];
    ahci_stepped step;
    for (int i = 1; i < n; i++)
        tags[i - 1] = (uint8_t)number(words[i], 31);
    if (!done(ahci_port_serve(&port, tags, (size_t)n - 1, &step)))
        return;
    entries += step.count;
    printf("completed");
    for (uint32_t i = 0; i < step.count; i++)
        printf(" %" PRIu64, step.first + i);
    puts("");
}

static void step(uint32_t status, const ahci_stepped *step)
{
    if (!done(status))
        return;
    entries++;
    printf("%s %" PRIu64 "\n", step->did == AHCI_ACCEPTED ? "accepted" : "failed", step->first);
}

static void collect(char **words)
{
    uint32_t tag = (uint32_t)number(words[1], 31);
    ahci_slot slot;
    ahci_reply reply;
    if (ahci_port_slot(&port, tag, &slot) != AHCI_OK)
        lost();
    uint8_t *out = filled(slot.bytes / 512, 0xEE);
    if (!done(ahci_port_collect(&port, tag, number(words[2], UINT64_MAX), &reply, out ? out : (uint8_t *)"", slot.bytes)))
        return;
    entries++;
    if (reply.outcome == AHCI_DID_READ) {
        printf("read %" PRIu64, reply.entry);
        for (uint64_t i = 0; i < reply.bytes; i += 512)
            printf(" %02x", out[i]);
        puts("");
    } else if (reply.outcome == AHCI_DID_WRITE) {
        printf("wrote %" PRIu64 "\n", reply.entry);
    } else {
        printf("failed %" PRIu64 " %02x %" PRIu64 "\n", reply.entry, (unsigned)reply.error, reply.lba);
    }
}

static void look(char **words, int n)
{
    static uint8_t page[512];
    uint32_t word, w;
    uint64_t lba;
    (void)n;
    if (!strcmp(words[0], "reg")) {
        if (done(ahci_port_register(&port, hexadecimal(words[1], 8), &word)))
            printf("%08x\n", (unsigned)word);
    } else if (!strcmp(words[0], "ack")) {
        if (done(ahci_port_acknowledge(&port, hexadecimal(words[1], 8))))
            puts("acked");
    } else if (!strcmp(words[0], "show")) {
        lba = number(words[1], UINT64_MAX);
        if (done(ahci_port_copy(&port, lba, page, sizeof page)))
            printf("sector %" PRIu64 " %02x\n", lba, page[0]);
    } else {
        w = (uint32_t)number(words[1], 255);
        if (done(ahci_port_identify(&port, page, sizeof page))) {
            uint8_t alone[AHCI_PAGE_BYTES];
            uint32_t sectors, depth;
            if (ahci_port_sectors(&port, &sectors) || ahci_port_depth(&port, &depth) || ahci_identify_page(sectors, depth, alone, sizeof alone) || memcmp(page, alone, sizeof alone))
                differs("the page of IDENTIFY DEVICE is another one");
            entries++;
            printf("word %u %02x%02x\n", (unsigned)w, page[2 * w + 1], page[2 * w]);
        }
    }
}

/* The whole state is what single calls answer. */
static void compare(void)
{
    static const uint32_t offsets[18] = { 0x000, 0x004, 0x00c, 0x010, 0x100, 0x104, 0x108, 0x10c, 0x110, 0x114, 0x118, 0x120, 0x124, 0x128, 0x12c, 0x130, 0x134, 0x138 };
    ahci_state whole, single;
    ahci_tag_sets sets;
    ahci_entry entry;
    uint32_t *const words[18] = {
        &single.cap, &single.ghc, &single.pi, &single.vs, &single.px_clb, &single.px_clbu, &single.px_fb, &single.px_fbu, &single.px_is,
        &single.px_ie, &single.px_cmd, &single.px_tfd, &single.px_sig, &single.px_ssts, &single.px_sctl, &single.px_serr, &single.px_sact, &single.px_ci,
    };
    single.first = first;
    single.next = first + entries;
    single.halted = 0;
    for (uint32_t tag = 0; tag < 32; tag++) {
        ahci_slot slot;
        if (ahci_port_slot(&port, tag, &slot) != AHCI_OK)
            differs("no slot");
        single.numbers[tag] = slot.number;
        single.phases[tag] = (uint8_t)slot.phase;
        single.halted |= slot.phase == AHCI_PHASE_REJECTED || slot.phase == AHCI_PHASE_BROKEN;
    }
    for (int i = 0; i < 18; i++)
        if (ahci_port_register(&port, offsets[i], words[i]) != AHCI_OK)
            differs("no register");
    if (ahci_port_depth(&port, &single.depth) || ahci_port_sectors(&port, &single.sectors) || ahci_port_tag_sets(&port, &sets) || ahci_port_received(&port, single.received, sizeof single.received))
        differs("a call that only looks is refused");
    single.issued = sets.issued;
    single.accepted = sets.accepted;
    single.held = sets.held;
    if (ahci_port_state(&port, &whole) != AHCI_OK || memcmp(&whole, &single, sizeof whole) != 0)
        differs("the whole state is not what single calls answer");
    if (ahci_port_entry(&port, whole.next, &entry) != AHCI_NO_SUCH_ENTRY || (entries && ahci_port_entry(&port, whole.next - 1, &entry) != AHCI_OK))
        differs("the journal ends elsewhere");
}

/* The journal since the port was made or trimmed is one that can come about, and can't go on with an entry of no command. */
static void judge(void)
{
    ahci_entry *events = malloc((size_t)(entries + 1) * sizeof *events);
    uint32_t sectors, depth;
    size_t bad = 0, count = (size_t)entries;
    if (!events)
        exit(3);
    for (size_t i = 0; i < count; i++)
        if (ahci_port_entry(&port, first + i, &events[i]) != AHCI_OK)
            differs("no entry");
    events[count] = (ahci_entry){ .kind = AHCI_EVENT_READ_LOG };
    if (ahci_port_sectors(&port, &sectors) || ahci_port_depth(&port, &depth) || ahci_journal_check(sectors, depth, events, count, &bad) != AHCI_OK)
        differs("a port's journal can't come about");
    if (ahci_journal_check(sectors, depth, events, count + 1, &bad) != AHCI_NOT_ALLOWED || bad != count)
        differs("a journal goes on with what no port does");
    free(events);
}

static bool is(char **words, int n, const char *name, int wanted) { return !strcmp(words[0], name) && n == wanted; }

static void run(char **words, int n)
{
    ahci_stepped s;
    uint32_t tag;
    uint64_t count;
    if (is(words, n, "disk", 3) || is(words, n, "disk", 4)) {
        if (made)
            lost();
        make(words, n);
        return;
    }
    if (!made)
        lost();
    if (is(words, n, "write", 5)) submit(words, true);
    else if (is(words, n, "read", 4)) submit(words, false);
    else if (is(words, n, "raw", 4)) raw(words);
    else if (is(words, n, "accept", 2)) step(ahci_port_accept(&port, (uint32_t)number(words[1], 31), &s), &s);
    else if (!strcmp(words[0], "serve") && n > 1 && n <= 33) serve(words, n);
    else if (is(words, n, "fail", 4)) step(ahci_port_fail(&port, (uint32_t)number(words[1], 31), byte_of(words[2]), number(words[3], UINT64_MAX), &s), &s);
    else if (is(words, n, "collect", 3)) collect(words);
    else if (is(words, n, "recover", 1)) { if (done(ahci_port_recover(&port, &tag))) { entries++; printf("recovered %u\n", (unsigned)tag); } }
    else if (is(words, n, "reissue", 2)) { tag = (uint32_t)number(words[1], 31); if (done(ahci_port_reissue(&port, tag))) { entries++; printf("reissued %u\n", (unsigned)tag); } }
    else if (is(words, n, "flush", 1)) { if (done(ahci_port_flush(&port))) { entries++; puts("flushed"); } }
    else if (is(words, n, "journal", 1)) printf("journal %" PRIu64 "\n", entries);
    else if (is(words, n, "trim", 1)) { judge(); if (done(ahci_port_trim(&port, &count))) { if (count != entries) lost(); first += entries; entries = 0; printf("trimmed %" PRIu64 "\n", count); } }
    else if (n == 2 && (!strcmp(words[0], "reg") || !strcmp(words[0], "ack") || !strcmp(words[0], "show") || !strcmp(words[0], "identify"))) look(words, n);
    else lost();
}

/* Writes the disk's sectors, where there is a disk, to a file. */
static bool write_image(const char *path)
{
    uint8_t sector[AHCI_SECTOR_BYTES];
    uint32_t sectors = 0;
    FILE *file = fopen(path, "wb");
    bool well = file && (!made || ahci_port_sectors(&port, &sectors) == AHCI_OK);
    for (uint32_t lba = 0; well && lba < sectors; lba++)
        well = ahci_port_copy(&port, lba, sector, sizeof sector) == AHCI_OK && fwrite(sector, sizeof sector, 1, file) == 1;
    return file && !fclose(file) && well;
}

/* play [--image FILE] < SCRIPT: the sectors as they are after the last line go to the file. */
int main(int count, char **arguments)
{
    static char line[MOST_LINE + 2];
    const char *image = count == 3 && !strcmp(arguments[1], "--image") ? arguments[2] : NULL;
    if (count != 1 && !image) {
        fputs("usage: play [--image FILE] < SCRIPT\n", stderr);
        return 2;
    }
    while (fgets(line, sizeof line, stdin)) {
        char *words[40], *at = line;
        int n = 0;
        line_number++;
        line[strcspn(line, "\n")] = 0;
        if (is_skipped(line))
            continue;
        while (n < 40) {
            words[n++] = at;
            at = strchr(at, ' ');
            if (!at)
                break;
            *at++ = 0;
        }
        run(words, n);
        if (made)
            compare();
    }
    if (made)
        judge();
    bool well = !image || write_image(image);
    ahci_port_free(&port);
    free(bytes);
    if (!well)
        fprintf(stderr, "play: %s can't be written\n", image);
    return well ? 0 : 1;
}
