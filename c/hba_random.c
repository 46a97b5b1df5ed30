/* Plays bytes as what a driver and a disk do to one controller, and compares each call with the shadow of hba_shadow.h. With COUNT runs it makes
   the bytes itself: hba_random COUNT [FIRST], where FIRST is the number of the first run. */
#include "hba_random_events.h"

static void step_any(void)
{
    const uint32_t from = byte();
    for (uint32_t i = 0; i < 32; i++)
        if (look.next[(from + i) % 32] != AHCI_STEP_NONE) {
            steps((from + i) % 32);
            return;
        }
}

static void step_this(void) { steps(byte() % 34); }
static void move_one(void) { moves(byte() % 32 == 31); }

/* All that is to be moved; what an answer wants is written at once. */
static void move_all(void)
{
    do {
        moves(byte() % 256 == 255);
        compare();
    } while (look.want != AHCI_WANT_NOTHING);
}

/* A controller that is freed is none. */
static void is_freed(void)
{
    static const ahci_identity unnamed;
    uint8_t sector[AHCI_SECTOR_BYTES];
    uint64_t entries = 77, lba;
    uint32_t sectors;
    CHECK(ahci_hba_free(&hba) == AHCI_OK && ahci_hba_free(&hba) == AHCI_NO_PORT);
    CHECK(ahci_hba_lose_link(&hba, &entries) == AHCI_NO_PORT && ahci_hba_find_link(&hba) == AHCI_NO_PORT && ahci_hba_unplug(&hba, &entries) == AHCI_NO_PORT);
    CHECK(ahci_hba_end(&hba, 0, 0x61, 0, 0) == AHCI_NO_PORT && ahci_hba_sign_as(&hba, 1) == AHCI_NO_PORT && ahci_hba_spoiled(&hba) == AHCI_NO_PORT);
    CHECK(ahci_hba_receive_bits(&hba, 1) == AHCI_NO_PORT && ahci_hba_receive_register(&hba) == AHCI_NO_PORT);
    CHECK(ahci_hba_receive_unknown(&hba, sector, 4) == AHCI_NO_PORT);
    CHECK(ahci_hba_trim_zeros(&hba, 1) == AHCI_NO_PORT && ahci_hba_trim_range(&hba, 0, &lba, &sectors) == AHCI_NO_PORT);
    CHECK(ahci_hba_plug_other(&hba, sector, sizeof sector, 1, 32, &unnamed, &entries) == AHCI_NO_PORT && entries == 77);
    CHECK(ahci_hba_plug(&hba) == AHCI_NO_PORT && ahci_hba_fail_interface(&hba, AHCI_INTERFACE_CRC, 1) == AHCI_NO_PORT && entries == 77);
}

/* One thing that comes. A calm run has mostly those that get commands done. */
static void goes_on(bool is_calm)
{
    static void (*const calm[])(void) = { command, command, command, command, step_any, step_any, step_any, step_any, step_any, step_any, step_any, step_any,
        move_all, move_all, move_all, move_all, move_all, move_one, sign, sign, restart_if_halted, restart_if_halted, lose_power };
    static void (*const others[])(void) = { move_one, step_this, fail, refuse, end, send, restart, reset, power_cycle, write_any, read_any, trim, scribble, pause, event, event };
    const uint32_t calm_ones = sizeof calm / sizeof *calm, pick = byte() % (calm_ones + sizeof others / sizeof *others);
    if (pick < calm_ones || (is_calm && byte() % 8))
        calm[pick % calm_ones]();
    else
        others[pick - calm_ones]();
}

int LLVMFuzzerTestOneInput(const uint8_t *bytes, size_t count);
int LLVMFuzzerTestOneInput(const uint8_t *bytes, size_t count)
{
    uint8_t sector[AHCI_SECTOR_BYTES];
    input = bytes;
    left = count;
    can = capabilities();
    depth = byte() % 2 ? 32 : 1 + byte() % 32;
    const bool is_calm = byte() % 2;
    is_about_trim = byte() % 2;
    has_logged = false;
    begin();
    follow(0); /* a journal begins */
    set_trim();
    if (byte() % 16)
        start();
    while (left) {
        compare();
        goes_on(is_calm);
        if (is_lost()) {
            compare();
            try_link();
            get_back();
        }
    }
    compare();
    compare_image();
    CHECK(ahci_hba_copy(&hba, has, sector, sizeof sector) == AHCI_NO_SUCH_SECTOR && ahci_hba_copy(&hba, 0, sector, 511) == AHCI_WRONG_LENGTH);
    is_freed();
    return 0;
}

#ifndef LIBFUZZER
#define ENOUGH 1000ul /* runs in which all comes that is counted */

static void prints_counts(unsigned long runs)
{
    printf("%lu runs of a controller, with %lu commands done, %lu dropped, %lu trims of the journal, and the port halted %lu times: the shadow has seen no difference\n", runs,
        counted.done, counted.dropped, counted.trims, counted.halts);
    printf("of them %lu blocks by PIO, of which %lu had several sectors, %lu reads that spilled, %lu writes that were stuck, %lu failures behind the first sector, ", counted.blocks,
        counted.long_blocks, counted.spilled, counted.stuck, counted.partial);
    printf("%lu tags past the depth, and %lu times in Sleep\n", counted.deep, counted.slept);
    printf("the link was lost %lu times, and COMINIT came %lu times; the disk was pulled out %lu times, and the driver then tried the link %lu times; ", counted.lost, counted.found,
        counted.pulled, counted.tries);
    printf("and %lu errors of the interface\n", counted.broken);
    printf("%lu times another disk was plugged in\n", counted.other);
    printf("and the disk took data that are no sectors %lu times; %lu answers and blocks ended entries with I\n", counted.stored, counted.told);
    printf("logs of the host's were written %lu times, and %lu pages were read that it had written\n", counted.logged, counted.reread);
    printf("%lu sectors were marked uncorrectable, %lu reads failed at one, and %lu were written again or became zeros\n", counted.spoiled, counted.unread, counted.mended);
    printf("%lu ranges of a TRIM became zeros, %lu of them in a second block, and %lu with sectors that the same command had made zeros before\n", counted.zeroed, counted.far,
        counted.overlapped);
    printf("%lu TRIMs ended behind several such ranges, %lu were cut off behind some, %lu had sectors past the end, and %lu only advised\n", counted.several, counted.cut,
        counted.outside, counted.advised);
    printf("%lu times such a range ended Standby; ", counted.woken);
    printf("%lu steps lacked memory, %lu of which make sectors zeros\n", counted.lacked, counted.lacked_zeros);
    printf("after a loss of power a sector might have had some bytes %lu times, and %lu times not\n", counted.left, counted.lost_bytes);
    printf("%lu commands came under queued ones and aborted them, and %lu queued ones failed with ICRC\n", counted.mixed, counted.icrc);
    printf("%lu commands ended with another status, %lu signatures were not a disk's, and %lu FISes came that no command asks for\n", counted.ended, counted.foreign, counted.unasked);
    fflush(stdout);
}

/* Bytes by a generator of 64 bits (xorshift), which begins anew with each run. */
static void run_bytes(unsigned long run)
{
    static uint8_t bytes[2000];
    uint64_t state = 88172645463325252 + run * 0x9E3779B97F4A7C15;
    for (size_t i = 0; i < sizeof bytes; i++) {
        state ^= state << 13;
        state ^= state >> 7;
        state ^= state << 17;
        bytes[i] = (uint8_t)(state >> 32);
    }
    if (getenv("HBA_RANDOM_RUN"))
        fprintf(stderr, "run %lu\n", run);
    LLVMFuzzerTestOneInput(bytes, sizeof bytes);
}

int main(int count, char **arguments)
{
    const unsigned long runs = count > 1 ? strtoul(arguments[1], NULL, 10) : 1000, first_run = count > 2 ? strtoul(arguments[2], NULL, 10) : 0;
    const unsigned long *each = (const unsigned long *)&counted;
    for (unsigned long run = first_run; run < first_run + runs; run++)
        run_bytes(run);
    prints_counts(runs);
    for (size_t i = 0; runs >= ENOUGH && i < sizeof counted / sizeof *each; i++)
        CHECK(each[i] != 0);
    return 0;
}
#endif
