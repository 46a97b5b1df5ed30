/* A program that doesn't note which pages of the image become zeros, for the check that has to find that. The program is linked with it by --wrap. */
#include "mapped.h"

void __wrap_mapped_zeroed(struct mapped *mapped, uint32_t lba, uint32_t sectors);

void __wrap_mapped_zeroed(struct mapped *mapped, uint32_t lba, uint32_t sectors) {
    (void)mapped;
    (void)lba;
    (void)sectors;
}
