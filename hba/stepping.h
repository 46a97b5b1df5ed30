/* One step with the command of a slot, and what it means for the image, the cache, the record and the judge. */
#ifndef AHCI_HBA_STEPPING_H
#define AHCI_HBA_STEPPING_H

#include <stdbool.h>
#include <stdint.h>

struct device;

/* Sectors of the disk. */
struct extent {
    uint32_t lba, sectors;
};

/* Looks at which sectors the next step of each slot's command makes zeros (`zeros` of the device). */
void step_look(struct device *device);

/* Whether the next step of a slot's command answers it. */
bool step_answers(const struct device *device, uint32_t slot);

/* Takes the next step with a slot's command. Without memory for it the device waits, and it can be taken again. */
void step_take(struct device *device, uint32_t slot);

#endif
