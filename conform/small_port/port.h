/* A small AHCI port with one disk, as an emulator's author might write it. The disk's requests wait until they are completed or fail. */
#ifndef SMALL_PORT_H
#define SMALL_PORT_H

#include <stdbool.h>
#include <stdint.h>

#define SECTOR 512u

void port_start(uint32_t sectors, uint32_t depth);

/* Words of 32 bits at an offset from ABAR. */
uint32_t port_read(uint32_t offset);
void port_write(uint32_t offset, uint32_t value);

/* Lets the disk do the waiting requests of these tags, and completes them by one Set Device Bits FIS. */
bool port_complete(const uint8_t *tags, uint32_t count);
bool port_fail(uint32_t tag, uint8_t error, uint64_t lba);

/* The bytes of the guest's memory and of the disk, or NULL if there are none at this place. */
uint8_t *port_memory(uint64_t address, uint64_t length);
uint8_t *port_sectors(uint64_t lba, uint64_t count);

#endif
