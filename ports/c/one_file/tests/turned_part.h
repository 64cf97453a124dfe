/* A part in memory for tests that have ipl.c within: its bytes are turned, so that calloc gives one that is erased. */
#include <stdint.h>
#include <stdio.h>
#include <stdlib.h>

enum { PLACE = IPL_SECTORS * IPL_SECTOR };

static uint8_t *part;

static int part_read(void *context, uint32_t place, uint32_t sector, uint8_t *into) {
    const uint8_t *from = part + (size_t)place * PLACE + sector * IPL_SECTOR;
    int i;
    (void)context;
    for (i = 0; i < IPL_SECTOR; i++) into[i] = (uint8_t)~from[i];
    return IPL_NAND_DONE;
}

static int part_program(void *context, uint32_t place, uint32_t sector, const uint8_t *from) {
    uint8_t *to = part + (size_t)place * PLACE + sector * IPL_SECTOR;
    int i;
    (void)context;
    for (i = 0; i < IPL_SECTOR; i++) to[i] = (uint8_t)~from[i];
    return IPL_NAND_DONE;
}

static int part_erase(void *context, uint32_t place) {
    (void)context;
    memset(part + (size_t)place * PLACE, 0, PLACE);
    return IPL_NAND_DONE;
}

static int part_barrier(void *context) {
    (void)context;
    return IPL_NAND_DONE;
}

static const struct ipl_driver driver = {NULL, part_read, part_program, part_erase, part_barrier};
