#include "ram_part.h"
#include <string.h>

static uint8_t places[RAM_PLACES][IPL_SECTORS][IPL_SECTOR];
static int writes_left; /* 0: the power stays on; -1: it is off */

void ram_part_blank(void) { memset(places, 0xFF, sizeof places); }
void ram_part_cut_after(int writes) { writes_left = writes; }
void ram_part_rot(uint32_t place, uint32_t sector) { places[place][sector][100] ^= 1; }

static int is_on(void) {
    if (writes_left > 0 && --writes_left == 0) writes_left = -1;
    return writes_left >= 0;
}

static int ram_read(void *context, uint32_t place, uint32_t sector, uint8_t *into) {
    (void)context;
    if (writes_left < 0) return IPL_NAND_FAILED;
    memcpy(into, places[place][sector], IPL_SECTOR);
    return IPL_NAND_DONE;
}

static int ram_program(void *context, uint32_t place, uint32_t sector, const uint8_t *from) {
    (void)context;
    if (!is_on()) return IPL_NAND_FAILED;
    memcpy(places[place][sector], from, IPL_SECTOR);
    return IPL_NAND_DONE;
}

static int ram_erase(void *context, uint32_t place) {
    (void)context;
    if (!is_on()) return IPL_NAND_FAILED;
    memset(places[place], 0xFF, sizeof places[place]);
    return IPL_NAND_DONE;
}

static int ram_barrier(void *context) {
    (void)context;
    return is_on() ? IPL_NAND_DONE : IPL_NAND_FAILED;
}

const struct ipl_driver ram_part = {NULL, ram_read, ram_program, ram_erase, ram_barrier};
