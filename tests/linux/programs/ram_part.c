/* The part of ports/c/examples over a chip of words, which the variable CHIP has: power cuts and turned bits are made above it. */
#include "ram_part.h"
#include "chip.h"
#include <stdio.h>
#include <stdlib.h>

static struct chip chip;
static uint8_t turned[RAM_PLACES][IPL_SECTORS];
static int writes_left; /* 0: the power stays on; -1: it is off */

static const struct ipl_driver *below(void) {
    struct ipl_mtd_options options = IPL_MTD_OPTIONS;
    const char *why, *word = getenv("CHIP");
    options.places = RAM_PLACES;
    if (chip.places == 0 && !chip_open(&chip, word != NULL ? word : "", &options, &why)) {
        printf("%s\n", why);
        exit(1);
    }
    return chip_driver(&chip);
}

void ram_part_blank(void) {
    for (uint32_t place = 0; place < RAM_PLACES; place++)
        if (below()->erase(below()->context, place) != IPL_NAND_DONE) exit(1);
}
void ram_part_cut_after(int writes) { writes_left = writes; }
void ram_part_rot(uint32_t place, uint32_t sector) { turned[place][sector] ^= 1; }

static int is_on(void) {
    if (writes_left > 0 && --writes_left == 0) writes_left = -1;
    return writes_left >= 0;
}

static int read_sector(void *context, uint32_t place, uint32_t sector, uint8_t *into) {
    (void)context;
    if (writes_left < 0) return IPL_NAND_FAILED;
    int answer = below()->read(below()->context, place, sector, into);
    into[100] ^= turned[place][sector];
    return answer;
}

static int program_sector(void *context, uint32_t place, uint32_t sector, const uint8_t *from) {
    (void)context;
    return is_on() ? below()->program(below()->context, place, sector, from) : IPL_NAND_FAILED;
}

static int erase_place(void *context, uint32_t place) {
    (void)context;
    return is_on() ? below()->erase(below()->context, place) : IPL_NAND_FAILED;
}

static int wait_for_writes(void *context) {
    (void)context;
    return is_on() ? below()->barrier(below()->context) : IPL_NAND_FAILED;
}

const struct ipl_driver ram_part = {NULL, read_sector, program_sector, erase_place, wait_for_writes};
