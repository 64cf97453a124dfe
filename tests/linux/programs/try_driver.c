/* The tries of ports/c/driver_test.c over a chip of words. IT DESTROYS ALL THAT THE CHIP HOLDS.
 * usage: try_driver CHIP [OPTIONS] [--lost-barriers] test SEED | cut SEED NOTED [FILLS]
 * With --lost-barriers a barrier is answered, and nothing is waited for: that has to be found by a cut. */
#include "chip.h"
#include "driver_test.h"
#include <inttypes.h>
#include <stdio.h>
#include <stdlib.h>
#include <string.h>
#include <termios.h>

/* It is out of the machine before the next write begins. */
static void note(uint64_t number) {
    printf("noted %" PRIu64 "\n", number);
    fflush(stdout);
    tcdrain(1);
}

static int lose_barrier(void *context) {
    (void)context;
    return IPL_NAND_DONE;
}

static uint64_t number_of(int argc, char **argv, int which, uint64_t otherwise) {
    return which < argc ? strtoull(argv[which], NULL, 10) : otherwise;
}

int main(int argc, char **argv) {
    struct ipl_mtd_options options = IPL_MTD_OPTIONS;
    struct ipl_driver_result r;
    struct chip chip;
    const char *why;
    int at = 2, taken;
    while (at < argc && (taken = chip_option(&options, argc - at, argv + at)) != 0) at += taken;
    int loses = at < argc && strcmp(argv[at], "--lost-barriers") == 0;
    at += loses;
    if (at >= argc) return 2;
    if (!chip_open(&chip, argv[1], &options, &why)) return printf("%s: %s\n", argv[1], why), 2;
    uint64_t seed = number_of(argc, argv, at + 1, 1);
    struct ipl_driver driver = *chip_driver(&chip);
    if (loses) driver.barrier = lose_barrier;
    if (strcmp(argv[at], "cut") == 0)
        ipl_driver_cut_test(&driver, chip.places, seed, (uint32_t)number_of(argc, argv, at + 3, UINT32_MAX),
                            number_of(argc, argv, at + 2, 0), note, &r);
    else ipl_driver_test(&driver, chip.places, seed, &r);
    printf("%s; %" PRIu32 " places, %" PRIu32 " worn\n", ipl_driver_law_text(r.law), chip.places, r.worn);
    if (r.law != IPL_LAWS_HOLD)
        printf("where %s: place %" PRIu32 ", sector %" PRIu32 ", %" PRIu32 " bits wrong; the last write was of place %" PRIu32
               ", sector %" PRIu32 "; the last answer %d\n", r.round, r.place, r.sector, r.bits, r.written_place, r.written_sector, r.answer);
    chip_tell(&chip);
    chip_close(&chip);
    return r.law != IPL_LAWS_HOLD;
}
