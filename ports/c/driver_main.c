/* The tries of driver_test.h as a program, over the driver that ipl_driver_to_try answers. IT DESTROYS ALL THAT
 * THE PART HOLDS. It ends with 0 where all laws hold.
 * usage: PROGRAM test PLACES [SEED [PART]]
 *        PROGRAM cut PLACES SEED PART [NOTED]: after a test that ended well. Cut the power of the part
 *        while it runs, and hand in the number that it noted last when the power is back. */
#include "driver_test.h"
#include <inttypes.h>
#include <stdio.h>
#include <stdlib.h>
#include <string.h>

static void note(uint64_t number) {
    printf("noted %" PRIu64 "\n", number);
    fflush(stdout);
}

static void print_place(const struct ipl_driver_result *r) {
    printf("driver: where %s: place %" PRIu32 ", sector %" PRIu32, r->round, r->place, r->sector);
    if (r->bits != 0) {
        printf(", of which %" PRIu32 " bits are wrong", r->bits);
        if (r->found == IPL_FOUND_BLANK) printf(": it is blank");
        if (r->found == IPL_FOUND_A_SECTOR)
            printf(": it is as place %" PRIu32 ", sector %" PRIu32 " was programmed", r->found_place,
                   r->found_sector);
    }
    printf("; the last write was of place %" PRIu32 ", sector %" PRIu32 "; the last answer %d\n",
           r->written_place, r->written_sector, r->answer);
}

static uint64_t number_of(int argc, char **argv, int which, uint64_t otherwise) {
    return which < argc ? strtoull(argv[which], NULL, 0) : otherwise;
}

int main(int argc, char **argv) {
    struct ipl_driver_result r;
    const struct ipl_driver *driver;
    int cuts = argc > 1 && strcmp(argv[1], "cut") == 0;
    uint32_t places = (uint32_t)number_of(argc, argv, 2, 0), part = (uint32_t)number_of(argc, argv, 4, 0);
    uint64_t seed = number_of(argc, argv, 3, 1);
    if (argc < 3 || (!cuts && strcmp(argv[1], "test") != 0)) {
        fprintf(stderr, "usage: %s test PLACES [SEED [PART]] | cut PLACES SEED PART [NOTED]\n", argv[0]);
        return 2;
    }
    driver = ipl_driver_to_try(part);
    if (driver == NULL) {
        fprintf(stderr, "%s: there is no part %" PRIu32 "\n", argv[0], part);
        return 2;
    }
    if (cuts) ipl_driver_cut_test(driver, places, seed, UINT32_MAX, number_of(argc, argv, 5, 0), note, &r);
    else ipl_driver_test(driver, places, seed, &r);
    printf("driver: %s; %" PRIu32 " of %" PRIu32 " places worn, %" PRIu64 " reads, %" PRIu64
           " programs, %" PRIu64 " erases, %" PRIu64 " barriers\n", ipl_driver_law_text(r.law), r.worn,
           places, r.reads, r.programs, r.erases, r.barriers);
    if (r.law != IPL_LAWS_HOLD) print_place(&r);
    return r.law != IPL_LAWS_HOLD;
}
