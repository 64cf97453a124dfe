/* driver_test.c over a part in memory that keeps the laws: it finds them kept, also where places wear
 * out and through power cuts, and names the call that fails. usage: driver [CUTS [SEED]] */
#include "../driver_test.h"
#include "part.h"
#include <stdio.h>
#include <stdlib.h>
#include <string.h>

enum { PLACES = 8 };

static uint64_t noted, begun; /* the last number, and the first of a run that tells of an erase */

static void must(int holds, const char *what, const struct ipl_driver_result *r) {
    if (holds) return;
    fprintf(stderr, "driver: %s: where %s: %s at place %u, sector %u\n", what, r->round,
            ipl_driver_law_text(r->law), r->place, r->sector);
    exit(1);
}

static void keep_number(uint64_t number) {
    noted = number;
    if (number % (SECTORS + 1) == 0 && begun == 0) begun = number;
}

/* A part of so many places is tried while this goes wrong. */
static struct ipl_driver_result try_part(uint32_t places, struct part_ills ills) {
    struct ipl_driver_result r;
    part_new(0, places);
    part_set_ills(0, ills);
    must(ipl_driver_test(part_driver(0), places, any_number(), &r) == r.law, "what it answers", &r);
    part_free(0);
    return r;
}

static void try_whole(void) {
    struct part_ills none;
    memset(&none, 0, sizeof none);
    for (uint32_t places = 5; places <= PLACES; places += PLACES - 5) {
        struct ipl_driver_result r = try_part(places, none);
        must(r.law == IPL_LAWS_HOLD && r.worn == 0, "a part that keeps the laws", &r);
        must(r.programs == 2u * SECTORS * places && r.erases == 2u * places, "what it asks for", &r);
    }
    struct ipl_driver_result few;
    must(ipl_driver_test(part_driver(0), 4, 1, &few) == IPL_LAW_PLACES, "four places", &few);
    must(ipl_driver_test(part_driver(0), 1029, 1, &few) == IPL_LAW_PLACES, "1,029 places", &few);
}

static uint32_t try_worn(void) {
    struct part_ills ills;
    uint32_t worn = 0;
    memset(&ills, 0, sizeof ills);
    ills.wears = 65536 / 6;
    for (int i = 0; i < 4; i++) {
        struct ipl_driver_result r = try_part(PLACES, ills);
        must(r.law == IPL_LAWS_HOLD, "worn places that hold what they held", &r);
        worn += r.worn;
    }
    ills.wears = 65536;
    struct ipl_driver_result r = try_part(PLACES, ills);
    must(r.law == IPL_LAW_WORN_FEW, "a part that is worn all over", &r);
    return worn;
}

static void try_failures(void) {
    static const enum ipl_driver_law laws[KINDS] = {
        [PROGRAM] = IPL_LAW_PROGRAM_PASSES, [ERASE] = IPL_LAW_ERASE_PASSES,
        [BARRIER] = IPL_LAW_BARRIER_PASSES, [READ] = IPL_LAW_READ_PASSES
    };
    for (int kind = 0; kind < KINDS; kind++) {
        struct part_ills ills;
        memset(&ills, 0, sizeof ills);
        ills.fails[kind] = kind == ERASE ? 16384 : 1024;
        ills.odd = 32768;
        struct ipl_driver_result r = try_part(PLACES, ills);
        must(r.law == laws[kind] && r.answer != IPL_NAND_DONE, "a call that fails", &r);
    }
}

/* Every fourth time the caller has lost the number that was noted. */
static void try_cuts(uint64_t cuts, uint64_t seed) {
    struct ipl_driver_result r;
    part_new(0, PLACES);
    must(ipl_driver_test(part_driver(0), PLACES, seed, &r) == IPL_LAWS_HOLD, "a part before its cuts", &r);
    for (uint64_t i = 0; i < cuts; i++) {
        part_cut_after(0, 1 + any_below(any_below(2) ? 5 : 3000));
        uint64_t before = any_below(4) ? noted : 0;
        begun = 0;
        ipl_driver_cut_test(part_driver(0), PLACES, seed, UINT32_MAX, before, keep_number, &r);
        must(r.law >= IPL_LAW_READ_PASSES && r.law <= IPL_LAW_BARRIER_PASSES, "a cut", &r);
        must(part_power_on(0), "the power", &r);
        must(begun == 0 || begun > before, "a serial that was used before", &r);
    }
    ipl_driver_cut_test(part_driver(0), PLACES, seed, 0, noted, NULL, &r);
    must(r.law == IPL_LAWS_HOLD, "what the last cut left", &r);
    part_free(0);
}

int main(int argc, char **argv) {
    uint64_t cuts = argc > 1 ? strtoull(argv[1], NULL, 10) : 300;
    uint64_t seed = argc > 2 ? strtoull(argv[2], NULL, 10) : 1;
    any_begin(seed);
    try_whole();
    uint32_t worn = try_worn();
    try_failures();
    try_cuts(cuts, seed);
    printf("driver: keeps the laws on 5 and 8 places, with %u worn ones, and through %llu power cuts\n", worn,
           (unsigned long long)cuts);
    return 0;
}
