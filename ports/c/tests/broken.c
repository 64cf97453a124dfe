/* Drivers that break one law each, over a part of their own in memory: driver_test.c has to name that
 * law, and to program no sector twice. With -DFAULT=.. this is one of them for driver_main.c. */
#include "../driver_test.h"
#include <stdio.h>
#include <stdlib.h>
#include <string.h>

enum { PLACES = 9, SECTORS = IPL_SECTORS, SECTOR = IPL_SECTOR };

enum fault {
    NOTHING, ERASE_CLEARS_THE_NEXT, ERASE_CLEARS_THE_NEXT_BUT_ONE, ERASE_CLEARS_THE_LAST_BUT_ONE,
    ERASE_LEAVES_A_SECTOR, ERASE_IS_NOT_DONE,
    WORN_AT_ONCE, WORN_AT_ONCE_CLEARS, WORN_LATER_CLEARS, WORN_ALL_OVER, PROGRAM_HITS_THE_NEXT,
    PROGRAM_LOSES_A_BIT, PROGRAM_CHANGES_ITS_SOURCE, READ_IS_STALE, READ_IS_STALE_AFTER_ERASE,
    READ_IS_OF_A_PAGE_OF_ANY_PLACE, READ_DISTURBS, READ_DOES_NOTHING, READ_WRITES_MORE,
    READ_WANTS_ALIGNED_BYTES, PLACES_MODULO_4, PLACES_MODULO_8, FALLING_ORDER_SWAPS, BARRIER_FAILS,
    /* at a power cut */
    LAST_PROGRAMS_ARE_LOST, PAGE_IS_TORN, BLANK_SECTOR_IS_TORN, NEXT_PLACE_IS_TORN,
    OLD_PLACE_COMES_BACK, TORN_SECTOR_FAILS, TORN_SECTOR_VARIES
};

#ifdef FAULT
static const enum fault fault = FAULT;
#else
static enum fault fault;
#endif
static uint8_t bytes[PLACES][SECTORS][SECTOR], used[PLACES][SECTORS];
static uint8_t before_erase[2][SECTORS][SECTOR]; /* of this place, and of the one that was erased before */
static uint32_t erased[2], erases, barriers, last_sector, lasts[2];
static uint32_t reads_of[PLACES][SECTORS];
static uint8_t page[4][SECTOR]; /* what a driver keeps that forgets that it is stale */
static uint32_t page_of = UINT32_MAX;
static uint64_t until_cut; /* the power goes in this write from now on; 0: it stays on */
static uint8_t *torn; /* what it tore */
static int is_off;

static uint32_t wired(uint32_t place) {
    return fault == PLACES_MODULO_4 ? place % 4 : fault == PLACES_MODULO_8 ? place % 8 : place;
}

static uint32_t key_of(uint32_t place, uint32_t sector) {
    return sector / 4 + (fault == READ_IS_OF_A_PAGE_OF_ANY_PLACE ? 0 : place * SECTORS);
}

static int broken_read(void *context, uint32_t place, uint32_t sector, uint8_t *into) {
    (void)context;
    if (is_off) return IPL_NAND_FAILED;
    place = wired(place);
    if (fault == TORN_SECTOR_FAILS && torn == bytes[place][sector]) return IPL_NAND_FAILED;
    if (fault == TORN_SECTOR_VARIES && torn == bytes[place][sector]) {
        torn[100]++;
        page_of = UINT32_MAX;
    }
    if (page_of != key_of(place, sector)) memcpy(page, bytes[place][sector & ~3u], sizeof page);
    page_of = key_of(place, sector);
    if (fault == READ_DISTURBS && ++reads_of[place][sector] == 100) bytes[place][sector ^ 1][7] ^= 16;
    if (fault == READ_DOES_NOTHING) return IPL_NAND_DONE;
    if (fault == READ_WANTS_ALIGNED_BYTES) into -= (uintptr_t)into % 4;
    memcpy(into, fault == READ_DISTURBS ? bytes[place][sector] : page[sector % 4], SECTOR);
    if (fault == READ_WRITES_MORE) into[SECTOR] = 0;
    return IPL_NAND_DONE;
}

/* Whether the power goes in this write, of this sector. */
static int is_cut(uint32_t place, uint32_t sector) {
    if (until_cut == 0 || --until_cut != 0) return 0;
    torn = bytes[place][sector];
    memset(torn + 100, 0x33, 200);
    if (fault == LAST_PROGRAMS_ARE_LOST)
        for (int i = 0; i < 2; i++) memset(bytes[lasts[i] / SECTORS][lasts[i] % SECTORS], 0xFF, SECTOR);
    if (fault == PAGE_IS_TORN) bytes[place][sector ^ 2][0] ^= 1;
    if (fault == BLANK_SECTOR_IS_TORN) bytes[place][sector ^ 1][0] ^= 1;
    if (fault == NEXT_PLACE_IS_TORN) bytes[(place + 1) % PLACES][sector][0] ^= 1;
    if (fault == OLD_PLACE_COMES_BACK) memcpy(bytes[erased[1]], before_erase[1], sizeof bytes[0]);
    is_off = 1;
    return 1;
}

static int broken_program(void *context, uint32_t place, uint32_t sector, const uint8_t *from) {
    (void)context;
    place = wired(place);
    if (is_off) return IPL_NAND_FAILED;
    if (used[place][sector]) {
        fprintf(stderr, "broken: a second program of a sector\n");
        abort();
    }
    if (fault == FALLING_ORDER_SWAPS && last_sector == sector + 1) sector ^= 2;
    last_sector = sector;
    used[place][sector] = 1;
    if (fault != READ_IS_STALE) page_of = UINT32_MAX;
    memcpy(bytes[place][sector], from, SECTOR);
    if (fault == PROGRAM_HITS_THE_NEXT) memcpy(bytes[place][(sector + 1) % SECTORS], from, SECTOR);
    if (fault == PROGRAM_LOSES_A_BIT && sector == 200) bytes[place][sector][300] &= 0x7F;
    if (fault == PROGRAM_CHANGES_ITS_SOURCE) ((uint8_t *)(uintptr_t)from)[17] ^= 1;
    if (is_cut(place, sector)) return IPL_NAND_FAILED;
    lasts[1] = lasts[0];
    lasts[0] = place * SECTORS + sector;
    return IPL_NAND_DONE;
}

static int is_worn(uint32_t place) {
    switch (fault) {
    case WORN_AT_ONCE: case WORN_AT_ONCE_CLEARS: return place == 3;
    case WORN_LATER_CLEARS: return place == 3 && erases > PLACES;
    case WORN_ALL_OVER: return 1;
    default: return 0;
    }
}

static int broken_erase(void *context, uint32_t place) {
    (void)context;
    if (is_off) return IPL_NAND_FAILED;
    place = wired(place);
    erases++;
    int worn = is_worn(place);
    if (worn && fault != WORN_AT_ONCE_CLEARS && fault != WORN_LATER_CLEARS) return IPL_NAND_WORN;
    if (fault != READ_IS_STALE_AFTER_ERASE) page_of = UINT32_MAX;
    memcpy(before_erase[1], before_erase[0], sizeof before_erase[0]);
    memcpy(before_erase[0], bytes[place], sizeof before_erase[0]);
    erased[1] = erased[0];
    erased[0] = place;
    if (fault == ERASE_IS_NOT_DONE && place == 5) return IPL_NAND_DONE;
    memset(bytes[place], 0xFF, sizeof bytes[place]);
    memset(used[place], worn, sizeof used[place]);
    if (fault == ERASE_LEAVES_A_SECTOR) memset(bytes[place][255], 0xA5, SECTOR);
    if (fault == ERASE_CLEARS_THE_NEXT) memset(bytes[(place + 1) % PLACES], 0xFF, sizeof bytes[place]);
    if (fault == ERASE_CLEARS_THE_NEXT_BUT_ONE && place + 2 < PLACES)
        memset(bytes[place + 2], 0xFF, sizeof bytes[place]);
    if (fault == ERASE_CLEARS_THE_LAST_BUT_ONE && place >= 2)
        memset(bytes[place - 2], 0xFF, sizeof bytes[place]);
    if (is_cut(place, 0)) return IPL_NAND_FAILED;
    return worn ? IPL_NAND_WORN : IPL_NAND_DONE;
}

static int broken_barrier(void *context) {
    (void)context;
    if (is_off || (fault == BARRIER_FAILS && ++barriers == 30)) return IPL_NAND_FAILED;
    return IPL_NAND_DONE;
}

static const struct ipl_driver driver = {NULL, broken_read, broken_program, broken_erase, broken_barrier};

#ifdef FAULT

const struct ipl_driver *ipl_driver_to_try(uint32_t part) { return part == 0 ? &driver : NULL; }

#else

static void new_part(enum fault of_it) {
    fault = of_it;
    memset(bytes, 0xA5, sizeof bytes);
    memset(used, 1, sizeof used);
    memset(reads_of, 0, sizeof reads_of);
    page_of = UINT32_MAX;
    erases = barriers = last_sector = 0;
    torn = NULL;
}

static const struct { enum fault fault; enum ipl_driver_law law; const char *name; } tries[] = {
    {NOTHING, IPL_LAWS_HOLD, "nothing"},
    {ERASE_CLEARS_THE_NEXT, IPL_LAW_ERASE_ALONE, "an erase clears the next place"},
    {ERASE_CLEARS_THE_NEXT_BUT_ONE, IPL_LAW_ERASE_ALONE, "an erase clears the next place but one"},
    {ERASE_CLEARS_THE_LAST_BUT_ONE, IPL_LAW_ERASE_ALONE, "an erase clears the last place but one"},
    {ERASE_LEAVES_A_SECTOR, IPL_LAW_ERASED, "an erase leaves a sector"},
    {ERASE_IS_NOT_DONE, IPL_LAW_ERASED, "an erase that isn't done"},
    {WORN_AT_ONCE, IPL_LAWS_HOLD, "a worn place"},
    {WORN_AT_ONCE_CLEARS, IPL_LAW_WORN_KEEPS, "a worn place that is cleared"},
    {WORN_LATER_CLEARS, IPL_LAW_WORN_KEEPS, "a place that is cleared as it wears out"},
    {WORN_ALL_OVER, IPL_LAW_WORN_FEW, "each erase answers worn"},
    {PROGRAM_HITS_THE_NEXT, IPL_LAW_PROGRAM_ALONE, "a program hits the next sector"},
    {PROGRAM_LOSES_A_BIT, IPL_LAW_READ_BACK, "a program loses a bit"},
    {PROGRAM_CHANGES_ITS_SOURCE, IPL_LAW_LENT, "a program changes its source"},
    {READ_IS_STALE, IPL_LAW_READ_BACK, "a page in memory is stale after a program"},
    {READ_IS_STALE_AFTER_ERASE, IPL_LAW_ERASED, "a page in memory is stale after an erase"},
    {READ_IS_OF_A_PAGE_OF_ANY_PLACE, IPL_LAW_PROGRAM_ALONE, "a page in memory is taken for another place's"},
    {READ_DISTURBS, IPL_LAW_READ_KEEPS, "the hundredth read of a sector disturbs another"},
    {READ_DOES_NOTHING, IPL_LAW_ERASED, "a read does nothing"},
    {READ_WRITES_MORE, IPL_LAW_LENT, "a read writes 513 bytes"},
    {READ_WANTS_ALIGNED_BYTES, IPL_LAW_LENT, "a read wants bytes at a multiple of 4"},
    {PLACES_MODULO_4, IPL_LAW_PROGRAM_ALONE, "places modulo 4"},
    {PLACES_MODULO_8, IPL_LAW_PROGRAM_ALONE, "places modulo 8"},
    {FALLING_ORDER_SWAPS, IPL_LAW_READ_BACK, "sectors are swapped where they fall"},
    {BARRIER_FAILS, IPL_LAW_BARRIER_PASSES, "a barrier fails"},
};

/* At a power cut, with the number that was noted last, or without. */
static const struct { enum fault fault; int knows; enum ipl_driver_law law; const char *name; } at_cuts[] = {
    {NOTHING, 1, IPL_LAWS_HOLD, "nothing at a cut"},
    {NOTHING, 0, IPL_LAWS_HOLD, "nothing at a cut, and no number"},
    {LAST_PROGRAMS_ARE_LOST, 1, IPL_LAW_LASTS, "the last programs are lost"},
    {PAGE_IS_TORN, 1, IPL_LAW_LASTS, "another sector of the page is torn"},
    {BLANK_SECTOR_IS_TORN, 1, IPL_LAW_LASTS, "a blank sector is torn"},
    {NEXT_PLACE_IS_TORN, 1, IPL_LAW_LASTS, "the next place is torn"},
    {NEXT_PLACE_IS_TORN, 0, IPL_LAW_LASTS, "the next place is torn, and no number"},
    {OLD_PLACE_COMES_BACK, 1, IPL_LAW_LASTS, "what a place held before its erase comes back"},
    {OLD_PLACE_COMES_BACK, 0, IPL_LAW_LASTS, "what a place held before comes back, and no number"},
    {TORN_SECTOR_FAILS, 1, IPL_LAW_READ_PASSES, "a torn sector can't be read"},
    {TORN_SECTOR_VARIES, 1, IPL_LAW_TORN_STAYS, "a torn sector varies"},
};

static uint64_t noted;

static void keep_number(uint64_t number) { noted = number; }

static void must(int holds, const char *name, const struct ipl_driver_result *r) {
    if (holds) return;
    fprintf(stderr, "broken: %s: where %s: %s, at place %u, sector %u\n", name, r->round,
            ipl_driver_law_text(r->law), r->place, r->sector);
    exit(1);
}

static void try_driver(size_t i) {
    struct ipl_driver_result r;
    new_part(tries[i].fault);
    ipl_driver_test(&driver, PLACES, 7, &r);
    must(r.law == tries[i].law, tries[i].name, &r);
    if (tries[i].fault == WORN_AT_ONCE) must(r.worn == 1, "how many are worn", &r);
    if (tries[i].fault == PROGRAM_HITS_THE_NEXT) must(r.programs == 2, "that it is told at once", &r);
}

/* The power goes in a program of the third place. */
static void try_cut(size_t i) {
    struct ipl_driver_result r;
    new_part(NOTHING);
    must(ipl_driver_test(&driver, PLACES, 7, &r) == IPL_LAWS_HOLD, "before the cut", &r);
    fault = at_cuts[i].fault;
    until_cut = 700;
    ipl_driver_cut_test(&driver, PLACES, 7, UINT32_MAX, 0, keep_number, &r);
    must(is_off && r.law == IPL_LAW_PROGRAM_PASSES, "the cut", &r);
    is_off = 0;
    ipl_driver_cut_test(&driver, PLACES, 7, 0, at_cuts[i].knows ? noted : 0, NULL, &r);
    must(r.law == at_cuts[i].law, at_cuts[i].name, &r);
}

/* A number is known only where what it stands for is there. */
static void try_number(void) {
    struct ipl_driver_result r;
    new_part(NOTHING);
    ipl_driver_test(&driver, PLACES, 7, &r);
    ipl_driver_cut_test(&driver, PLACES, 7, 1, 0, keep_number, &r);
    must(ipl_driver_cut_test(&driver, PLACES, 7, 0, noted, NULL, &r) == IPL_LAWS_HOLD, "the number noted", &r);
    noted += PLACES * (SECTORS + 1);
    must(ipl_driver_cut_test(&driver, PLACES, 7, 0, noted, NULL, &r) == IPL_LAW_LASTS, "a later one", &r);
}

int main(void) {
    size_t laws = sizeof tries / sizeof *tries, cuts = sizeof at_cuts / sizeof *at_cuts;
    for (size_t i = 0; i < laws; i++) try_driver(i);
    for (size_t i = 0; i < cuts; i++) try_cut(i);
    try_number();
    printf("broken: %zu drivers and %zu power cuts, each told by the law that it breaks, or keeps\n", laws, cuts);
    return 0;
}
#endif
