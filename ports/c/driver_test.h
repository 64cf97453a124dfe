/* driver_test.h: tries the four functions of a driver by what ipl.h asks of them.
 *
 * It DESTROYS ALL THAT THE PART HOLDS. Link driver_test.c with the driver: it wants nothing of the
 * store, no heap, no stdio, and of the C library memset alone; it has 9,344 bytes of memory of
 * its own, for one test at a time. driver_main.c makes a program of it that prints what it found.
 */
#ifndef IPL_DRIVER_TEST_H
#define IPL_DRIVER_TEST_H

#include "ipl.h"

#ifdef __cplusplus
extern "C" {
#endif

/* The first law that was found not to hold. */
enum ipl_driver_law {
    IPL_LAWS_HOLD = 0,
    IPL_LAW_PLACES,         /* asked for: not 5 to 1,028 places */
    IPL_LAW_READ_PASSES,    /* a read was answered other than 0, also of what a power cut tore */
    IPL_LAW_PROGRAM_PASSES, /* so was a program */
    IPL_LAW_ERASE_PASSES,   /* an erase was answered other than 0 and 1 */
    IPL_LAW_BARRIER_PASSES, /* a barrier was answered other than 0 */
    IPL_LAW_LENT,           /* a read wrote beside the 512 bytes, or a program to them */
    IPL_LAW_ERASED,         /* a place that was erased reads as other than FF */
    IPL_LAW_ERASE_ALONE,    /* an erase changed another place */
    IPL_LAW_WORN_KEEPS,     /* a worn place doesn't hold what it held */
    IPL_LAW_WORN_FEW,       /* more places are worn than can be spare, or all */
    IPL_LAW_READ_BACK,      /* a sector doesn't read as it was programmed */
    IPL_LAW_PROGRAM_ALONE,  /* a program changed another sector */
    IPL_LAW_READ_KEEPS,     /* reads changed a sector */
    IPL_LAW_LASTS,          /* what passed a barrier isn't there after a power cut */
    IPL_LAW_TORN_STAYS,     /* what a power cut tore reads as other bytes each time */
    IPL_DRIVER_LAWS
};

/* What stood where other bytes should be. */
enum ipl_driver_found {
    IPL_FOUND_OTHER,   /* bytes that this test never programmed as one sector */
    IPL_FOUND_BLANK,   /* bytes FF */
    IPL_FOUND_A_SECTOR /* what was programmed at found_place and found_sector, now or earlier */
};

struct ipl_driver_result {
    enum ipl_driver_law law;
    const char *round;                      /* what the test was about, in words */
    uint32_t place, sector;                 /* where; of a barrier 0 */
    int answer;                             /* what the last call of the driver answered */
    uint32_t bits;                          /* how many bits are wrong there; 0: it isn't about bits */
    enum ipl_driver_found found;            /* where bits are wrong */
    uint32_t found_place, found_sector;     /* of IPL_FOUND_A_SECTOR */
    uint32_t written_place, written_sector; /* the last program, or erase (sector 0), before that */
    uint32_t worn;                          /* so many places are worn, of which a format wants none */
    uint64_t reads, programs, erases, barriers;
};

/* Tries the laws that need no power cut, over all places: some 22 reads and two programs of each
 * sector, and two erases of each place. Answers the first law that doesn't hold. Where all hold, all
 * places but worn ones are full, as ipl_driver_cut_test wants them. */
enum ipl_driver_law ipl_driver_test(const struct ipl_driver *driver, uint32_t places, uint64_t seed,
                                    struct ipl_driver_result *result);

/* Looks at what the last run left, and then fills one place after another, `fills` of them or until the
 * power is cut, with a barrier after each program and erase. The last run was an ipl_driver_test that
 * found no place worn, with the same places and seed, or was cut; nothing else has written since.
 *
 * `note`, or NULL, is called with a number that says how far it is, when that is sure to last, and
 * returns once it has kept the number: outside the part, in a log of the bench or a register that a
 * battery feeds. Hand the last one in as `noted` after the cut: then only the sector or the place that
 * was being written may hold anything. With 0 one place may hold anything, and the others are whole and
 * in their order; a loss of the last programs isn't found then. */
enum ipl_driver_law ipl_driver_cut_test(const struct ipl_driver *driver, uint32_t places, uint64_t seed,
                                        uint32_t fills, uint64_t noted, void (*note)(uint64_t number),
                                        struct ipl_driver_result *result);

/* What driver_main.c asks for, and you write: the driver of the part of this number, or NULL. */
const struct ipl_driver *ipl_driver_to_try(uint32_t part);

/* A law in words: what doesn't hold. */
const char *ipl_driver_law_text(enum ipl_driver_law law);

#ifdef __cplusplus
}
#endif

#endif
