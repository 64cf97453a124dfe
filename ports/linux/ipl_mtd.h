/* ipl_mtd.h: a driver of ipl.h over a part of Linux's MTD layer, /dev/mtdN.
 *
 * The places are made of the part's good blocks in their order, by the kernel's marks. So nothing may mark a block of
 * the part bad or good once it is formatted: places behind it would be others. A part of up to 4 GiB less a block.
 */
#ifndef IPL_MTD_H
#define IPL_MTD_H

#include "ipl.h"

/* How a place's 256 sectors stand in blocks, here of 64 pages of 2,048 bytes. A data sheet says what a part allows; the
 * kernel says only whether it programs less than a page (`subpagesize`). */
enum ipl_mtd_mapping {
    /* IPL_MTD_RISING_PAGES where the part is NAND, else IPL_MTD_QUARTERS, since bytes of NOR flash and of memory are
     * written one by one. */
    IPL_MTD_SAFE,
    /* A sector to a page, and the header in a block of its own: 5 blocks a place. Each page is programmed once, the
     * pages of a block in rising order, some of them left out, and a power cut in a program can harm no sector but that
     * one. Lawful on each part of single-level cells that lets pages be left out. */
    IPL_MTD_RISING_PAGES,
    /* A sector to a page: 4 blocks a place. Each page is programmed once; a header is behind its pages' programs and
     * stands below them, so that the order of pages isn't rising. */
    IPL_MTD_PAGES,
    /* A sector to a quarter of a page, and the header in a block of its own: 2 blocks a place. Rising, and up to four
     * partial programs a page; so not where a power cut in a program may harm the rest of its page. */
    IPL_MTD_RISING_QUARTERS,
    /* A sector to a quarter: a block a place. As the last, and the order isn't rising. */
    IPL_MTD_QUARTERS
};

/* What is answered of an erase that failed. Linux says that it failed, and not what the block holds then. */
enum ipl_mtd_erases {
    /* Worn: what the place held was read before, and is what reads show until the part is closed: 131,072 bytes of
     * memory for each such place. A place of which a program failed since the opening is worn too, and isn't erased. */
    IPL_MTD_KEEPS,
    /* Failed, and the store is down. No place is read before its erase, and no memory is taken. */
    IPL_MTD_FAILS
};

struct ipl_mtd_options {
    enum ipl_mtd_mapping mapping;
    enum ipl_mtd_erases erases;
    uint32_t places;  /* 5 to 1,028; 0: as many as the good blocks make, 1,028 at most */
    uint32_t retries; /* so often a sector is read again that the ECC couldn't mend */
    int joins;        /* programs of one page, one right behind the other, are held up to a barrier and made one */
    const char *sync; /* a device that a barrier syncs besides, or NULL: below block2mtd, if its name doesn't say it */
};
#define IPL_MTD_OPTIONS { IPL_MTD_SAFE, IPL_MTD_KEEPS, 0, 3, 1, NULL }

struct ipl_mtd_facts {
    uint32_t places, blocks_a_place, bad_blocks;
    enum ipl_mtd_mapping mapping;                       /* as it was chosen */
    uint64_t reads, programs, erases, barriers;         /* what was asked of the driver */
    uint64_t part_programs;                             /* of pages or parts of them: fewer, where programs are joined */
    uint64_t corrected, unmended;                       /* bits and ECC steps since the opening, as the kernel counts */
    uint64_t read_again, failed_reads, failed_programs, failed_erases;
    uint32_t worn;                                      /* so many places are kept in memory */
};

struct ipl_mtd;

/* Opens the part at PATH for one store. `options` may be NULL, for IPL_MTD_OPTIONS. NULL: nothing is open, and *why says
 * why, in words. The part is locked (flock) against others that open it so, and is written to by nothing but the driver.
 * One that the kernel lets nobody write is opened to be read: each program and each erase of it fails then. */
struct ipl_mtd *ipl_mtd_open(const char *path, const struct ipl_mtd_options *options, const char **why);
/* Its driver, for as long as it is open. */
const struct ipl_driver *ipl_mtd_driver(struct ipl_mtd *part);
struct ipl_mtd_facts ipl_mtd_facts(struct ipl_mtd *part);
/* The first block of a place, as /dev/mtdN counts them. */
uint32_t ipl_mtd_block(const struct ipl_mtd *part, uint32_t place);
/* What is held is dropped, as by a power cut: close the store first. */
void ipl_mtd_close(struct ipl_mtd *part);

#endif
