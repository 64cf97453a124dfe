/* ipl_ubi.h: a driver of ipl.h over a volume of UBI, /dev/ubiX_Y, which must be dynamic.
 *
 * UBI brings the ECC, bad blocks, wear levelling and scrubbing, and mends programs and erases that fail; so no place of it
 * is ever worn. It takes whole pages, in rising order within a logical block. So a sector has a page of its own, and a
 * header a logical block: six of 63 pages of 2,048 bytes are a place.
 */
#ifndef IPL_UBI_H
#define IPL_UBI_H

#include "ipl.h"

struct ipl_ubi_options {
    uint32_t places;  /* 5 to 1,028; 0: as many as the volume has room for, 1,028 at most */
    uint32_t retries; /* so often a sector is read again that the ECC couldn't mend */
    const char *sync; /* a device that a barrier syncs, or NULL: below block2mtd */
};
#define IPL_UBI_OPTIONS { 0, 3, NULL }

struct ipl_ubi_facts {
    uint32_t places, blocks_a_place, page;      /* logical blocks; bytes */
    uint64_t reads, programs, erases, barriers; /* what was asked of the driver */
    uint64_t unmended;                          /* reads in the end: UBI keeps their bytes, and zeros stand for them */
    uint64_t read_again, failed_reads, failed_programs, failed_erases;
};

struct ipl_ubi;

/* Opens the volume at PATH for one store. `options` may be NULL, for IPL_UBI_OPTIONS. NULL: nothing is open, and *why says
 * why, in words. The volume is locked (flock) against others that open it so. */
struct ipl_ubi *ipl_ubi_open(const char *path, const struct ipl_ubi_options *options, const char **why);
/* Its driver, for as long as it is open. */
const struct ipl_driver *ipl_ubi_driver(struct ipl_ubi *volume);
struct ipl_ubi_facts ipl_ubi_facts(const struct ipl_ubi *volume);
void ipl_ubi_close(struct ipl_ubi *volume);

#endif
