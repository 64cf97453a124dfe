/* A raw NAND part in memory, as ipl.h asks it of a driver, with power cuts and failures on order. */
#ifndef PART_H
#define PART_H

#include "../ipl.h"

enum { PARTS = 2, SECTORS = IPL_SECTORS, SECTOR = IPL_SECTOR };
enum part_kind { PROGRAM, ERASE, BARRIER, READ, KINDS };

/* How often a call of the part goes wrong, of 65,536. */
struct part_ills {
    uint32_t fails[KINDS];
    uint32_t wears; /* an erase answers that the place is worn, and does from then on */
    uint32_t lies;  /* a read is done, and has other bytes */
    uint32_t flips; /* a read is doubtful, and has other bits; the next one of that sector is right */
    uint32_t odd;   /* a failure is any number, and may write where a failed read may */
};

struct part_counts {
    uint64_t calls[KINDS], failed[KINDS], cuts[KINDS], lies, flips, worn;
};

/* A part with rubbish in all its places. */
void part_new(uint32_t part, uint32_t places);
/* Its driver, which is the same for good. */
const struct ipl_driver *part_driver(uint32_t part);
/* The same with bytes FF, as a part comes from its maker. */
void part_new_blank(uint32_t part, uint32_t places);
void part_free(uint32_t part);
/* What a sector holds, to be looked at and changed beside the driver. */
uint8_t *part_sector(uint32_t part, uint32_t place, uint32_t sector);
/* No place is worn any more. */
void part_mend(uint32_t part);
/* The power goes in the k-th program, erase or barrier from now on (1: the next; 0: it stays on). */
void part_cut_after(uint32_t part, uint64_t k);
/* The power is back: answers whether it had gone. */
int part_power_on(uint32_t part);
void part_set_ills(uint32_t part, struct part_ills ills);
struct part_counts part_counts(uint32_t part);
/* How often it was asked to program, to erase, or for a barrier. */
uint64_t part_writes(uint32_t part);

/* The same numbers in each run. */
uint32_t any_number(void);
uint32_t any_below(uint32_t n);
void any_begin(uint64_t seed);
#endif
