/* A part in memory, in whose stead stands the driver of yours. */
#ifndef RAM_PART_H
#define RAM_PART_H

#include "ipl.h"

enum { RAM_PLACES = 8 };

extern const struct ipl_driver ram_part;
/* It reads as a part that its maker delivers. */
void ram_part_blank(void);
/* The power goes in the last of so many programs, erases and barriers; 0: it is back, and stays. */
void ram_part_cut_after(int writes);
/* One bit of a sector turns, as by rot beyond the ECC. */
void ram_part_rot(uint32_t place, uint32_t sector);
#endif
