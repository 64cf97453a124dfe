/* chip.h: a driver by the words of a program: mtd:PATH or ubi:PATH, and options. */
#ifndef CHIP_H
#define CHIP_H

#include "ipl_mtd.h"
#include "ipl_ubi.h"

struct chip {
    struct ipl_mtd *mtd; /* one of both, or neither */
    struct ipl_ubi *ubi;
    uint32_t places;
};

/* Takes an option away: --mapping rising-pages | pages | rising-quarters | quarters, --places N, --read-again N,
 * --no-joins, --fail-erases, --sync PATH. Answers how many words it has; 0: it is none of these, or its value is none. */
int chip_option(struct ipl_mtd_options *options, int count, char *const *words);
/* 0: `why` says why it isn't open. */
int chip_open(struct chip *chip, const char *word, const struct ipl_mtd_options *options, const char **why);
const struct ipl_driver *chip_driver(const struct chip *chip);
void chip_close(struct chip *chip);
/* A line or two of what was asked and what was met, to standard error. */
void chip_tell(const struct chip *chip);

#endif
