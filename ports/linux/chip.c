#define _POSIX_C_SOURCE 200809L
#include "chip.h"
#include <inttypes.h>
#include <stdio.h>
#include <stdlib.h>
#include <string.h>

static const char *const mappings[] = {
    [IPL_MTD_SAFE] = "safe", [IPL_MTD_RISING_PAGES] = "rising-pages", [IPL_MTD_PAGES] = "pages",
    [IPL_MTD_RISING_QUARTERS] = "rising-quarters", [IPL_MTD_QUARTERS] = "quarters"
};

static int read_mapping(const char *word, enum ipl_mtd_mapping *mapping) {
    for (size_t i = 0; i < sizeof mappings / sizeof *mappings; i++)
        if (strcmp(word, mappings[i]) == 0) {
            *mapping = (enum ipl_mtd_mapping)i;
            return 1;
        }
    return 0;
}

static int read_number(const char *word, uint32_t *number) {
    char *end;
    unsigned long read = strtoul(word, &end, 10);
    *number = (uint32_t)read;
    return *word >= '0' && *word <= '9' && *end == 0 && read <= 10000;
}

int chip_option(struct ipl_mtd_options *options, int count, char *const *words) {
    if (strcmp(words[0], "--no-joins") == 0) return options->joins = 0, 1;
    if (strcmp(words[0], "--fail-erases") == 0) return options->erases = IPL_MTD_FAILS, 1;
    if (count < 2) return 0;
    if (strcmp(words[0], "--mapping") == 0) return read_mapping(words[1], &options->mapping) ? 2 : 0;
    if (strcmp(words[0], "--places") == 0) return read_number(words[1], &options->places) ? 2 : 0;
    if (strcmp(words[0], "--read-again") == 0) return read_number(words[1], &options->retries) ? 2 : 0;
    if (strcmp(words[0], "--sync") == 0) return options->sync = words[1], 2;
    return 0;
}

int chip_open(struct chip *chip, const char *word, const struct ipl_mtd_options *options, const char **why) {
    struct ipl_ubi_options of_ubi = {options->places, options->retries, options->sync};
    memset(chip, 0, sizeof *chip);
    *why = "a chip is mtd:PATH or ubi:PATH";
    if (strncmp(word, "mtd:", 4) == 0 && (chip->mtd = ipl_mtd_open(word + 4, options, why)) != NULL)
        chip->places = ipl_mtd_facts(chip->mtd).places;
    if (strncmp(word, "ubi:", 4) == 0 && (chip->ubi = ipl_ubi_open(word + 4, &of_ubi, why)) != NULL)
        chip->places = ipl_ubi_facts(chip->ubi).places;
    return chip->places != 0;
}

const struct ipl_driver *chip_driver(const struct chip *chip) {
    return chip->mtd != NULL ? ipl_mtd_driver(chip->mtd) : ipl_ubi_driver(chip->ubi);
}

void chip_close(struct chip *chip) {
    if (chip->mtd != NULL) ipl_mtd_close(chip->mtd);
    if (chip->ubi != NULL) ipl_ubi_close(chip->ubi);
    memset(chip, 0, sizeof *chip);
}

static void tell_mtd(const struct ipl_mtd_facts *f) {
    fprintf(stderr, "chip: %s, %" PRIu32 " places of %" PRIu32 " blocks, %" PRIu32 " bad; %" PRIu64 " reads, %" PRIu64 " programs in %" PRIu64
            ", %" PRIu64 " erases, %" PRIu64 " barriers\n", mappings[f->mapping], f->places, f->blocks_a_place, f->bad_blocks,
            f->reads, f->programs, f->part_programs, f->erases, f->barriers);
    fprintf(stderr, "chip: corrected %" PRIu64 ", not mended %" PRIu64 ", read again %" PRIu64 ", worn %" PRIu32 "; failed: reads %" PRIu64
            ", programs %" PRIu64 ", erases %" PRIu64 "\n", f->corrected, f->unmended, f->read_again, f->worn, f->failed_reads,
            f->failed_programs, f->failed_erases);
}

static void tell_ubi(const struct ipl_ubi_facts *f) {
    fprintf(stderr, "chip: ubi, %" PRIu32 " places of %" PRIu32 " blocks; %" PRIu64 " reads, %" PRIu64 " programs, %" PRIu64 " erases, %" PRIu64
            " barriers\n", f->places, f->blocks_a_place, f->reads, f->programs, f->erases, f->barriers);
    fprintf(stderr, "chip: not mended %" PRIu64 ", read again %" PRIu64 "; failed: reads %" PRIu64 ", programs %" PRIu64 ", erases %" PRIu64
            "\n", f->unmended, f->read_again, f->failed_reads, f->failed_programs, f->failed_erases);
}

void chip_tell(const struct chip *chip) {
    if (chip->mtd != NULL) {
        struct ipl_mtd_facts facts = ipl_mtd_facts(chip->mtd);
        tell_mtd(&facts);
    }
    if (chip->ubi != NULL) {
        struct ipl_ubi_facts facts = ipl_ubi_facts(chip->ubi);
        tell_ubi(&facts);
    }
}
