#define _GNU_SOURCE
#define _FILE_OFFSET_BITS 64
#include "ipl_mtd.h"
#include "place_map.h"
#include "shown.h"
#include <errno.h>
#include <fcntl.h>
#include <mtd/mtd-user.h>
#include <stdio.h>
#include <stdlib.h>
#include <string.h>
#include <sys/file.h>
#include <sys/ioctl.h>
#include <sys/stat.h>
#include <sys/sysmacros.h>
#include <unistd.h>

enum { PLACE_BYTES = IPL_SECTORS * IPL_SECTOR, MOST_PAGE = 16384 };

struct ipl_mtd {
    int fd, sync_fd, is_nand;
    char path[128];
    struct place_map map;
    uint32_t page;                       /* bytes */
    uint32_t *blocks;                    /* those of place 0, then those of place 1, .. */
    uint8_t *kept[IPL_PLACES_MOST];      /* what a worn place held */
    uint8_t has_failed[IPL_PLACES_MOST]; /* a program of it */
    /* Sectors of one page, one right behind the other, that weren't given to the part yet. */
    uint32_t held_place, held_first, held_count;
    uint8_t held[MOST_PAGE];
    uint32_t unmended; /* as the kernel counted them when it was asked last */
    struct mtd_ecc_stats at_first;
    struct ipl_mtd_options options;
    struct ipl_mtd_facts facts;
    struct ipl_driver driver;
};

/* ---- reading ------------------------------------------------------------------------------------ */

static off_t byte_of(const struct ipl_mtd *it, uint32_t place, uint32_t sector) {
    uint32_t block = it->blocks[place * it->facts.blocks_a_place + place_map_block(&it->map, sector)];
    return (off_t)block * it->map.block_bytes + place_map_byte(&it->map, sector);
}

/* Whether the kernel counted a step that its ECC couldn't mend since it was asked last. */
static int was_unmended(struct ipl_mtd *it) {
    struct mtd_ecc_stats now;
    uint32_t before = it->unmended;
    if (!it->is_nand || ioctl(it->fd, ECCGETSTATS, &now) != 0) return 0;
    it->unmended = now.failed;
    return now.failed != before;
}

/* mtdchar hands over the bytes of a page that its ECC can't mend too, so that a read which fails is another matter.
 * Such a page may read well the next time; and what it reads as in the end the store knows by its sum. */
static int read_from_part(struct ipl_mtd *it, uint32_t place, uint32_t sector, uint8_t *into) {
    for (uint32_t tries = 0;;) {
        ssize_t n = pread(it->fd, into, IPL_SECTOR, byte_of(it, place, sector));
        if (n < 0 && errno == EINTR) continue;
        if (n != IPL_SECTOR) break;
        if (!was_unmended(it) || tries++ == it->options.retries) return IPL_NAND_DONE;
        it->facts.read_again++;
    }
    it->facts.failed_reads++;
    return IPL_NAND_FAILED;
}

static int read_sector(void *context, uint32_t place, uint32_t sector, uint8_t *into) {
    struct ipl_mtd *it = context;
    it->facts.reads++;
    if (it->kept[place] != NULL) {
        memcpy(into, it->kept[place] + (size_t)sector * IPL_SECTOR, IPL_SECTOR);
        return IPL_NAND_DONE;
    }
    if (place == it->held_place && sector >= it->held_first && sector - it->held_first < it->held_count) {
        memcpy(into, it->held + (size_t)(sector - it->held_first) * IPL_SECTOR, IPL_SECTOR);
        return IPL_NAND_DONE;
    }
    return read_from_part(it, place, sector, into);
}

/* ---- programs ----------------------------------------------------------------------------------- */

/* Gives the part what is held. It is never tried again: of a program that failed nobody knows what it did. */
static int give(struct ipl_mtd *it) {
    size_t length = (size_t)it->held_count * IPL_SECTOR;
    if (length == 0) return IPL_NAND_DONE;
    if (it->map.step > length) {
        memset(it->held + length, 0xFF, it->map.step - length);
        length = it->map.step;
    }
    it->held_count = 0;
    it->facts.part_programs++;
    if (pwrite(it->fd, it->held, length, byte_of(it, it->held_place, it->held_first)) == (ssize_t)length) return IPL_NAND_DONE;
    it->facts.failed_programs++;
    it->has_failed[it->held_place] = 1;
    return IPL_NAND_FAILED;
}

static int is_next(const struct ipl_mtd *it, uint32_t place, uint32_t sector) {
    return it->held_count != 0 && place == it->held_place
           && place_map_follows(&it->map, it->held_first + it->held_count - 1, sector, it->page);
}

/* A program has to last from the next barrier on, so that it may wait up to there for its neighbours. */
static int program_sector(void *context, uint32_t place, uint32_t sector, const uint8_t *from) {
    struct ipl_mtd *it = context;
    it->facts.programs++;
    if (!is_next(it, place, sector)) {
        if (give(it) != IPL_NAND_DONE) return IPL_NAND_FAILED;
        it->held_place = place;
        it->held_first = sector;
    }
    memcpy(it->held + (size_t)it->held_count * IPL_SECTOR, from, IPL_SECTOR);
    it->held_count++;
    if (it->options.joins && sector + 1 < IPL_SECTORS && place_map_follows(&it->map, sector, sector + 1, it->page))
        return IPL_NAND_DONE;
    return give(it);
}

/* ---- erases ------------------------------------------------------------------------------------- */

/* What a place holds, or NULL where that can't be read or there is no memory. */
static uint8_t *image_of(struct ipl_mtd *it, uint32_t place) {
    uint8_t *image = malloc(PLACE_BYTES);
    for (uint32_t sector = 0; image != NULL && sector < IPL_SECTORS; sector++)
        if (read_from_part(it, place, sector, image + (size_t)sector * IPL_SECTOR) != IPL_NAND_DONE) {
            free(image);
            image = NULL;
        }
    return image;
}

static int erase_blocks(struct ipl_mtd *it, uint32_t place) {
    const uint32_t *block = it->blocks + (size_t)place * it->facts.blocks_a_place;
    for (uint32_t k = 0; k < it->facts.blocks_a_place; k++) {
        struct erase_info_user64 erased = {(uint64_t)block[k] * it->map.block_bytes, it->map.block_bytes};
        if (ioctl(it->fd, MEMERASE64, &erased) != 0) {
            it->facts.failed_erases++;
            return 0;
        }
    }
    return 1;
}

static int answer_worn(struct ipl_mtd *it, uint32_t place, uint8_t *image) {
    it->kept[place] = image;
    it->facts.worn++;
    return IPL_NAND_WORN;
}

/* A failed erase may be worn only where the part says EIO: no good block is retired since the part is write-protected. */
static int erase_place(void *context, uint32_t place) {
    struct ipl_mtd *it = context;
    uint8_t *image = NULL;
    it->facts.erases++;
    if (give(it) != IPL_NAND_DONE) return IPL_NAND_FAILED;
    if (it->kept[place] != NULL) return IPL_NAND_WORN;
    if (it->options.erases == IPL_MTD_KEEPS) image = image_of(it, place);
    if (image != NULL && it->has_failed[place]) return answer_worn(it, place, image);
    if (erase_blocks(it, place)) {
        free(image);
        return IPL_NAND_DONE;
    }
    if (image != NULL && errno == EIO) return answer_worn(it, place, image);
    free(image);
    return IPL_NAND_FAILED;
}

/* ---- barriers ----------------------------------------------------------------------------------- */

/* A write or an erase of NAND returns once the part is ready, so there is nothing to wait for. What is written to
 * another device, as below block2mtd, may stand in a cache; the kernel syncs the device where a file of it is closed,
 * and no call of its own does. */
static int wait_for_writes(void *context) {
    struct ipl_mtd *it = context;
    it->facts.barriers++;
    if (give(it) != IPL_NAND_DONE) return IPL_NAND_FAILED;
    if (!it->is_nand) {
        int second = open(it->path, O_RDWR | O_CLOEXEC);
        if (second < 0 || close(second) != 0) return IPL_NAND_FAILED;
    }
    return it->sync_fd < 0 || fdatasync(it->sync_fd) == 0 ? IPL_NAND_DONE : IPL_NAND_FAILED;
}

/* ---- opening ------------------------------------------------------------------------------------ */

/* How many bytes the kernel programs by themselves at the least. */
static uint32_t subpage_of(int fd, uint32_t page) {
    long subpage = shown_number(fd, "subpagesize");
    return subpage > 0 ? (uint32_t)subpage : page;
}

/* Chooses the mapping; or says why there is none. */
static const char *choose_map(struct ipl_mtd *it, const struct mtd_info_user *info) {
    enum ipl_mtd_mapping chosen = it->options.mapping;
    it->is_nand = info->type == MTD_NANDFLASH;
    if (info->type == MTD_MLCNANDFLASH) return "it has multi-level cells, of which a power cut may harm pages that were written before";
    if (!it->is_nand && info->type != MTD_NORFLASH && info->type != MTD_RAM) return "it is neither NAND, nor NOR, nor memory";
    if (chosen == IPL_MTD_SAFE) chosen = it->is_nand ? IPL_MTD_RISING_PAGES : IPL_MTD_QUARTERS;
    int by_pages = chosen == IPL_MTD_RISING_PAGES || chosen == IPL_MTD_PAGES;
    if (!by_pages && it->is_nand && subpage_of(it->fd, info->writesize) > IPL_SECTOR)
        return "its kernel driver programs no 512 bytes of a page by themselves: take a mapping by pages";
    it->page = info->writesize < IPL_SECTOR ? IPL_SECTOR : info->writesize;
    it->map.step = by_pages ? it->page : IPL_SECTOR;
    it->map.block_bytes = info->erasesize;
    it->map.header_apart = chosen == IPL_MTD_RISING_PAGES || chosen == IPL_MTD_RISING_QUARTERS;
    if (it->page > MOST_PAGE || it->page % IPL_SECTOR != 0 || info->erasesize % it->page != 0) return "its pages have a size that isn't served";
    it->facts.mapping = chosen;
    it->facts.blocks_a_place = place_map_blocks(&it->map);
    return NULL;
}

/* 1: bad; 0: good; -1: the kernel doesn't say. */
static int is_bad(const struct ipl_mtd *it, uint32_t block) {
    loff_t at = (loff_t)block * it->map.block_bytes;
    return it->is_nand ? ioctl(it->fd, MEMGETBADBLOCK, &at) : 0;
}

/* Makes the table of places, of as many as are wanted or as there are. */
static const char *find_places(struct ipl_mtd *it, uint32_t blocks) {
    uint32_t wanted = it->options.places != 0 ? it->options.places : IPL_PLACES_MOST, good = 0;
    it->blocks = calloc(blocks, sizeof *it->blocks);
    if (it->blocks == NULL || wanted > IPL_PLACES_MOST) return it->blocks == NULL ? "there is no memory" : "more than 1,028 places are wanted";
    for (uint32_t block = 0; block < blocks && good < wanted * it->facts.blocks_a_place; block++) {
        int bad = is_bad(it, block);
        if (bad < 0) return "the kernel doesn't say which blocks are bad";
        if (bad == 0) it->blocks[good++] = block;
        else it->facts.bad_blocks++;
    }
    it->facts.places = good / it->facts.blocks_a_place;
    if (it->facts.places < IPL_PLACES_LEAST || it->facts.places < it->options.places) return "its good blocks make too few places";
    return NULL;
}

/* The name of a part over block2mtd says its device. */
static const char *open_synced(struct ipl_mtd *it) {
    static const char before[] = "block2mtd: ";
    char name[128];
    const char *path = it->options.sync;
    if (path == NULL && shown(it->fd, "name", name, sizeof name) && strncmp(name, before, sizeof before - 1) == 0)
        path = name + sizeof before - 1;
    if (path == NULL) return NULL;
    it->sync_fd = open(path, O_RDONLY | O_CLOEXEC);
    return it->sync_fd < 0 ? "the device that is to be synced can't be opened" : NULL;
}

/* Whether UBI stands on the part, which the kernel doesn't keep from being written beside it. */
static int has_ubi(const struct ipl_mtd *it) {
    struct stat st;
    int found = 0;
    if (fstat(it->fd, &st) != 0) return 0;
    for (int device = 0; device < 32 && !found; device++) {
        char path[64];
        unsigned number;
        snprintf(path, sizeof path, "/sys/class/ubi/ubi%d/mtd_num", device);
        FILE *file = fopen(path, "r");
        if (file == NULL) continue;
        found = fscanf(file, "%u", &number) == 1 && number == minor(st.st_rdev) / 2;
        fclose(file);
    }
    return found;
}

static const char *open_part(struct ipl_mtd *it, const char *path) {
    struct mtd_info_user info;
    const char *why;
    if (strlen(path) >= sizeof it->path) return "its path is too long";
    strcpy(it->path, path);
    it->fd = open(path, O_RDWR | O_CLOEXEC);
    if (it->fd < 0 && errno == EACCES) it->fd = open(path, O_RDONLY | O_CLOEXEC);
    if (it->fd < 0) return "it can't be opened";
    if (ioctl(it->fd, MEMGETINFO, &info) != 0 || info.erasesize == 0) return "it is no part of the MTD layer";
    if (flock(it->fd, LOCK_EX | LOCK_NB) != 0) return "another program has it";
    if (has_ubi(it)) return "UBI has it";
    why = choose_map(it, &info);
    if (why == NULL) why = find_places(it, info.size / info.erasesize);
    if (why == NULL) why = open_synced(it);
    if (it->is_nand && ioctl(it->fd, ECCGETSTATS, &it->at_first) == 0) it->unmended = it->at_first.failed;
    return why;
}

struct ipl_mtd *ipl_mtd_open(const char *path, const struct ipl_mtd_options *options, const char **why) {
    static const struct ipl_mtd_options plain = IPL_MTD_OPTIONS;
    struct ipl_mtd *it = calloc(1, sizeof *it);
    *why = "there is no memory";
    if (it == NULL) return NULL;
    it->options = options != NULL ? *options : plain;
    it->fd = it->sync_fd = -1;
    *why = open_part(it, path);
    if (*why != NULL) {
        ipl_mtd_close(it);
        return NULL;
    }
    it->driver = (struct ipl_driver){it, read_sector, program_sector, erase_place, wait_for_writes};
    return it;
}

const struct ipl_driver *ipl_mtd_driver(struct ipl_mtd *part) { return &part->driver; }

struct ipl_mtd_facts ipl_mtd_facts(struct ipl_mtd *part) {
    struct mtd_ecc_stats now;
    if (part->is_nand && ioctl(part->fd, ECCGETSTATS, &now) == 0) {
        part->facts.corrected = now.corrected - part->at_first.corrected;
        part->facts.unmended = now.failed - part->at_first.failed;
    }
    return part->facts;
}

uint32_t ipl_mtd_block(const struct ipl_mtd *part, uint32_t place) { return part->blocks[place * part->facts.blocks_a_place]; }

void ipl_mtd_close(struct ipl_mtd *part) {
    for (uint32_t place = 0; place < IPL_PLACES_MOST; place++) free(part->kept[place]);
    free(part->blocks);
    if (part->fd >= 0) close(part->fd);
    if (part->sync_fd >= 0) close(part->sync_fd);
    free(part);
}
