#define _GNU_SOURCE
#define _FILE_OFFSET_BITS 64
#include "ipl_ubi.h"
#include "place_map.h"
#include "shown.h"
#include <errno.h>
#include <fcntl.h>
#include <mtd/ubi-user.h>
#include <stdlib.h>
#include <string.h>
#include <sys/file.h>
#include <sys/ioctl.h>
#include <unistd.h>

enum { MOST_PAGE = 16384 };

struct ipl_ubi {
    int fd, sync_fd;
    struct place_map map;
    uint8_t page[MOST_PAGE]; /* what is programmed: a sector, and bytes FF */
    struct ipl_ubi_options options;
    struct ipl_ubi_facts facts;
    struct ipl_driver driver;
};

static off_t byte_of(const struct ipl_ubi *it, uint32_t place, uint32_t sector) {
    uint32_t block = place * it->facts.blocks_a_place + place_map_block(&it->map, sector);
    return (off_t)block * it->map.block_bytes + place_map_byte(&it->map, sector);
}

/* EBADMSG: the ECC can't mend the page. UBI keeps its bytes to itself; zeros are no sector of a store either. */
static int read_sector(void *context, uint32_t place, uint32_t sector, uint8_t *into) {
    struct ipl_ubi *it = context;
    it->facts.reads++;
    for (uint32_t tries = 0;;) {
        ssize_t n = pread(it->fd, into, IPL_SECTOR, byte_of(it, place, sector));
        if (n == IPL_SECTOR) return IPL_NAND_DONE;
        if (n < 0 && errno == EINTR) continue;
        if (n >= 0 || errno != EBADMSG) break;
        if (tries++ == it->options.retries) {
            it->facts.unmended++;
            memset(into, 0, IPL_SECTOR);
            return IPL_NAND_DONE;
        }
        it->facts.read_again++;
    }
    it->facts.failed_reads++;
    return IPL_NAND_FAILED;
}

static int program_sector(void *context, uint32_t place, uint32_t sector, const uint8_t *from) {
    struct ipl_ubi *it = context;
    it->facts.programs++;
    memcpy(it->page, from, IPL_SECTOR);
    if (pwrite(it->fd, it->page, it->map.step, byte_of(it, place, sector)) == (ssize_t)it->map.step) return IPL_NAND_DONE;
    it->facts.failed_programs++;
    return IPL_NAND_FAILED;
}

/* UBI_IOCEBER returns once the block that was there is erased. What UBI_IOCEBUNMAP gives up may come back after a power
 * cut. */
static int erase_place(void *context, uint32_t place) {
    struct ipl_ubi *it = context;
    it->facts.erases++;
    for (uint32_t k = 0; k < it->facts.blocks_a_place; k++) {
        int32_t block = (int32_t)(place * it->facts.blocks_a_place + k);
        if (ioctl(it->fd, UBI_IOCEBER, &block) != 0) {
            it->facts.failed_erases++;
            return IPL_NAND_FAILED;
        }
    }
    return IPL_NAND_DONE;
}

/* UBI answers once the part is ready. */
static int wait_for_writes(void *context) {
    struct ipl_ubi *it = context;
    it->facts.barriers++;
    return it->sync_fd < 0 || fdatasync(it->sync_fd) == 0 ? IPL_NAND_DONE : IPL_NAND_FAILED;
}

static const char *find_places(struct ipl_ubi *it) {
    long block = shown_number(it->fd, "usable_eb_size"), count = shown_number(it->fd, "reserved_ebs");
    long page = shown_number(it->fd, "../min_io_size");
    char kind[16];
    if (block <= 0 || count <= 0 || page <= 0) return "it is no volume of UBI";
    if (!shown(it->fd, "type", kind, sizeof kind) || strcmp(kind, "dynamic") != 0) return "it is no dynamic volume";
    if (page < IPL_SECTOR) page = IPL_SECTOR;
    if (page > MOST_PAGE || page % IPL_SECTOR != 0 || block < page) return "its pages have a size that isn't served";
    it->map = (struct place_map){(uint32_t)(block / page * page), (uint32_t)page, 1};
    it->facts.page = it->map.step;
    it->facts.blocks_a_place = place_map_blocks(&it->map);
    it->facts.places = (uint32_t)count / it->facts.blocks_a_place;
    if (it->facts.places > IPL_PLACES_MOST) it->facts.places = IPL_PLACES_MOST;
    if (it->facts.places < IPL_PLACES_LEAST || it->facts.places < it->options.places) return "it has too few places";
    if (it->options.places != 0) it->facts.places = it->options.places;
    return NULL;
}

static const char *open_volume(struct ipl_ubi *it, const char *path) {
    struct ubi_set_vol_prop_req direct = {.property = UBI_VOL_PROP_DIRECT_WRITE, .value = 1};
    const char *why;
    it->fd = open(path, O_RDWR | O_CLOEXEC);
    if (it->fd < 0) return "it can't be opened";
    why = find_places(it);
    if (why != NULL) return why;
    if (flock(it->fd, LOCK_EX | LOCK_NB) != 0) return "another program has it";
    if (ioctl(it->fd, UBI_IOCSETVOLPROP, &direct) != 0) return "it doesn't let its pages be written one by one";
    if (it->options.sync == NULL) return NULL;
    it->sync_fd = open(it->options.sync, O_RDONLY | O_CLOEXEC);
    return it->sync_fd < 0 ? "the device that is to be synced can't be opened" : NULL;
}

struct ipl_ubi *ipl_ubi_open(const char *path, const struct ipl_ubi_options *options, const char **why) {
    static const struct ipl_ubi_options plain = IPL_UBI_OPTIONS;
    struct ipl_ubi *it = calloc(1, sizeof *it);
    *why = "there is no memory";
    if (it == NULL) return NULL;
    it->options = options != NULL ? *options : plain;
    it->fd = it->sync_fd = -1;
    memset(it->page, 0xFF, sizeof it->page);
    *why = open_volume(it, path);
    if (*why != NULL) {
        ipl_ubi_close(it);
        return NULL;
    }
    it->driver = (struct ipl_driver){it, read_sector, program_sector, erase_place, wait_for_writes};
    return it;
}

const struct ipl_driver *ipl_ubi_driver(struct ipl_ubi *volume) { return &volume->driver; }
struct ipl_ubi_facts ipl_ubi_facts(const struct ipl_ubi *volume) { return volume->facts; }

void ipl_ubi_close(struct ipl_ubi *volume) {
    if (volume->fd >= 0) close(volume->fd);
    if (volume->sync_fd >= 0) close(volume->sync_fd);
    free(volume);
}
