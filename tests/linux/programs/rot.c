/* Clears bits of the youngest sector of a kind below the ECC, as age may. usage: rot PATH KIND BLOCKS
 * KIND is that of FORMAT.md: 1 data header, 2 status header, 4 base, 5 log, 6 commit. The sectors are looked
 * for in the first BLOCKS blocks of 131,072 bytes, one sector behind the other. */
#define _GNU_SOURCE
#include <fcntl.h>
#include <mtd/mtd-user.h>
#include <stdint.h>
#include <stdio.h>
#include <stdlib.h>
#include <string.h>
#include <sys/ioctl.h>
#include <unistd.h>

enum { SECTOR = 512, PAGE = 2048, SPARE = 64, SECTORS = 256 };

/* Generation and serial, by which it is younger than another. */
static int is_younger(const uint8_t *a, const uint8_t *b) { return memcmp(a + 12, b + 12, 16) > 0; }

/* Four bits that are set, of both halves, behind the words of the sector's head: more than any ECC of one or two bits a half mends. */
static void clear_bits(uint8_t *sector) {
    for (int half = 0; half < 2; half++)
        for (int at = half * SECTOR / 2 + 32, cleared = 0; cleared < 4 && at < (half + 1) * SECTOR / 2; at++)
            for (int bit = 0; bit < 8 && cleared < 4; bit++)
                if (sector[at] >> bit & 1) {
                    sector[at] = (uint8_t)(sector[at] & ~(1 << bit));
                    cleared++;
                }
}

int main(int argc, char **argv) {
    static uint8_t sector[SECTOR], found[SECTOR], page[PAGE], spare[SPARE];
    long count = argc > 3 ? atol(argv[3]) * SECTORS : 0, at = -1;
    int fd = argc > 3 ? open(argv[1], O_RDWR) : -1;
    for (long i = 0; i < count; i++) {
        if (pread(fd, sector, SECTOR, i * SECTOR) != SECTOR) return perror("read"), 1;
        if (memcmp(sector, "IPL1", 4) != 0 || sector[4] != atoi(argv[2]) || (at >= 0 && !is_younger(sector, found))) continue;
        memcpy(found, sector, SECTOR);
        at = i;
    }
    if (at < 0) return printf("rot: there is no such sector\n"), 1;
    clear_bits(found);
    memset(page, 0xFF, sizeof page);
    memset(spare, 0xFF, sizeof spare);
    memcpy(page + at * SECTOR % PAGE, found, SECTOR);
    struct mtd_write_req r = {.start = (uint64_t)(at * SECTOR / PAGE * PAGE), .len = PAGE, .ooblen = SPARE, .usr_data = (uintptr_t)page,
                              .usr_oob = (uintptr_t)spare, .mode = MTD_OPS_RAW};
    if (ioctl(fd, MEMWRITE, &r) != 0) return perror("raw write"), 1;
    return 0;
}
