#include "part.h"
#include <stdio.h>
#include <stdlib.h>
#include <string.h>

static struct part {
    uint32_t places;
    uint8_t *now;     /* what is read */
    uint8_t *lasting; /* what was there at the last barrier */
    uint8_t *open;    /* which sectors may have changed since */
    uint8_t *used;    /* which sectors were programmed since the erase of their place */
    uint8_t *worn;    /* which places answer that they are worn */
    uint64_t until_cut;
    size_t flipped;   /* the sector whose bits had flipped when it was read last, counted from 1 */
    int off;
    struct part_ills ills;
    struct part_counts counts;
} parts[PARTS];

/* ---- numbers that are as good as random */

static uint64_t any_state = 88172645463325252u;

void any_begin(uint64_t seed) { any_state = seed * 0x9E3779B97F4A7C15u + 1; }

uint32_t any_number(void) {
    any_state ^= any_state << 13;
    any_state ^= any_state >> 7;
    any_state ^= any_state << 17;
    return (uint32_t)(any_state >> 16);
}

uint32_t any_below(uint32_t n) { return any_number() % n; }

static int happens(uint32_t of_65536) { return of_65536 != 0 && any_below(65536) < of_65536; }

static void fill_with_any(uint8_t *to, size_t n) {
    for (size_t i = 0; i < n; i++) to[i] = (uint8_t)any_number();
}

/* ---- the part */

static void *room(size_t n, int byte) {
    void *p = malloc(n);
    if (p == NULL) abort();
    return memset(p, byte, n);
}

void part_new(uint32_t part, uint32_t places) {
    struct part *it = &parts[part];
    size_t sectors = (size_t)places * SECTORS;
    memset(it, 0, sizeof *it);
    it->places = places;
    it->now = room(sectors * SECTOR, 0xA5);
    it->lasting = room(sectors * SECTOR, 0xA5);
    it->open = room(sectors, 0);
    it->used = room(sectors, 1);
    it->worn = room(places, 0);
}

void part_new_blank(uint32_t part, uint32_t places) {
    size_t size = (size_t)places * SECTORS * SECTOR;
    part_new(part, places);
    memset(parts[part].now, 0xFF, size);
    memset(parts[part].lasting, 0xFF, size);
}

uint8_t *part_sector(uint32_t part, uint32_t place, uint32_t sector) {
    return parts[part].now + ((size_t)place * SECTORS + sector) * SECTOR;
}

void part_free(uint32_t part) {
    struct part *it = &parts[part];
    free(it->now);
    free(it->lasting);
    free(it->open);
    free(it->used);
    free(it->worn);
    memset(it, 0, sizeof *it);
}

void part_mend(uint32_t part) { memset(parts[part].worn, 0, parts[part].places); }
void part_cut_after(uint32_t part, uint64_t k) { parts[part].until_cut = k; }
void part_set_ills(uint32_t part, struct part_ills ills) { parts[part].ills = ills; }
struct part_counts part_counts(uint32_t part) { return parts[part].counts; }

uint64_t part_writes(uint32_t part) {
    const uint64_t *calls = parts[part].counts.calls;
    return calls[PROGRAM] + calls[ERASE] + calls[BARRIER];
}


int part_power_on(uint32_t part) {
    int was = parts[part].off;
    parts[part].off = 0;
    return was;
}

/* The power goes: each open sector has its old bytes, its new ones, or any. */
static void cut(struct part *it, enum part_kind kind) {
    it->off = 1;
    it->counts.cuts[kind]++;
    for (size_t i = 0; i < (size_t)it->places * SECTORS; i++) {
        uint8_t *now = it->now + i * SECTOR, *lasting = it->lasting + i * SECTOR;
        if (!it->open[i]) continue;
        switch (any_below(4)) {
        case 0: memcpy(now, lasting, SECTOR); break;
        case 1: fill_with_any(now, SECTOR); break;
        case 2: memcpy(now, lasting, any_below(SECTOR)); break;
        default: break;
        }
        memcpy(lasting, now, SECTOR);
        /* Of a worn place nothing is sure, ever. */
        it->open[i] = it->worn[i / SECTORS];
    }
}

/* Whether the power is on in this write, or goes in it. */
static int is_cut(struct part *it, enum part_kind kind) {
    if (it->until_cut == 0 || --it->until_cut != 0) return 0;
    cut(it, kind);
    return 1;
}

static int failure(struct part *it, enum part_kind kind) {
    it->counts.failed[kind]++;
    if (!happens(it->ills.odd)) return IPL_NAND_FAILED;
    int any = (int)any_number();
    return any == IPL_NAND_DONE || any == IPL_NAND_WORN ? -1 : any;
}

static void must(int holds, const char *what) {
    if (holds) return;
    fprintf(stderr, "part: %s\n", what);
    abort();
}

static struct part *called(void *context, uint32_t place, uint32_t sector, enum part_kind kind) {
    struct part *it = context;
    must(it->now != NULL, "no such part");
    must(place < it->places && sector < SECTORS, "no such sector");
    it->counts.calls[kind]++;
    return it;
}

static int part_read(void *context, uint32_t place, uint32_t sector, uint8_t *into) {
    struct part *it = called(context, place, sector, READ);
    if (it->off || happens(it->ills.fails[READ])) {
        if (happens(it->ills.odd)) fill_with_any(into, SECTOR);
        return failure(it, READ);
    }
    size_t here = (size_t)place * SECTORS + sector + 1;
    memcpy(into, it->now + (here - 1) * SECTOR, SECTOR);
    if (it->flipped != here && happens(it->ills.flips)) {
        for (int i = 0; i < 3; i++) into[any_below(SECTOR)] ^= (uint8_t)(1u << any_below(8));
        it->flipped = here;
        it->counts.flips++;
        return IPL_NAND_DOUBTFUL;
    }
    it->flipped = 0;
    if (happens(it->ills.lies)) {
        it->counts.lies++;
        switch (any_below(3)) {
        case 0: fill_with_any(into, SECTOR); break;
        case 1: into[any_below(SECTOR)] ^= (uint8_t)(1u << any_below(8)); break;
        default: /* another sector of the part */
            memcpy(into, it->now + (size_t)any_below(it->places * SECTORS) * SECTOR, SECTOR);
        }
    }
    return IPL_NAND_DONE;
}

static int part_program(void *context, uint32_t place, uint32_t sector, const uint8_t *from) {
    struct part *it = called(context, place, sector, PROGRAM);
    size_t i = (size_t)place * SECTORS + sector;
    if (it->off) return failure(it, PROGRAM);
    must(!it->used[i], "a second program of a sector");
    int fails = happens(it->ills.fails[PROGRAM]);
    it->used[i] = 1;
    it->open[i] = 1;
    if (!fails || any_below(2)) memcpy(it->now + i * SECTOR, from, SECTOR);
    if (fails || is_cut(it, PROGRAM)) return failure(it, PROGRAM);
    return IPL_NAND_DONE;
}

static int part_erase(void *context, uint32_t place) {
    struct part *it = called(context, place, 0, ERASE);
    size_t i = (size_t)place * SECTORS;
    if (it->off) return failure(it, ERASE);
    memset(it->open + i, 1, SECTORS);
    if (!it->worn[place] && happens(it->ills.wears)) it->worn[place] = 1;
    if (it->worn[place]) {
        it->counts.worn++;
        return is_cut(it, ERASE) ? failure(it, ERASE) : IPL_NAND_WORN;
    }
    int fails = happens(it->ills.fails[ERASE]);
    if (!fails || any_below(2)) memset(it->now + i * SECTOR, 0xFF, (size_t)SECTORS * SECTOR);
    /* A place whose erase didn't end well may be programmed by no one. */
    memset(it->used + i, 1, SECTORS);
    if (fails || is_cut(it, ERASE)) return failure(it, ERASE);
    memset(it->used + i, 0, SECTORS);
    return IPL_NAND_DONE;
}

static int part_barrier(void *context) {
    struct part *it = called(context, 0, 0, BARRIER);
    if (it->off || happens(it->ills.fails[BARRIER]) || is_cut(it, BARRIER))
        return failure(it, BARRIER);
    for (size_t i = 0; i < (size_t)it->places * SECTORS; i++) {
        if (!it->open[i] || it->worn[i / SECTORS]) continue;
        memcpy(it->lasting + i * SECTOR, it->now + i * SECTOR, SECTOR);
        it->open[i] = 0;
    }
    return IPL_NAND_DONE;
}

const struct ipl_driver *part_driver(uint32_t part) {
    static struct ipl_driver drivers[PARTS];
    struct ipl_driver driver = {&parts[part], part_read, part_program, part_erase, part_barrier};
    drivers[part] = driver;
    return &drivers[part];
}
