/* The laws of a driver, tried (driver_test.h). What the part should hold is never stored: a place
 * is filled in an order, and from the serial number of its filling and a count each of its sectors can
 * be computed anew. */
#include "driver_test.h"
#include <string.h>

enum {
    MOST_PLACES = 1028, MOST_SPARES = 64, SECTORS = 256, SECTOR = 512,
    EDGE = 16,            /* bytes that are watched on each side of those that are lent */
    STRETCH = 64,         /* programs of one place before the next one's */
    READS = 300,          /* of one sector in a row */
    STEPS = SECTORS + 1,  /* of a filling: its erase and its programs */
    UNTOUCHED = 0x5A
};

/* What a place holds: of the filling with this serial the first `count` sectors in its order, and the
 * rest is blank. Or nothing of it is known. */
struct holding {
    uint32_t serial;
    uint16_t count;
    uint8_t is_known, is_worn;
};

static struct {
    const struct ipl_driver *driver;
    uint32_t places, shift, turned;
    uint64_t seed;
    enum ipl_driver_law alone; /* what it says when a place changed that wasn't written */
    struct ipl_driver_result *result;
    struct holding held[MOST_PLACES];
    uint8_t room[EDGE + 15 + SECTOR + EDGE], should_be[SECTOR];
} test;

static int breaks(enum ipl_driver_law law, uint32_t place, uint32_t sector) {
    test.result->law = law;
    test.result->place = place;
    test.result->sector = sector;
    test.result->bits = 0;
    return 0;
}

static void begin_round(const char *words, enum ipl_driver_law alone) {
    test.result->round = words;
    test.alone = alone;
}

/* ---- what a filling has where */

/* In four orders, which change from place to place and from filling to filling: rising; falling; one
 * quarter of each page after another, falling, so that sector 0 is last; and mixed. */
static uint32_t order_of(uint32_t serial) {
    return (serial / test.places + serial % test.places) % 4;
}

static uint32_t sector_at(uint32_t serial, uint32_t turn) {
    switch (order_of(serial)) {
    case 0: return turn;
    case 1: return 255 - turn;
    case 2: return 255 - (turn % 64 * 4 + turn / 64);
    default: return (77 * turn + 13) % 256;
    }
}

static uint32_t turn_of(uint32_t serial, uint32_t sector) {
    uint32_t up = 255 - sector;
    switch (order_of(serial)) {
    case 0: return sector;
    case 1: return up;
    case 2: return up % 4 * 64 + up / 4;
    default: return 133 * (sector + 256 - 13) % 256; /* 77 * 133 is 1, but for multiples of 256 */
    }
}

static uint32_t number_at(const uint8_t *bytes) {
    return bytes[0] | (uint32_t)bytes[1] << 8 | (uint32_t)bytes[2] << 16 | (uint32_t)bytes[3] << 24;
}

static void put_number(uint8_t *bytes, uint32_t number) {
    for (int i = 0; i < 4; i++) bytes[i] = (uint8_t)(number >> 8 * i);
}

/* The serial and which sector it is, and then bytes that look random. */
static void make(uint8_t *bytes, uint32_t serial, uint32_t place, uint32_t sector) {
    uint64_t x = test.seed ^ ((uint64_t)serial << 32 | (place << 8 | sector));
    for (int i = 0; i < SECTOR; i += 4) {
        uint64_t z = x += 0x9E3779B97F4A7C15u;
        z = (z ^ z >> 30) * 0xBF58476D1CE4E5B9u;
        z = (z ^ z >> 27) * 0x94D049BB133111EBu;
        put_number(bytes + i, (uint32_t)(z >> 32));
    }
    put_number(bytes, serial);
    put_number(bytes + 4, place << 8 | sector);
}

static uint32_t bits_between(const uint8_t *a, const uint8_t *b) {
    uint32_t bits = 0;
    for (int i = 0; i < SECTOR; i++)
        for (uint32_t x = a[i] ^ b[i]; x != 0; x >>= 1) bits += x & 1;
    return bits;
}

/* ---- single calls */

/* 512 bytes, which begin at each distance from a multiple of 16 in turn. */
static uint8_t *lend(void) {
    memset(test.room, UNTOUCHED, sizeof test.room);
    test.shift = (test.shift + 1) % 16;
    return test.room + EDGE + test.shift;
}

static int is_untouched_beside(const uint8_t *lent) {
    for (const uint8_t *at = test.room; at < test.room + sizeof test.room; at++) {
        if (at == lent) at += SECTOR;
        if (*at != UNTOUCHED) return 0;
    }
    return 1;
}

static int read_one(uint32_t place, uint32_t sector, const uint8_t **found) {
    uint8_t *into = lend();
    test.result->reads++;
    test.result->answer = test.driver->read(test.driver->context, place, sector, into);
    /* What the ECC can't mend may be handed over, as of a torn sector; its bytes are looked at all the same. */
    if (test.result->answer != IPL_NAND_DONE && test.result->answer != IPL_NAND_DOUBTFUL)
        return breaks(IPL_LAW_READ_PASSES, place, sector);
    if (!is_untouched_beside(into)) return breaks(IPL_LAW_LENT, place, sector);
    *found = into;
    return 1;
}

static void name_found(const uint8_t *found) {
    struct ipl_driver_result *r = test.result;
    uint32_t serial = number_at(found), which = number_at(found + 4);
    r->bits = bits_between(found, test.should_be);
    make(test.should_be, serial, which >> 8, which % 256);
    r->found = IPL_FOUND_A_SECTOR;
    r->found_place = which >> 8;
    r->found_sector = which % 256;
    if (bits_between(found, test.should_be) == 0) return;
    memset(test.should_be, 0xFF, SECTOR);
    r->found = bits_between(found, test.should_be) == 0 ? IPL_FOUND_BLANK : IPL_FOUND_OTHER;
}

/* Whether a sector reads as it should, where that is known; else this law doesn't hold. */
static int look(uint32_t place, uint32_t sector, enum ipl_driver_law law) {
    const struct holding *it = &test.held[place];
    const uint8_t *found;
    if (!it->is_known) return 1;
    if (!read_one(place, sector, &found)) return 0;
    if (turn_of(it->serial, sector) < it->count) make(test.should_be, it->serial, place, sector);
    else memset(test.should_be, 0xFF, SECTOR);
    if (bits_between(found, test.should_be) == 0) return 1;
    breaks(law, place, sector);
    name_found(found);
    return 0;
}

/* Rising and falling in turn, so that a page that a driver kept in memory is the next one asked for. */
static int look_at_place(uint32_t place, enum ipl_driver_law law) {
    test.turned ^= 255;
    for (uint32_t i = 0; i < SECTORS; i++)
        if (!look(place, i ^ test.turned, law)) return 0;
    return 1;
}

static int look_at_all(void) {
    for (uint32_t place = 0; place < test.places; place++)
        if (!look_at_place(place, test.alone)) return 0;
    return 1;
}

static int pass_barrier(void) {
    test.result->barriers++;
    test.result->answer = test.driver->barrier(test.driver->context);
    return test.result->answer == IPL_NAND_DONE || breaks(IPL_LAW_BARRIER_PASSES, 0, 0);
}

static int erase_one(uint32_t place, uint32_t serial) {
    struct holding *it = &test.held[place];
    test.result->erases++;
    test.result->written_place = place;
    test.result->written_sector = 0;
    test.result->answer = test.driver->erase(test.driver->context, place);
    if (test.result->answer == IPL_NAND_WORN) {
        it->is_worn = 1;
        return (++test.result->worn <= MOST_SPARES && test.result->worn < test.places)
               || breaks(IPL_LAW_WORN_FEW, place, 0);
    }
    if (test.result->answer != IPL_NAND_DONE) return breaks(IPL_LAW_ERASE_PASSES, place, 0);
    it->is_known = 1;
    it->serial = serial;
    it->count = 0;
    return 1;
}

/* The next sector of a place in its order. */
static int program_one(uint32_t place, uint32_t sector) {
    struct holding *it = &test.held[place];
    uint8_t *from = lend();
    make(from, it->serial, place, sector);
    test.result->programs++;
    test.result->written_place = place;
    test.result->written_sector = sector;
    test.result->answer = test.driver->program(test.driver->context, place, sector, from);
    if (test.result->answer != IPL_NAND_DONE) return breaks(IPL_LAW_PROGRAM_PASSES, place, sector);
    make(test.should_be, it->serial, place, sector);
    if (!is_untouched_beside(from) || bits_between(from, test.should_be) != 0)
        return breaks(IPL_LAW_LENT, place, sector);
    it->count++;
    return 1;
}

/* ---- rounds: something is done to some places, and then all are looked at */

static int sum_up(uint32_t place, uint64_t *sum) {
    const uint8_t *found;
    *sum = 0;
    for (uint32_t sector = 0; sector < SECTORS; sector++) {
        if (!read_one(place, sector, &found)) return 0;
        for (int i = 0; i < SECTOR; i++) *sum = (*sum ^ found[i]) * 0x100000001B3u + 1;
    }
    return 1;
}

/* Of a place whose bytes aren't known, that they are as before; else this law doesn't hold. */
static int keeps_sum(uint32_t place, uint64_t before, enum ipl_driver_law law) {
    uint64_t after;
    if (!sum_up(place, &after)) return 0;
    return after == before || breaks(law, place, 0);
}

static int erase_place(uint32_t place) {
    struct holding *it = &test.held[place];
    int was_known = it->is_known;
    uint64_t sum = 0;
    if (it->is_worn) return 1;
    if (was_known ? !look_at_place(place, test.alone) : !sum_up(place, &sum)) return 0;
    if (!erase_one(place, it->serial + test.places)) return 0;
    if (it->is_worn && !was_known) return keeps_sum(place, sum, IPL_LAW_WORN_KEEPS);
    return look_at_place(place, it->is_worn ? IPL_LAW_WORN_KEEPS : IPL_LAW_ERASED) && pass_barrier();
}

/* A sector is looked at before it is programmed, since it may be programmed only where it is blank; then
 * it, and the rest of its page, of which a driver may have kept what it read before. */
static int program_next(uint32_t place) {
    const struct holding *it = &test.held[place];
    uint32_t sector = sector_at(it->serial, it->count);
    if (!look(place, sector, test.alone)) return 0;
    if (!program_one(place, sector) || !look(place, sector, IPL_LAW_READ_BACK)) return 0;
    for (uint32_t other = 1; other < 4; other++)
        if (!look(place, sector ^ other, test.alone)) return 0;
    return 1;
}

static int program_stretch(uint32_t place) {
    if (test.held[place].is_worn) return 1;
    for (int i = 0; i < STRETCH; i++)
        if (!program_next(place)) return 0;
    return pass_barrier();
}

static int read_often(uint32_t place) {
    for (int i = 0; i < READS; i++)
        if (!look(place, place * 77 % SECTORS, test.alone)) return 0;
    return 1;
}

/* Each second place, so that its neighbours hold something else; the falling order is for what an erase
 * does to a place before it. */
static const struct round {
    const char *words;
    enum ipl_driver_law alone;
    int (*act)(uint32_t place);
    uint32_t first, step, times;
    int falls;
} rounds[] = {
    {"each place is erased", IPL_LAW_ERASE_ALONE, erase_place, 0, 1, 1, 0},
    {"each place is programmed", IPL_LAW_PROGRAM_ALONE, program_stretch, 0, 1, SECTORS / STRETCH, 0},
    {"sectors are read often", IPL_LAW_READ_KEEPS, read_often, 0, 1, 1, 0},
    {"even places are erased", IPL_LAW_ERASE_ALONE, erase_place, 0, 2, 1, 0},
    {"even places are programmed", IPL_LAW_PROGRAM_ALONE, program_stretch, 0, 2, SECTORS / STRETCH, 1},
    {"odd places are erased", IPL_LAW_ERASE_ALONE, erase_place, 1, 2, 1, 1},
    {"odd places are programmed", IPL_LAW_PROGRAM_ALONE, program_stretch, 1, 2, SECTORS / STRETCH, 0},
};

static int pass_round(const struct round *it) {
    uint32_t last = it->first + (test.places - 1 - it->first) / it->step * it->step;
    begin_round(it->words, it->alone);
    for (uint32_t time = 0; time < it->times; time++)
        for (uint32_t place = it->first; place <= last; place += it->step)
            if (!it->act(it->falls ? it->first + last - place : place)) return 0;
    return look_at_all();
}

static int start(const struct ipl_driver *driver, uint32_t places, uint64_t seed, struct ipl_driver_result *result) {
    memset(&test, 0, sizeof test);
    memset(result, 0, sizeof *result);
    test.driver = driver;
    test.places = places;
    test.seed = seed;
    test.result = result;
    begin_round("the start", IPL_LAWS_HOLD);
    if (places < 5 || places > MOST_PLACES) return breaks(IPL_LAW_PLACES, 0, 0);
    for (uint32_t place = 0; place < places; place++) test.held[place].serial = place;
    return 1;
}

enum ipl_driver_law ipl_driver_test(const struct ipl_driver *driver, uint32_t places, uint64_t seed,
                                    struct ipl_driver_result *result) {
    if (!start(driver, places, seed, result)) return result->law;
    for (size_t i = 0; i < sizeof rounds / sizeof *rounds; i++)
        if (!pass_round(&rounds[i])) break;
    return result->law;
}

/* ---- power cuts */

/* Fillings go round the places with rising serials, and a serial is its place but for multiples of the
 * number of places. So from the place that was hit on they rise, all the way round. */

/* Whether all of a place is one filling, as its first sector names it. */
static int is_whole(uint32_t place) {
    struct holding *it = &test.held[place];
    const uint8_t *found;
    if (!read_one(place, 0, &found)) return 0;
    it->is_known = 1;
    it->serial = number_at(found);
    it->count = SECTORS;
    return look_at_place(place, IPL_LAW_LASTS);
}

/* All of a place but the sector that was being programmed. */
static int look_around(uint32_t place, uint64_t noted) {
    struct holding *it = &test.held[place];
    it->is_known = 1;
    it->serial = (uint32_t)(noted / STEPS);
    it->count = (uint16_t)(noted % STEPS);
    for (uint32_t sector = 0; sector < SECTORS; sector++)
        if (turn_of(it->serial, sector) != it->count && !look(place, sector, IPL_LAW_LASTS)) return 0;
    return 1;
}

/* The highest serial that is known in `highest`, that of a filling under way too, so that it isn't used
 * again. */
static int rises_from(uint32_t hit, uint64_t noted, uint32_t *highest) {
    uint32_t last = (hit + test.places - 1) % test.places;
    for (uint32_t i = 2; i < test.places; i++) {
        uint32_t place = (hit + i) % test.places, before = (hit + i - 1) % test.places;
        if (test.held[place].serial <= test.held[before].serial) return breaks(IPL_LAW_LASTS, place, 0);
    }
    *highest = test.held[last].serial;
    if (noted == 0) return 1;
    if (noted % STEPS == SECTORS && *highest != noted / STEPS) return breaks(IPL_LAW_LASTS, last, 0);
    if (noted / STEPS > *highest) *highest = (uint32_t)(noted / STEPS);
    return 1;
}

/* Looks at all that the last run left, and finds the place that it was writing, or was to be next. */
static int look_after_cut(uint64_t noted, uint32_t *hit, uint32_t *highest) {
    uint32_t oldest = 0;
    *hit = test.places;
    if (noted != 0) *hit = (uint32_t)((noted / STEPS + (noted % STEPS == SECTORS)) % test.places);
    for (uint32_t place = 0; place < test.places; place++) {
        if (noted != 0 && place == *hit) {
            if (noted % STEPS != SECTORS && !look_around(place, noted)) return 0;
        } else if (!is_whole(place)) {
            if (test.result->law != IPL_LAW_LASTS || *hit != test.places) return 0;
            *hit = place;
            test.result->law = IPL_LAWS_HOLD;
        } else if (test.held[place].serial < test.held[oldest].serial) {
            oldest = place;
        }
    }
    if (*hit == test.places) *hit = oldest;
    return rises_from(*hit, noted, highest);
}

static int fill_one(uint32_t place, uint32_t serial, void (*note)(uint64_t number)) {
    struct holding *it = &test.held[place];
    if (!erase_one(place, serial)) return 0;
    if (it->is_worn) return breaks(IPL_LAW_ERASE_PASSES, place, 0);
    for (;;) {
        if (!pass_barrier()) return 0;
        if (note != NULL) note((uint64_t)serial * STEPS + it->count);
        if (it->count == SECTORS) return 1;
        if (!program_one(place, sector_at(serial, it->count))) return 0;
    }
}

enum ipl_driver_law ipl_driver_cut_test(const struct ipl_driver *driver, uint32_t places, uint64_t seed,
                                        uint32_t fills, uint64_t noted, void (*note)(uint64_t number),
                                        struct ipl_driver_result *result) {
    uint32_t hit, highest;
    uint64_t sum;
    if (!start(driver, places, seed, result)) return result->law;
    begin_round("what a power cut left", IPL_LAW_LASTS);
    if (!look_after_cut(noted, &hit, &highest)) return result->law;
    /* What was torn has to be read too, and the same each time. */
    if (!sum_up(hit, &sum) || !keeps_sum(hit, sum, IPL_LAW_TORN_STAYS)) return result->law;
    begin_round("places are filled until a power cut", IPL_LAW_LASTS);
    uint32_t serial = (highest / places + 1) * places + hit, before = (hit + places - 1) % places;
    /* What was noted of this place counts no more, once its erase begins: the one before is whole. */
    if (note != NULL && fills != 0) note((uint64_t)test.held[before].serial * STEPS + SECTORS);
    for (uint32_t i = 0; i < fills; i++)
        if (!fill_one((hit + i) % places, serial + i, note)) break;
    return result->law;
}

/* ---- in words */

const char *ipl_driver_law_text(enum ipl_driver_law law) {
    static const char *const texts[IPL_DRIVER_LAWS] = {
        "all laws hold", "not 5 to 1,028 places", "a read failed", "a program failed", "an erase failed",
        "a barrier failed", "a call wrote to memory that it may not write to",
        "a place that was erased isn't blank", "an erase changed another place",
        "a worn place doesn't hold what it held", "more than 64 places are worn, or all",
        "a sector doesn't read as it was programmed", "a program changed another sector",
        "reads changed a sector", "what passed a barrier isn't there after a power cut",
        "what a power cut tore reads as other bytes each time"
    };
    return (unsigned)law < IPL_DRIVER_LAWS ? texts[law] : "no such law";
}
