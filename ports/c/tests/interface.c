/* What ipl.h says beside the records: memory, versions, answers, rooms, handles, the list of open stores,
 * null pointers and numbers out of range, parts that are only read, blank parts, what is known of a store. usage: interface */
#include "store.h"
#include <stdio.h>
#include <stdlib.h>
#include <string.h>

enum { PLACES = 9, FRAMES = 3, PART = 0, OTHER = 1, GUARD = 0x3C, EDGE = 32 };

static const struct ipl_config config = IPL_CONFIG(PLACES, FRAMES, 1);
static uint8_t memory[IPL_MEMORY(PLACES, FRAMES)], more[IPL_MEMORY(PLACES, FRAMES)];
static struct ipl store, second;
static struct ipl_keys keys;

static void must(int holds, const char *what) {
    if (holds) return;
    fprintf(stderr, "interface: %s\n", what);
    exit(1);
}

static enum ipl_answer open_it(void) {
    return ipl_open(&store, part_driver(PART), &config, memory, sizeof memory);
}

static void format_it(void) {
    must(ipl_format(&store, part_driver(PART), &config, memory, sizeof memory) == IPL_OK, "a format");
}

/* ---- versions */

/* A header has the version in its byte 5 (docs/FORMAT.md). */
static void try_versions(void) {
    struct ipl_config old = config;
    must(ipl_version() == IPL_VERSION, "the library's version");
    format_it();
    must(part_sector(PART, 0, 0)[5] == ipl_format_version(), "the version of the format");
    for (old.version = 0; old.version <= IPL_VERSION + 1; old.version += IPL_VERSION + 1) {
        must(ipl_open(&store, part_driver(PART), &old, memory, sizeof memory) == IPL_OTHER_VERSION, "another version");
        must(ipl_detail(&store)[0] == IPL_VERSION, "which is told");
        must(ipl_open_to_read(&store, part_driver(PART), &old, memory, sizeof memory) == IPL_OTHER_VERSION, "to read too");
        must(ipl_memory(&old) == 0 && ipl_check_memory(&old) == 0 && ipl_format_memory(&old) == 0, "its memory");
        must(ipl_read_memory(&old) == 0, "to read");
    }
}

/* ---- memory */

/* Opens to read in exactly as many bytes as are wanted, where name 3 has three bytes. */
static void read_exactly(const struct ipl_config *some, uint8_t *at, const uint8_t *end) {
    size_t wanted = ipl_read_memory(some);
    uint8_t value[3];
    uint32_t len;
    memset(at, GUARD, (size_t)(end - at));
    must(ipl_open_to_read(&store, part_driver(PART), some, at, wanted) == IPL_OK, "an opening to read in as much as is wanted");
    must(ipl_committed(&store, 3, value, 3, &len) == IPL_OK && len == 3 && memcmp(value, "abc", 3) == 0, "what it reads");
    must(ipl_committed(&store, 960, value, 3, &len) == IPL_NOTHING && ipl_close(&store) == IPL_OK, "and what isn't there");
    for (const uint8_t *p = at + wanted; p < end; p++) must(*p == GUARD, "bytes behind a reader's");
    must(ipl_open_to_read(&store, part_driver(PART), some, at, wanted - 1) == IPL_SMALL_MEMORY, "a byte less to read");
    must(ipl_detail(&store)[0] == wanted, "how many are wanted to read");
}

/* Opens, reads and checks in exactly as many bytes as are wanted, from this distance of a multiple of 16 on. */
static void open_exactly(const struct ipl_config *some, size_t distance) {
    size_t wanted = ipl_memory(some), checked = ipl_check_memory(some), most = wanted > checked ? wanted : checked;
    /* Up to 15 bytes come before a multiple of 16, and as many are its distance. */
    size_t size = EDGE + 15 + distance + most + EDGE;
    uint8_t *room = malloc(size), *at;
    uint32_t records;
    must(room != NULL, "room");
    memset(room, GUARD, size);
    at = room + EDGE + (16 - (uintptr_t)(room + EDGE) % 16) % 16 + distance;
    must(ipl_open(&store, part_driver(PART), some, at, wanted) == IPL_OK, "an opening in as much as is wanted");
    must(ipl_begin(&store, 0) == IPL_OK && ipl_put(&store, 0, 3, "abc", 3) == IPL_OK, "a put in it");
    must(ipl_commit(&store, 0) == IPL_OK && ipl_close(&store) == IPL_OK, "a commit in it");
    for (const uint8_t *p = at + wanted; p < room + size; p++) must(*p == GUARD, "bytes behind the memory");
    must(ipl_check(&store, part_driver(PART), some, at, checked, &records) == IPL_OK, "a check in as much as is wanted");
    must(records == 1, "its record");
    for (const uint8_t *p = room; p < at; p++) must(*p == GUARD, "bytes before the memory");
    for (const uint8_t *p = at + most; p < room + size; p++) must(*p == GUARD, "bytes behind a check's");
    read_exactly(some, at, room + size);
    for (const uint8_t *p = room; p < at; p++) must(*p == GUARD, "bytes before a reader's");
    must(ipl_open(&store, part_driver(PART), some, at, wanted - 1) == IPL_SMALL_MEMORY, "a byte less");
    must(ipl_detail(&store)[0] == wanted, "how many are wanted");
    must(ipl_check(&store, part_driver(PART), some, at, checked - 1, &records) == IPL_SMALL_MEMORY, "a byte less for a check");
    must(ipl_format(&store, part_driver(PART), some, at, ipl_format_memory(some) - 1) == IPL_SMALL_MEMORY,
         "a byte less for a format");
    free(room);
}

static void try_memory(void) {
    static const uint32_t frames[] = {IPL_FRAMES_LEAST, 3, 16, IPL_FRAMES_MOST};
    static const uint32_t numbers[] = {IPL_NUMBERS_LEAST, 121, 125, 127, 128, 1500, 15299};
    for (uint32_t places = IPL_PLACES_LEAST; places <= IPL_PLACES_MOST; places++)
        for (uint32_t some = IPL_FRAMES_LEAST; some <= IPL_FRAMES_MOST; some++) {
            struct ipl_config it = IPL_CONFIG(places, some, 0), few = IPL_CONFIG_OF(places, some, 0, 1);
            struct ipl_config least = IPL_CONFIG_WITH(places, some, 0, 1, IPL_NUMBERS_LEAST);
            must(ipl_memory(&it) != 0 && ipl_memory(&it) <= IPL_MEMORY(places, some), "the macro has as much");
            must(ipl_memory(&few) != 0 && ipl_memory(&few) <= IPL_MEMORY_OF(places, some, 1), "also with one session");
            must(ipl_memory(&least) != 0 && ipl_memory(&least) <= IPL_MEMORY_WITH(places, some, 1, IPL_NUMBERS_LEAST),
                 "and with the least numbers");
            must(ipl_read_memory(&it) != 0 && ipl_read_memory(&it) <= IPL_READ_MEMORY(places), "the macro to read");
            must(ipl_read_memory(&least) <= IPL_READ_MEMORY_WITH(places, IPL_NUMBERS_LEAST), "and with the least numbers");
            must(ipl_read_memory(&few) <= ipl_memory(&few) && ipl_read_memory(&least) <= ipl_memory(&least), "an opening's does to read");
            must(ipl_check_memory(&few) <= ipl_memory(&few), "that with all numbers does for a check");
            must(ipl_format_memory(&it) <= ipl_check_memory(&it), "and a check's for a format");
            must(ipl_format_memory(&least) <= ipl_memory(&least), "as the least opening's");
        }
    for (size_t i = 0; i < sizeof frames / sizeof *frames; i++) {
        struct ipl_config it = IPL_CONFIG(PLACES, frames[i], 1);
        format_it();
        for (size_t distance = 0; distance < 16; distance += i == 0 ? 1 : 15) open_exactly(&it, distance);
    }
    /* A number takes 8 bytes and two bits. */
    struct ipl_config all = IPL_CONFIG(PLACES, FRAMES, 1);
    for (uint32_t numbers = IPL_NUMBERS_LEAST; numbers <= IPL_NUMBERS_MOST; numbers++) {
        struct ipl_config it = IPL_CONFIG_WITH(PLACES, FRAMES, 1, IPL_SESSIONS, numbers);
        must(ipl_memory(&it) <= IPL_MEMORY_WITH(PLACES, FRAMES, IPL_SESSIONS, numbers), "the macro for numbers");
        must(ipl_memory(&all) - ipl_memory(&it) == 8 * (IPL_NUMBERS_MOST - numbers) + 2 * (1913 - (numbers + 7) / 8), "what numbers take");
        must(ipl_read_memory(&it) <= IPL_READ_MEMORY_WITH(PLACES, numbers), "the macro to read, for numbers");
        must(ipl_memory(&all) - ipl_memory(&it) == ipl_read_memory(&all) - ipl_read_memory(&it), "to read they take as many");
        must(ipl_check_memory(&it) == ipl_check_memory(&all), "a check has room for all of them");
    }
    for (size_t i = 0; i < sizeof numbers / sizeof *numbers; i++) {
        struct ipl_config it = IPL_CONFIG_WITH(PLACES, FRAMES, 1, 2, numbers[i]);
        format_it();
        open_exactly(&it, i);
    }
    /* Also with few sessions, and of a part with more places. */
    for (uint32_t sessions = 1; sessions < 5; sessions++) {
        struct ipl_config few = IPL_CONFIG_OF(PLACES, FRAMES, 1, sessions);
        format_it();
        open_exactly(&few, 5);
    }
    part_free(PART);
    part_new(PART, 40);
    struct ipl_config many = IPL_CONFIG(40, 2, 0);
    must(ipl_format(&store, part_driver(PART), &many, memory, sizeof memory) == IPL_OK, "a format of 40 places");
    open_exactly(&many, 7);
    part_free(PART);
    part_new(PART, PLACES);
}

/* ---- answers */

static void try_answers(void) {
    const char *none = ipl_text((enum ipl_answer)99);
    int texts = 0;
    for (int a = 0; a < 100; a++) {
        enum ipl_answer answer = (enum ipl_answer)a;
        int is_one = strcmp(ipl_text(answer), none) != 0;
        texts += is_one;
        for (int b = 0; b < a; b++)
            must(!is_one || strcmp(ipl_text(answer), ipl_text((enum ipl_answer)b)) != 0, "two answers of one text");
        must(ipl_is_refused(answer) == (a >= 2 && a < 40), "which answers are refusals");
        must(ipl_is_up(answer) == (a < 60), "which answers leave a store up");
    }
    must(texts == 2 + 35 + 4 + 5 + 14, "how many answers there are");
    must(ipl_is_refused(IPL_BAD_SESSION) && ipl_is_refused(IPL_READ_ONLY) && !ipl_is_refused(IPL_NOTHING), "refusals");
    must(ipl_is_up(IPL_BAD_BUCKET) && !ipl_is_up(IPL_DOWN) && !ipl_is_up(IPL_PART_SPENT), "stores that are up");
}

/* ---- rooms of values */

static void try_room(uint32_t length, uint32_t room) {
    uint8_t value[IPL_VALUE + 1];
    uint32_t len;
    enum ipl_answer wanted = length <= room ? IPL_OK : IPL_NO_ROOM;
    for (int call = 0; call < 3; call++) {
        memset(value, GUARD, sizeof value);
        len = 999;
        enum ipl_answer answer = call == 0   ? ipl_get(&store, 1, 77, value, room, &len)
                                 : call == 1 ? ipl_share(&store, 1, 77, value, room, &len)
                                             : ipl_committed(&store, 77, value, room, &len);
        must(answer == wanted && len == length, "a value and its room");
        must(ipl_detail(&store)[0] == (wanted == IPL_OK ? 0 : length), "its length as the detail");
        for (uint32_t i = 0; i < sizeof value; i++)
            must(value[i] == (wanted == IPL_OK && i < length ? 0x61 : GUARD), "what is written to a room");
    }
}

static void try_rooms(void) {
    static const uint32_t lengths[] = {0, 1, 200, IPL_VALUE};
    uint8_t bytes[IPL_VALUE], value[IPL_KEY_VALUE];
    uint32_t len;
    memset(bytes, 0x61, sizeof bytes);
    format_it();
    must(open_it() == IPL_OK, "an opening");
    for (size_t i = 0; i < sizeof lengths / sizeof *lengths; i++) {
        must(ipl_begin(&store, 0) == IPL_OK && ipl_put(&store, 0, 77, bytes, lengths[i]) == IPL_OK, "a put");
        must(ipl_commit(&store, 0) == IPL_OK && ipl_begin(&store, 1) == IPL_OK, "a commit");
        for (uint32_t room = 0; room <= IPL_VALUE; room += 29) try_room(lengths[i], room);
        if (lengths[i] != 0) try_room(lengths[i], lengths[i] - 1);
        try_room(lengths[i], lengths[i]);
        /* A share that had no room is one all the same. */
        must(ipl_begin(&store, 2) == IPL_OK && ipl_del(&store, 2, 77) == IPL_CONFLICT, "a shared name");
        must(ipl_abort_all(&store) == IPL_OK, "an abort of all");
    }
    must(ipl_close(&store) == IPL_OK, "a close");
    format_it();
    must(ipl_keys_open(&keys, part_driver(PART), &config, memory, sizeof memory) == IPL_OK, "an opening of keys");
    must(ipl_keys_begin(&keys, 0) == IPL_OK && ipl_keys_put(&keys, 0, "k", 1, bytes, 200) == IPL_OK, "a put by key");
    memset(value, GUARD, sizeof value);
    must(ipl_keys_get(&keys, 0, "k", 1, value, 199, &len) == IPL_NO_ROOM && len == 200, "a value by key and its room");
    must(ipl_keys_detail(&keys)[0] == 200 && value[0] == GUARD && value[199] == GUARD, "nothing is written");
    must(ipl_keys_get(&keys, 0, "k", 1, value, 200, &len) == IPL_OK && len == 200 && value[199] == 0x61, "room by key");
    must(ipl_keys_get(&keys, 0, "k", 1, NULL, 0, &len) == IPL_NO_ROOM && len == 200, "the length alone");
    must(ipl_keys_get(&keys, 0, "j", 1, value, 200, &len) == IPL_NOTHING && len == 0, "no value");
    must(ipl_keys_close(&keys) == IPL_OK, "a close of keys");
}

/* ---- handles, and the list of open stores */

static void try_handles(void) {
    struct ipl copy, never;
    struct ipl_keys no_keys;
    struct ipl_facts state;
    uint8_t value[4];
    uint32_t len = 9, session = 0;
    memset(&never, 0, sizeof never);
    memset(&no_keys, 0, sizeof no_keys);
    format_it();
    must(open_it() == IPL_OK && ipl_begin(&store, 0) == IPL_OK, "an opening");
    copy = store;
    must(ipl_put(&copy, 0, 1, "a", 1) == IPL_NO_STORE && ipl_close(&copy) == IPL_NO_STORE, "a copy is no store");
    must(ipl_reopen(&copy) == IPL_NO_STORE && ipl_abandon(&copy) == IPL_NO_STORE, "nor is it opened");
    must(ipl_unit_count(&copy) == 0 && ipl_unit_count(&store) == PLACES - 5, "units of a store, and of a copy");
    must(ipl_put(&store, 0, 1, "a", 1) == IPL_OK && ipl_commit(&store, 0) == IPL_OK, "the store is as it was");
    must(ipl_close(&store) == IPL_OK, "a close");
    struct ipl *closed[] = {&store, &never};
    for (int i = 0; i < 2; i++) {
        struct ipl *s = closed[i];
        must(ipl_begin(s, 0) == IPL_NO_STORE && ipl_put(s, 0, 1, "a", 1) == IPL_NO_STORE, "a closed store");
        must(ipl_get(s, 0, 1, value, 4, &len) == IPL_NO_STORE && len == 0, "a get of it");
        must(ipl_share(s, 0, 1, value, 4, &len) == IPL_NO_STORE && ipl_committed(s, 1, value, 4, &len) == IPL_NO_STORE,
             "a share of it");
        must(ipl_del(s, 0, 1) == IPL_NO_STORE && ipl_commit(s, 0) == IPL_NO_STORE, "a del of it");
        must(ipl_commit_all(s, &session, 1) == IPL_NO_STORE && ipl_abort(s, 0) == IPL_NO_STORE, "a batch of it");
        must(ipl_abort_all(s) == IPL_NO_STORE && ipl_merge(s, 0) == IPL_NO_STORE, "a merge of it");
        must(ipl_hold(s, 0, 0) == IPL_NO_STORE && ipl_release(s, 0, 0) == IPL_NO_STORE, "a hold of it");
        must(ipl_shutdown(s, 1) == IPL_NO_STORE && ipl_reopen(s) == IPL_NO_STORE, "a shutdown of it");
        must(ipl_close(s) == IPL_NO_STORE && ipl_abandon(s) == IPL_NO_STORE, "a close of it");
        must(ipl_state(s, &state) == IPL_NO_STORE && state.places == 0 && ipl_unit_count(s) == 0, "what is known of it");
    }
    must(ipl_keys_begin(&no_keys, 0) == IPL_NO_STORE && ipl_keys_close(&no_keys) == IPL_NO_STORE, "closed keys");
}

static void refuse_part(const struct ipl_driver *driver, const char *what) {
    uint32_t records = 9;
    must(ipl_open(&second, driver, &config, more, sizeof more) == IPL_PART_IN_USE, what);
    must(ipl_open_or_format(&second, driver, &config, more, sizeof more) == IPL_PART_IN_USE, what);
    must(ipl_format(&second, driver, &config, more, sizeof more) == IPL_PART_IN_USE, what);
    must(ipl_check(&second, driver, &config, more, sizeof more, &records) == IPL_PART_IN_USE && records == 0, what);
    must(ipl_keys_open(&keys, driver, &config, more, sizeof more) == IPL_PART_IN_USE, what);
    must(ipl_open_to_read(&second, driver, &config, more, sizeof more) == IPL_PART_IN_USE, what);
    must(ipl_begin(&second, 0) == IPL_NO_STORE, "nothing is opened by it");
}

static int another_barrier(void *context) { return part_driver(PART)->barrier(context); }

static void try_list(void) {
    struct ipl_driver copy = *part_driver(PART), one_other = copy;
    const struct ipl_driver *driver = part_driver(PART), *other = part_driver(OTHER);
    uint32_t records;
    one_other.barrier = another_barrier;
    format_it();
    must(open_it() == IPL_OK, "an opening");
    struct part_counts before = part_counts(PART), after;
    refuse_part(driver, "a part that is open");
    refuse_part(&copy, "a part that is open, by a copy of its driver");
    refuse_part(&one_other, "a part that is open, by a driver with another barrier");
    must(open_it() == IPL_STORE_IN_USE, "a struct that is a store's");
    must(ipl_format(&store, other, &config, more, sizeof more) == IPL_STORE_IN_USE, "also for another part");
    must(ipl_check(&store, other, &config, more, sizeof more, &records) == IPL_STORE_IN_USE, "and for a check");
    must(ipl_format(&second, other, &config, memory, sizeof memory) == IPL_MEMORY_IN_USE, "memory that is a store's");
    must(ipl_format(&second, other, &config, memory + ipl_memory(&config) - 1, sizeof memory) == IPL_MEMORY_IN_USE,
         "the last byte of it");
    must(ipl_open((struct ipl *)(void *)(memory + 4096), other, &config, more, sizeof more) == IPL_MEMORY_IN_USE,
         "a struct in another's memory");
    must(ipl_format((struct ipl *)(void *)((uint8_t *)&store + sizeof store - 8), other, &config, more, sizeof more)
             == IPL_STORE_IN_USE, "a struct that begins in another");
    must(ipl_open((struct ipl *)(void *)(more + 64), other, &config, more, sizeof more) == IPL_MEMORY_IN_USE,
         "a struct in its own memory");
    after = part_counts(PART);
    must(memcmp(&before, &after, sizeof before) == 0, "the part is asked nothing");
    /* The other part, and other memory, go on beside it; and this part again once it is closed. */
    must(ipl_format(&second, other, &config, more, sizeof more) == IPL_OK, "a format of another part");
    must(ipl_open(&second, other, &config, more, sizeof more) == IPL_OK, "an opening of another part");
    must(ipl_begin(&store, 0) == IPL_OK && ipl_begin(&second, 0) == IPL_OK, "two stores");
    must(ipl_close(&store) == IPL_OK && ipl_begin(&second, 1) == IPL_OK, "a close of the first");
    must(open_it() == IPL_OK && ipl_close(&second) == IPL_OK && ipl_close(&store) == IPL_OK, "and of the second");
    must(ipl_open(&store, driver, &config, more, sizeof more) == IPL_OK && ipl_close(&store) == IPL_OK, "each is free");
}

/* ---- null pointers, and numbers out of range */

static void refuse(struct ipl_config bad, enum ipl_answer opens, enum ipl_answer formats) {
    uint32_t records;
    const struct ipl_driver *driver = part_driver(PART);
    must(opens == IPL_OK || ipl_open(&store, driver, &bad, memory, sizeof memory) == opens, "a config of an opening");
    must(opens == IPL_OK || ipl_keys_open(&keys, driver, &bad, memory, sizeof memory) == opens, "and of keys");
    must((ipl_memory(&bad) == 0) == (opens != IPL_OK), "its memory");
    must(formats == IPL_OK || ipl_format(&store, driver, &bad, memory, sizeof memory) == formats, "of a format");
    must((ipl_format_memory(&bad) == 0) == (formats != IPL_OK), "its memory for a format");
    /* An opening to read looks at the places and the numbers alone. */
    int is_read = opens != IPL_BAD_PLACES && opens != IPL_BAD_NUMBERS;
    must(is_read || ipl_open_to_read(&store, driver, &bad, memory, sizeof memory) == opens, "of an opening to read");
    must((ipl_read_memory(&bad) != 0) == is_read, "its memory to read");
    if (opens == IPL_BAD_PLACES)
        must(ipl_check(&store, driver, &bad, memory, sizeof memory, &records) == opens, "of a check");
}

static void refuse_config(uint32_t places, uint32_t frames, uint32_t spares, enum ipl_answer opens, enum ipl_answer formats) {
    refuse((struct ipl_config)IPL_CONFIG(places, frames, spares), opens, formats);
}

/* Of an opening alone. */
static void refuse_sizes(uint32_t sessions, uint32_t numbers, enum ipl_answer opens) {
    refuse((struct ipl_config)IPL_CONFIG_WITH(PLACES, 4, 0, sessions, numbers), opens, IPL_OK);
}

static void refuse_driver(struct ipl_driver driver) {
    uint32_t records;
    must(ipl_open(&store, &driver, &config, memory, sizeof memory) == IPL_NULL_POINTER, "a driver that wants a function");
    must(ipl_open_to_read(&store, &driver, &config, memory, sizeof memory) == IPL_NULL_POINTER, "in an opening to read");
    must(ipl_format(&store, &driver, &config, memory, sizeof memory) == IPL_NULL_POINTER, "in a format");
    must(ipl_check(&store, &driver, &config, memory, sizeof memory, &records) == IPL_NULL_POINTER, "in a check");
}

static void try_nulls_of_parts(void) {
    const struct ipl_driver *driver = part_driver(PART);
    uint32_t records;
    struct ipl_driver some = *driver;
    must(ipl_memory(NULL) == 0 && ipl_check_memory(NULL) == 0 && ipl_format_memory(NULL) == 0, "no config's memory");
    must(ipl_read_memory(NULL) == 0, "to read");
    must(ipl_open_to_read(NULL, driver, &config, memory, sizeof memory) == IPL_NULL_POINTER, "no struct to read");
    must(ipl_open_to_read(&store, driver, NULL, memory, sizeof memory) == IPL_NULL_POINTER, "no config to read");
    must(ipl_open(NULL, driver, &config, memory, sizeof memory) == IPL_NULL_POINTER, "no struct");
    must(ipl_open(&store, NULL, &config, memory, sizeof memory) == IPL_NULL_POINTER, "no driver");
    must(ipl_open(&store, driver, NULL, memory, sizeof memory) == IPL_NULL_POINTER, "no config");
    must(ipl_open(&store, driver, &config, NULL, sizeof memory) == IPL_NULL_POINTER, "no memory");
    must(ipl_open_or_format(&store, driver, &config, NULL, sizeof memory) == IPL_NULL_POINTER, "no memory, or a format");
    must(ipl_keys_open(NULL, driver, &config, memory, sizeof memory) == IPL_NULL_POINTER, "no struct of keys");
    must(ipl_format(NULL, driver, &config, memory, sizeof memory) == IPL_NULL_POINTER, "no struct of a format");
    must(ipl_check(&store, driver, &config, memory, sizeof memory, NULL) == IPL_NULL_POINTER, "no count");
    must(ipl_check(NULL, driver, &config, memory, sizeof memory, &records) == IPL_NULL_POINTER, "no struct of a check");
    some.read = NULL;
    refuse_driver(some);
    some = *driver;
    some.program = NULL;
    refuse_driver(some);
    some = *driver;
    some.erase = NULL;
    refuse_driver(some);
    some = *driver;
    some.barrier = NULL;
    refuse_driver(some);
}

static void try_nulls_of_records(void) {
    uint8_t value[8] = {GUARD};
    uint32_t len = 9;
    must(ipl_begin(NULL, 0) == IPL_NULL_POINTER && ipl_commit(NULL, 0) == IPL_NULL_POINTER, "no store");
    must(ipl_close(NULL) == IPL_NULL_POINTER && ipl_reopen(NULL) == IPL_NULL_POINTER, "no store to close");
    must(ipl_abandon(NULL) == IPL_NULL_POINTER && ipl_shutdown(NULL, 0) == IPL_NULL_POINTER, "no store to leave");
    must(ipl_abort_all(NULL) == IPL_NULL_POINTER && ipl_unit_count(NULL) == 0, "no store of sessions");
    must(ipl_detail(NULL)[0] == 0 && ipl_detail(NULL)[3] == 0 && ipl_keys_detail(NULL)[1] == 0, "no store's detail");
    must(ipl_state(&store, NULL) == IPL_NULL_POINTER, "no room for what is known");
    must(ipl_get(&store, 0, 1, NULL, 1, &len) == IPL_NULL_POINTER && len == 0, "no room");
    must(ipl_get(&store, 0, 1, value, 8, NULL) == IPL_NULL_POINTER, "no length");
    must(ipl_share(&store, 0, 1, NULL, 1, &len) == IPL_NULL_POINTER, "no room of a share");
    must(ipl_committed(&store, 1, value, 8, NULL) == IPL_NULL_POINTER, "no length of what is committed");
    must(ipl_put(&store, 0, 1, NULL, 1) == IPL_NULL_POINTER && ipl_put(&store, 0, 1, NULL, 464) == IPL_NULL_POINTER,
         "no value");
    must(ipl_put(&store, 0, 1, NULL, 465) == IPL_TOO_LONG && ipl_put(&store, 0, 1, NULL, 0) == IPL_OK, "none is wanted");
    must(ipl_commit_all(&store, NULL, 1) == IPL_NULL_POINTER && ipl_commit_all(&store, NULL, 32) == IPL_NULL_POINTER,
         "no sessions");
    must(ipl_commit_all(&store, NULL, 33) == IPL_MANY_SESSIONS && ipl_commit_all(&store, NULL, 0) == IPL_OK,
         "none are wanted");
    must(ipl_get(&store, 0, 1, value, 8, &len) == IPL_OK && len == 0, "and the session is as it was");
}

static void try_nulls_of_keys(void) {
    uint8_t value[8] = {GUARD};
    uint32_t len = 9;
    must(ipl_keys_begin(NULL, 0) == IPL_NULL_POINTER && ipl_keys_close(NULL) == IPL_NULL_POINTER, "no store of keys");
    must(ipl_keys_get(&keys, 0, NULL, 1, value, 8, &len) == IPL_NULL_POINTER && len == 0, "no key");
    must(ipl_keys_get(&keys, 0, "a", 1, NULL, 8, &len) == IPL_NULL_POINTER, "no room by key");
    must(ipl_keys_get(&keys, 0, "a", 1, value, 8, NULL) == IPL_NULL_POINTER, "no length by key");
    must(ipl_keys_get(&keys, 0, NULL, 17, value, 8, &len) == IPL_BAD_KEY, "a key that isn't read");
    must(ipl_keys_put(&keys, 0, NULL, 16, "a", 1) == IPL_NULL_POINTER, "no key of a put");
    must(ipl_keys_put(&keys, 0, "a", 1, NULL, 1) == IPL_NULL_POINTER, "no value of a put");
    must(ipl_keys_put(&keys, 0, "a", 1, NULL, 201) == IPL_LONG_VALUE, "a value that isn't read");
    must(ipl_keys_put(&keys, 0, NULL, 0, "a", 1) == IPL_BAD_KEY, "a key of no bytes");
    must(ipl_keys_del(&keys, 0, NULL, 1) == IPL_NULL_POINTER, "no key of a del");
    must(ipl_keys_put(&keys, 0, "a", 1, NULL, 0) == IPL_OK, "no value is wanted");
}

static void try_bad_input(void) {
    static const uint32_t frames[] = {0, 1, 65, UINT32_MAX}, places[] = {0, 4, 1029, UINT32_MAX};
    format_it();
    struct part_counts before = part_counts(PART), after;
    for (size_t i = 0; i < 4; i++) {
        refuse_config(PLACES, frames[i], 0, IPL_BAD_FRAMES, IPL_OK);
        refuse_config(places[i], 4, 0, IPL_BAD_PLACES, IPL_BAD_PLACES);
    }
    refuse_config(PLACES, 4, PLACES - 4, IPL_OK, IPL_BAD_SPARES);
    refuse_config(200, 4, 65, IPL_OK, IPL_BAD_SPARES);
    refuse_config(200, 4, UINT32_MAX, IPL_OK, IPL_BAD_SPARES);
    refuse_sizes(0, IPL_NUMBERS_MOST, IPL_BAD_SESSIONS);
    refuse_sizes(33, IPL_NUMBERS_MOST, IPL_BAD_SESSIONS);
    refuse_sizes(UINT32_MAX, IPL_NUMBERS_MOST, IPL_BAD_SESSIONS);
    refuse_sizes(IPL_SESSIONS, 0, IPL_BAD_NUMBERS);
    refuse_sizes(IPL_SESSIONS, 119, IPL_BAD_NUMBERS);
    refuse_sizes(IPL_SESSIONS, 15301, IPL_BAD_NUMBERS);
    refuse_sizes(1, UINT32_MAX, IPL_BAD_NUMBERS);
    try_nulls_of_parts();
    after = part_counts(PART);
    must(memcmp(&before, &after, sizeof before) == 0, "the part is asked nothing");
    must(open_it() == IPL_OK && ipl_begin(&store, 0) == IPL_OK, "an opening");
    try_nulls_of_records();
    must(ipl_close(&store) == IPL_OK, "a close");
    format_it();
    must(ipl_keys_open(&keys, part_driver(PART), &config, memory, sizeof memory) == IPL_OK, "an opening of keys");
    must(ipl_keys_begin(&keys, 0) == IPL_OK, "a begin");
    try_nulls_of_keys();
    must(ipl_keys_close(&keys) == IPL_OK, "a close of keys");
}

/* ---- records and keys */

static void try_kinds(void) {
    struct ipl_facts state;
    uint8_t value[8];
    uint32_t len, session = 0, twice[] = {0, 1, 0};
    format_it();
    must(ipl_keys_open(&keys, part_driver(PART), &config, memory, sizeof memory) == IPL_OK, "an opening of keys");
    must(ipl_keys_begin(&keys, 0) == IPL_OK && ipl_keys_put(&keys, 0, "k", 1, "v", 1) == IPL_OK, "a put by key");
    struct ipl *s = &keys.store;
    must(ipl_put(s, 0, 1, "a", 1) == IPL_NO_SUCH_CALL && ipl_del(s, 0, 1) == IPL_NO_SUCH_CALL, "a put by name");
    must(ipl_get(s, 0, 1, value, 8, &len) == IPL_NO_SUCH_CALL && len == 0, "a get by name");
    must(ipl_share(s, 0, 1, value, 8, &len) == IPL_NO_SUCH_CALL, "a share by name");
    must(ipl_committed(s, 1, value, 8, &len) == IPL_NO_SUCH_CALL && ipl_begin(s, 1) == IPL_NO_SUCH_CALL, "a begin");
    must(ipl_commit(s, 0) == IPL_NO_SUCH_CALL && ipl_commit_all(s, &session, 1) == IPL_NO_SUCH_CALL, "a commit");
    must(ipl_abort(s, 0) == IPL_NO_SUCH_CALL && ipl_abort_all(s) == IPL_NO_SUCH_CALL, "an abort");
    must(ipl_merge(s, 0) == IPL_NO_SUCH_CALL && ipl_hold(s, 0, 0) == IPL_NO_SUCH_CALL, "a merge");
    must(ipl_release(s, 0, 0) == IPL_NO_SUCH_CALL, "a release");
    must(ipl_keys_get(&keys, 0, "k", 1, value, 8, &len) == IPL_OK && len == 1, "the keys are as they were");
    must(ipl_keys_commit(&keys, 0) == IPL_OK && ipl_keys_reopen(&keys) == IPL_OK, "a reopen of keys");
    must(ipl_keys_begin(&keys, 0) == IPL_OK, "a begin of keys");
    must(ipl_keys_get(&keys, 0, "k", 1, value, 8, &len) == IPL_OK && value[0] == 'v', "a committed value");
    must(ipl_keys_abandon(&keys) == IPL_OK && ipl_keys_del(&keys, 0, "k", 1) == IPL_OK, "no call to abandon");
    must(ipl_keys_abort_all(&keys) == IPL_OK && ipl_keys_abort(&keys, 0) == IPL_NOT_OPEN, "an abort of all");
    must(ipl_keys_begin(&keys, 7) == IPL_OK && ipl_keys_shutdown(&keys, 0) == IPL_SESSIONS_OPEN, "a session of keys");
    must(ipl_keys_detail(&keys)[0] == 7 && ipl_keys_shutdown(&keys, 1) == IPL_OK, "a shutdown that drops it");
    must(ipl_keys_state(&keys, &state) == IPL_OK && state.is_down == 1 && state.units == PLACES - 5, "what is known of keys");
    must(ipl_keys_begin(&keys, 0) == IPL_DOWN && ipl_keys_reopen(&keys) == IPL_OK, "a reopen behind it");
    must(ipl_keys_begin(&keys, 0) == IPL_OK, "a begin behind it");
    must(ipl_keys_get(&keys, 0, "k", 1, value, 8, &len) == IPL_OK && value[0] == 'v', "the value is there");
    must(ipl_keys_abort(&keys, 0) == IPL_OK && ipl_keys_unit_count(&keys) == PLACES - 5, "units of keys");
    must(ipl_keys_merge(&keys, PLACES - 6) == IPL_OK && ipl_keys_merge(&keys, PLACES - 5) == IPL_BAD_UNIT, "a merge of keys");
    for (uint32_t s = 0; s < 2; s++) {
        must(ipl_keys_begin(&keys, s) == IPL_OK, "two sessions of keys");
        must(ipl_keys_put(&keys, s, s == 0 ? "one" : "two", 3, "w", 1) == IPL_OK, "which write");
    }
    must(ipl_keys_share(&keys, 1, "k", 1) == IPL_OK && ipl_keys_put(&keys, 0, "k", 1, "x", 1) == IPL_CONFLICT, "a share of a key");
    must(ipl_keys_detail(&keys)[0] == 1 && ipl_keys_share(&keys, 0, "k", 1) == IPL_OK, "whose it is, and another share");
    must(ipl_keys_share(&keys, 0, "two", 3) == IPL_CONFLICT && ipl_keys_share(&keys, 0, NULL, 0) == IPL_BAD_KEY, "none of a key that is written, nor of none");
    must(ipl_keys_share(&keys, 0, NULL, 1) == IPL_NULL_POINTER && ipl_keys_share(&keys, 2, "k", 1) == IPL_NOT_OPEN, "nor so");
    must(ipl_keys_commit_all(&keys, twice, 3) == IPL_TWICE && ipl_keys_detail(&keys)[0] == 0, "one of them twice");
    must(ipl_keys_commit_all(&keys, NULL, 33) == IPL_MANY_SESSIONS, "more than there are");
    must(ipl_keys_commit_all(&keys, NULL, 2) == IPL_NULL_POINTER && ipl_keys_commit_all(&keys, NULL, 0) == IPL_OK, "none");
    must(ipl_keys_commit_all(&keys, twice, 2) == IPL_OK && ipl_keys_abort(&keys, 1) == IPL_NOT_OPEN, "both of them");
    must(ipl_keys_begin(&keys, 0) == IPL_OK, "a begin behind them");
    must(ipl_keys_get(&keys, 0, "two", 3, value, 8, &len) == IPL_OK && value[0] == 'w', "what both wrote");
    must(ipl_keys_close(&keys) == IPL_OK && ipl_keys_unit_count(&keys) == 0, "a close of keys");
    must(open_it() == IPL_OK, "an opening of records");
    must(ipl_keys_begin((struct ipl_keys *)(void *)&store, 0) == IPL_NO_SUCH_CALL, "a key of records");
    must(ipl_close(&store) == IPL_OK, "a close");
}

/* ---- a part that is only read */

/* Each call that would write, and each that wants a session, is refused, by name and by key, also where its pointers are NULL. */
static void refuses_all(struct ipl_keys *k) {
    struct ipl *s = &k->store;
    uint8_t value[8];
    uint32_t len = 9, session = 0;
    must(ipl_begin(s, 0) == IPL_READ_ONLY && ipl_begin(s, 32) == IPL_READ_ONLY, "a begin");
    must(ipl_get(s, 0, 9, value, 8, &len) == IPL_READ_ONLY && len == 0, "a get");
    must(ipl_share(s, 0, 9, value, 8, &len) == IPL_READ_ONLY && len == 0, "a share");
    must(ipl_put(s, 0, 9, "a", 1) == IPL_READ_ONLY && ipl_put(s, 0, 9, NULL, 1) == IPL_READ_ONLY, "a put");
    must(ipl_del(s, 0, 9) == IPL_READ_ONLY && ipl_commit(s, 0) == IPL_READ_ONLY, "a del and a commit");
    must(ipl_commit_all(s, &session, 1) == IPL_READ_ONLY && ipl_commit_all(s, NULL, 0) == IPL_READ_ONLY, "a commit of several");
    must(ipl_abort(s, 0) == IPL_READ_ONLY && ipl_abort_all(s) == IPL_READ_ONLY, "an abort");
    must(ipl_merge(s, 0) == IPL_READ_ONLY && ipl_hold(s, 0, 0) == IPL_READ_ONLY && ipl_release(s, 0, 0) == IPL_READ_ONLY, "a merge");
    must(ipl_shutdown(s, 0) == IPL_READ_ONLY && ipl_shutdown(s, 1) == IPL_READ_ONLY, "a shutdown");
    must(ipl_keys_begin(k, 0) == IPL_READ_ONLY && ipl_keys_commit(k, 0) == IPL_READ_ONLY, "a begin of keys");
    must(ipl_keys_get(k, 0, "k", 1, value, 8, &len) == IPL_READ_ONLY && len == 0, "a get by key");
    must(ipl_keys_put(k, 0, "k", 1, "v", 1) == IPL_READ_ONLY && ipl_keys_del(k, 0, "k", 1) == IPL_READ_ONLY, "a put by key");
    must(ipl_keys_share(k, 0, "k", 1) == IPL_READ_ONLY && ipl_keys_abort(k, 0) == IPL_READ_ONLY, "a share of a key");
    must(ipl_keys_commit_all(k, &session, 1) == IPL_READ_ONLY && ipl_keys_abort_all(k) == IPL_READ_ONLY, "several of keys");
    must(ipl_keys_merge(k, 0) == IPL_READ_ONLY && ipl_keys_shutdown(k, 1) == IPL_READ_ONLY, "a merge of keys");
}

/* What is answered of record 9, which has three bytes, of the last name, and of one behind it. */
static void reads_one(struct ipl *s) {
    uint8_t value[8];
    uint32_t len;
    must(ipl_committed(s, 9, value, 8, &len) == IPL_OK && len == 3 && memcmp(value, "abc", 3) == 0, "a record");
    must(ipl_committed(s, 9, value, 2, &len) == IPL_NO_ROOM && len == 3 && ipl_detail(s)[0] == 3, "and its room");
    must(ipl_committed(s, 960 * (PLACES - 5) - 1, value, 8, &len) == IPL_NOTHING && len == 0, "no record");
    must(ipl_committed(s, 960 * (PLACES - 5), value, 8, &len) == IPL_BAD_NAME && len == 0, "no such name");
    must(ipl_committed(s, 9, NULL, 8, &len) == IPL_NULL_POINTER && ipl_committed(s, 9, value, 8, NULL) == IPL_NULL_POINTER, "no room");
}

static void try_reader(void) {
    const struct ipl_driver *driver = part_driver(PART);
    struct ipl_config bare = IPL_CONFIG_WITH(PLACES, 0, 99, 0, IPL_NUMBERS_LEAST);
    struct ipl_facts facts, later;
    struct ipl copy, *s = &keys.store;
    format_it();
    must(open_it() == IPL_OK && ipl_begin(&store, 0) == IPL_OK && ipl_put(&store, 0, 9, "abc", 3) == IPL_OK, "a put");
    must(ipl_commit(&store, 0) == IPL_OK && ipl_begin(&store, 0) == IPL_OK && ipl_put(&store, 0, 9, "x", 1) == IPL_OK, "a commit");
    must(ipl_close(&store) == IPL_OK, "a close");
    uint64_t writes = part_writes(PART), reads = part_counts(PART).calls[READ];
    must(ipl_open_to_read(s, driver, &bare, memory, ipl_read_memory(&bare)) == IPL_OK, "an opening to read");
    must(ipl_unit_count(s) == PLACES - 5 && ipl_keys_unit_count(&keys) == PLACES - 5, "its units");
    reads_one(s);
    refuses_all(&keys);
    reads_one(s);
    must(ipl_state(s, &facts) == IPL_OK && facts.places == PLACES && facts.units == PLACES - 5 && facts.spares == 1, "what is known");
    must(facts.frames == 0 && facts.sessions == 0 && facts.room == IPL_NUMBERS_LEAST && facts.is_down == 0, "of a reader");
    must(facts.reads == part_counts(PART).calls[READ] - reads && facts.reads != 0, "its reads");
    must(facts.programs == 0 && facts.erases == 0 && facts.barriers == 0 && facts.failures == 0 && facts.worn == 0, "and nothing else");
    must(facts.retired == 0 && facts.most_erases == 0 && facts.clean_logs == 0 && facts.numbers == 0, "nor what is left");
    /* It is an open store to all others. */
    must(ipl_open(&second, driver, &config, more, sizeof more) == IPL_PART_IN_USE, "its part is in use");
    must(ipl_open_to_read(s, part_driver(OTHER), &config, more, sizeof more) == IPL_STORE_IN_USE, "and its struct");
    must(ipl_open_to_read(&second, part_driver(OTHER), &config, memory, sizeof memory) == IPL_MEMORY_IN_USE, "and its memory");
    copy = *s;
    must(ipl_close(&copy) == IPL_NO_STORE, "a copy is none");
    must(ipl_reopen(s) == IPL_OK && ipl_state(s, &later) == IPL_OK && later.reads > facts.reads && later.units == PLACES - 5, "a reopen");
    reads_one(s);
    must(ipl_abandon(s) == IPL_OK, "no call to abandon");
    reads_one(s);
    must(ipl_keys_close(&keys) == IPL_OK && ipl_close(s) == IPL_NO_STORE && ipl_unit_count(s) == 0, "a close");
    must(part_writes(PART) == writes, "nothing was written");
}

/* ---- blank parts */

static int holds_nothing(void) {
    for (uint32_t place = 0; place < PLACES; place++)
        for (uint32_t sector = 0; sector < SECTORS; sector++)
            for (int i = 0; i < SECTOR; i++)
                if (part_sector(OTHER, place, sector)[i] != 0xFF) return 0;
    return 1;
}

static void all_answer(enum ipl_answer wanted, const char *what) {
    const struct ipl_driver *driver = part_driver(OTHER);
    uint32_t records;
    must(ipl_open(&store, driver, &config, memory, sizeof memory) == wanted, what);
    must(ipl_keys_open(&keys, driver, &config, memory, sizeof memory) == wanted, what);
    must(ipl_open_to_read(&store, driver, &config, memory, sizeof memory) == wanted, what);
    must(ipl_check(&store, driver, &config, memory, ipl_check_memory(&config), &records) == wanted, what);
}

static void try_blank(void) {
    const struct ipl_driver *driver = part_driver(OTHER);
    static const struct part_ills none, unread = {.fails[READ] = 65536};
    part_free(OTHER);
    part_new_blank(OTHER, PLACES);
    all_answer(IPL_BLANK, "a blank part");
    /* It is blank where a sector behind the first has bytes, and isn't where a first one has another bit. */
    part_sector(OTHER, 3, 1)[7] = 0;
    all_answer(IPL_BLANK, "a part with blank first sectors");
    part_sector(OTHER, PLACES - 1, 0)[SECTOR - 1] = 0xFE;
    all_answer(IPL_NOT_FORMATTED, "a part with one bit in its last first sector");
    must(ipl_open_or_format(&store, driver, &config, memory, sizeof memory) == IPL_NOT_FORMATTED, "which isn't formatted");
    must(part_counts(OTHER).calls[ERASE] == 0 && part_counts(OTHER).calls[PROGRAM] == 0, "nor written to");
    part_sector(OTHER, PLACES - 1, 0)[SECTOR - 1] = 0xFF;
    part_sector(OTHER, 3, 1)[7] = 0xFF;
    must(holds_nothing(), "nothing is written by an opening");
    part_set_ills(OTHER, unread);
    must(!ipl_is_up(ipl_open_or_format(&store, driver, &config, memory, sizeof memory)), "a part that can't be read");
    part_set_ills(OTHER, none);
    must(part_counts(OTHER).calls[ERASE] == 0, "isn't formatted");
    must(ipl_open_or_format(&store, driver, &config, memory, sizeof memory) == IPL_OK, "a blank part is formatted");
    must(ipl_unit_count(&store) == PLACES - 4 - config.spares, "with as many spare places");
    must(ipl_begin(&store, 0) == IPL_OK && ipl_put(&store, 0, 5, "x", 1) == IPL_OK, "a put");
    must(ipl_commit(&store, 0) == IPL_OK && ipl_close(&store) == IPL_OK, "a commit");
    must(ipl_open_or_format(&store, driver, &config, memory, sizeof memory) == IPL_OK, "and not a second time");
    uint32_t len;
    must(ipl_committed(&store, 5, NULL, 0, &len) == IPL_NO_ROOM && len == 1, "what is committed is there");
    must(ipl_close(&store) == IPL_OK, "a close");
    /* Each first sector rots, and nothing is taken for blank, nor formatted. */
    for (uint32_t place = 0; place < PLACES; place++) part_sector(OTHER, place, 0)[0] ^= 1;
    struct part_counts before = part_counts(OTHER);
    must(ipl_open_or_format(&store, driver, &config, memory, sizeof memory) == IPL_NOT_FORMATTED, "rotten headers");
    must(part_counts(OTHER).calls[ERASE] == before.calls[ERASE], "are not formatted");
    for (uint32_t place = 0; place < PLACES; place++) part_sector(OTHER, place, 0)[0] ^= 1;
    must(ipl_open(&store, driver, &config, memory, sizeof memory) == IPL_OK && ipl_close(&store) == IPL_OK, "as before");
    part_free(OTHER);
    part_new_blank(OTHER, PLACES);
    must(ipl_keys_open_or_format(&keys, driver, &config, memory, sizeof memory) == IPL_OK, "a blank part for keys");
    /* A part that is blank behind an open store's back. */
    for (uint32_t place = 0; place < PLACES; place++) memset(part_sector(OTHER, place, 0), 0xFF, SECTOR);
    must(ipl_keys_reopen(&keys) == IPL_BLANK && ipl_keys_begin(&keys, 0) == IPL_DOWN, "a reopen of a blank part");
    must(ipl_keys_close(&keys) == IPL_OK, "a close");
}

/* A first format that a power cut ends: blank, or formatted, or it is said that it is neither. */
static void try_cut_format(void) {
    const struct ipl_driver *driver = part_driver(OTHER);
    int blank = 0, neither = 0, done = 0;
    for (uint64_t k = 1; done == 0; k++) {
        part_free(OTHER);
        part_new_blank(OTHER, PLACES);
        part_cut_after(OTHER, k);
        enum ipl_answer answer = ipl_format(&store, driver, &config, memory, sizeof memory);
        done = !part_power_on(OTHER);
        part_cut_after(OTHER, 0);
        must(answer == (done ? IPL_OK : IPL_PART_STOPPED), "a format that is cut");
        answer = ipl_open(&store, driver, &config, memory, sizeof memory);
        must(answer == IPL_OK || answer == IPL_BLANK || answer == IPL_NOT_FORMATTED || answer == IPL_MISSING,
             "what it leaves");
        must(!done || answer == IPL_OK, "a format that is done");
        blank += answer == IPL_BLANK;
        neither += answer == IPL_NOT_FORMATTED || answer == IPL_MISSING;
        ipl_close(&store);
    }
    must(blank != 0 && neither != 0, "cuts before the first header, and after it");
}

/* ---- what is known, sessions, and the end */

/* An opening without a mark knows of no clean log sector, and a merge makes all of its unit's clean; one put and its commit
 * take a log sector, a commit sector, and the numbers of the begin and of both. */
static void try_left(void) {
    struct ipl_facts first, before, after;
    format_it();
    must(open_it() == IPL_OK && ipl_state(&store, &first) == IPL_OK, "an opening");
    must(first.spares == 1 && first.retired == 0 && first.clean_logs == 0 && first.clean_commits >= 191, "what is left at first");
    must(first.least_erases != 0 && first.least_erases <= first.most_erases && first.numbers > UINT64_MAX / 2, "erases and numbers");
    for (uint32_t unit = 0; unit < PLACES - 5; unit++) must(ipl_merge(&store, unit) == IPL_OK, "a merge of each unit");
    must(ipl_state(&store, &before) == IPL_OK && before.clean_logs == 15 && before.most_erases > 1, "log sectors, for erases");
    must(ipl_begin(&store, 0) == IPL_OK && ipl_put(&store, 0, 9, "abc", 3) == IPL_OK && ipl_commit(&store, 0) == IPL_OK, "a commit");
    must(ipl_state(&store, &after) == IPL_OK && after.clean_logs == 14 && after.clean_commits == before.clean_commits - 1, "its sectors");
    must(before.numbers - after.numbers == 3 && after.least_erases == before.least_erases, "its numbers, and no erase");
    must(ipl_merge(&store, 0) == IPL_OK && ipl_state(&store, &after) == IPL_OK && after.clean_logs == 15, "log sectors again");
    must(ipl_close(&store) == IPL_OK, "a close");
}

/* With S sessions the numbers from S on are refused, by records and by keys, also behind a reopen. */
static void try_sessions_of(uint32_t sessions) {
    struct ipl_config few = IPL_CONFIG_OF(PLACES, FRAMES, 1, sessions);
    const struct ipl_driver *driver = part_driver(PART);
    struct ipl_facts facts;
    const uint32_t last[] = {sessions - 1}, past[] = {0, sessions};
    format_it();
    must(ipl_open(&store, driver, &few, memory, sizeof memory) == IPL_OK, "an opening");
    must(ipl_state(&store, &facts) == IPL_OK && facts.sessions == sessions, "how many sessions there are");
    for (int turn = 0; turn < 2; turn++) {
        for (uint32_t s = 0; s < sessions; s++) must(ipl_begin(&store, s) == IPL_OK, "each session");
        must(ipl_begin(&store, sessions) == IPL_BAD_SESSION && ipl_begin(&store, UINT32_MAX) == IPL_BAD_SESSION, "and no other");
        must(ipl_put(&store, sessions, 1, "a", 1) == IPL_BAD_SESSION && ipl_abort(&store, sessions) == IPL_BAD_SESSION, "its calls");
        must(ipl_commit_all(&store, past, 2) == IPL_BAD_SESSION, "a commit of several");
        must(ipl_put(&store, sessions - 1, 1, "a", 1) == IPL_OK && ipl_commit_all(&store, last, 1) == IPL_OK, "the last one");
        must(ipl_reopen(&store) == IPL_OK, "a reopen");
    }
    must(ipl_close(&store) == IPL_OK && ipl_keys_open(&keys, driver, &few, memory, sizeof memory) == IPL_OK, "an opening for keys");
    must(ipl_keys_begin(&keys, sessions) == IPL_BAD_SESSION && ipl_keys_begin(&keys, sessions - 1) == IPL_OK, "sessions of keys");
    must(ipl_keys_close(&keys) == IPL_OK, "a close");
}

static void try_state(void) {
    struct ipl_facts state;
    uint8_t value[8];
    uint32_t len;
    static const struct part_ills none, worn = {.wears = 65536}, unwritten = {.fails[PROGRAM] = 65536},
                                  flipping = {.flips = 65536};
    format_it();
    struct part_counts before = part_counts(PART), after;
    must(open_it() == IPL_OK && ipl_begin(&store, 3) == IPL_OK && ipl_begin(&store, 31) == IPL_OK, "two sessions");
    must(ipl_put(&store, 3, 9, "abc", 3) == IPL_OK && ipl_put(&store, 31, 10, "abc", 3) == IPL_OK, "two puts");
    must(ipl_shutdown(&store, 0) == IPL_SESSIONS_OPEN && ipl_detail(&store)[0] == 3, "a shutdown is refused");
    must(ipl_unit_count(&store) == PLACES - 5 && ipl_detail(&store)[0] == 3, "the count leaves the detail alone");
    must(ipl_abort_all(&store) == IPL_OK && ipl_get(&store, 31, 10, value, 8, &len) == IPL_NOT_OPEN, "an abort of all");
    must(ipl_abort_all(&store) == IPL_OK && ipl_begin(&store, 3) == IPL_OK, "and of none");
    must(ipl_put(&store, 3, 9, "abc", 3) == IPL_OK && ipl_commit(&store, 3) == IPL_OK, "a commit");
    must(ipl_begin(&store, 4) == IPL_OK && ipl_put(&store, 4, 9, "xyz", 3) == IPL_OK, "a put that isn't committed");
    must(ipl_state(&store, &state) == IPL_OK && state.is_down == 0, "a store that is up");
    must(state.places == PLACES && state.frames == FRAMES && state.units == PLACES - 5 && state.spares == 1 && state.worn == 0, "its sizes");
    must(state.sessions == IPL_SESSIONS && state.room == IPL_NUMBERS_MOST, "which are the greatest");
    after = part_counts(PART);
    must(state.reads == after.calls[READ] - before.calls[READ] && state.failures == 0, "its reads");
    must(state.programs == after.calls[PROGRAM] - before.calls[PROGRAM], "its programs");
    must(state.erases == after.calls[ERASE] - before.calls[ERASE] && state.erases != 0, "its erases");
    must(state.barriers == after.calls[BARRIER] - before.calls[BARRIER], "its barriers");
    must(state.doubtful == 0, "no read is doubtful");
    part_set_ills(PART, flipping);
    must(ipl_merge(&store, 0) == IPL_OK && ipl_state(&store, &state) == IPL_OK, "a merge over reads that are doubtful");
    must(state.doubtful != 0 && state.doubtful == part_counts(PART).flips && state.failures == 0, "which are made again");
    part_set_ills(PART, none);
    must(ipl_shutdown(&store, 1) == IPL_OK && ipl_begin(&store, 0) == IPL_DOWN, "a shutdown that drops sessions");
    must(ipl_state(&store, &state) == IPL_OK && state.is_down == 1, "a store that is down");
    must(ipl_reopen(&store) == IPL_OK && ipl_state(&store, &state) == IPL_OK && state.is_down == 0, "a reopen");
    must(ipl_committed(&store, 9, value, 8, &len) == IPL_OK && memcmp(value, "abc", 3) == 0, "what is committed");
    part_set_ills(PART, worn);
    must(ipl_merge(&store, 0) == IPL_WORN_OUT && ipl_detail(&store)[0] == 2, "one place more is worn than is spare");
    part_set_ills(PART, none);
    must(ipl_state(&store, &state) == IPL_OK && state.worn == 2 && state.retired == 1 && state.is_down == 1, "which is known");
    must(ipl_close(&store) == IPL_OK, "a close");
    must(ipl_open_to_read(&store, part_driver(PART), &config, memory, sizeof memory) == IPL_OK, "an opening to read of a worn part");
    must(ipl_committed(&store, 9, value, 8, &len) == IPL_OK && memcmp(value, "abc", 3) == 0 && ipl_close(&store) == IPL_OK, "its record");
    part_mend(PART);
    format_it();
    must(open_it() == IPL_OK, "an opening");
    part_set_ills(PART, unwritten);
    must(ipl_merge(&store, 0) == IPL_STOPPED && ipl_merge(&store, 0) == IPL_DOWN, "a write that fails");
    must(ipl_state(&store, &state) == IPL_OK && state.failures == 1 && state.is_down == 1, "is counted");
    must(ipl_reopen(&store) == IPL_PART_STOPPED && ipl_begin(&store, 0) == IPL_DOWN, "a reopen that fails");
    must(ipl_abort_all(&store) == IPL_DOWN && ipl_shutdown(&store, 1) == IPL_DOWN, "a store that is down");
    must(ipl_close(&store) == IPL_OK && open_it() == IPL_PART_STOPPED, "nor is it opened");
    must(ipl_open_to_read(&store, part_driver(PART), &config, memory, sizeof memory) == IPL_OK, "but to read, where nothing can be written");
    must(ipl_committed(&store, 9, value, 8, &len) == IPL_NOTHING && ipl_close(&store) == IPL_OK, "and was formatted");
    part_set_ills(PART, none);
    must(open_it() == IPL_OK && ipl_close(&store) == IPL_OK, "and one that doesn't");
}

int main(void) {
    any_begin(1);
    part_new(PART, PLACES);
    part_new(OTHER, PLACES);
    try_versions();
    try_memory();
    try_answers();
    try_rooms();
    try_handles();
    try_list();
    try_bad_input();
    try_kinds();
    try_reader();
    try_blank();
    try_cut_format();
    try_left();
    try_sessions_of(1);
    try_sessions_of(2);
    try_sessions_of(IPL_SESSIONS);
    try_state();
    part_free(PART);
    part_free(OTHER);
    printf("interface: memory, versions, answers, rooms, handles, open parts, bad input, parts that are only read, blank parts "
           "and what is known of a store are as ipl.h says\n");
    return 0;
}
