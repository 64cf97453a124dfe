/* Each answer by itself, over two parts at once: how many units, frames and records there are, room for committed
 * numbers, each fault of a get, a part that is only read, batches of no session and of one. Of the part that isn't asked nothing
 * changes. usage: answers */
#include "store.h"
#include <stdio.h>
#include <stdlib.h>
#include <string.h>

enum { PLACES = 9, OTHER = 0, PART = 1, NAME = 5, PAGE_SLOTS = 64, TRIES = 100 };

static struct ipl other, memory, *store = &memory;
static const struct part_ills none, unread = {.fails[READ] = 65536},
                              unwritten = {.fails[PROGRAM] = 65536}, lying = {.lies = 32768};

static void must(int holds, const char *what) {
    if (holds) return;
    const uint32_t *d = ipl_detail(store);
    fprintf(stderr, "answers: %s (%u %u %08x %08x)\n", what, d[0], d[1], d[2], d[3]);
    exit(1);
}

enum { COMMITS = 1000, SOME_NAMES = 700 };

static void opens(uint32_t frames) { must(part_open(store, PART, PLACES, frames) == IPL_OK, "an opening"); }

static enum ipl_answer gets(uint32_t name, uint32_t *len) {
    uint8_t bytes[IPL_VALUE];
    return ipl_get(store, 0, name, bytes, sizeof bytes, len);
}

/* Commits a byte at a name, or that there is none. */
static void writes(struct ipl *s, uint32_t name, int there) {
    static const uint8_t byte = 0x61;
    must(ipl_begin(s, 0) == IPL_OK, "a begin");
    must((there ? ipl_put(s, 0, name, &byte, 1) : ipl_del(s, 0, name)) == IPL_OK, "a write");
    must(ipl_commit(s, 0) == IPL_OK, "a commit");
}

static int has(struct ipl *s, uint32_t name) {
    uint8_t bytes[IPL_VALUE];
    uint32_t len;
    enum ipl_answer answer = ipl_committed(s, name, bytes, sizeof bytes, &len);
    must(answer == IPL_NOTHING || (answer == IPL_OK && len == 1 && bytes[0] == 0x61), "a record");
    return answer == IPL_OK;
}

/* Each spare place is a unit less. The last format here has none to spare. */
static void try_units(void) {
    for (uint32_t spares = 3; spares-- > 0;) {
        must(part_format(PART, PLACES, spares, NULL) == IPL_OK, "a format");
        opens(2);
        must(ipl_unit_count(store) == PLACES - 4 - spares, "four places and the spare ones are no units");
        must(ipl_merge(store, PLACES - 5 - spares) == IPL_OK, "a merge of the last unit");
        must(ipl_merge(store, PLACES - 4 - spares) == IPL_BAD_UNIT, "no unit behind it");
        ipl_close(store);
    }
}

/* All frames but one can be held. */
static void try_frames(void) {
    static const uint32_t asked[] = {2, 3, 16, 64};
    for (size_t i = 0; i < sizeof asked / sizeof *asked; i++) {
        uint32_t last = asked[i] - 1;
        opens(asked[i]);
        for (uint32_t page = 0; page < last; page++)
            must(ipl_hold(store, page / 15, page % 15) == IPL_OK, "holds of all frames but one");
        must(ipl_hold(store, last / 15, last % 15) == IPL_HOLDS_FULL, "and not of the last");
        ipl_close(store);
    }
}

static void counts(uint32_t wanted) {
    uint32_t found = 7;
    must(part_check(PART, PLACES, &found, NULL) == IPL_OK && found == wanted, "as many records as were put");
}

static void try_records(void) {
    counts(0);
    opens(4);
    writes(store, NAME, 1);
    ipl_close(store);
    counts(1);
    opens(4);
    writes(store, 4799, 1);
    writes(store, 960, 1);
    ipl_close(store);
    counts(3);
    opens(4);
    writes(store, 960, 0);
    must(has(store, NAME) && has(store, 4799) && !has(store, 960), "the records");
    ipl_close(store);
    counts(2);
}

/* A get, a share and a get of what is committed have this answer, and no value. */
static void all_answer(enum ipl_answer wanted, const char *what) {
    uint8_t bytes[IPL_VALUE];
    uint32_t len = 7;
    must(gets(NAME, &len) == wanted && len == 0, what);
    len = 7;
    must(ipl_share(store, 0, NAME, bytes, sizeof bytes, &len) == wanted && len == 0, what);
    len = 7;
    must(ipl_committed(store, NAME, bytes, sizeof bytes, &len) == wanted && len == 0, what);
}

/* A read that fails, and one that has other bytes: the store goes on. */
static void try_reads(void) {
    uint32_t damaged = 0, malformed = 0, len;
    opens(4);
    must(ipl_merge(store, 0) == IPL_OK, "a merge, so that the page has base sectors and no log");
    for (int i = 0; i < TRIES && (damaged == 0 || malformed == 0); i++) {
        /* No page is in a frame. */
        must(ipl_reopen(store) == IPL_OK && ipl_begin(store, 0) == IPL_OK, "a reopen");
        part_set_ills(PART, unread);
        all_answer(IPL_READ_FAULT, "a read that fails");
        part_set_ills(PART, lying);
        enum ipl_answer answer = gets(NAME, &len);
        const uint32_t *d = ipl_detail(store);
        part_set_ills(PART, none);
        /* Half of the reads lie, and the sector that a lie shows may be the right one. */
        must(answer == IPL_DAMAGED || answer == IPL_MALFORMED || answer == IPL_OK, "a read of other bytes");
        if (answer != IPL_OK) must(d[0] < PLACES && len == 0, "a place, and no value");
        if (answer == IPL_DAMAGED) must(d[1] == 1 && d[2] != d[3], "the sector of its page, and two sums");
        if (answer == IPL_MALFORMED) must(d[1] <= 1 && d[2] == 0 && d[3] == 0, "that or the header, and no sums");
        damaged += answer == IPL_DAMAGED;
        malformed += answer == IPL_MALFORMED;
        must(gets(NAME, &len) == IPL_OK && len == 1, "a store that goes on");
    }
    must(damaged != 0 && malformed != 0, "damage and another sector");
    ipl_close(store);
}

/* A get that has to write a page out, which fails: the store is down until it is opened again. */
static void try_down(void) {
    static const uint8_t byte = 0x62;
    uint32_t len;
    opens(2);
    must(ipl_begin(store, 0) == IPL_OK, "a begin");
    for (uint32_t page = 1; page < 3; page++)
        must(ipl_put(store, 0, page * PAGE_SLOTS, &byte, 1) == IPL_OK, "a put in each frame");
    part_set_ills(PART, unwritten);
    must(gets(NAME, &len) == IPL_STOPPED && len == 0, "a write that fails in a get");
    part_set_ills(PART, none);
    struct part_counts before = part_counts(PART), after;
    all_answer(IPL_DOWN, "a store that is down");
    after = part_counts(PART);
    must(memcmp(&before, &after, sizeof before) == 0, "which asks the part nothing");
    must(ipl_reopen(store) == IPL_OK && has(store, NAME) && !has(store, PAGE_SLOTS), "a reopen");
    ipl_close(store);
}

/* A batch of no session changes nothing, and one of one session is its commit. */
static void try_batches(void) {
    static const uint8_t byte = 0x61;
    uint32_t session = 0;
    opens(4);
    must(ipl_begin(store, 0) == IPL_OK && ipl_put(store, 0, 7, &byte, 1) == IPL_OK, "a put");
    must(ipl_commit_all(store, NULL, 0) == IPL_OK && !has(store, 7), "a batch of none");
    must(ipl_commit_all(store, &session, 1) == IPL_OK && has(store, 7), "a batch of one");
    must(ipl_abort(store, 0) == IPL_NOT_OPEN, "its session is closed");
    must(ipl_commit_all(store, &session, 1) == IPL_NOT_OPEN, "a batch of one that isn't open");
    ipl_close(store);
}

/* ---- a part that is only read */

static uint32_t number_at(const uint8_t *bytes) {
    return (uint32_t)bytes[0] << 24 | (uint32_t)bytes[1] << 16 | (uint32_t)bytes[2] << 8 | bytes[3];
}

/* The sum of a sector, and where its head says that of what it is (docs/FORMAT.md). */
enum { KIND = 4, UNIT = 8, GENERATION = 12, SUM = 28, PAYLOAD = 32, DATA_HEADER = 1 };

static uint32_t sum_of(const uint8_t *sector) {
    uint32_t sum = 0xFFFFFFFF;
    for (uint32_t i = 0; i < SECTOR; i++) {
        if (i >= SUM && i < PAYLOAD) continue;
        sum ^= sector[i];
        for (int bit = 0; bit < 8; bit++) sum = (sum & 1) != 0 ? sum >> 1 ^ 0xEDB88320 : sum >> 1;
    }
    return sum ^ 0xFFFFFFFF;
}

/* Where unit 0 stands: the place whose data header is the youngest of it. The generations of this part are below 2^32. */
static uint32_t place_of_unit_0(void) {
    uint32_t found = PLACES, youngest = 0;
    for (uint32_t place = 0; place < PLACES; place++) {
        const uint8_t *header = part_sector(PART, place, 0);
        if (header[KIND] != DATA_HEADER || sum_of(header) != number_at(header + SUM) || number_at(header + UNIT) != 0) continue;
        if (found < PLACES && number_at(header + GENERATION + 4) < youngest) continue;
        found = place;
        youngest = number_at(header + GENERATION + 4);
    }
    must(found < PLACES, "a header of unit 0");
    return found;
}

/* One record a page of unit 0, in base sectors; a second one of page 1 and one of unit 1, in log sectors. */
static int is_written(uint32_t name) { return (name < 960 && name % PAGE_SLOTS == 0) || name == PAGE_SLOTS + 6 || name == 961; }

static void write_some(void) {
    must(part_format(PART, PLACES, 0, NULL) == IPL_OK, "a format");
    opens(4);
    for (uint32_t page = 0; page < 15; page++) writes(store, page * PAGE_SLOTS, 1);
    must(ipl_merge(store, 0) == IPL_OK, "a merge");
    writes(store, PAGE_SLOTS + 6, 1);
    writes(store, 961, 1);
    ipl_close(store);
}

/* Each name of page 0 is answered this, with these four; each other one as it was written. Nothing is written. */
static void is_read(enum ipl_answer wanted, const uint32_t *four) {
    uint64_t writes_before = part_writes(PART);
    uint8_t byte;
    uint32_t len;
    must(part_open_to_read(store, PART, PLACES, IPL_NUMBERS_LEAST) == IPL_OK, "an opening to read");
    for (int turn = 0; turn < 2; turn++) {
        for (uint32_t name = 0; name < ipl_unit_count(store) * IPL_UNIT_NAMES; name++) {
            if (name >= PAGE_SLOTS || wanted == IPL_OK) {
                must(has(store, name) == is_written(name), "a record that is read");
                continue;
            }
            must(ipl_committed(store, name, &byte, 1, &len) == wanted && len == 0, "a page that doesn't read");
            must(memcmp(ipl_detail(store), four, 4 * sizeof *four) == 0, "what is wrong with it");
        }
        must(ipl_committed(store, 4800, &byte, 1, &len) == IPL_BAD_NAME, "no name behind the last");
        must(ipl_reopen(store) == IPL_OK, "a reopen");
    }
    part_set_ills(PART, unread);
    must(ipl_committed(store, PAGE_SLOTS, &byte, 1, &len) == IPL_READ_FAULT && len == 0, "a read that fails");
    must(ipl_reopen(store) == IPL_PART_UNREAD && ipl_committed(store, PAGE_SLOTS, &byte, 1, &len) == IPL_DOWN, "and a reopen");
    part_set_ills(PART, none);
    must(ipl_reopen(store) == IPL_OK && has(store, PAGE_SLOTS) && ipl_close(store) == IPL_OK, "and one that doesn't");
    must(part_writes(PART) == writes_before, "nothing is written");
}

/* The first base sector of page 0 rots by a bit; then it is that of page 1. */
static void try_rotten(void) {
    static const uint32_t zeros[4];
    uint8_t old[SECTOR], *first, *next;
    write_some();
    is_read(IPL_OK, zeros);
    uint32_t place = place_of_unit_0();
    first = part_sector(PART, place, 1);
    next = part_sector(PART, place, 17);
    memcpy(old, first, SECTOR);
    must(number_at(first + SUM) == sum_of(first) && number_at(next + SUM) == sum_of(next), "the sums of two base sectors");
    first[PAYLOAD] ^= 4;
    is_read(IPL_DAMAGED, (uint32_t[]){place, 1, number_at(old + SUM), sum_of(first)});
    memcpy(first, next, SECTOR);
    is_read(IPL_MALFORMED, (uint32_t[]){place, 1, 0, 0});
    memcpy(first, old, SECTOR);
    is_read(IPL_OK, zeros);
}

/* ---- room for committed numbers */

static struct ipl_config with_room_for(uint32_t numbers) {
    struct ipl_config config = IPL_CONFIG_WITH(PLACES, 4, 0, 1, numbers);
    return config;
}

static enum ipl_answer open_with(uint32_t numbers) {
    struct ipl_config config = with_room_for(numbers);
    return part_open_with(store, PART, &config);
}

static void facts_say(uint32_t numbers) {
    struct ipl_facts facts;
    must(ipl_state(store, &facts) == IPL_OK && facts.room == numbers && facts.sessions == 1, "how many have room");
}

/* A part on which so many numbers are committed: each commit of a session has one, and none makes a new status block. */
static void commit_numbers(uint32_t count) {
    struct ipl_facts facts;
    must(part_format(PART, PLACES, 0, NULL) == IPL_OK && open_with(IPL_NUMBERS_MOST) == IPL_OK, "an opening with all");
    facts_say(IPL_NUMBERS_MOST);
    must(ipl_state(store, &facts) == IPL_OK && facts.clean_commits >= count, "a commit sector for each");
    for (uint32_t i = 0; i < count; i++) writes(store, i, 1);
    must(ipl_close(store) == IPL_OK, "a close");
}

/* Where one number more is committed than has room an opening answers that, and has only read. */
static void try_many_numbers(void) {
    size_t size = (size_t)PLACES * SECTORS * SECTOR;
    uint8_t *old = malloc(size);
    static struct ipl_keys keys;
    struct ipl_config few = with_room_for(IPL_NUMBERS_LEAST);
    must(old != NULL, "room");
    commit_numbers(IPL_NUMBERS_LEAST + 1);
    memcpy(old, part_sector(PART, 0, 0), size);
    struct part_counts before = part_counts(PART), after;
    must(open_with(IPL_NUMBERS_LEAST) == IPL_MANY_NUMBERS && ipl_detail(store)[0] == 0, "a number more than have room");
    must(!is_open(store), "nothing is open");
    must(part_open_keys_with(&keys, PART, &few) == IPL_MANY_NUMBERS, "nor by keys");
    must(part_open_to_read(store, PART, PLACES, IPL_NUMBERS_LEAST) == IPL_MANY_NUMBERS && !is_open(store), "nor to read");
    counts(IPL_NUMBERS_LEAST + 1);
    after = part_counts(PART);
    must(after.calls[PROGRAM] == before.calls[PROGRAM] && after.calls[ERASE] == before.calls[ERASE], "nothing is written");
    must(memcmp(old, part_sector(PART, 0, 0), size) == 0, "no byte of the part has changed");
    must(open_with(IPL_NUMBERS_LEAST + 1) == IPL_OK, "room for each of them");
    facts_say(IPL_NUMBERS_LEAST + 1);
    for (uint32_t name = 0; name <= IPL_NUMBERS_LEAST; name++) must(has(store, name), "its record");
    ipl_close(store);
    commit_numbers(IPL_NUMBERS_LEAST);
    must(open_with(IPL_NUMBERS_LEAST) == IPL_OK && ipl_reopen(store) == IPL_OK, "as many as have room");
    facts_say(IPL_NUMBERS_LEAST);
    ipl_close(store);
    counts(IPL_NUMBERS_LEAST);
    free(old);
}

static uint32_t some_name(uint32_t i) { return i % SOME_NAMES * 37 % 4800; }

/* Each name has what its last commit put. */
static void holds_commits(void) {
    for (uint32_t i = COMMITS - SOME_NAMES; i < COMMITS; i++) {
        uint32_t found, len;
        must(ipl_committed(store, some_name(i), &found, sizeof found, &len) == IPL_OK, "a record");
        must(len == sizeof found && found == i, "what was put there last");
    }
}

/* A thousand commits of a put each, with room for so many numbers; then all records, also behind a close and an opening.
 * Answers how many of the commits made a new status block. */
static uint32_t renewals_with(uint32_t numbers, uint64_t *erases) {
    struct ipl_facts facts;
    uint32_t renewals = 0;
    must(part_format(PART, PLACES, 0, NULL) == IPL_OK && open_with(numbers) == IPL_OK, "an opening");
    uint64_t before = part_counts(PART).calls[ERASE];
    for (uint32_t i = 0; i < COMMITS; i++) {
        must(ipl_begin(store, 0) == IPL_OK && ipl_put(store, 0, some_name(i), &i, sizeof i) == IPL_OK, "a put");
        must(ipl_state(store, &facts) == IPL_OK, "what is left");
        renewals += facts.clean_commits == 0;
        must(ipl_commit(store, 0) == IPL_OK, "a commit");
    }
    *erases = part_counts(PART).calls[ERASE] - before;
    holds_commits();
    must(ipl_close(store) == IPL_OK && open_with(numbers) == IPL_OK, "an opening behind it");
    holds_commits();
    ipl_close(store);
    counts(SOME_NAMES);
    return renewals;
}

/* A new status block keeps 60 numbers at most where 120 have room, and one is made where fewer than 60 more have: so at least
 * each 62nd commit makes one. Where all have room it keeps none in 191 of its sectors, so at most each 192nd does. */
static void try_few_numbers(void) {
    uint64_t few_erases, most_erases;
    uint32_t few = renewals_with(IPL_NUMBERS_LEAST, &few_erases), most = renewals_with(IPL_NUMBERS_MOST, &most_erases);
    must(few >= (COMMITS - 61) / 61 && most <= COMMITS / 191, "when a new status block comes");
    must(few_erases > most_erases && few_erases >= few, "each of which is an erase");
    printf("answers: a thousand commits with room for 120 numbers make %u status blocks and %u erases, with room for all %u and %u\n",
           (unsigned)few, (unsigned)few_erases, (unsigned)most, (unsigned)most_erases);
}

int main(void) {
    any_begin(1);
    part_new(OTHER, PLACES);
    part_new(PART, PLACES);
    must(part_format(OTHER, PLACES, 0, NULL) == IPL_OK, "a format of the other part");
    must(part_open(&other, OTHER, PLACES, 4) == IPL_OK, "an opening of the other part");
    writes(&other, 8, 1);
    struct part_counts before = part_counts(OTHER), after;
    try_units();
    try_frames();
    try_records();
    try_reads();
    try_down();
    try_batches();
    try_rotten();
    try_many_numbers();
    try_few_numbers();
    after = part_counts(OTHER);
    must(memcmp(&before, &after, sizeof before) == 0, "another part is asked nothing");
    before = part_counts(PART);
    writes(&other, 9, 1);
    must(has(&other, 8) && has(&other, 9) && !has(&other, NAME), "what the other part holds");
    after = part_counts(PART);
    must(memcmp(&before, &after, sizeof before) == 0, "nor this one by the other's store");
    ipl_close(&other);
    part_free(OTHER);
    part_free(PART);
    printf("answers: units, frames, records, faults of a get, parts that are only read, batches and numbers are as they must be, "
           "over two parts\n");
    return 0;
}
