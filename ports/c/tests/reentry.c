/* A driver that calls the store which is calling it, and one that leaves the call by longjmp. The first is
 * refused, and changes nothing; after the second, which is tried in each call and each function, the store is
 * abandoned and opened again, and has what was committed. usage: reentry [JUMPS [SEED]] */
#include "store.h"
#include <setjmp.h>
#include <stdio.h>
#include <stdlib.h>
#include <string.h>

enum { PLACES = 8, FRAMES = 3, SPARES = 1, NAMES = 960 * (PLACES - 4 - SPARES), SESSIONS = 4, MOST = 8, VALUE = 40 };

static const struct ipl_config config = IPL_CONFIG(PLACES, FRAMES, SPARES);
static uint8_t memory[IPL_MEMORY(PLACES, FRAMES)], more[IPL_MEMORY(PLACES, FRAMES)];
static struct ipl store, second;
static uint64_t refusals;

static void must(int holds, const char *what) {
    if (holds) return;
    fprintf(stderr, "reentry: %s\n", what);
    exit(1);
}

/* ---- a driver over the part in memory */

static int calls_back;      /* it calls the store at each call */
static uint64_t until_jump; /* it leaves the call at this one from now on; 0: at none */
static int jumps_first;     /* before it has asked the part */
static jmp_buf back;
static enum part_kind left_at; /* which function was left */

static void call_store(void) {
    uint8_t value[8];
    uint32_t len = 9, session = 0, records = 9;
    struct ipl_facts state;
    const struct ipl before = store;
    must(ipl_begin(&store, 1) == IPL_BUSY && ipl_put(&store, 0, 1, "a", 1) == IPL_BUSY, "a put");
    must(ipl_get(&store, 0, 1, value, 8, &len) == IPL_BUSY && len == 0, "a get");
    must(ipl_share(&store, 0, 1, value, 8, &len) == IPL_BUSY && ipl_committed(&store, 1, value, 8, &len) == IPL_BUSY,
         "a share");
    must(ipl_del(&store, 0, 1) == IPL_BUSY && ipl_commit(&store, 0) == IPL_BUSY, "a commit");
    must(ipl_commit_all(&store, &session, 1) == IPL_BUSY && ipl_abort(&store, 0) == IPL_BUSY, "a batch");
    must(ipl_abort_all(&store) == IPL_BUSY && ipl_merge(&store, 0) == IPL_BUSY, "a merge");
    must(ipl_hold(&store, 0, 0) == IPL_BUSY && ipl_release(&store, 0, 0) == IPL_BUSY, "a hold");
    must(ipl_shutdown(&store, 1) == IPL_BUSY && ipl_reopen(&store) == IPL_BUSY, "a shutdown");
    must(ipl_close(&store) == IPL_BUSY && ipl_state(&store, &state) == IPL_BUSY, "a close");
    must(ipl_keys_begin((struct ipl_keys *)(void *)&store, 0) == IPL_BUSY, "a key");
    must(ipl_open(&store, part_driver(1), &config, more, sizeof more) == IPL_STORE_IN_USE, "an opening of the struct");
    must(ipl_open(&second, &store.driver, &config, more, sizeof more) == IPL_PART_IN_USE, "an opening of the part");
    must(ipl_open_to_read(&second, &store.driver, &config, more, sizeof more) == IPL_PART_IN_USE, "one to read");
    must(ipl_format(&second, &store.driver, &config, more, sizeof more) == IPL_PART_IN_USE, "a format");
    must(ipl_check(&second, &store.driver, &config, more, sizeof more, &records) == IPL_PART_IN_USE, "a check");
    must(memcmp(&before, &store, sizeof store) == 0, "a store that is as it was");
    refusals++;
}

/* The call is left now, or, where this answers so, once the part was asked. */
static int leaves(enum part_kind kind) {
    if (until_jump == 0 || --until_jump != 0) return 0;
    left_at = kind;
    if (jumps_first) longjmp(back, 1);
    return 1;
}

static int passes(int leaving, int done) {
    if (calls_back) call_store();
    if (leaving) longjmp(back, 1);
    return done;
}

static int busy_read(void *context, uint32_t place, uint32_t sector, uint8_t *into) {
    int leaving = leaves(READ);
    return passes(leaving, part_driver(0)->read(context, place, sector, into));
}

static int busy_program(void *context, uint32_t place, uint32_t sector, const uint8_t *from) {
    int leaving = leaves(PROGRAM);
    return passes(leaving, part_driver(0)->program(context, place, sector, from));
}

static int busy_erase(void *context, uint32_t place) {
    int leaving = leaves(ERASE);
    return passes(leaving, part_driver(0)->erase(context, place));
}

static int busy_barrier(void *context) {
    int leaving = leaves(BARRIER);
    return passes(leaving, part_driver(0)->barrier(context));
}

static struct ipl_driver driver = {NULL, busy_read, busy_program, busy_erase, busy_barrier};

/* ---- calls from the driver */

static void work(void) {
    uint8_t value[VALUE];
    uint32_t records;
    memset(value, 0x42, sizeof value);
    must(ipl_format(&store, &driver, &config, memory, sizeof memory) == IPL_OK, "a format");
    must(ipl_open(&store, &driver, &config, memory, sizeof memory) == IPL_OK, "an opening");
    for (uint32_t i = 0; i < 60; i++) {
        must(ipl_begin(&store, 0) == IPL_OK, "a begin");
        must(ipl_put(&store, 0, i * 37 % NAMES, value, sizeof value) == IPL_OK, "a put of many");
        must(ipl_commit(&store, 0) == IPL_OK, "a commit of many");
    }
    must(ipl_reopen(&store) == IPL_OK && ipl_hold(&store, 0, 3) == IPL_OK && ipl_release(&store, 0, 3) == IPL_OK, "a hold");
    must(ipl_shutdown(&store, 0) == IPL_OK && ipl_close(&store) == IPL_OK, "a shutdown");
    must(ipl_check(&store, &driver, &config, memory, sizeof memory, &records) == IPL_OK && records == 60, "a check");
    must(ipl_open_to_read(&store, &driver, &config, memory, sizeof memory) == IPL_OK, "an opening to read");
    for (uint32_t i = 0; i < 60; i++)
        must(ipl_committed(&store, i * 37 % NAMES, value, sizeof value, &records) == IPL_OK && records == VALUE, "a record that is read");
    must(ipl_reopen(&store) == IPL_OK && ipl_close(&store) == IPL_OK, "a reopen to read");
}

/* The part is asked the same with calls from its driver and without. */
static void try_calls(void) {
    struct part_counts counts[2];
    for (calls_back = 0; calls_back < 2; calls_back++) {
        part_new(0, PLACES);
        work();
        counts[calls_back] = part_counts(0);
        part_free(0);
    }
    calls_back = 0;
    must(memcmp(&counts[0], &counts[1], sizeof counts[0]) == 0, "what the part is asked");
    must(refusals > 1000, "calls from the driver");
}

/* ---- longjmps */

static uint32_t kept[NAMES]; /* what is committed: each record is a number; 0: there is none */
static struct { int is_open; uint32_t count, names[MOST], now[MOST]; } sessions[SESSIONS];
static uint32_t committing; /* a bit for each session that is being committed */
static uint64_t jumps, wholes, jumps_at[KINDS], jumps_of_openings;

static int has(int with_committing) {
    static uint32_t all[NAMES];
    memcpy(all, kept, sizeof all);
    for (uint32_t s = 0; with_committing && s < SESSIONS; s++)
        for (uint32_t i = 0; committing >> s & 1 && i < sessions[s].count; i++)
            all[sessions[s].names[i]] = sessions[s].now[i];
    for (uint32_t name = 0; name < NAMES; name++) {
        uint32_t number = 0, len;
        enum ipl_answer answer = ipl_committed(&store, name, &number, sizeof number, &len);
        must(answer == (len != 0 ? IPL_OK : IPL_NOTHING), "a record after a jump");
        if (number != all[name]) return 0;
    }
    return 1;
}

static void keep_committing(void) {
    for (uint32_t s = 0; s < SESSIONS; s++)
        for (uint32_t i = 0; committing >> s & 1 && i < sessions[s].count; i++)
            kept[sessions[s].names[i]] = sessions[s].now[i];
}

/* Opens the part again until no jump ends it: by a reopen of the store that was left, or from nothing. */
static void open_again(void) {
    static int reopens;
    for (;;) {
        until_jump = any_below(3) ? 0 : 1 + any_below(400);
        if (setjmp(back) == 0) {
            enum ipl_answer answer = reopens ? ipl_reopen(&store) : ipl_open(&store, &driver, &config, memory, sizeof memory);
            until_jump = 0;
            must(answer == IPL_OK, "an opening after a jump");
            return;
        }
        jumps++;
        jumps_of_openings++;
        jumps_at[left_at]++;
        must(ipl_begin(&store, 0) == IPL_BUSY, "a store that was left is busy");
        must(ipl_abandon(&store) == IPL_OK, "an opening that is abandoned");
        /* A reopen leaves a store that is down, an opening none. */
        must(ipl_begin(&store, 0) == (reopens ? IPL_DOWN : IPL_NO_STORE), "a store that was abandoned");
        if (reopens && any_below(2)) must(ipl_close(&store) == IPL_OK, "a close of it");
        reopens = ipl_begin(&store, 0) == IPL_DOWN;
    }
}

static void come_back(void) {
    jumps++;
    jumps_at[left_at]++;
    must(ipl_put(&store, 0, 0, "a", 1) == IPL_BUSY && ipl_abandon(&store) == IPL_OK, "a store that is abandoned");
    must(ipl_begin(&store, 0) == IPL_DOWN && ipl_abandon(&store) == IPL_OK, "and is down");
    if (any_below(2)) {
        must(ipl_close(&store) == IPL_OK, "a close");
        memset(memory, 0x5A, sizeof memory);
        open_again();
    } else {
        struct ipl_facts state;
        must(ipl_state(&store, &state) == IPL_OK && state.is_down == 1, "what is known of it");
        must(ipl_reopen(&store) == IPL_OK, "a reopen after a jump");
    }
    if (!has(0)) {
        must(committing != 0 && has(1), "a jump left another state");
        keep_committing();
        wholes++;
    }
    memset(sessions, 0, sizeof sessions);
}

static void write_one(uint32_t s) {
    uint32_t name = any_below(any_below(2) ? 960 : NAMES), number = 1 + any_below(1000000), i;
    if (sessions[s].count == MOST) return;
    enum ipl_answer answer = ipl_put(&store, s, name, &number, sizeof number);
    must(answer == IPL_OK || answer == IPL_CONFLICT || answer == IPL_PENDING_FULL, "a put");
    if (answer != IPL_OK) return;
    for (i = 0; i < sessions[s].count && sessions[s].names[i] != name; i++) {}
    sessions[s].names[i] = name;
    sessions[s].now[i] = number;
    if (i == sessions[s].count) sessions[s].count++;
}

static void end_sessions(uint32_t s) {
    uint32_t named[SESSIONS], count = 0;
    enum ipl_answer answer;
    for (uint32_t other = 0; other < SESSIONS; other++)
        if (sessions[other].is_open && (other == s || any_below(3) == 0)) {
            named[count++] = other;
            committing |= 1u << other;
        }
    answer = count == 1 ? ipl_commit(&store, named[0]) : ipl_commit_all(&store, named, count);
    must(answer == IPL_OK, "a commit");
    keep_committing();
    for (uint32_t i = 0; i < count; i++) memset(&sessions[named[i]], 0, sizeof sessions[0]);
}

static void step(void) {
    uint32_t s = any_below(SESSIONS);
    committing = 0;
    if (!sessions[s].is_open) {
        must(ipl_begin(&store, s) == IPL_OK, "a begin");
        sessions[s].is_open = 1;
    } else if (any_below(40) == 0) {
        must(ipl_merge(&store, any_below(PLACES - 4 - SPARES)) == IPL_OK, "a merge");
    } else if (any_below(6) == 0) {
        end_sessions(s);
    } else {
        write_one(s);
    }
}

/* A format and a check that are left, after which the part is free. */
static void try_brief(void) {
    static uint32_t records;
    until_jump = 1;
    while (setjmp(back) != 0) {
        must(ipl_format(&store, &driver, &config, memory, sizeof memory) == IPL_STORE_IN_USE, "a format that was left");
        must(ipl_abandon(&store) == IPL_OK && ipl_abandon(&store) == IPL_NO_STORE, "is abandoned");
        until_jump = any_below(4) ? 1 + any_below(20) : 0;
    }
    must(ipl_format(&store, &driver, &config, memory, sizeof memory) == IPL_OK, "a format");
    until_jump = 0;
    must(ipl_check(&store, &driver, &config, memory, sizeof memory, &records) == IPL_OK && records == 0, "a check");
    until_jump = 9;
    if (setjmp(back) == 0) {
        ipl_check(&store, &driver, &config, memory, sizeof memory, &records);
        must(0, "a check that isn't left");
    }
    must(ipl_abandon(&store) == IPL_OK, "a check is abandoned");
    must(ipl_check(&store, &driver, &config, memory, sizeof memory, &records) == IPL_OK, "and made again");
}

/* An opening to read that is left, and a record of a part that is only read. */
static void try_reader(void) {
    static uint32_t len;
    until_jump = 9;
    if (setjmp(back) == 0) {
        ipl_open_to_read(&store, &driver, &config, memory, sizeof memory);
        must(0, "an opening to read that isn't left");
    }
    must(ipl_committed(&store, 0, NULL, 0, &len) == IPL_BUSY, "an opening to read that was left");
    must(ipl_abandon(&store) == IPL_OK && ipl_committed(&store, 0, NULL, 0, &len) == IPL_NO_STORE, "is abandoned");
    must(ipl_open_to_read(&store, &driver, &config, memory, sizeof memory) == IPL_OK, "and made again");
    until_jump = 1;
    if (setjmp(back) == 0) {
        ipl_committed(&store, 0, NULL, 0, &len);
        must(0, "a record that isn't left");
    }
    must(ipl_begin(&store, 0) == IPL_BUSY && ipl_abandon(&store) == IPL_OK, "a record that is left");
    must(ipl_committed(&store, 0, NULL, 0, &len) == IPL_DOWN && ipl_begin(&store, 0) == IPL_READ_ONLY, "of a part that can't be read then");
    must(ipl_reopen(&store) == IPL_OK && ipl_committed(&store, 0, NULL, 0, &len) == IPL_NOTHING, "until a reopen");
    must(ipl_close(&store) == IPL_OK, "and a close");
}

int main(int argc, char **argv) {
    uint64_t wanted = argc > 1 ? strtoull(argv[1], NULL, 10) : 2000;
    any_begin(argc > 2 ? strtoull(argv[2], NULL, 10) : 1);
    driver.context = part_driver(0)->context;
    try_calls();
    part_new(0, PLACES);
    try_brief();
    try_reader();
    must(ipl_open(&store, &driver, &config, memory, sizeof memory) == IPL_OK, "an opening");
    while (jumps < wanted) {
        if (setjmp(back) != 0) {
            come_back();
            continue;
        }
        if (until_jump == 0) {
            until_jump = 1 + any_below(any_below(3) ? 300 : 20);
            jumps_first = (int)any_below(2);
        }
        step();
    }
    until_jump = 0;
    must(ipl_reopen(&store) == IPL_OK && has(0) && ipl_close(&store) == IPL_OK, "the last opening");
    printf("reentry: %llu calls of the driver that call back; %llu longjmps (of reads %llu, programs %llu, erases %llu, "
           "barriers %llu; of openings %llu), %llu commits whole by one\n",
           (unsigned long long)refusals, (unsigned long long)jumps, (unsigned long long)jumps_at[READ],
           (unsigned long long)jumps_at[PROGRAM], (unsigned long long)jumps_at[ERASE],
           (unsigned long long)jumps_at[BARRIER], (unsigned long long)jumps_of_openings, (unsigned long long)wholes);
    part_free(0);
    return 0;
}
