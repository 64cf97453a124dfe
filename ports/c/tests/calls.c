/* ipl_calls.c without a store: the engine is this one, which keeps what it is asked. Which number is which
 * call is in request.rt.in. */
#include "../engine.h"
#include <stdio.h>
#include <stdlib.h>
#include <string.h>

/* ---- the engine */

enum { ENGINE_BYTES = 1000 };

struct ipl_engine {
    struct ipl_request request;
    const struct ipl_driver *driver;
};

static struct ipl_request asked; /* by the last call */
static uint32_t given[5], calls, raises;
static uint32_t answer, found_len; /* what the next call answers, and how many bytes it finds */
static const uint32_t unit_count = 5;
static int is_broken;            /* answers another number to one session */

size_t ipl_engine_memory(const struct ipl_config *it) {
    return ENGINE_BYTES + it->places + 16 * (size_t)it->frames + 64 * (size_t)it->sessions + it->numbers;
}
size_t ipl_engine_read_memory(const struct ipl_config *it) { return ENGINE_BYTES + it->places + it->numbers; }
size_t ipl_engine_check_memory(const struct ipl_config *it) { return ENGINE_BYTES + it->places; }
size_t ipl_engine_format_memory(void) { return ENGINE_BYTES; }

struct ipl_engine *ipl_engine_raise(void *at, size_t size, const struct ipl_driver *driver) {
    struct ipl_engine *e = at;
    if ((uintptr_t)at % IPL_ENGINE_ALIGNMENT != 0 || size < ENGINE_BYTES || size < sizeof *e) abort();
    memset(e, 0, sizeof *e);
    e->driver = driver;
    raises++;
    return e;
}

struct ipl_request *ipl_engine_request(struct ipl_engine *e) { return &e->request; }

static uint32_t answered(struct ipl_engine *e) {
    for (uint32_t i = 0; i < 4; i++) e->request.detail[i] = answer == IPL_OK ? 0 : 70 + i;
    return answer;
}

static uint32_t keep(struct ipl_engine *e, uint32_t places, uint32_t second, uint32_t third) {
    given[0] = places;
    given[1] = second;
    given[2] = third;
    return answered(e);
}

uint32_t ipl_engine_format(struct ipl_engine *e, uint32_t places, uint32_t spares) {
    return keep(e, places, spares, 0);
}

uint32_t ipl_engine_check(struct ipl_engine *e, uint32_t places) {
    e->request.name = 33;
    return keep(e, places, 0, 0);
}

uint32_t ipl_engine_open(struct ipl_engine *e, enum ipl_engine_kind kind, const struct ipl_config *it) {
    given[3] = it->sessions;
    given[4] = it->numbers;
    return keep(e, it->places, it->frames, kind);
}

uint32_t ipl_engine_call(struct ipl_engine *e) {
    calls++;
    asked = e->request;
    if (asked.op == IPL_OP_UNITS) e->request.name = unit_count;
    if (is_broken && asked.op == IPL_OP_ABORT && asked.session != 7) return IPL_NOT_OPEN;
    e->request.len = found_len;
    memset(e->request.value, 0xEE, sizeof e->request.value);
    return answered(e);
}

/* ---- a driver that is never asked */

static int never(void) { abort(); }
static int read_never(void *c, uint32_t p, uint32_t s, uint8_t *b) { (void)c; (void)p; (void)s; (void)b; return never(); }
static int program_never(void *c, uint32_t p, uint32_t s, const uint8_t *b) { (void)c; (void)p; (void)s; (void)b; return never(); }
static int erase_never(void *c, uint32_t p) { (void)c; (void)p; return never(); }
static int barrier_never(void *c) { (void)c; return never(); }
static char first_part, second_part;
static const struct ipl_driver first = {&first_part, read_never, program_never, erase_never, barrier_never};
static const struct ipl_driver second = {&second_part, read_never, program_never, erase_never, barrier_never};
static const struct ipl_config config = IPL_CONFIG_WITH(7, 8, 2, 20, 500);
static uint8_t first_memory[3000], second_memory[3000];

static void must(int holds, const char *what) {
    if (holds) return;
    fprintf(stderr, "calls: %s\n", what);
    exit(1);
}

/* The last call was this one. */
static void was(enum ipl_answer said, uint32_t op, uint32_t session, uint32_t name, const char *what) {
    must(said == answer && asked.op == op && asked.session == session && asked.name == name, what);
}

static void call_records(struct ipl *s) {
    static const uint8_t bytes[IPL_VALUE] = {1, 2, 3};
    uint32_t sessions[IPL_SESSIONS], len;
    uint8_t value[IPL_VALUE];
    for (uint32_t i = 0; i < IPL_SESSIONS; i++) sessions[i] = 31 - i;
    was(ipl_begin(s, 3), 1, 3, 0, "begin");
    was(ipl_get(s, 3, 9, value, sizeof value, &len), 2, 3, 9, "get");
    was(ipl_share(s, 3, 9, value, sizeof value, &len), 3, 3, 9, "share");
    was(ipl_committed(s, 9, value, sizeof value, &len), 4, 0, 9, "committed");
    was(ipl_put(s, 3, 9, bytes, IPL_VALUE), 5, 3, 9, "put");
    must(asked.len == IPL_VALUE && memcmp(asked.value, bytes, IPL_VALUE) == 0, "what is put");
    was(ipl_put(s, 3, 9, NULL, 0), 5, 3, 9, "put of nothing");
    was(ipl_put(s, 3, 9, NULL, IPL_VALUE + 1), 5, 3, 9, "put of too much, which isn't read");
    must(asked.len == IPL_VALUE + 1, "how much is too much");
    was(ipl_del(s, 3, 9), 6, 3, 9, "del");
    was(ipl_commit(s, 3), 7, 3, 0, "commit");
    was(ipl_commit_all(s, sessions, IPL_SESSIONS), 8, 0, 0, "commit of several");
    must(asked.len == 32 && memcmp(asked.sessions, sessions, sizeof sessions) == 0, "which sessions");
    was(ipl_commit_all(s, NULL, IPL_SESSIONS + 1), 8, 0, 0, "commit of too many, which aren't read");
    was(ipl_abort(s, 3), 9, 3, 0, "abort");
    was(ipl_merge(s, 8), 10, 0, 8, "merge");
    was(ipl_hold(s, 8, 14), 11, 0, 8, "hold");
    must(asked.page == 14, "which page");
    was(ipl_release(s, 8, 13), 12, 0, 8, "release");
    must(asked.page == 13, "which page is released");
    was(ipl_shutdown(s, 0), 15, 0, 0, "shutdown");
}

static void call_keys(struct ipl_keys *k) {
    static const uint32_t sessions[] = {31, 30};
    static const uint8_t bytes[IPL_KEY_VALUE] = {1, 2, 3};
    uint8_t value[IPL_KEY_VALUE];
    uint32_t len;
    was(ipl_keys_begin(k, 3), 1, 3, 0, "begin of keys");
    was(ipl_keys_get(k, 3, "key", 3, value, sizeof value, &len), 2, 3, 0, "get by key");
    must(asked.key_len == 3 && memcmp(asked.key, "key", 3) == 0, "which key");
    was(ipl_keys_share(k, 3, "keep", 4), 3, 3, 0, "share of a key");
    must(asked.key_len == 4 && memcmp(asked.key, "keep", 4) == 0, "which key is shared");
    was(ipl_keys_put(k, 3, "other", 5, bytes, 7), 5, 3, 0, "put by key");
    must(asked.key_len == 5 && asked.len == 7 && memcmp(asked.value, bytes, 7) == 0, "what by key");
    was(ipl_keys_put(k, 3, "other", 5, NULL, IPL_KEY_VALUE + 1), 5, 3, 0, "put of too much by key, which isn't read");
    must(asked.len == IPL_KEY_VALUE + 1, "how much is too much by key");
    was(ipl_keys_del(k, 3, NULL, IPL_KEY + 1), 6, 3, 0, "del by a long key, which isn't read");
    was(ipl_keys_del(k, 3, NULL, 0), 6, 3, 0, "del by no key");
    was(ipl_keys_commit(k, 3), 7, 3, 0, "commit of keys");
    was(ipl_keys_commit_all(k, sessions, 2), 8, 0, 0, "commit of several of keys");
    must(asked.len == 2 && asked.sessions[1] == 30, "which sessions of keys");
    was(ipl_keys_commit_all(k, NULL, IPL_SESSIONS + 1), 8, 0, 0, "commit of too many of keys");
    was(ipl_keys_abort(k, 3), 9, 3, 0, "abort of keys");
    was(ipl_keys_merge(k, 8), 10, 0, 8, "merge of keys");
    was(ipl_keys_shutdown(k, 0), 15, 0, 0, "shutdown of keys");
}

/* What is found goes to the caller where it is there, and has room. */
static void find(struct ipl *s, struct ipl_keys *k) {
    uint8_t value[IPL_VALUE] = {0};
    uint32_t len = 5;
    answer = IPL_NOTHING;
    must(ipl_get(s, 0, 0, value, sizeof value, &len) == IPL_NOTHING && len == 0 && value[0] == 0, "nothing is found");
    answer = IPL_OK;
    found_len = 2;
    must(ipl_get(s, 0, 0, value, sizeof value, &len) == IPL_OK && len == 2, "two bytes are found");
    must(value[1] == 0xEE && value[2] == 0, "which bytes");
    found_len = 201;
    memset(value, 0, sizeof value);
    must(ipl_keys_get(k, 0, "key", 3, value, 200, &len) == IPL_NO_ROOM && len == 201 && value[0] == 0, "no room");
    must(ipl_keys_detail(k)[0] == 201, "how much room is wanted");
    must(ipl_share(s, 0, 0, value, 200, &len) == IPL_NO_ROOM && len == 201 && value[0] == 0, "no room by name");
    must(ipl_committed(s, 0, NULL, 0, &len) == IPL_NO_ROOM && len == 201, "the length alone");
    must(ipl_get(s, 0, 0, value, 201, &len) == IPL_OK && len == 201 && value[200] == 0xEE && value[201] == 0, "room for it");
    found_len = 0;
    must(ipl_get(s, 0, 0, NULL, 0, &len) == IPL_OK && len == 0, "room for nothing");
}

/* All sessions that are open are aborted, and the first other answer ends it. */
static void drop_all(struct ipl *s) {
    is_broken = 1;
    answer = IPL_OK;
    uint32_t before = calls;
    must(ipl_abort_all(s) == IPL_OK && calls == before + 20, "an abort of all sessions");
    answer = IPL_STOPPED;
    before = calls;
    must(ipl_abort_all(s) == IPL_STOPPED && calls == before + 8, "one that fails");
    must(ipl_shutdown(s, 1) == IPL_STOPPED && calls == before + 16, "a shutdown that can't drop them");
    is_broken = 0;
    answer = IPL_OK;
    before = calls;
    must(ipl_shutdown(s, 1) == IPL_OK && calls == before + 21, "a shutdown that drops all sessions");
}

static void try_parts(struct ipl *s, struct ipl_keys *k) {
    uint32_t records = 5;
    answer = IPL_FORMAT_WORN;
    must(ipl_format(s, &first, &config, first_memory, sizeof first_memory) == IPL_FORMAT_WORN, "a format");
    must(ipl_detail(s)[3] == 73 && given[0] == 7 && given[1] == 2, "what a format is asked");
    answer = IPL_PART_MALFORMED;
    must(ipl_check(s, &first, &config, first_memory, sizeof first_memory, &records) == IPL_PART_MALFORMED, "a check");
    must(records == 0 && given[0] == 7 && ipl_detail(s)[1] == 71, "what a check is asked");
    must(ipl_open(s, &first, &config, first_memory, sizeof first_memory) == IPL_PART_MALFORMED, "no opening");
    must(ipl_detail(s)[0] == 70 && ipl_begin(s, 0) == IPL_NO_STORE && calls == 0, "nothing is open");
    answer = IPL_OK;
    must(ipl_check(s, &first, &config, first_memory, sizeof first_memory, &records) == IPL_OK, "a check that finds nothing");
    must(records == 33 && ipl_detail(s)[0] == 0, "how many records");
    must(ipl_begin(s, 0) == IPL_NO_STORE && calls == 0, "a check leaves nothing open");
    must(ipl_open(s, &first, &config, first_memory, sizeof first_memory) == IPL_OK, "an opening");
    must(given[0] == 7 && given[1] == 8 && given[2] == IPL_ENGINE_RECORDS, "what an opening is asked");
    must(given[3] == 20 && given[4] == 500, "of how many sessions and numbers");
    must(ipl_unit_count(s) == unit_count, "how many units");
    must(ipl_keys_open(k, &second, &config, second_memory, sizeof second_memory) == IPL_OK, "an opening for keys");
    must(given[2] == IPL_ENGINE_KEYS && ipl_keys_unit_count(k) == unit_count, "which is of keys");
}

/* A store that didn't open again asks its engine nothing. */
static void reopen(struct ipl *s) {
    answer = IPL_PART_UNREAD;
    uint32_t before = calls;
    must(ipl_reopen(s) == IPL_PART_UNREAD && ipl_unit_count(s) == unit_count, "a reopen that fails");
    must(ipl_begin(s, 0) == IPL_DOWN && ipl_merge(s, 0) == IPL_DOWN && calls == before, "leaves the store down");
    answer = IPL_OK;
    must(ipl_reopen(s) == IPL_OK && given[1] == 8 && given[3] == 20 && given[4] == 500 && ipl_begin(s, 0) == IPL_OK, "a reopen");
}

/* Of a part that is only read its units and its records are asked, and of another call nothing. */
static void read_only(struct ipl *s, struct ipl_keys *k) {
    static const uint32_t session = 3;
    struct ipl_facts facts;
    uint8_t value[IPL_VALUE];
    uint32_t len = 5, before = calls;
    answer = IPL_OK;
    must(ipl_open_to_read(s, &first, &config, first_memory, ipl_read_memory(&config)) == IPL_OK, "an opening to read");
    must(given[0] == 7 && given[2] == IPL_ENGINE_READER && given[4] == 500, "what it is asked");
    must(calls == before + 1 && asked.op == 14 && ipl_unit_count(s) == unit_count, "its units");
    found_len = 2;
    was(ipl_committed(s, 9, value, sizeof value, &len), 4, 0, 9, "committed of a part that is only read");
    must(len == 2 && value[1] == 0xEE, "what is found there");
    must(ipl_committed(s, 9, value, 1, &len) == IPL_NO_ROOM && len == 2, "and has no room");
    answer = IPL_DAMAGED;
    must(ipl_committed(s, 9, value, sizeof value, &len) == IPL_DAMAGED && len == 0 && ipl_detail(s)[2] == 72, "a page that is damaged");
    before = calls;
    must(ipl_get(s, 0, 9, value, sizeof value, &len) == IPL_READ_ONLY && len == 0 && ipl_detail(s)[2] == 72, "a get is refused");
    must(ipl_commit_all(s, &session, 1) == IPL_READ_ONLY && ipl_commit_all(s, NULL, 0) == IPL_READ_ONLY, "a commit of several");
    must(ipl_abort_all(s) == IPL_READ_ONLY && ipl_shutdown(s, 0) == IPL_READ_ONLY && ipl_shutdown(s, 1) == IPL_READ_ONLY, "and a shutdown");
    must(ipl_state(s, &facts) == IPL_OK && facts.frames == 0 && facts.sessions == 0 && facts.room == 500, "what is known");
    must(facts.is_down == 0 && facts.retired == 0 && calls == before, "for which nothing is asked");
    answer = IPL_OK;
    must(ipl_reopen(s) == IPL_OK && given[2] == IPL_ENGINE_READER && given[0] == 7 && given[4] == 500, "a reopen to read");
    must(ipl_close(s) == IPL_OK && ipl_committed(s, 9, value, sizeof value, &len) == IPL_NO_STORE, "a close of it");
    /* In the struct of a store of keys it is no store of keys. */
    must(ipl_open_to_read(&k->store, &first, &config, first_memory, sizeof first_memory) == IPL_OK, "an opening to read");
    before = calls;
    must(ipl_keys_begin(k, 0) == IPL_READ_ONLY && ipl_keys_get(k, 0, "key", 3, value, sizeof value, &len) == IPL_READ_ONLY, "by key");
    must(ipl_keys_shutdown(k, 1) == IPL_READ_ONLY && calls == before && ipl_keys_close(k) == IPL_OK, "and a close");
}

int main(void) {
    struct ipl store;
    struct ipl_keys keys;
    static const uint32_t answers[] = {IPL_OK, IPL_NOT_OPEN, IPL_BAD_BUCKET, IPL_STOPPED};
    memset(&store, 0xA5, sizeof store);
    memset(&keys, 0xA5, sizeof keys);
    try_parts(&store, &keys);
    for (size_t i = 0; i < sizeof answers / sizeof *answers; i++) {
        answer = answers[i];
        call_records(&store);
        call_keys(&keys);
    }
    find(&store, &keys);
    drop_all(&store);
    reopen(&store);
    must(ipl_close(&store) == IPL_OK && ipl_close(&store) == IPL_NO_STORE && ipl_unit_count(&store) == 0, "a close");
    must(ipl_keys_close(&keys) == IPL_OK && ipl_keys_close(&keys) == IPL_NO_STORE, "a close of keys");
    read_only(&store, &keys);
    printf("calls: each makes one request of its number, with what it was given\n");
    return 0;
}
