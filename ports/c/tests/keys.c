/* Values by keys over a part in memory, with power cuts; they are compared with a plain copy of all
 * values. usage: keys [COMMITS [SEED]] */
#include "store.h"
#include <stdio.h>
#include <stdlib.h>
#include <string.h>

enum { PLACES = 7, KEYS = 1500, OPEN = 3, MOST = 10 };

struct value { uint32_t len; uint8_t there, bytes[IPL_KEY_VALUE]; };
struct session { int is_open, count; uint32_t keys[MOST]; struct value now[MOST]; };

static struct value kept[KEYS];
static struct session sessions[OPEN];
static struct ipl_keys memory, *keys = &memory;
static uint64_t seed, commits, cuts, wholes, full, shutdowns, openings;

static void die(const char *what, int answer) {
    const uint32_t *d = ipl_keys_detail(keys);
    fprintf(stderr, "keys: seed %llu: %s: %d (%u %u %08x %08x)\n", (unsigned long long)seed, what,
            answer, d[0], d[1], d[2], d[3]);
    exit(1);
}

static void must(int holds, const char *what, int answer) {
    if (!holds) die(what, answer);
}

/* A key of 2 to 16 bytes for each number. */
static uint32_t key_of(uint32_t number, uint8_t *key) {
    uint32_t len = 2 + number % 15;
    for (uint32_t i = 0; i < len; i++) key[i] = (uint8_t)(number >> (i % 2 * 8));
    return len;
}

static int written_at(const struct session *s, uint32_t number) {
    for (int i = 0; i < s->count; i++)
        if (s->keys[i] == number) return i;
    return -1;
}

static void keep(uint32_t s) {
    for (int i = 0; i < sessions[s].count; i++) kept[sessions[s].keys[i]] = sessions[s].now[i];
}

static enum ipl_answer get_one(uint32_t s, uint32_t number, uint8_t *bytes, uint32_t *len) {
    uint8_t key[IPL_KEY];
    uint32_t key_len = key_of(number, key);
    return ipl_keys_get(keys, s, key, key_len, bytes, IPL_KEY_VALUE, len);
}

static int is_equal(const struct value *v, enum ipl_answer answer, const uint8_t *bytes, uint32_t len) {
    if (answer != (v->there ? IPL_OK : IPL_NOTHING)) return 0;
    return !v->there || (len == v->len && memcmp(bytes, v->bytes, len) == 0);
}

/* The keys have exactly these values, as a session of their own sees them. */
static int has(const struct value *all) {
    uint8_t bytes[IPL_KEY_VALUE];
    int same = 1;
    must(ipl_keys_begin(keys, 31) == IPL_OK, "a begin after a cut", 0);
    for (uint32_t number = 0; number < KEYS && same; number++) {
        uint32_t len;
        enum ipl_answer answer = get_one(31, number, bytes, &len);
        must(answer == IPL_OK || answer == IPL_NOTHING, "a value after a cut", answer);
        same = is_equal(&all[number], answer, bytes, len);
    }
    must(ipl_keys_abort(keys, 31) == IPL_OK, "an abort after a cut", 0);
    return same;
}

static void open_again(void) {
    for (;;) {
        part_power_on(0);
        if (any_below(4) == 0) part_cut_after(0, 1 + any_below(60));
        uint32_t frames = 2 + any_below(7);
        enum ipl_answer answer;
        if (is_open(&keys->store) && openings++ % 2) {
            answer = ipl_keys_reopen(keys);
        } else {
            ipl_keys_close(keys);
            answer = part_open_keys(keys, 0, PLACES, frames);
        }
        if (part_power_on(0)) {
            cuts++;
            continue;
        }
        part_cut_after(0, 0);
        must(answer == IPL_OK, "an opening", answer);
        return;
    }
}

/* After a call: whether it is to be looked at. Where the power went in it all sessions are gone. */
static int goes_on(int answer, int commits_it, uint32_t s) {
    if (!part_power_on(0)) return 1;
    must(answer == IPL_STOPPED || answer == IPL_READ_FAULT, "a call that was cut", answer);
    cuts++;
    open_again();
    if (!has(kept)) {
        if (commits_it) keep(s);
        must(commits_it && has(kept), "a cut left other values", answer);
        wholes++;
    }
    memset(sessions, 0, sizeof sessions);
    return 0;
}

static void look_up(uint32_t s) {
    uint8_t bytes[IPL_KEY_VALUE];
    uint32_t number = any_below(KEYS), len;
    enum ipl_answer answer = get_one(s, number, bytes, &len);
    if (!goes_on(answer, 0, s)) return;
    int i = written_at(&sessions[s], number);
    must(is_equal(i < 0 ? &kept[number] : &sessions[s].now[i], answer, bytes, len),
         "what a session sees", answer);
}

static void write_one(uint32_t s) {
    struct session *it = &sessions[s];
    uint8_t key[IPL_KEY];
    uint32_t number = any_below(KEYS), key_len = key_of(number, key);
    struct value v = {0, 0, {0}};
    enum ipl_answer answer;
    if (it->count == MOST) return;
    if (any_below(3) == 0) {
        answer = ipl_keys_del(keys, s, key, key_len);
    } else {
        v.there = 1;
        v.len = any_below(any_below(5) ? 40 : IPL_KEY_VALUE + 1);
        for (uint32_t i = 0; i < v.len; i++) v.bytes[i] = (uint8_t)any_number();
        answer = ipl_keys_put(keys, s, key, key_len, v.bytes, v.len);
    }
    if (!goes_on(answer, 0, s)) return;
    if (answer == IPL_BUCKET_FULL || answer == IPL_PAGE_FULL || answer == IPL_PENDING_FULL
        || answer == IPL_CONFLICT) { /* keys share buckets */
        full++;
        return;
    }
    must(answer == IPL_OK, "a write", answer);
    int i = written_at(it, number);
    if (i < 0) it->keys[i = it->count++] = number;
    it->now[i] = v;
}

static void end_one(uint32_t s, int commits_it) {
    enum ipl_answer answer = commits_it ? ipl_keys_commit(keys, s) : ipl_keys_abort(keys, s);
    if (!goes_on(answer, commits_it, s)) return;
    must(answer == IPL_OK, "the end of a session", answer);
    if (commits_it) {
        keep(s);
        commits++;
    }
    memset(&sessions[s], 0, sizeof sessions[s]);
}

/* Refused where a session is open; else the store is down, and opens again. */
static void shut_down(void) {
    uint32_t least = 0;
    while (least < OPEN && !sessions[least].is_open) least++;
    enum ipl_answer answer = ipl_keys_shutdown(keys, 0);
    if (!goes_on(answer, 0, 0)) return;
    if (least < OPEN) {
        must(answer == IPL_SESSIONS_OPEN && ipl_keys_detail(keys)[0] == least, "a session is open", answer);
        return;
    }
    must(answer == IPL_OK && ipl_keys_begin(keys, 0) == IPL_DOWN, "a shutdown", answer);
    open_again();
    must(has(kept), "the values behind a shutdown", 0);
    shutdowns++;
}

/* Calls that are refused whatever there is. */
static void ask_badly(void) {
    static const uint8_t bytes[IPL_VALUE];
    uint8_t into[IPL_KEY_VALUE];
    uint32_t len;
    must(ipl_keys_get(keys, 0, bytes, 0, into, sizeof into, &len) == IPL_BAD_KEY, "no key", 0);
    must(ipl_keys_get(keys, 0, bytes, 17, into, sizeof into, &len) == IPL_BAD_KEY, "a key of 17 bytes", 0);
    must(ipl_keys_del(keys, 0, bytes, UINT32_MAX) == IPL_BAD_KEY, "a key of 2^32 - 1 bytes", 0);
    must(ipl_keys_put(keys, 0, bytes, 1, bytes, 201) == IPL_LONG_VALUE, "201 bytes", 0);
    must(ipl_keys_put(keys, 0, bytes, 1, bytes, UINT32_MAX) == IPL_LONG_VALUE, "2^32 - 1 bytes", 0);
    must(ipl_keys_begin(keys, 32) == IPL_BAD_SESSION, "session 32", 0);
    must(ipl_keys_get(keys, 30, bytes, 1, into, sizeof into, &len) == IPL_NOT_OPEN, "a closed session", 0);
}

int main(int argc, char **argv) {
    uint64_t wanted = argc > 1 ? strtoull(argv[1], NULL, 10) : 15000;
    seed = argc > 2 ? strtoull(argv[2], NULL, 10) : 1;
    any_begin(seed);
    part_new(0, PLACES);
    must(part_format(0, PLACES, 0, NULL) == IPL_OK, "a format", 0);
    must(part_open_keys(keys, 0, PLACES, 4) == IPL_OK, "an opening", 0);
    while (commits < wanted) {
        uint32_t s = any_below(OPEN);
        if (any_below(30) == 0) part_cut_after(0, 1 + any_below(any_below(3) ? 8 : 200));
        if (any_below(100) == 0) {
            ask_badly();
        } else if (any_below(100) == 0) {
            shut_down();
        } else if (!sessions[s].is_open) {
            enum ipl_answer answer = ipl_keys_begin(keys, s);
            if (!goes_on(answer, 0, s)) continue;
            must(answer == IPL_OK, "a begin", answer);
            sessions[s].is_open = 1;
        } else if (any_below(6) == 0) {
            end_one(s, any_below(8) != 0);
        } else if (any_below(3) == 0) {
            look_up(s);
        } else {
            write_one(s);
        }
    }
    part_cut_after(0, 0);
    memset(sessions, 0, sizeof sessions);
    ipl_keys_close(keys);
    must(part_open_keys(keys, 0, PLACES, 8) == IPL_OK && has(kept), "the last opening", 0);
    ipl_keys_close(keys);
    printf("keys: %llu commits, %llu power cuts, %llu commits whole by a cut, %llu writes refused for room "
           "or another session's bucket, %llu shutdowns\n", (unsigned long long)commits,
           (unsigned long long)cuts, (unsigned long long)wholes, (unsigned long long)full,
           (unsigned long long)shutdowns);
    part_free(0);
    return 0;
}
