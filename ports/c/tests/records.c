/* Sessions over a part in memory, with power cuts in the midst of all calls. What the store answers
 * is compared with a plain copy of the records. usage: records [COMMITS [SEED]] */
#include "store.h"
#include <stdio.h>
#include <stdlib.h>
#include <string.h>

/* With SMALL a store has the sizes of one in 128 KB: 2 frames, 2 sessions, and room for so many committed numbers; else it has
 * 2 to 8 frames, and often room for few numbers. */
#ifdef SMALL
enum { MOST_FRAMES = 2, OPEN = 2, ALL_NUMBERS = SMALL };
#else
enum { MOST_FRAMES = 8, OPEN = 4, ALL_NUMBERS = IPL_NUMBERS_MOST };
#endif
enum { PLACES = 9, SPARES = 1, UNITS = PLACES - 4 - SPARES, NAMES = 960 * UNITS, MOST = 12 };

struct record { uint32_t len; uint8_t there, bytes[IPL_VALUE]; };
struct session { int is_open, count, shares; uint32_t names[MOST], shared[MOST]; struct record now[MOST]; };

static struct record kept[NAMES]; /* what is committed */
static struct session sessions[OPEN];
static struct ipl memory, *store = &memory;
static uint32_t frames;

enum call { BEGIN, GET, SHARE, COMMITTED, PUT, DEL, COMMIT, BATCH, ABORT, MERGE, HOLD, SHUTDOWN, OPENING, CALLS };
static const char *const call_names[CALLS] = {
    "begin", "get", "share", "committed", "put", "del", "commit", "batch", "abort", "merge", "hold",
    "shutdown", "opening"
};
static uint64_t cuts[CALLS], commits, wholes, nones, refused, reads_held, shutdowns, readings;
static uint64_t seed;

static void die(const char *what, int answer) {
    const uint32_t *d = ipl_detail(store);
    fprintf(stderr, "records: seed %llu: %s: %d (%u %u %08x %08x)\n", (unsigned long long)seed, what,
            answer, d[0], d[1], d[2], d[3]);
    exit(1);
}

static void must(int holds, const char *what, int answer) {
    if (!holds) die(what, answer);
}

/* ---- the plain copy */

static int written_at(const struct session *s, uint32_t name) {
    for (int i = 0; i < s->count; i++)
        if (s->names[i] == name) return i;
    return -1;
}

static int is_shared(const struct session *s, uint32_t name) {
    for (int i = 0; i < s->shares; i++)
        if (s->shared[i] == name) return 1;
    return 0;
}

static const struct record *seen_by(uint32_t s, uint32_t name) {
    int i = written_at(&sessions[s], name);
    return i < 0 ? &kept[name] : &sessions[s].now[i];
}

/* Whether another session has the name: to write it, one that wrote or shared it. */
static int is_taken(uint32_t s, uint32_t name, int writes) {
    for (uint32_t other = 0; other < OPEN; other++) {
        const struct session *it = &sessions[other];
        if (other == s || !it->is_open) continue;
        if (written_at(it, name) >= 0 || (writes && is_shared(it, name))) return 1;
    }
    return 0;
}

static void keep(uint32_t s) {
    for (int i = 0; i < sessions[s].count; i++) kept[sessions[s].names[i]] = sessions[s].now[i];
}

static void forget(uint32_t s) { memset(&sessions[s], 0, sizeof sessions[s]); }

static int is_equal(const struct record *r, enum ipl_answer answer, const uint8_t *bytes, uint32_t len) {
    if (answer != (r->there ? IPL_OK : IPL_NOTHING)) return 0;
    return !r->there || (len == r->len && memcmp(bytes, r->bytes, len) == 0);
}

/* ---- power cuts */

/* The store has exactly these records. */
static int has(const struct record *all) {
    for (uint32_t name = 0; name < NAMES; name++) {
        uint8_t bytes[IPL_VALUE];
        uint32_t len;
        enum ipl_answer answer = ipl_committed(store, name, bytes, sizeof bytes, &len);
        must(answer == IPL_OK || answer == IPL_NOTHING, "a record after a cut", answer);
        if (!is_equal(&all[name], answer, bytes, len)) return 0;
    }
    return 1;
}

/* Opens it with any frames, and room for any numbers, unless more are committed. */
static enum ipl_answer open_with_any(void) {
    frames = 2 + any_below(MOST_FRAMES - 1);
    struct ipl_config config = IPL_CONFIG_WITH(PLACES, frames, 0, OPEN, ALL_NUMBERS);
#ifndef SMALL
    if (any_below(2)) config.numbers = IPL_NUMBERS_LEAST + any_below(200);
#endif
    enum ipl_answer answer = part_open_with(store, 0, &config);
    if (answer != IPL_MANY_NUMBERS) return answer;
    config.numbers = ALL_NUMBERS;
    return part_open_with(store, 0, &config);
}

static void open_again(void) {
    for (;;) {
        part_power_on(0);
        if (any_below(4) == 0) part_cut_after(0, 1 + any_below(70));
        enum ipl_answer answer;
        if (is_open(store) && any_below(2)) {
            answer = ipl_reopen(store);
        } else {
            ipl_close(store);
            answer = open_with_any();
        }
        if (part_power_on(0)) {
            cuts[OPENING]++;
            continue;
        }
        part_cut_after(0, 0);
        must(answer == IPL_OK, "an opening", answer);
        must(ipl_unit_count(store) == UNITS, "as many units", 0);
        return;
    }
}

/* Whether a part that is opened to be read has exactly these records. Nothing is written by that, and nothing is open then. */
static int is_read(const struct record *all) {
    uint64_t writes = part_writes(0);
    ipl_close(store);
    enum ipl_answer answer = part_open_to_read(store, 0, PLACES, ALL_NUMBERS);
    must(answer == IPL_OK && ipl_unit_count(store) == UNITS, "an opening to read", answer);
    int found = has(all);
    must(ipl_close(store) == IPL_OK && part_writes(0) == writes, "an opening to read wrote", 0);
    readings++;
    return found;
}

/* After a call: whether it is to be looked at. Where the power went in it all sessions are gone, and of
 * those that were being committed all writes are there, or none. */
static int goes_on(enum call call, int answer, const uint32_t *committing, uint32_t count) {
    if (!part_power_on(0)) return 1;
    must(answer == IPL_STOPPED || answer == IPL_READ_FAULT, "a call that was cut", answer);
    cuts[call]++;
    /* What a cut left is read as the store has it once it is open. */
    int is_tried = any_below(4) == 0, was_read = is_tried && is_read(kept), was_kept;
    open_again();
    was_kept = has(kept);
    must(!is_tried || was_read == was_kept, "what was read before an opening", answer);
    if (!was_kept) {
        for (uint32_t i = 0; i < count; i++) keep(committing[i]);
        must(count != 0 && has(kept), "a cut left another state", answer);
        wholes++;
    } else {
        nones++;
    }
    for (uint32_t s = 0; s < OPEN; s++) forget(s);
    return 0;
}

static void maybe_cut(void) {
    if (any_below(24) == 0) part_cut_after(0, 1 + (any_below(3) ? any_below(6) : any_below(200)));
}

/* ---- calls */

/* Names of one unit more often, and of some pages. */
static uint32_t any_name(void) { return any_below(any_below(3) ? 960 : NAMES); }

static void look_up(uint32_t s, int shares) {
    struct session *it = &sessions[s];
    uint32_t name = any_name(), len;
    uint8_t bytes[IPL_VALUE];
    if (shares && it->shares == MOST) return;
    enum ipl_answer answer = shares ? ipl_share(store, s, name, bytes, sizeof bytes, &len)
                        : ipl_get(store, s, name, bytes, sizeof bytes, &len);
    if (!goes_on(shares ? SHARE : GET, answer, NULL, 0)) return;
    if (!it->is_open) {
        must(answer == IPL_NOT_OPEN, "a session that isn't open", answer);
    } else if (shares && is_taken(s, name, 0)) {
        must(answer == IPL_CONFLICT && is_taken(s, name, 0), "a share of a written name", answer);
    } else {
        must(is_equal(seen_by(s, name), answer, bytes, len), "what a session sees", answer);
        if (shares && !is_shared(it, name)) it->shared[it->shares++] = name;
    }
}

static void write_one(uint32_t s) {
    struct session *it = &sessions[s];
    uint32_t name = any_name();
    struct record r = {0, 0, {0}};
    if (it->count == MOST) return;
    int deletes = any_below(6) == 0;
    enum ipl_answer answer;
    if (!deletes) {
        r.there = 1;
        r.len = any_below(4) ? any_below(109) : any_below(IPL_VALUE + 1);
        for (uint32_t i = 0; i < r.len; i++) r.bytes[i] = (uint8_t)any_number();
    }
    answer = deletes ? ipl_del(store, s, name) : ipl_put(store, s, name, r.bytes, r.len);
    if (!goes_on(deletes ? DEL : PUT, answer, NULL, 0)) return;
    if (!it->is_open) {
        must(answer == IPL_NOT_OPEN, "a write of a session that isn't open", answer);
    } else if (is_taken(s, name, 1)) {
        must(answer == IPL_CONFLICT, "a write of a taken name", answer);
        must(ipl_detail(store)[0] < OPEN && ipl_detail(store)[0] != s, "who has it", answer);
    } else if (answer == IPL_PENDING_FULL || (answer == IPL_PAGE_FULL && r.len > 0)) {
        refused++;
    } else {
        must(answer == IPL_OK, "a write", answer);
        int i = written_at(it, name);
        if (i < 0) it->names[i = it->count++] = name;
        it->now[i] = r;
    }
}

static void end_one(uint32_t s, int commits_it) {
    struct session *it = &sessions[s];
    enum ipl_answer answer = commits_it ? ipl_commit(store, s) : ipl_abort(store, s);
    if (!goes_on(commits_it ? COMMIT : ABORT, answer, &s, (uint32_t)commits_it)) return;
    must(answer == (it->is_open ? IPL_OK : IPL_NOT_OPEN), "the end of a session", answer);
    if (commits_it && it->is_open) {
        keep(s);
        commits++;
    }
    forget(s);
}

static void commit_several(void) {
    uint32_t named[OPEN], count = 0;
    for (uint32_t s = 0; s < OPEN; s++)
        if (sessions[s].is_open && any_below(4)) named[count++] = s;
    if (count < 2) return;
    enum ipl_answer answer = ipl_commit_all(store, named, count);
    if (!goes_on(BATCH, answer, named, count)) return;
    must(answer == IPL_OK, "a batch", answer);
    for (uint32_t i = 0; i < count; i++) {
        keep(named[i]);
        forget(named[i]);
        commits++;
    }
}

/* A page that is held: a get there asks the part nothing. */
static void hold_one(void) {
    uint32_t unit = any_below(UNITS), page = any_below(15), len;
    uint8_t bytes[IPL_VALUE];
    enum ipl_answer answer = ipl_hold(store, unit, page);
    if (!goes_on(HOLD, answer, NULL, 0)) return;
    must(answer == IPL_OK, "a hold", answer);
    uint64_t before = part_counts(0).calls[READ];
    uint32_t name = unit * 960 + page * 64 + any_below(64);
    answer = ipl_committed(store, name, bytes, sizeof bytes, &len);
    must(is_equal(&kept[name], answer, bytes, len), "a record in a page that is held", answer);
    must(part_counts(0).calls[READ] == before, "a read for a page that is held", 0);
    reads_held++;
    if (frames == 2) must(ipl_hold(store, unit, (page + 1) % 15) == IPL_HOLDS_FULL, "a hold more", 0);
    must(ipl_release(store, unit, page) == IPL_OK, "a release", 0);
    must(ipl_release(store, unit, page) == IPL_NOT_HELD, "a release more", 0);
}

/* Refused where a session is open; else the store is down, and opens again. */
static void shut_down(void) {
    uint32_t least = 0;
    while (least < OPEN && !sessions[least].is_open) least++;
    enum ipl_answer answer = ipl_shutdown(store, 0);
    if (!goes_on(SHUTDOWN, answer, NULL, 0)) return;
    if (least < OPEN) {
        must(answer == IPL_SESSIONS_OPEN && ipl_detail(store)[0] == least, "a session is open", answer);
        return;
    }
    must(answer == IPL_OK, "a shutdown", answer);
    must(ipl_begin(store, 0) == IPL_DOWN && ipl_shutdown(store, 0) == IPL_DOWN, "a store that is down", 0);
    open_again();
    must(has(kept), "the records behind a shutdown", 0);
    shutdowns++;
}

/* A delete of name 0 that is committed: how many places it erases. */
static uint64_t erases_of_commit(void) {
    uint64_t before = part_counts(0).calls[ERASE];
    must(ipl_begin(store, 0) == IPL_OK && ipl_del(store, 0, 0) == IPL_OK, "a delete", 0);
    must(ipl_commit(store, 0) == IPL_OK, "a commit", 0);
    kept[0].there = 0;
    return part_counts(0).calls[ERASE] - before;
}

/* The first commit behind an opening merges the unit, and behind a shutdown too it doesn't. */
static void try_shutdown(void) {
    must(erases_of_commit() == 1, "a commit behind an opening merges", 0);
    must(ipl_shutdown(store, 0) == IPL_OK && ipl_reopen(store) == IPL_OK, "a shutdown at the end", 0);
    must(erases_of_commit() == 0, "a commit behind a shutdown merges nothing", 0);
}

/* Calls that are refused whatever there is; nothing changes by them. */
static void ask_badly(void) {
    static const uint8_t bytes[IPL_VALUE + 1];
    uint8_t into[IPL_VALUE];
    uint32_t len, twice[3] = {0, 1, 0}, open = 0;
    must(ipl_begin(store, IPL_SESSIONS) == IPL_BAD_SESSION, "session 32", 0);
    must(ipl_commit(store, UINT32_MAX) == IPL_BAD_SESSION, "session 2^32 - 1", 0);
    must(ipl_get(store, 0, NAMES, into, sizeof into, &len) == IPL_BAD_NAME && len == 0, "no such name", 0);
    must(ipl_put(store, 0, 0, bytes, sizeof bytes) == IPL_TOO_LONG, "465 bytes", 0);
    must(ipl_put(store, 0, 0, bytes, UINT32_MAX) == IPL_TOO_LONG, "2^32 - 1 bytes", 0);
    must(ipl_merge(store, UNITS) == IPL_BAD_UNIT, "no such unit", 0);
    must(ipl_hold(store, 0, 15) == IPL_BAD_UNIT, "no such page", 0);
    must(ipl_release(store, UNITS, 0) == IPL_BAD_UNIT, "no such unit to release", 0);
    must(ipl_commit_all(store, twice, 33) == IPL_MANY_SESSIONS, "33 sessions", 0);
    for (uint32_t s = 0; s < 2; s++) open += (uint32_t)sessions[s].is_open;
    if (open == 2)
        must(ipl_commit_all(store, twice, 3) == IPL_TWICE && ipl_detail(store)[0] == 0, "twice", 0);
}

static void step(void) {
    uint32_t s = any_below(OPEN);
    enum ipl_answer answer;
    maybe_cut();
    switch (any_below(100)) {
    case 0: ask_badly(); break;
    case 1: hold_one(); break;
    case 2:
        answer = ipl_merge(store, any_below(UNITS));
        if (goes_on(MERGE, answer, NULL, 0)) must(answer == IPL_OK, "a merge", answer);
        break;
    case 3: case 4: case 5: case 6: case 7: case 8: commit_several(); break;
    case 9: case 10: end_one(s, 0); break;
    case 11: shut_down(); break;
    default:
        if (!sessions[s].is_open) {
            answer = ipl_begin(store, s);
            if (!goes_on(BEGIN, answer, NULL, 0)) break;
            must(answer == IPL_OK, "a begin", answer);
            sessions[s].is_open = 1;
        } else if (any_below(5) == 0) {
            end_one(s, 1);
        } else if (any_below(3) == 0) {
            look_up(s, any_below(4) == 0);
        } else {
            write_one(s);
        }
    }
}

int main(int argc, char **argv) {
    uint64_t wanted = argc > 1 ? strtoull(argv[1], NULL, 10) : 30000;
    seed = argc > 2 ? strtoull(argv[2], NULL, 10) : 1;
    any_begin(seed);
    part_new(0, PLACES);
    /* One read of sixteen is doubtful, and right when it is made again. */
    part_set_ills(0, (struct part_ills){.flips = 65536 / 16});
    must(open_with_any() == IPL_NOT_FORMATTED, "an unformatted part", 0);
    must(part_format(0, 4, 0, NULL) == IPL_BAD_PLACES, "four places", 0);
    must(part_format(0, PLACES, PLACES - 4, NULL) == IPL_BAD_SPARES, "no unit left", 0);
    must(part_format(0, PLACES, 65, NULL) == IPL_BAD_SPARES, "65 spare places", 0);
    must(part_format(0, PLACES, SPARES, NULL) == IPL_OK, "a format", 0);
    must(part_open(store, 0, PLACES, 1) == IPL_BAD_FRAMES, "one frame", 0);
    must(part_open(store, 0, PLACES, 65) == IPL_BAD_FRAMES, "65 frames", 0);
    must(open_with_any() == IPL_OK, "an opening", 0);
    while (commits < wanted) step();

    /* The checker finds as many records as the copy has. */
    uint32_t records = 0, found;
    for (uint32_t s = 0; s < OPEN; s++) forget(s);
    part_cut_after(0, 0);
    must(ipl_reopen(store) == IPL_OK && has(kept), "the last opening", 0);
    try_shutdown();
    ipl_close(store);
    must(ipl_begin(store, 0) == IPL_NO_STORE && ipl_unit_count(store) == 0, "a closed store", 0);
    must(is_read(kept), "the records, as they are read", 0);
    for (uint32_t name = 0; name < NAMES; name++) records += kept[name].there;
    must(part_check(0, PLACES, &found, NULL) == IPL_OK && found == records, "the check", (int)found);

    struct part_counts counts = part_counts(0);
    uint64_t all = 0;
    for (int i = 0; i < CALLS; i++) all += cuts[i];
    printf("records: %llu commits, %llu power cuts (", (unsigned long long)commits,
           (unsigned long long)all);
    for (int i = 0; i < CALLS; i++)
        if (cuts[i]) printf("%s %llu, ", call_names[i], (unsigned long long)cuts[i]);
    printf("at programs %llu, erases %llu, barriers %llu); %llu commits whole by a cut, %llu writes refused "
           "for room, %llu holds, %llu shutdowns, %llu reads made again, %llu openings to read, %u records at the end\n",
           (unsigned long long)counts.cuts[PROGRAM], (unsigned long long)counts.cuts[ERASE],
           (unsigned long long)counts.cuts[BARRIER], (unsigned long long)wholes,
           (unsigned long long)refused, (unsigned long long)reads_held, (unsigned long long)shutdowns,
           (unsigned long long)counts.flips, (unsigned long long)readings, records);
    part_free(0);
    return 0;
}
