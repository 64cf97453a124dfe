/* A driver that fails and lies: each call returns, and answers a number of the table.
 * usage: lies [FAULTS [SEED]] */
#include "store.h"
#include <stdio.h>
#include <stdlib.h>
#include <string.h>

enum { PLACES = 8 };

static struct ipl records;
static struct ipl_keys keys;
static uint64_t answers[100], calls;

/* Counts an answer, which the table of ipl.h must have. */
static enum ipl_answer known(enum ipl_answer answer) {
    if (answer < 0 || answer >= 100 || strcmp(ipl_text(answer), ipl_text((enum ipl_answer)99)) == 0) {
        fprintf(stderr, "lies: answer %d\n", answer);
        exit(1);
    }
    answers[answer]++;
    calls++;
    return answer;
}

static uint64_t fault_count(void) {
    struct part_counts counts = part_counts(0);
    uint64_t all = counts.lies + counts.worn;
    for (int i = 0; i < KINDS; i++) all += counts.failed[i];
    return all;
}

/* What goes wrong for a while. */
static void change_weather(void) {
    struct part_ills ills;
    memset(&ills, 0, sizeof ills);
    uint32_t often = any_below(3) ? 1 + any_below(2000) : any_below(65537);
    uint32_t which = any_below(32);
    if (which & 1) ills.fails[READ] = often;
    if (which & 2) ills.fails[PROGRAM] = often / 4;
    if (which & 4) ills.fails[ERASE] = ills.fails[BARRIER] = often / 4;
    if (which & 8) ills.lies = often;
    if (which & 16) ills.wears = often / 16;
    if (any_below(16) == 0)
        for (int i = 0; i < KINDS; i++) ills.fails[i] = 65536; /* for ever */
    ills.odd = 32768;
    part_set_ills(0, ills);
    if (any_below(4) == 0) part_cut_after(0, 1 + any_below(300));
}

/* A number that is right, mostly. */
static uint32_t about(uint32_t n) { return any_below(50) ? any_below(n) : any_number(); }

/* The length by its address: it is read only once the call has answered. */
static void look(enum ipl_answer answer, const uint32_t *len, uint32_t most) {
    if (known(answer) == IPL_OK ? *len <= most : *len == 0) return;
    fprintf(stderr, "lies: a value of %u bytes\n", *len);
    exit(1);
}

static void ask_records(void) {
    uint8_t value[IPL_VALUE];
    uint32_t s = about(4), name = about(4 * 960), len = about(IPL_VALUE + 1), named[40], count, unit, page;
    memset(value, (int)any_number(), sizeof value);
    switch (any_below(13)) {
    case 0: look(ipl_get(&records, s, name, value, sizeof value, &len), &len, IPL_VALUE); break;
    case 1: look(ipl_share(&records, s, name, value, sizeof value, &len), &len, IPL_VALUE); break;
    case 2: look(ipl_committed(&records, name, value, sizeof value, &len), &len, IPL_VALUE); break;
    case 3: case 4: case 5: known(ipl_put(&records, s, name, value, len)); break;
    case 6: known(ipl_del(&records, s, name)); break;
    case 7: known(ipl_commit(&records, s)); break;
    case 8:
        count = any_below(40);
        for (uint32_t i = 0; i < count; i++) named[i] = i < 4 ? i : about(32);
        known(ipl_commit_all(&records, named, count));
        break;
    case 9: known(ipl_abort(&records, s)); break;
    case 10: known(ipl_merge(&records, about(4))); break;
    case 11:
        unit = about(4);
        page = about(15);
        known(ipl_hold(&records, unit, page));
        unit = about(4);
        page = about(15);
        known(ipl_release(&records, unit, page));
        break;
    default: known(ipl_begin(&records, s));
    }
    if (any_below(40) == 0) known(ipl_shutdown(&records, 0));
    if (any_below(20) == 0 && known(ipl_reopen(&records)) != IPL_OK && any_below(4) == 0)
        ipl_close(&records);
}

static void ask_keys(void) {
    uint8_t key[IPL_KEY], value[IPL_VALUE], found[IPL_KEY_VALUE];
    uint32_t s = about(4), key_len = about(IPL_KEY + 1), len = about(IPL_KEY_VALUE + 1);
    memset(key, (int)any_below(8), sizeof key);
    memset(value, (int)any_number(), sizeof value);
    switch (any_below(7)) {
    case 0: look(ipl_keys_get(&keys, s, key, key_len, found, sizeof found, &len), &len, IPL_KEY_VALUE); break;
    case 1: case 2: known(ipl_keys_put(&keys, s, key, key_len, value, len)); break;
    case 3: known(ipl_keys_del(&keys, s, key, key_len)); break;
    case 4: known(ipl_keys_commit(&keys, s)); break;
    case 5: known(ipl_keys_abort(&keys, s)); break;
    default: known(ipl_keys_begin(&keys, s));
    }
    if (any_below(400) == 0) known(ipl_keys_shutdown(&keys, 0));
}

/* Opens one of both; after some failures the part is formatted, if it can be. */
static void open_one(void) {
    uint32_t frames = 2 + any_below(8), detail[4], found;
    part_power_on(0);
    for (int tries = 0; tries < 4; tries++) {
        known(part_check(0, PLACES, &found, detail));
        enum ipl_answer answer = any_below(2) ? part_open(&records, 0, PLACES, frames)
                                  : part_open_keys(&keys, 0, PLACES, frames);
        if (known(answer) == IPL_OK) return;
        change_weather();
    }
    known(part_format(0, PLACES, any_below(3), detail));
    struct part_ills none;
    memset(&none, 0, sizeof none);
    part_set_ills(0, none);
    /* A part with worn places can't be formatted: another one is taken. */
    if (known(part_format(0, PLACES, any_below(3), detail)) != IPL_OK) {
        part_mend(0);
        known(part_format(0, PLACES, any_below(3), detail));
    }
}

int main(int argc, char **argv) {
    uint64_t wanted = argc > 1 ? strtoull(argv[1], NULL, 10) : 100000;
    any_begin(argc > 2 ? strtoull(argv[2], NULL, 10) : 1);
    part_new(0, PLACES);
    while (fault_count() < wanted) {
        if (any_below(200) == 0) change_weather();
        if (any_below(100) == 0) part_power_on(0);
        if (is_open(&records)) ask_records();
        else if (is_open(&keys.store)) ask_keys();
        else open_one();
        if (any_below(400) == 0) {
            ipl_close(&records);
            ipl_keys_close(&keys);
        }
    }
    ipl_close(&records);
    ipl_keys_close(&keys);
    struct part_counts counts = part_counts(0);
    int kinds = 0;
    for (int i = 0; i < 100; i++) kinds += answers[i] != 0;
    printf("lies: %llu calls over %llu failed reads, %llu failed writes, %llu worn erases, %llu reads with other "
           "bytes: each returned, with %d different answers\n",
           (unsigned long long)calls, (unsigned long long)counts.failed[READ],
           (unsigned long long)(counts.failed[PROGRAM] + counts.failed[ERASE]
                                + counts.failed[BARRIER]),
           (unsigned long long)counts.worn, (unsigned long long)counts.lies, kinds);
    part_free(0);
    return 0;
}
