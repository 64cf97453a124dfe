/* Parts whose places wear out, two parts at a time: nothing that was answered is lost, and one place
 * more than are spare puts a store down. usage: wear [ROUNDS [SEED]] */
#include "store.h"
#include <stdio.h>
#include <stdlib.h>
#include <string.h>

enum { PLACES = 9, SPARES = 3, NAMES = 960 * (PLACES - 4 - SPARES) };

static uint32_t kept[PARTS][NAMES]; /* each record is a number; 0: there is none */
static struct ipl stores[PARTS];
static uint64_t commits, worn, shut;

static void must(int holds, const char *what, int answer) {
    if (holds) return;
    fprintf(stderr, "wear: %s: %d\n", what, answer);
    exit(1);
}

static void look_at_all(uint32_t part) {
    for (uint32_t name = 0; name < NAMES; name++) {
        uint8_t value[IPL_VALUE];
        uint32_t len, number;
        enum ipl_answer answer = ipl_committed(&stores[part], name, value, sizeof value, &len);
        must(answer == (kept[part][name] ? IPL_OK : IPL_NOTHING), "a record", answer);
        if (answer == IPL_NOTHING) continue;
        memcpy(&number, value, sizeof number);
        must(len == 100 && number == kept[part][name], "its bytes", answer);
    }
}

/* What is read of a part without writing to it: all records that were answered; and where the store went down in the commit of a
 * number, that or what was there before. */
static void read_out(uint32_t part, uint32_t name, uint32_t number) {
    struct ipl *s = &stores[part];
    uint64_t writes = part_writes(part);
    uint32_t found = 0, len;
    uint8_t value[IPL_VALUE];
    enum ipl_answer answer = part_open_to_read(s, part, PLACES, IPL_NUMBERS_MOST);
    must(answer == IPL_OK && ipl_unit_count(s) == PLACES - 4 - SPARES, "an opening to read", answer);
    answer = ipl_committed(s, name, value, sizeof value, &len);
    if (answer == IPL_OK) memcpy(&found, value, sizeof found);
    if (found == number) kept[part][name] = number;
    look_at_all(part);
    must(ipl_begin(s, 5) == IPL_READ_ONLY && ipl_close(s) == IPL_OK, "which reads alone", 0);
    must(part_writes(part) == writes, "and wrote nothing", 0);
}

/* Commits one record to a part: whether its store goes on. */
static int commit_one(uint32_t part) {
    struct ipl *s = &stores[part];
    uint32_t name = any_below(NAMES), number = 1 + any_below(UINT32_MAX);
    uint8_t value[100] = {0};
    memcpy(value, &number, sizeof number);
    enum ipl_answer answer = ipl_begin(s, 5);
    if (answer == IPL_OK) answer = ipl_put(s, 5, name, value, sizeof value);
    if (answer == IPL_OK) answer = ipl_commit(s, 5);
    if (answer == IPL_OK) {
        kept[part][name] = number;
        commits++;
        return 1;
    }
    must(answer == IPL_WORN_OUT && ipl_detail(s)[0] == SPARES + 1, "what ends it", answer);
    must(ipl_begin(s, 6) == IPL_DOWN, "a store that is worn out is down", 0);
    /* What is there can still be read: all records, with that one or without. */
    uint32_t records = 0, found, was = kept[part][name] != 0;
    for (uint32_t i = 0; i < NAMES; i++) records += kept[part][i] != 0;
    ipl_close(s);
    answer = part_check(part, PLACES, &found, NULL);
    must(answer == IPL_OK && (found == records || (!was && found == records + 1)), "the check",
         answer);
    /* An opening takes a place too, as a rule the one that was found worn. */
    answer = part_open(s, part, PLACES, 3);
    must(answer == IPL_OK || (answer == IPL_PART_WORN_OUT && ipl_detail(s)[0] == SPARES + 1),
         "an opening of a worn part", answer);
    shut += answer != IPL_OK;
    ipl_close(s);
    read_out(part, name, number);
    worn++;
    return 0;
}

int main(int argc, char **argv) {
    int rounds = argc > 1 ? atoi(argv[1]) : 20;
    struct part_ills ills;
    memset(&ills, 0, sizeof ills);
    any_begin(argc > 2 ? strtoull(argv[2], NULL, 10) : 1);
    for (int round = 0; round < rounds; round++) {
        for (uint32_t part = 0; part < PARTS; part++) {
            part_new(part, PLACES);
            ills.wears = 0;
            part_set_ills(part, ills);
            must(part_format(part, PLACES, SPARES, NULL) == IPL_OK, "a format", 0);
            must(part_open(&stores[part], part, PLACES, 3) == IPL_OK, "an opening", 0);
            must(ipl_unit_count(&stores[part]) == PLACES - 4 - SPARES, "as many units", 0);
            ills.wears = 65536 / 60;
            part_set_ills(part, ills);
        }
        memset(kept, 0, sizeof kept);
        for (int i = 0;; i++) {
            if (!commit_one(any_below(PARTS))) break;
            if (i % 500 == 0)
                for (uint32_t part = 0; part < PARTS; part++) look_at_all(part);
        }
        for (uint32_t part = 0; part < PARTS; part++) {
            ipl_close(&stores[part]);
            part_free(part);
        }
    }
    printf("wear: %llu commits on %d pairs of parts, until %llu were worn out, of which %llu didn't open again, and of "
           "each all records were read\n",
           (unsigned long long)commits, rounds, (unsigned long long)worn, (unsigned long long)shut);
    return 0;
}
