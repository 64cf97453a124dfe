/* A logger whose commits are numbered, so that all records can be judged by the number of the last one that lasts.
 * usage: try_log CHIP [OPTIONS] WORDS, where OPTIONS are those of chip.h, and
 *   --reopen N            a store that a failed write put down is opened again, N times at most
 *   --close               it is shut down at the end
 * and WORDS
 *   format SPARES
 *   check
 *   log NAMES SEED COUNT [note]   judges all records, and makes COUNT commits more; with note it says each one that was answered, and waits
 *                                 until the line is out
 *   cuts NAMES SEED ROUNDS        over nandkeep with soft=1: the power is cut in the midst of a write, and all is judged, so many times
 */
#define _POSIX_C_SOURCE 200809L
#include "chip.h"
#include <inttypes.h>
#include <stdio.h>
#include <stdlib.h>
#include <string.h>
#include <termios.h>

enum { FRAMES = 8, PUTS = 4, LONGEST = 116, GONE = 0xFFFF };

static struct ipl store;
static struct chip chip;
static void *memory;
static struct ipl_config config;
static struct ipl_mtd_options options = IPL_MTD_OPTIONS;
static const char *chip_word;
static uint32_t names;
static uint64_t seed;

static int says(const char *what, enum ipl_answer answer) {
    printf("log: %s: %s (%d)\n", what, ipl_text(answer), (int)answer);
    return answer != IPL_OK;
}

static void must(const char *what, enum ipl_answer answer) {
    if (answer == IPL_OK) return;
    says(what, answer);
    chip_tell(&chip);
    exit(1);
}

/* ---- what a commit writes ----------------------------------------------------------------------- */

static uint32_t mixed(uint32_t number, uint32_t which) {
    uint64_t x = seed * 0x9E3779B97F4A7C15u + ((uint64_t)number << 20) + which;
    x = (x ^ x >> 31) * 0xBF58476D1CE4E5B9u;
    x = (x ^ x >> 27) * 0x94D049BB133111EBu;
    return (uint32_t)(x ^ x >> 31);
}

/* Name 0 has the number; then come one to four others, of which one in 13 is deleted. */
static uint32_t puts_of(uint32_t number) { return 1 + mixed(number, 50) % PUTS; }
static uint32_t name_of(uint32_t number, uint32_t which) { return 1 + mixed(number, which) % (names - 1); }
static uint32_t length_of(uint32_t number, uint32_t which) {
    uint32_t any = mixed(number, 100 + which);
    return any % 13 == 0 ? GONE : (any >> 8) % (LONGEST + 1);
}
static void make_value(uint32_t number, uint32_t which, uint8_t *value, uint32_t length) {
    for (uint32_t i = 0; i < length; i++) value[i] = (uint8_t)mixed(number, 1000 + which * 1000 + i);
}

/* The number as bytes, so that a chip may go to another processor. */
static void put_number(uint8_t *bytes, uint32_t number) {
    for (int i = 0; i < 4; i++) bytes[i] = (uint8_t)(number >> 8 * i);
}

/* One commit, of one session or, each fifth time, of two as a batch. */
static enum ipl_answer commit(uint32_t number) {
    uint32_t first = number % IPL_SESSIONS, second = (number + 1) % IPL_SESSIONS, both[2] = {first, second};
    int is_batch = mixed(number, 60) % 5 == 0;
    uint8_t value[LONGEST], counted[4];
    enum ipl_answer answer = ipl_begin(&store, first);
    if (answer == IPL_OK && is_batch) answer = ipl_begin(&store, second);
    put_number(counted, number);
    if (answer == IPL_OK) answer = ipl_put(&store, is_batch ? second : first, 0, counted, 4);
    for (uint32_t which = 0; answer == IPL_OK && which < puts_of(number); which++) {
        uint32_t length = length_of(number, which), name = name_of(number, which);
        if (length == GONE) answer = ipl_del(&store, first, name);
        else {
            make_value(number, which, value, length);
            answer = ipl_put(&store, first, name, value, length);
        }
    }
    if (answer != IPL_OK) return answer;
    return is_batch ? ipl_commit_all(&store, both, 2) : ipl_commit(&store, first);
}

/* ---- judging ------------------------------------------------------------------------------------ */

/* The last write of each name, by the commits up to a number. */
struct last { uint32_t number, which; };
static struct last *lasts;

static void note_lasts(uint32_t number) {
    for (uint32_t which = 0; which < puts_of(number); which++) lasts[name_of(number, which)] = (struct last){number, which};
}

static int is_as_written(uint32_t name, uint32_t *there) {
    uint8_t value[IPL_VALUE], wanted[LONGEST];
    uint32_t length, wanted_length = lasts[name].number == 0 ? GONE : length_of(lasts[name].number, lasts[name].which);
    enum ipl_answer answer = ipl_committed(&store, name, value, sizeof value, &length);
    if (answer != IPL_NOTHING) must("committed", answer);
    *there += answer == IPL_OK;
    if (wanted_length == GONE || answer == IPL_NOTHING) return wanted_length == GONE && answer == IPL_NOTHING;
    make_value(lasts[name].number, lasts[name].which, wanted, wanted_length);
    return length == wanted_length && memcmp(value, wanted, length) == 0;
}

static uint32_t count_wrong(uint32_t *there) {
    uint32_t wrong = 0;
    *there = 0;
    for (uint32_t name = 1; name < names; name++) wrong += !is_as_written(name, there);
    return wrong;
}

static uint32_t last_number(void) {
    uint8_t bytes[IPL_VALUE] = {0};
    uint32_t length;
    enum ipl_answer answer = ipl_committed(&store, 0, bytes, sizeof bytes, &length);
    if (answer != IPL_NOTHING) must("the last number", answer);
    return (uint32_t)bytes[0] | (uint32_t)bytes[1] << 8 | (uint32_t)bytes[2] << 16 | (uint32_t)bytes[3] << 24;
}

/* ---- words -------------------------------------------------------------------------------------- */

static enum ipl_answer open_store(void) {
    size_t size = ipl_memory(&config);
    if (memory == NULL) memory = malloc(size);
    return ipl_open(&store, chip_driver(&chip), &config, memory, size);
}

static int log_commits(uint32_t count, uint32_t reopens, int notes) {
    uint32_t there, number, opened = 0;
    must("open", open_store());
    number = last_number();
    for (uint32_t n = 1; n <= number; n++) note_lasts(n);
    uint32_t wrong = count_wrong(&there);
    printf("log: found %" PRIu32 ", %" PRIu32 " records, %" PRIu32 " wrong\n", number, there, wrong);
    for (uint32_t made = 0; made < count; made++) {
        enum ipl_answer answer = commit(++number);
        while (answer == IPL_STOPPED && opened < reopens) {
            opened++;
            must("reopen", ipl_reopen(&store));
            number = last_number() + 1;
            answer = commit(number);
        }
        if (answer != IPL_OK) {
            printf("log: commit %" PRIu32 ": %s (%d)\n", number, ipl_text(answer), (int)answer);
            return 1;
        }
        if (!notes) continue;
        printf("noted %" PRIu32 "\n", number);
        fflush(stdout);
        tcdrain(1);
    }
    printf("log: %" PRIu32 " commits answered, opened again %" PRIu32 " times\n", count, opened);
    return wrong != 0;
}

static uint64_t state;
static uint32_t any_below(uint32_t n) {
    state ^= state << 13;
    state ^= state >> 7;
    state ^= state << 17;
    return (uint32_t)(state >> 16) % n;
}

/* Of the simulator that keeps its pages. */
static void set(const char *name, uint32_t value) {
    char path[96];
    snprintf(path, sizeof path, "/sys/module/nandkeep/parameters/%s", name);
    FILE *file = fopen(path, "w");
    if (file == NULL || fprintf(file, "%" PRIu32, value) < 0 || fclose(file) != 0) {
        perror(path);
        exit(2);
    }
}

/* The power is back, and the part is opened anew. */
static void power_on(void) {
    const char *why;
    set("cut", 0);
    set("dead", 0);
    chip_close(&chip);
    if (chip_open(&chip, chip_word, &options, &why)) return;
    printf("log: %s\n", why);
    exit(1);
}

static struct { uint32_t cuts, in_opening, in_close, closes, more, answered; } seen;

/* An opening, each fourth time with a cut in one of its first writes. */
static void open_after_cut(void) {
    int is_cut = any_below(4) == 0;
    enum ipl_answer answer;
    if (is_cut) set("cut", 1 + any_below(4));
    answer = open_store();
    if (is_cut && answer != IPL_OK) {
        seen.cuts++;
        seen.in_opening++;
        power_on();
        answer = open_store();
    }
    set("cut", 0);
    must("open", answer);
}

static void judge_round(uint32_t round) {
    uint32_t there, number = last_number();
    if (number == seen.answered + 1) {
        seen.more++;
        note_lasts(number);
    }
    if ((number != seen.answered && number != seen.answered + 1) || count_wrong(&there) != 0) {
        printf("log: round %" PRIu32 ": found %" PRIu32 " after %" PRIu32 " were answered, or records are wrong\n", round, number, seen.answered);
        exit(1);
    }
    seen.answered = number;
}

static void commit_until_cut(void) {
    uint32_t left = any_below(3) == 0 ? any_below(200) : UINT32_MAX, number = seen.answered;
    enum ipl_answer answer = IPL_OK;
    set("cut", 1 + any_below(any_below(3) == 0 ? 12 : any_below(2) == 0 ? 150 : 1500));
    for (; answer == IPL_OK && left != 0; left--) {
        answer = commit(++number);
        if (answer != IPL_OK) continue;
        seen.answered = number;
        note_lasts(number);
    }
    if (answer == IPL_OK) {
        if (any_below(2) == 0) set("cut", 1);
        answer = ipl_shutdown(&store, 1);
        if (answer == IPL_OK) seen.closes++;
        else seen.in_close++;
    }
    if (answer != IPL_STOPPED) must("a write", answer);
    seen.cuts += answer != IPL_OK;
    ipl_close(&store);
}

static int cut_often(uint32_t rounds) {
    state = seed * 0x9E3779B97F4A7C15u + 99;
    for (uint32_t round = 0; round < rounds; round++) {
        open_after_cut();
        judge_round(round);
        commit_until_cut();
        power_on();
    }
    must("open", open_store());
    judge_round(rounds);
    printf("log: %" PRIu32 " cuts (%" PRIu32 " in an opening, %" PRIu32 " in a close), %" PRIu32 " clean closes, %" PRIu32
           " commits answered, the one under way was there %" PRIu32 " times, 0 wrong\n", seen.cuts, seen.in_opening, seen.in_close, seen.closes,
           seen.answered, seen.more);
    return 0;
}

static int check(void) {
    uint32_t records;
    size_t size = ipl_check_memory(&config);
    memory = malloc(size);
    enum ipl_answer answer = ipl_check(&store, chip_driver(&chip), &config, memory, size, &records);
    printf("log: check: %s (%d), %" PRIu32 " records\n", ipl_text(answer), (int)answer, records);
    return answer != IPL_OK;
}

static int format(uint32_t spares) {
    config.spares = spares;
    size_t size = ipl_format_memory(&config);
    memory = malloc(size);
    return says("format", ipl_format(&store, chip_driver(&chip), &config, memory, size));
}

static uint32_t number_of(int argc, char **argv, int which) { return which < argc ? (uint32_t)strtoul(argv[which], NULL, 10) : 0; }

static int run(int argc, char **argv, uint32_t reopens) {
    uint32_t count = number_of(argc, argv, 3);
    if (strcmp(argv[0], "format") == 0) return format(number_of(argc, argv, 1));
    if (strcmp(argv[0], "check") == 0) return check();
    names = number_of(argc, argv, 1);
    seed = number_of(argc, argv, 2);
    lasts = calloc(names, sizeof *lasts);
    if (names < 2 || lasts == NULL) return 2;
    if (strcmp(argv[0], "cuts") == 0) return cut_often(count);
    return strcmp(argv[0], "log") == 0 ? log_commits(count, reopens, argc > 4) : 2;
}

int main(int argc, char **argv) {
    const char *why;
    uint32_t reopens = 0;
    int at = 2, taken = 1, closes = 0, status;
    for (; at < argc && taken != 0; at += taken) {
        taken = chip_option(&options, argc - at, argv + at);
        if (taken == 0 && strcmp(argv[at], "--close") == 0) closes = taken = 1;
        if (taken == 0 && strcmp(argv[at], "--reopen") == 0) {
            reopens = number_of(argc, argv, at + 1);
            taken = 2;
        }
    }
    if (at >= argc) return 2;
    chip_word = argv[1];
    if (!chip_open(&chip, chip_word, &options, &why)) return printf("log: %s: %s\n", chip_word, why), 2;
    config = (struct ipl_config)IPL_CONFIG(chip.places, FRAMES, 0);
    status = run(argc - at, argv + at, reopens);
    if (closes) must("shutdown", ipl_shutdown(&store, 1));
    ipl_close(&store);
    chip_tell(&chip);
    chip_close(&chip);
    free(memory);
    free(lasts);
    return status;
}
