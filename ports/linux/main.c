/* ipl_mtd: records on a part of MTD or a volume of UBI, by words. The calls of C serve these; scripts, `serial` and
 * `trial` are those of the program `ipl`. */
#define _POSIX_C_SOURCE 200809L
#include "chip.h"
#include <inttypes.h>
#include <stdio.h>
#include <stdlib.h>
#include <string.h>

static const char usage[] =
    "usage: ipl_mtd format CHIP [--spares K]   all that CHIP holds is gone\n"
    "       ipl_mtd check CHIP                 all is read, nothing is written\n"
    "       ipl_mtd list CHIP [A [B]]          a line `N VALUE` for each record from A to B, then `end`; nothing is written\n"
    "       ipl_mtd get CHIP N                 its value, or `none` and status 1; nothing is written\n"
    "       ipl_mtd put CHIP                   reads lines `N VALUE`; each is a commit, and `ok` once it lasts\n"
    "       ipl_mtd del CHIP N\n"
    "       ipl_mtd facts CHIP                 what is known of the store, and what it has left\n"
    "       ipl_mtd copy CHIP >FILE            all sectors as they are read, also of a chip that doesn't open\n"
    "CHIP is mtd:/dev/mtdN or ubi:/dev/ubiX_Y. VALUE is hexadecimal digits, or - for no bytes.\n"
    "Options: --mapping rising-pages|pages|rising-quarters|quarters, --places N, --read-again N, --no-joins,\n"
    "--fail-erases, --sync DEVICE (ipl_mtd.h says what they are); --tell says at the end what the part was asked.\n"
    "Status: 0 done, 1 the store said no, 2 the words, 3 there is no such chip.\n";

enum { DONE = 0, SAID_NO = 1, BAD_WORDS = 2, NO_CHIP = 3, FRAMES = 16, SESSION = 0, LINE = 2 * IPL_VALUE + 64 };

static struct ipl store;
static struct chip chip;
static void *memory;

/* What was answered, to standard error. */
static int status_of(const char *what, enum ipl_answer answer) {
    const uint32_t *detail = ipl_detail(&store);
    if (answer == IPL_OK) return DONE;
    fprintf(stderr, "ipl_mtd: %s: %s (%d), detail %" PRIu32 " %" PRIu32 " %08" PRIx32 " %08" PRIx32 "\n", what, ipl_text(answer), (int)answer,
            detail[0], detail[1], detail[2], detail[3]);
    return SAID_NO;
}

static struct ipl_config config_of(uint32_t spares) {
    struct ipl_config config = IPL_CONFIG(chip.places, FRAMES, spares);
    return config;
}

static size_t take_memory(size_t size) {
    memory = malloc(size);
    if (memory == NULL) fprintf(stderr, "ipl_mtd: there is no memory\n");
    return memory != NULL ? size : 0;
}

/* The words of a call. */
struct words {
    const char *word, *chip;
    uint32_t numbers[2], count, spares;
    int tells;
    struct ipl_mtd_options options;
};

/* ---- values ------------------------------------------------------------------------------------- */

static int digit(char c) {
    const char *digits = "0123456789abcdef0123456789ABCDEF", *found = c != 0 ? strchr(digits, c) : NULL;
    return found != NULL ? (int)(found - digits) % 16 : -1;
}

static int read_name(const char *word, char **end, uint32_t *name) {
    unsigned long long read = strtoull(word, end, 10);
    *name = (uint32_t)read;
    return digit(*word) >= 0 && digit(*word) < 10 && read <= UINT32_MAX;
}

/* The bytes of a value in digits, or -1 where it is none. */
static long read_value(const char *word, uint8_t *bytes) {
    size_t digits = strlen(word);
    if (strcmp(word, "-") == 0) return 0;
    if (digits == 0 || digits % 2 != 0 || digits > 2 * IPL_VALUE) return -1;
    for (size_t i = 0; i < digits; i += 2) {
        int high = digit(word[i]), low = digit(word[i + 1]);
        if (high < 0 || low < 0) return -1;
        bytes[i / 2] = (uint8_t)(16 * high + low);
    }
    return (long)digits / 2;
}

static void print_value(const uint8_t *bytes, uint32_t length) {
    if (length == 0) putchar('-');
    for (uint32_t i = 0; i < length; i++) printf("%02x", bytes[i]);
    putchar('\n');
}

/* ---- words -------------------------------------------------------------------------------------- */

static int format(const struct words *w) {
    struct ipl_config config = config_of(w->spares);
    size_t size = take_memory(ipl_format_memory(&config) + 1);
    int status = status_of("format", ipl_format(&store, chip_driver(&chip), &config, memory, size));
    if (status == DONE) puts("ok");
    return status;
}

static int check(const struct words *w) {
    (void)w;
    struct ipl_config config = config_of(0);
    uint32_t records;
    size_t size = take_memory(ipl_check_memory(&config) + 1);
    int status = status_of("check", ipl_check(&store, chip_driver(&chip), &config, memory, size, &records));
    if (status == DONE) printf("records %" PRIu32 "\n", records);
    return status;
}

/* The chip as a file of the program `ipl`: 131,072 bytes a place. A sector that can't be read has zeros. */
static int copy(const struct words *w) {
    (void)w;
    const struct ipl_driver *driver = chip_driver(&chip);
    uint32_t unread = 0;
    for (uint32_t place = 0; place < chip.places; place++)
        for (uint32_t sector = 0; sector < IPL_SECTORS; sector++) {
            uint8_t bytes[IPL_SECTOR] = {0};
            if (driver->read(driver->context, place, sector, bytes) != IPL_NAND_DONE) {
                memset(bytes, 0, sizeof bytes);
                unread++;
            }
            if (fwrite(bytes, 1, sizeof bytes, stdout) != sizeof bytes) return perror("ipl_mtd: copy"), SAID_NO;
        }
    if (fflush(stdout) != 0) return perror("ipl_mtd: copy"), SAID_NO;
    fprintf(stderr, "places %" PRIu32 ", sectors that can't be read %" PRIu32 "\n", chip.places, unread);
    return DONE;
}

/* A record that can't be read is said, and those behind it are listed all the same. */
static int list(const struct words *w) {
    uint32_t names = ipl_unit_count(&store) * IPL_UNIT_NAMES, last = w->count == 2 ? w->numbers[1] : UINT32_MAX;
    int status = DONE;
    for (uint32_t name = w->numbers[0]; name < names && name <= last; name++) {
        uint8_t value[IPL_VALUE];
        uint32_t length;
        enum ipl_answer answer = ipl_committed(&store, name, value, sizeof value, &length);
        if (answer == IPL_NOTHING) continue;
        if (answer == IPL_OK) {
            printf("%" PRIu32 " ", name);
            print_value(value, length);
            continue;
        }
        char what[32];
        snprintf(what, sizeof what, "record %" PRIu32, name);
        status = status_of(what, answer);
        if (!ipl_is_up(answer)) return status;
    }
    puts("end");
    return status;
}

static int get(const struct words *w) {
    uint8_t value[IPL_VALUE];
    uint32_t length;
    enum ipl_answer answer = ipl_committed(&store, w->numbers[0], value, sizeof value, &length);
    if (answer == IPL_NOTHING) return puts("none"), SAID_NO;
    if (answer == IPL_OK) print_value(value, length);
    return status_of("get", answer);
}

/* One write, committed; length -1: the record goes. */
static enum ipl_answer commit_one(uint32_t name, const uint8_t *value, long length) {
    enum ipl_answer answer = ipl_begin(&store, SESSION);
    if (answer != IPL_OK) return answer;
    answer = length < 0 ? ipl_del(&store, SESSION, name) : ipl_put(&store, SESSION, name, value, (uint32_t)length);
    if (answer == IPL_OK) return ipl_commit(&store, SESSION);
    if (ipl_is_up(answer)) ipl_abort(&store, SESSION);
    return answer;
}

/* A write that failed puts the store down. It is opened again once, and the line tried again: where the driver keeps a
 * place of which a program failed, that one is retired then. */
static enum ipl_answer commit_or_reopen(uint32_t name, const uint8_t *value, long length) {
    enum ipl_answer answer = commit_one(name, value, length);
    if (answer != IPL_STOPPED) return answer;
    answer = ipl_reopen(&store);
    return answer == IPL_OK ? commit_one(name, value, length) : answer;
}

static int put_line(char *line) {
    uint8_t value[IPL_VALUE];
    uint32_t name;
    char *rest;
    long length = -1;
    line[strcspn(line, "\n")] = 0;
    if (read_name(line, &rest, &name) && *rest == ' ') length = read_value(rest + 1, value);
    if (length < 0) {
        fprintf(stderr, "ipl_mtd: put: no line `N VALUE`: %.40s\n", line);
        return BAD_WORDS;
    }
    return status_of("put", commit_or_reopen(name, value, length));
}

/* The output of `list` is taken too, with its last line. */
static int put(const struct words *w) {
    (void)w;
    char line[LINE];
    while (fgets(line, sizeof line, stdin) != NULL && strcmp(line, "end\n") != 0) {
        int status = put_line(line);
        if (status != DONE) return status;
        puts("ok");
        fflush(stdout);
    }
    return DONE;
}

static int del(const struct words *w) {
    int status = status_of("del", commit_or_reopen(w->numbers[0], NULL, -1));
    if (status == DONE) puts("ok");
    return status;
}

static int facts(const struct words *w) {
    (void)w;
    struct ipl_facts f;
    int status = status_of("facts", ipl_state(&store, &f));
    if (status == DONE)
        printf("places %" PRIu32 "\nunits %" PRIu32 "\nspares %" PRIu32 "\nretired %" PRIu32 "\nleast erases %" PRIu32 "\nmost erases %" PRIu32
               "\n", f.places, f.units, f.spares, f.retired, f.least_erases, f.most_erases);
    return status;
}

/* ---- the program -------------------------------------------------------------------------------- */

static int read_words(int argc, char **argv, struct words *w) {
    for (int i = 1; i < argc;) {
        char *end;
        int taken = chip_option(&w->options, argc - i, argv + i);
        if (taken == 0 && strcmp(argv[i], "--tell") == 0) w->tells = taken = 1;
        if (taken == 0 && strcmp(argv[i], "--spares") == 0 && i + 1 < argc && read_name(argv[i + 1], &end, &w->spares) && *end == 0) taken = 2;
        if (taken == 0 && argv[i][0] == '-') return 0;
        if (taken == 0) {
            taken = 1;
            if (w->word == NULL) w->word = argv[i];
            else if (w->chip == NULL) w->chip = argv[i];
            else if (w->count == 2 || !read_name(argv[i], &end, &w->numbers[w->count]) || *end != 0) return 0;
            else w->count++;
        }
        i += taken;
    }
    return w->chip != NULL;
}

/* Which numbers a word takes, and whether the chip is opened for it, to be read alone or to be written. */
enum opening { NONE, TO_READ, TO_WRITE };

static const struct word {
    const char *name;
    uint32_t least, most;
    enum opening opening;
    int (*run)(const struct words *w);
} known[] = {
    {"format", 0, 0, NONE, format}, {"check", 0, 0, NONE, check}, {"copy", 0, 0, NONE, copy}, {"list", 0, 2, TO_READ, list},
    {"get", 1, 1, TO_READ, get}, {"put", 0, 0, TO_WRITE, put}, {"del", 1, 1, TO_WRITE, del}, {"facts", 0, 0, TO_WRITE, facts}
};

static const struct word *find_word(const struct words *w) {
    for (size_t i = 0; i < sizeof known / sizeof *known; i++)
        if (strcmp(w->word, known[i].name) == 0 && w->count >= known[i].least && w->count <= known[i].most) return &known[i];
    return NULL;
}

static enum ipl_answer open_for(enum opening opening) {
    struct ipl_config config = config_of(0);
    size_t size = take_memory(opening == TO_READ ? ipl_read_memory(&config) : ipl_memory(&config));
    if (opening == TO_READ) return ipl_open_to_read(&store, chip_driver(&chip), &config, memory, size);
    return ipl_open(&store, chip_driver(&chip), &config, memory, size);
}

static int run(const struct words *w, const struct word *it) {
    if (it->opening == NONE) return it->run(w);
    int status = status_of("open", open_for(it->opening));
    if (status != DONE) return status;
    status = it->run(w);
    if (it->opening == TO_WRITE) ipl_shutdown(&store, 1);
    ipl_close(&store);
    return status;
}

int main(int argc, char **argv) {
    struct words w = {.options = IPL_MTD_OPTIONS};
    const char *why;
    const struct word *it = read_words(argc, argv, &w) ? find_word(&w) : NULL;
    int status;
    if (it == NULL) return fputs(usage, stderr), BAD_WORDS;
    if (!chip_open(&chip, w.chip, &w.options, &why)) {
        fprintf(stderr, "ipl_mtd: %s: %s\n", w.chip, why);
        return NO_CHIP;
    }
    status = run(&w, it);
    if (w.tells) chip_tell(&chip);
    chip_close(&chip);
    free(memory);
    return status;
}
