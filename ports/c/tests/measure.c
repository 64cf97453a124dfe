/* What a store takes: memory, stack and processor time; with -DWITH_SQLITE -lsqlite3 also SQLite's on the
 * same records. Linked with -pthread. With `numbers`, what room for few committed numbers costs. usage: measure [numbers] */
#define _GNU_SOURCE
#include "../ipl.h"
#include <pthread.h>
#include <stdio.h>
#include <stdlib.h>
#include <string.h>
#include <time.h>
#ifdef WITH_SQLITE
#include <sqlite3.h>
#endif

enum { SECTORS = IPL_SECTORS, SECTOR = IPL_SECTOR, UNWRITTEN = 0x96, TIMED_PLACES = 8, NAMES = 960 * (TIMED_PLACES - 4), FRAMES = 16 };

/* ---- a driver that does nothing but its copies */

static uint8_t (*bytes)[SECTORS][SECTOR];
static uint64_t reads, programs, erases, barriers;

static int read_sector(void *context, uint32_t place, uint32_t sector, uint8_t *into) {
    (void)context;
    reads++;
    memcpy(into, bytes[place][sector], SECTOR);
    return IPL_NAND_DONE;
}

static int program_sector(void *context, uint32_t place, uint32_t sector, const uint8_t *from) {
    (void)context;
    programs++;
    memcpy(bytes[place][sector], from, SECTOR);
    return IPL_NAND_DONE;
}

static int erase_place(void *context, uint32_t place) {
    (void)context;
    erases++;
    memset(bytes[place], 0xFF, sizeof bytes[place]);
    return IPL_NAND_DONE;
}

static int wait_for_writes(void *context) {
    (void)context;
    barriers++;
    return IPL_NAND_DONE;
}

static const struct ipl_driver driver = {NULL, read_sector, program_sector, erase_place, wait_for_writes};

static void must(int holds, const char *what) {
    if (holds) return;
    fprintf(stderr, "measure: %s\n", what);
    exit(1);
}

static struct ipl store;
static uint32_t x = 12345;

static uint32_t any(void) { return (x = x * 1664525u + 1013904223u) >> 8; }

static void commit_puts(uint32_t names, int puts, uint32_t len, uint32_t in_turn) {
    uint8_t value[IPL_VALUE];
    must(ipl_begin(&store, 0) == IPL_OK, "begin");
    for (int i = 0; i < puts; i++) {
        memset(value, (int)(any() & 255), len);
        must(ipl_put(&store, 0, puts == 1 ? in_turn % names : any() % names, value, len) == IPL_OK, "put");
    }
    must(ipl_commit(&store, 0) == IPL_OK, "commit");
}

struct size { uint32_t places, frames; };

/* The last bytes of the memory that nothing was written to. */
static size_t unwritten(const uint8_t *memory, size_t size) {
    size_t n = 0;
    while (n < size && memory[size - 1 - n] == UNWRITTEN) n++;
    return n;
}

static void *use(void *it) {
    struct size *size = it;
    struct ipl_config config = IPL_CONFIG(size->places, size->frames, 0);
    uint32_t names = (size->places - 4) * 960, found;
    size_t wanted = ipl_memory(&config), checked = ipl_check_memory(&config), looked = ipl_read_memory(&config), left, check_left;
    uint8_t *memory = malloc(wanted);
    must(memory != NULL, "room for a store");
    must(ipl_format(&store, &driver, &config, memory, wanted) == IPL_OK, "format");
    memset(memory, UNWRITTEN, wanted);
    must(ipl_open(&store, &driver, &config, memory, wanted) == IPL_OK, "open");
    for (uint32_t i = 0; i < 2000; i++) commit_puts(names, 3, 100, i);
    must(ipl_merge(&store, 0) == IPL_OK && ipl_reopen(&store) == IPL_OK, "merge and reopen");
    must(ipl_close(&store) == IPL_OK, "close");
    left = unwritten(memory, wanted);
    memset(memory, UNWRITTEN, wanted);
    must(ipl_check(&store, &driver, &config, memory, checked, &found) == IPL_OK, "check");
    check_left = unwritten(memory, checked);
    memset(memory, UNWRITTEN, wanted);
    must(ipl_open_to_read(&store, &driver, &config, memory, looked) == IPL_OK, "open to read");
    for (uint32_t name = 0; name < names; name++) must(ipl_is_up(ipl_committed(&store, name, NULL, 0, &found)), "a record");
    must(ipl_close(&store) == IPL_OK, "close");
    printf("memory: %u places, %u frames: %zu bytes, of which the last %zu were never written; to read %zu, %zu; a check %zu, %zu; "
           "a format %zu\n", size->places, size->frames, wanted, left, looked, unwritten(memory, looked), checked, check_left,
           ipl_format_memory(&config));
    free(memory);
    return NULL;
}

/* In a thread of its own, whose stack was painted before. */
static void measure_memory(struct size size) {
    size_t room = 1 << 20, untouched = 0;
    uint8_t *stack = aligned_alloc(4096, room);
    pthread_attr_t how;
    pthread_t thread;
    bytes = malloc(size.places * sizeof *bytes);
    must(bytes != NULL && stack != NULL, "room");
    memset(stack, 0xCC, room);
    pthread_attr_init(&how);
    pthread_attr_setstack(&how, stack, room);
    must(pthread_create(&thread, &how, use, &size) == 0, "a thread");
    pthread_join(thread, NULL);
    while (untouched < room && stack[untouched] == 0xCC) untouched++;
    printf("stack: %zu bytes, with what a thread and printf take\n", room - untouched);
    free(bytes);
    free(stack);
}

/* ---- time */

static double seconds(void) {
    struct timespec t;
    clock_gettime(CLOCK_PROCESS_CPUTIME_ID, &t);
    return (double)t.tv_sec + (double)t.tv_nsec / 1e9;
}

/* Names in turn; of long values 16 of each page, which has room for so many. */
static uint32_t name_in_turn(int i, uint32_t len) {
    return len > 100 ? (uint32_t)i % 16 * 64 + (uint32_t)i / 16 % 16 : (uint32_t)i % NAMES;
}

static const struct ipl_config timed = IPL_CONFIG(TIMED_PLACES, FRAMES, 0);
static uint8_t timed_memory[IPL_MEMORY(TIMED_PLACES, FRAMES)];

static double time_store(int commits, int puts, uint32_t len) {
    must(ipl_format(&store, &driver, &timed, timed_memory, sizeof timed_memory) == IPL_OK, "format");
    must(ipl_open(&store, &driver, &timed, timed_memory, sizeof timed_memory) == IPL_OK, "open");
    x = 12345;
    reads = programs = erases = barriers = 0;
    double start = seconds();
    for (int i = 0; i < commits; i++) commit_puts(NAMES, puts, len, name_in_turn(i, len));
    double spent = seconds() - start;
    ipl_close(&store);
    return spent * 1e6 / commits;
}

#ifdef WITH_SQLITE
static double time_sqlite(int commits, int puts, uint32_t len) {
    sqlite3 *db;
    sqlite3_stmt *begin, *put, *commit;
    uint8_t value[IPL_VALUE];
    must(sqlite3_open(":memory:", &db) == SQLITE_OK, "sqlite");
    must(sqlite3_exec(db, "create table r (n integer primary key, v blob)", 0, 0, 0) == SQLITE_OK, "table");
    must(sqlite3_prepare_v2(db, "begin", -1, &begin, 0) == SQLITE_OK, "begin");
    must(sqlite3_prepare_v2(db, "commit", -1, &commit, 0) == SQLITE_OK, "commit");
    must(sqlite3_prepare_v2(db, "insert or replace into r values (?, ?)", -1, &put, 0) == SQLITE_OK, "put");
    x = 12345;
    double start = seconds();
    for (int i = 0; i < commits; i++) {
        must(sqlite3_step(begin) == SQLITE_DONE && sqlite3_reset(begin) == SQLITE_OK, "begin");
        for (int j = 0; j < puts; j++) {
            memset(value, (int)(any() & 255), len);
            sqlite3_bind_int64(put, 1, puts == 1 ? name_in_turn(i, len) : any() % NAMES);
            sqlite3_bind_blob(put, 2, value, (int)len, SQLITE_STATIC);
            must(sqlite3_step(put) == SQLITE_DONE && sqlite3_reset(put) == SQLITE_OK, "put");
        }
        must(sqlite3_step(commit) == SQLITE_DONE && sqlite3_reset(commit) == SQLITE_OK, "commit");
    }
    double spent = seconds() - start;
    sqlite3_finalize(begin);
    sqlite3_finalize(put);
    sqlite3_finalize(commit);
    sqlite3_close(db);
    return spent * 1e6 / commits;
}
#endif

static int by_size(const void *a, const void *b) {
    double d = *(const double *)a - *(const double *)b;
    return (d > 0) - (d < 0);
}

/* The median of five turns, in turn with the other's. */
static void measure_time(const char *what, int puts, uint32_t len) {
    enum { TURNS = 5, COMMITS = 20000 };
    double ours[TURNS], others[TURNS] = {0};
    for (int i = 0; i < TURNS; i++) {
        ours[i] = time_store(COMMITS, puts, len);
#ifdef WITH_SQLITE
        others[i] = time_sqlite(COMMITS, puts, len);
#endif
    }
    qsort(ours, TURNS, sizeof *ours, by_size);
    qsort(others, TURNS, sizeof *others, by_size);
    printf("time: %s: %.2f us (%.2f to %.2f), %.2f reads, %.2f programs, %.3f erases, %.2f barriers", what,
           ours[TURNS / 2], ours[0], ours[TURNS - 1], (double)reads / COMMITS,
           (double)programs / COMMITS, (double)erases / COMMITS, (double)barriers / COMMITS);
    if (others[0] > 0)
        printf("; SQLite in memory %.2f us (%.2f to %.2f)", others[TURNS / 2], others[0], others[TURNS - 1]);
    printf("\n");
}

/* ---- room for few committed numbers */

enum { BEHIND = 3000, COUNTED = 6000 };

struct sizes { uint32_t places, sessions, numbers; };

/* A put of 40 bytes at random in each session, and a commit of all. */
static void commit_at_random(struct sizes size) {
    uint32_t all[IPL_SESSIONS], s;
    uint8_t value[40];
    for (s = 0; s < size.sessions; s++) {
        enum ipl_answer answer;
        all[s] = s;
        memset(value, (int)(any() & 255), sizeof value);
        must(ipl_begin(&store, s) == IPL_OK, "begin");
        do answer = ipl_put(&store, s, any() % ((size.places - 4) * IPL_UNIT_NAMES), value, sizeof value);
        while (answer == IPL_CONFLICT);
        must(answer == IPL_OK, "put");
    }
    must(ipl_commit_all(&store, all, size.sessions) == IPL_OK, "commit");
}

static void measure_numbers(struct sizes size) {
    struct ipl_config config = IPL_CONFIG_WITH(size.places, 2, 0, size.sessions, size.numbers);
    size_t wanted = ipl_memory(&config);
    uint8_t *memory = malloc(wanted);
    uint64_t most_programs = 0, most_erases = 0;
    must(memory != NULL, "room for a store");
    must(ipl_format(&store, &driver, &config, memory, wanted) == IPL_OK, "format");
    must(ipl_open(&store, &driver, &config, memory, wanted) == IPL_OK, "open");
    x = 12345;
    for (int i = 0; i < BEHIND; i++) commit_at_random(size);
    reads = programs = erases = barriers = 0;
    for (int i = 0; i < COUNTED; i++) {
        uint64_t programs_before = programs, erases_before = erases;
        commit_at_random(size);
        if (programs - programs_before > most_programs) most_programs = programs - programs_before;
        if (erases - erases_before > most_erases) most_erases = erases - erases_before;
    }
    printf("| %u | %u | %u | %.2f | %.2f | %.3f | %llu | %llu |\n", size.sessions, size.places, size.numbers,
           (double)reads / COUNTED, (double)programs / COUNTED, (double)erases / COUNTED,
           (unsigned long long)most_programs, (unsigned long long)most_erases);
    ipl_close(&store);
    free(memory);
}

static void measure_all_numbers(void) {
    static const uint32_t places[] = {8, 57, 257}, numbers[] = {IPL_NUMBERS_LEAST, 300, 600, 1500, IPL_NUMBERS_MOST};
    static const uint32_t sessions[] = {1, 4, 32};
    printf("| sessions | places | numbers | sectors read | programs | erases | programs at the worst | erases at the worst |\n"
           "|---|---|---|---|---|---|---|---|\n");
    for (size_t s = 0; s < sizeof sessions / sizeof *sessions; s++)
        for (size_t p = 0; p < sizeof places / sizeof *places; p++) {
            bytes = malloc(places[p] * sizeof *bytes);
            must(bytes != NULL, "room");
            for (size_t n = 0; n < sizeof numbers / sizeof *numbers; n++)
                measure_numbers((struct sizes){places[p], sessions[s], numbers[n]});
            free(bytes);
        }
}

int main(int argc, char **argv) {
    if (argc > 1 && strcmp(argv[1], "numbers") == 0) {
        measure_all_numbers();
        return 0;
    }
    struct size sizes[] = {{5, 2}, {8, 16}, {257, 16}, {1028, 16}};
    for (size_t i = 0; i < sizeof sizes / sizeof *sizes; i++) measure_memory(sizes[i]);
    bytes = malloc(TIMED_PLACES * sizeof *bytes);
    must(bytes != NULL, "room");
    measure_time("one put of 40 bytes", 1, 40);
    measure_time("four puts of 40 bytes at random", 4, 40);
    measure_time("one put of 400 bytes", 1, 400);
    free(bytes);
    return 0;
}
