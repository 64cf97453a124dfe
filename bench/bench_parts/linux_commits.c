/* Records of 40 bytes by number: first all of them, and then single ones at random, each made sure of by itself.
 * usage: linux_commits ipl CHIP [OPTIONS] fill|run NAMES COUNT
 *        linux_commits file PATH in-place|appended fill|run NAMES COUNT
 *        linux_commits sqlite PATH tuned|plain fill|run NAMES COUNT */
#define _POSIX_C_SOURCE 200809L
#include "chip.h"
#include <fcntl.h>
#include <stdio.h>
#include <stdlib.h>
#include <string.h>
#include <time.h>
#include <unistd.h>
#ifdef WITH_SQLITE
#include <sqlite3.h>
#endif

enum { BYTES = 40, IN_A_COMMIT = 32, FRAMES = 16 };

static uint64_t state = 0x9E3779B97F4A7C15u;
static uint32_t any(void) {
    state ^= state << 13;
    state ^= state >> 7;
    state ^= state << 17;
    return (uint32_t)(state >> 16);
}

static double now(void) {
    struct timespec t;
    clock_gettime(CLOCK_MONOTONIC, &t);
    return (double)t.tv_sec + (double)t.tv_nsec / 1e9;
}

static void must(int holds, const char *what) {
    if (holds) return;
    printf("linux_commits: %s\n", what);
    exit(1);
}

/* What a kind does with one record; `last` where a fill makes sure of it. */
struct kind {
    void (*open)(const char *where, const char *how);
    void (*put)(uint32_t name, const uint8_t *value, int first, int last);
    void (*close)(void);
};

/* ---- ipl ---------------------------------------------------------------------------------------- */

static struct chip chip;
static struct ipl store;
static struct ipl_mtd_options options = IPL_MTD_OPTIONS;

static void open_ipl(const char *where, const char *how) {
    const char *why = "";
    (void)how;
    int is_open = chip_open(&chip, where, &options, &why);
    must(is_open, why);
    struct ipl_config config = IPL_CONFIG(chip.places, FRAMES, 0);
    size_t size = ipl_memory(&config);
    must(ipl_open_or_format(&store, chip_driver(&chip), &config, malloc(size), size) == IPL_OK, "no opening");
}

static void put_ipl(uint32_t name, const uint8_t *value, int first, int last) {
    if (first) must(ipl_begin(&store, 0) == IPL_OK, "no begin");
    must(ipl_put(&store, 0, name, value, BYTES) == IPL_OK, "no put");
    if (last) must(ipl_commit(&store, 0) == IPL_OK, "no commit");
}

static void close_ipl(void) {
    must(ipl_shutdown(&store, 0) == IPL_OK, "no shutdown");
    ipl_close(&store);
    chip_close(&chip);
}

/* ---- a file ------------------------------------------------------------------------------------- */

static int file, is_appended;

static void open_file(const char *where, const char *how) {
    is_appended = strcmp(how, "appended") == 0;
    file = open(where, O_RDWR | O_CREAT | (is_appended ? O_APPEND : 0), 0600);
    must(file >= 0, "no file");
}

static void put_file(uint32_t name, const uint8_t *value, int first, int last) {
    (void)first;
    ssize_t n = is_appended ? write(file, value, BYTES) : pwrite(file, value, BYTES, (off_t)name * BYTES);
    must(n == BYTES, "no write");
    if (last) must(fsync(file) == 0, "no sync");
}

static void close_file(void) { must(fsync(file) == 0 && close(file) == 0, "no sync"); }

/* ---- SQLite ------------------------------------------------------------------------------------- */

#ifdef WITH_SQLITE
static sqlite3 *database;
static sqlite3_stmt *insert;

static void run_sql(const char *text) { must(sqlite3_exec(database, text, NULL, NULL, NULL) == SQLITE_OK, text); }

static void open_sqlite(const char *where, const char *how) {
    must(sqlite3_open(where, &database) == SQLITE_OK, "no database");
    if (strcmp(how, "tuned") == 0) run_sql("pragma page_size=512; pragma journal_mode=wal; pragma synchronous=full");
    run_sql("create table if not exists records(name integer primary key, value blob)");
    must(sqlite3_prepare_v2(database, "insert or replace into records values(?,?)", -1, &insert, NULL) == SQLITE_OK, "no statement");
}

static void put_sqlite(uint32_t name, const uint8_t *value, int first, int last) {
    if (first) run_sql("begin");
    sqlite3_bind_int64(insert, 1, name);
    sqlite3_bind_blob(insert, 2, value, BYTES, SQLITE_STATIC);
    must(sqlite3_step(insert) == SQLITE_DONE, "no step");
    sqlite3_reset(insert);
    if (last) run_sql("commit");
}

static void close_sqlite(void) {
    sqlite3_finalize(insert);
    must(sqlite3_close(database) == SQLITE_OK, "no close");
}
#endif

/* ---- both --------------------------------------------------------------------------------------- */

static void work(const struct kind *it, int fills, uint32_t names, uint32_t count) {
    double most = 0, begun = now();
    for (uint32_t i = 0; i < count; i++) {
        uint8_t value[BYTES];
        uint32_t name = fills ? i : any() % names;
        for (int k = 0; k < BYTES; k++) value[k] = (uint8_t)any();
        double before = now();
        it->put(name, value, !fills || i % IN_A_COMMIT == 0, !fills || i % IN_A_COMMIT == IN_A_COMMIT - 1 || i + 1 == count);
        if (now() - before > most) most = now() - before;
    }
    printf("took %.2f longest %.1f\n", now() - begun, most * 1e3);
}

int main(int argc, char **argv) {
    static const struct kind ipl = {open_ipl, put_ipl, close_ipl}, plain_file = {open_file, put_file, close_file};
    const struct kind *it = NULL;
    int at = 3, taken;
    if (argc < 6) return 2;
    if (strcmp(argv[1], "ipl") == 0) {
        it = &ipl;
        while (at < argc && (taken = chip_option(&options, argc - at, argv + at)) != 0) at += taken;
        at--;
    }
    if (strcmp(argv[1], "file") == 0) it = &plain_file;
#ifdef WITH_SQLITE
    static const struct kind sqlite = {open_sqlite, put_sqlite, close_sqlite};
    if (strcmp(argv[1], "sqlite") == 0) it = &sqlite;
#endif
    if (it == NULL || at + 4 > argc) return printf("linux_commits: no such kind\n"), 2;
    int fills = strcmp(argv[at + 1], "fill") == 0;
    uint32_t names = (uint32_t)atoi(argv[at + 2]);
    it->open(argv[2], argv[3]);
    work(it, fills, names, fills ? names : (uint32_t)atoi(argv[at + 3]));
    it->close();
    return 0;
}
