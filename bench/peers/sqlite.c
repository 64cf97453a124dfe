/* SQLite as a store of a script: a table of values by name, with a write-ahead log that is synced
 * at each commit. usage: sqlite PATH [PAGE_BYTES PAGES], the size of a page and after how many
 * pages in its log a commit writes them back; as SQLite comes where they aren't said. */
#include "script.h"

#include <sqlite3.h>
#include <stdio.h>
#include <stdlib.h>

static sqlite3 *base;
static sqlite3_stmt *begin, *put, *get, *list, *commit, *rollback;

static void must(int answered, int wanted, const char *what) {
    if (answered != wanted) stop(what, sqlite3_errmsg(base));
}

static void run(const char *text) { must(sqlite3_exec(base, text, 0, 0, 0), SQLITE_OK, text); }

static sqlite3_stmt *prepared(const char *text) {
    sqlite3_stmt *statement;
    must(sqlite3_prepare_v2(base, text, -1, &statement, 0), SQLITE_OK, text);
    return statement;
}

static void step_once(sqlite3_stmt *statement) {
    must(sqlite3_step(statement), SQLITE_DONE, sqlite3_sql(statement));
    sqlite3_reset(statement);
}

const char *store_version(void) { return sqlite3_libversion(); }

void store_open(int words, char **word) {
    char tuned[96];
    if (words != 1 && words != 3) stop("words", "PATH [PAGE_BYTES PAGES]");
    must(sqlite3_open(word[0], &base), SQLITE_OK, word[0]);
    if (words == 3) {
        snprintf(tuned, sizeof tuned, "pragma page_size=%d; pragma wal_autocheckpoint=%d;",
                 atoi(word[1]), atoi(word[2]));
        run(tuned);
    }
    run("pragma journal_mode=wal; pragma synchronous=full;");
    run("create table if not exists record (name integer primary key, value blob);");
    begin = prepared("begin");
    put = prepared("insert or replace into record values (?, ?)");
    get = prepared("select value from record where name = ?");
    list = prepared("select name, value from record where name between ? and ? order by name");
    commit = prepared("commit");
    rollback = prepared("rollback");
}

void store_begin(void) { step_once(begin); }

void store_put(uint32_t name, const void *bytes, size_t length) {
    sqlite3_bind_int64(put, 1, name);
    sqlite3_bind_blob(put, 2, bytes, (int)length, SQLITE_STATIC);
    step_once(put);
}

int store_get(uint32_t name, const void **bytes, size_t *length) {
    sqlite3_reset(get);
    sqlite3_bind_int64(get, 1, name);
    int answered = sqlite3_step(get);
    if (answered == SQLITE_DONE) return 0;
    must(answered, SQLITE_ROW, "get");
    *bytes = sqlite3_column_blob(get, 0);
    *length = (size_t)sqlite3_column_bytes(get, 0);
    return 1;
}

void store_list(uint32_t first, uint32_t last,
                void (*say)(uint32_t name, const void *bytes, size_t length)) {
    int answered;
    sqlite3_bind_int64(list, 1, first);
    sqlite3_bind_int64(list, 2, last);
    while ((answered = sqlite3_step(list)) == SQLITE_ROW) {
        const void *bytes = sqlite3_column_blob(list, 1);
        say((uint32_t)sqlite3_column_int64(list, 0), bytes,
            (size_t)sqlite3_column_bytes(list, 1));
    }
    must(answered, SQLITE_DONE, "list");
    sqlite3_reset(list);
}

/* A read that stands open would keep the log from being written back. */
void store_commit(void) {
    sqlite3_reset(get);
    step_once(commit);
}

void store_abort(void) {
    sqlite3_reset(get);
    step_once(rollback);
}

void store_close(void) {
    sqlite3_stmt *all[] = {begin, put, get, list, commit, rollback};
    for (size_t i = 0; i < sizeof all / sizeof *all; i++) sqlite3_finalize(all[i]);
    must(sqlite3_close(base), SQLITE_OK, "close");
}
