/* LMDB as a store of a script: values by a name of four bytes, synced at each commit. usage: lmdb
 * PATH BYTES, how large its file may become. */
#include "script.h"

#include <lmdb.h>
#include <stdio.h>
#include <stdlib.h>

static MDB_env *environment;
static MDB_txn *transaction;
static MDB_dbi values;

static void must(int answered, const char *what) {
    if (answered != MDB_SUCCESS) stop(what, mdb_strerror(answered));
}

static void start(unsigned flags) {
    must(mdb_txn_begin(environment, NULL, flags, &transaction), "begin");
}

const char *store_version(void) {
    static char version[32];
    int major, minor, patch;
    mdb_version(&major, &minor, &patch);
    snprintf(version, sizeof version, "%d.%d.%d", major, minor, patch);
    return version;
}

void store_open(int words, char **word) {
    if (words != 2) stop("words", "PATH BYTES");
    must(mdb_env_create(&environment), "create");
    must(mdb_env_set_mapsize(environment, strtoull(word[1], NULL, 10)), "mapsize");
    must(mdb_env_open(environment, word[0], MDB_NOSUBDIR, 0644), word[0]);
    start(0);
    must(mdb_dbi_open(transaction, NULL, MDB_INTEGERKEY | MDB_CREATE, &values), "values");
    must(mdb_txn_commit(transaction), "commit");
}

void store_begin(void) { start(0); }

void store_put(uint32_t name, const void *bytes, size_t length) {
    MDB_val key = {sizeof name, &name}, value = {length, (void *)bytes};
    must(mdb_put(transaction, values, &key, &value, 0), "put");
}

int store_get(uint32_t name, const void **bytes, size_t *length) {
    MDB_val key = {sizeof name, &name}, value;
    int answered = mdb_get(transaction, values, &key, &value);
    if (answered == MDB_NOTFOUND) return 0;
    must(answered, "get");
    *bytes = value.mv_data;
    *length = value.mv_size;
    return 1;
}

void store_list(uint32_t first, uint32_t last,
                void (*say)(uint32_t name, const void *bytes, size_t length)) {
    MDB_val key = {sizeof first, &first}, value;
    MDB_cursor *cursor;
    start(MDB_RDONLY);
    must(mdb_cursor_open(transaction, values, &cursor), "cursor");
    int answered = mdb_cursor_get(cursor, &key, &value, MDB_SET_RANGE);
    while (answered == MDB_SUCCESS && *(uint32_t *)key.mv_data <= last) {
        say(*(uint32_t *)key.mv_data, value.mv_data, value.mv_size);
        answered = mdb_cursor_get(cursor, &key, &value, MDB_NEXT);
    }
    if (answered != MDB_SUCCESS && answered != MDB_NOTFOUND) must(answered, "list");
    mdb_cursor_close(cursor);
    mdb_txn_abort(transaction);
}

void store_commit(void) { must(mdb_txn_commit(transaction), "commit"); }

void store_abort(void) { mdb_txn_abort(transaction); }

void store_close(void) { mdb_env_close(environment); }
