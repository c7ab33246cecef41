// SQLite in memory, with the records of a store, and a query that the engine and SQLite both run: shared by the parts of the benchmark that have SQLite beside
// the engine.
#ifndef SQLITE_H
#define SQLITE_H
#include "formula.h"
#include <sqlite3.h>

static inline void run_sql(sqlite3 *db, const char *sql) {
    if (sqlite3_exec(db, sql, NULL, NULL, NULL) != SQLITE_OK) die(sqlite3_errmsg(db), sql);
}

// A table with an index on each column.
static inline void create(sqlite3 *db, const Table *t) {
    char sql[256];
    int n = snprintf(sql, sizeof sql, "CREATE TABLE %s (", t->name);
    for (uint32_t j = 0; j < t->width; j++) n += snprintf(sql + n, sizeof sql - (size_t)n, "%s%s INTEGER NOT NULL", j ? ", " : "", t->columns[j]);
    snprintf(sql + n, sizeof sql - (size_t)n, ")");
    run_sql(db, sql);
    for (uint32_t j = 0; j < t->width; j++) {
        snprintf(sql, sizeof sql, "CREATE INDEX %s_%s ON %s (%s)", t->name, t->columns[j], t->name, t->columns[j]);
        run_sql(db, sql);
    }
}

static inline void insert(sqlite3 *db, const Table *t, const uint32_t *values) {
    char sql[256];
    int n = snprintf(sql, sizeof sql, "INSERT INTO %s VALUES (", t->name);
    for (uint32_t j = 0; j < t->width; j++) n += snprintf(sql + n, sizeof sql - (size_t)n, "%s%u", j ? ", " : "", values[j]);
    snprintf(sql + n, sizeof sql - (size_t)n, ")");
    run_sql(db, sql);
}

// The records of a store, in memory, with the statistics that SQLite plans by.
static inline sqlite3 *opened(const Store *store, const Table *tables) {
    sqlite3 *db;
    if (sqlite3_open(":memory:", &db) != SQLITE_OK) die("cannot be opened", "SQLite");
    for (uint32_t r = 0; r < RELATIONS; r++)
        if (store->widths[r]) create(db, &tables[r]);
    for (size_t i = 0; i < store->count; i++) insert(db, &tables[store->relations[i]], &store->values[WIDTH * i]);
    run_sql(db, "ANALYZE");
    return db;
}

static inline sqlite3_stmt *prepared(sqlite3 *db, const char *sql) {
    sqlite3_stmt *statement;
    if (sqlite3_prepare_v2(db, sql, -1, &statement, NULL) != SQLITE_OK) die(sqlite3_errmsg(db), sql);
    return statement;
}

// All rows of a prepared statement, written as the engine writes them, as far as there is room; their number is returned.
static inline size_t sqlite_find(sqlite3_stmt *statement, uint32_t *out) {
    int k = sqlite3_column_count(statement);
    size_t rows = 0, at = 0;
    while (sqlite3_step(statement) == SQLITE_ROW) {
        rows++;
        for (int j = 0; j < k && at < ROOM; j++) out[at++] = (uint32_t)sqlite3_column_int64(statement, j);
    }
    sqlite3_reset(statement);
    return rows;
}

// One query over one store, ready to run, and what the last run gave.
typedef struct {
    const Store *store;
    uint8_t bytes[BYTES];
    size_t length;
    sqlite3_stmt *statement;
    Reply reply;
    uint32_t out[ROOM];
} Work;

static inline void by_engine(void *work) {
    Work *w = work;
    w->reply = engine_find(w->store, w->bytes, w->length, w->out);
}

static inline void by_sqlite(void *work) {
    Work *w = work;
    w->reply = (Reply){.rows = sqlite_find(w->statement, w->out)};
}
#endif
