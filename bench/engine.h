// The engine's answers call from C, and the stores that it is asked over: shared by the parts of the benchmark that have SQLite beside them.
#ifndef ENGINE_H
#define ENGINE_H
#include <stdbool.h>
#include <stdint.h>
#include <stdio.h>
#include <stdlib.h>
#include <string.h>

static inline void die(const char *what, const char *which) {
    fprintf(stderr, "bench: %s: %s\n", which, what);
    exit(2);
}

// ---- Stores -----------------------------------------------------------------------------------------------------------------------------------------------

enum { RELATIONS = 16, PLACES = 256, WIDTH = 4, ROOM = 4096 };

// A relation by the names that SQL has for it and its columns; and how many records of it a full store has, where all have as many.
typedef struct {
    const char *name;
    const char *columns[WIDTH];
    uint32_t width, records;
} Table;

typedef struct {
    uint32_t relation, values[WIDTH];
} Record;

// A store in the layout: records strictly ascending by relation and values, with zeros past a relation's width and past the count.
typedef struct {
    uint8_t widths[RELATIONS];
    uint8_t relations[PLACES];
    uint32_t values[WIDTH * PLACES];
    size_t count;
} Store;

static inline int by_order(const void *a, const void *b) {
    const Record *x = a, *y = b;
    if (x->relation != y->relation) return x->relation < y->relation ? -1 : 1;
    for (int i = 0; i < WIDTH; i++)
        if (x->values[i] != y->values[i]) return x->values[i] < y->values[i] ? -1 : 1;
    return 0;
}

// These records, in order, in a store that has its widths.
static inline void arrange(Store *store, Record *records, size_t count) {
    qsort(records, count, sizeof(Record), by_order);
    store->count = count;
    for (size_t i = 0; i < count; i++) {
        if (0 < i && by_order(&records[i - 1], &records[i]) == 0) die("a record twice", "store");
        store->relations[i] = (uint8_t)records[i].relation;
        memcpy(&store->values[WIDTH * i], records[i].values, sizeof records[i].values);
    }
}

// ---- The answers call -------------------------------------------------------------------------------------------------------------------------------------

typedef struct {
    uint64_t refusal, place, endless, rows;
} Reply;

// The entry of crates/bench, which the next functions alone know. It returns the number of rows; or 2^63 for endless; or 2^63 + 256 × number + place for a
// refusal.
extern uint64_t palmrummy_find(const uint8_t *widths, const uint8_t *relations, const uint32_t *values, size_t count, const uint8_t *bytes, size_t length,
                               bool wanted, uint32_t *out, size_t room);

static const uint64_t SIGN = UINT64_C(1) << 63;

// The rows of a packed query over a store; where safe-range answers are wanted, and it isn't safe-range, a refusal by cause 11.
static inline Reply engine_find_as(bool wanted, const Store *store, const uint8_t *bytes, size_t length, uint32_t *out) {
    uint64_t found = palmrummy_find(store->widths, store->relations, store->values, store->count, bytes, length, wanted, out, ROOM);
    if (found == SIGN) return (Reply){.endless = 1};
    if (found > SIGN) return (Reply){.refusal = (found - SIGN) / 256, .place = found % 256};
    return (Reply){.rows = found};
}

static inline Reply engine_find(const Store *store, const uint8_t *bytes, size_t length, uint32_t *out) {
    return engine_find_as(false, store, bytes, length, out);
}
#endif
