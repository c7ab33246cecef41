// The engine beside SQLite, on menu-like queries over full stores.
//
// Each query stands below as a formula of the calculus, which is packed into document 01's bytes, beside the SQL that asks the same of the same tables. SQLite
// runs in memory, with an index on every column, and its statements are prepared outside the timing. A time of the engine is that of the whole call: the store
// is judged, the query read and evaluated, and the rows written. Rows are compared with SQLite's, in their order, and must be equal.
//
// Then each query has a standing list, and a record is removed from the full store and put back: the engine's time is again that of the whole call, which also
// judges the list, finds its rows anew and writes those that joined and left; SQLite makes the same change, by a prepared statement, and runs the query again.
// The rows that joined and left are compared with the difference of SQLite's rows before and after.
//
// There are three stores, each with 256 records. The coarse one and the fine one have the same joins: in the coarse one measurements are round numbers that
// recur, in the fine one each is its own. The network has stations, the links between them and their pumps, and lines of its own.
//
// Usage: bench [changes] [PART], where only the queries whose name has this part are run, and with the word only their changes. The names of the network's lines
// start with "network". It fails where rows differ or the reach is missed.
#define _POSIX_C_SOURCE 200809L
#include "clock.h"
#include "engine.h"
#include "formula.h"
#include "sqlite.h"
#include <math.h>

// The reach: the seconds that any query may take, the times of SQLite that any may take, and the geometric mean over the coarse and the fine store, in times of
// SQLite, of the answers and of the changes.
static const double LONGEST = 3e-3;
static const double WORST = 10;
static const double MEAN = 0.6;

// ---- The change of a standing list ------------------------------------------------------------------------------------------------------------------------

enum { ROWS = 512 };

// A standing list in the layout, as opened: its columns ascending, and its rows ascending in four places each, with zeros past the columns and past the count.
typedef struct {
    uint8_t variables[WIDTH];
    size_t columns;
    uint32_t values[WIDTH * ROWS];
    size_t count;
    bool endless;
} List;

typedef struct {
    uint64_t refusal, joined, left;
} Change;

enum { REMOVAL, PUT, CHANGES };

// The other entry of crates/bench, which the next function alone knows. It returns the numbers of rows that joined and left, as joined + 65536 × left; or 2^63 +
// 256 × number + place for a refusal.
extern uint64_t palmrummy_change(const uint8_t *widths, const uint8_t *relations, const uint32_t *values, size_t count, const uint8_t *variables,
                                 size_t columns, const uint32_t *rows, size_t held, bool endless, const uint64_t *counts, const uint8_t *bytes, size_t length,
                                 bool removal, uint8_t relation, const uint32_t *tuple, uint32_t *joined, size_t joined_room, uint32_t *left,
                                 size_t left_room);

// A record put into a store, or removed from it, with the list of a packed query: the rows that joined and left are written.
static Change engine_change(int change, const Store *store, const List *list, const uint8_t *bytes, size_t length, const Record *r, uint32_t *joined,
                            uint32_t *left) {
    const uint64_t counts[] = {list->count, 0, 0};
    uint64_t told = palmrummy_change(store->widths, store->relations, store->values, store->count, list->variables, list->columns, list->values, list->count,
                                     list->endless, counts, bytes, length, change == REMOVAL, (uint8_t)r->relation, r->values, joined, ROOM, left, ROOM);
    if (told > SIGN) return (Change){.refusal = (told - SIGN) / 256};
    return (Change){.joined = told % 65536, .left = told / 65536};
}

// ---- Stores -----------------------------------------------------------------------------------------------------------------------------------------------

// The stores, and the tables by the number of their relation: those from LINKS on are the network's, the others those of the coarse and the fine store.
enum { COARSE, FINE, NETWORK };
enum { FEATURES, JOINTS, WELDS, READINGS, DIGS, BENDS, CREWS, TRAINED, TASKS, REPAIRS, LINKS, STATIONS, PUMPS, TABLES };

static const Table tables[TABLES] = {
    [FEATURES] = {"features", {"feature", "joint", "depth", "length"}, 4, 124},
    [JOINTS] = {"joints", {"joint", "odometer", "wall", "maker"}, 4, 28},
    [WELDS] = {"welds", {"joint", "weld", "heat"}, 3, 26},
    [READINGS] = {"readings", {"weld", "value", "day", "sensor"}, 4, 48},
    [DIGS] = {"digs", {"joint", "day", "crew", "cost"}, 4, 8},
    [BENDS] = {"bends", {"joint", "angle", "radius"}, 3, 6},
    [CREWS] = {"crews", {"crew"}, 1, 3},
    [TRAINED] = {"trained", {"crew", "task"}, 2, 6},
    [TASKS] = {"tasks", {"task"}, 1, 3},
    [REPAIRS] = {"repairs", {"feature", "day"}, 2, 4},
    [LINKS] = {"links", {"station", "towards"}, 2, 128},
    [STATIONS] = {"stations", {"station"}, 1, 64},
    [PUMPS] = {"pumps", {"station", "pump"}, 2, 64},
};

static bool has_table(int store, uint32_t table) { return (store == NETWORK) == (LINKS <= table); }

// The numbers of things.
static uint32_t crew_number(uint32_t i) { return 1 + i; }
static uint32_t sensor_number(uint32_t i) { return 5 + i; }
static uint32_t maker_number(uint32_t i) { return 8 + i; }
static uint32_t task_number(uint32_t i) { return 11 + i; }
static uint32_t joint_number(uint32_t i) { return 400 + i; }
static uint32_t weld_number(uint32_t i) { return 700 + i; }
static uint32_t feature_number(uint32_t i) { return 1000 + i; }
static uint32_t station_number(uint32_t i) { return 2000 + i; }
static uint32_t pump_number(uint32_t i) { return 3000 + i; }

// A number below n for a column of the i-th record of a table: it looks random, and is the same in every run and for every store.
static uint32_t drawn(uint32_t table, uint32_t i, uint32_t column, uint32_t n) {
    uint32_t h = (table << 16 | i << 4 | column) * 2654435761u;
    h = (h ^ h >> 15) * 2246822519u;
    h = (h ^ h >> 13) * 3266489917u;
    return (h ^ h >> 16) % n;
}

// A measurement: one of the first n multiples of a step; in the fine store a number that nothing else has.
static uint32_t measured(bool fine, uint32_t table, uint32_t i, uint32_t column, uint32_t step, uint32_t n) {
    if (fine) return 100000 + (table << 10 | i << 2 | column) * 7919 % 65536;
    return step * (1 + drawn(table, i, column, n));
}

// The i-th link: two go out of each station, to two others.
static Record link_record(uint32_t i) {
    uint32_t stations = tables[STATIONS].records, from = i / 2;
    uint32_t first = drawn(LINKS, 2 * from, 1, stations - 1), second = drawn(LINKS, 2 * from + 1, 1, stations - 2);
    uint32_t further = i % 2 == 0 ? first : second + (first <= second);
    return (Record){LINKS, {station_number(from), station_number((from + 1 + further) % stations)}};
}

// The i-th record of a table.
static Record record(bool fine, uint32_t table, uint32_t i) {
    static const uint32_t dug[] = {3, 5, 5, 9, 14, 17, 22, 26}, bent[] = {2, 5, 9, 16, 21, 26}, repaired[] = {7, 38, 69, 100};
    static const uint32_t trained[][2] = {{0, 0}, {0, 1}, {0, 2}, {1, 0}, {1, 2}, {2, 1}};
    uint32_t joints = tables[JOINTS].records, welds = tables[WELDS].records, crews = tables[CREWS].records;
#define DRAWN(column, n) drawn(table, i, column, n)
#define MEASURED(column, step, n) measured(fine, table, i, column, step, n)
    switch (table) {
    case FEATURES: return (Record){table, {feature_number(i), joint_number(DRAWN(1, joints)), MEASURED(2, 1, 40), MEASURED(3, 2, 25)}};
    case JOINTS: return (Record){table, {joint_number(i), MEASURED(1, 12, 60), MEASURED(2, 2, 20), maker_number(DRAWN(3, 3))}};
    case WELDS: return (Record){table, {joint_number(DRAWN(0, joints)), weld_number(i), MEASURED(2, 1, 30)}};
    case READINGS: return (Record){table, {weld_number(DRAWN(0, welds)), MEASURED(1, 3, 20), MEASURED(2, 1, 28), sensor_number(DRAWN(3, 3))}};
    case DIGS: return (Record){table, {joint_number(dug[i]), MEASURED(1, 1, 28), crew_number(DRAWN(2, crews)), MEASURED(3, 50, 9)}};
    case BENDS: return (Record){table, {joint_number(bent[i]), MEASURED(1, 15, 6), MEASURED(2, 3, 9)}};
    case CREWS: return (Record){table, {crew_number(i)}};
    case TRAINED: return (Record){table, {crew_number(trained[i][0]), task_number(trained[i][1])}};
    case TASKS: return (Record){table, {task_number(i)}};
    case LINKS: return link_record(i);
    case STATIONS: return (Record){table, {station_number(i)}};
    case PUMPS: return (Record){table, {station_number(DRAWN(0, tables[STATIONS].records)), pump_number(i)}};
    default: return (Record){table, {feature_number(repaired[i]), MEASURED(1, 1, 28)}};
    }
#undef DRAWN
#undef MEASURED
}

// A full store.
static Store filled(int which) {
    Record records[PLACES];
    Store store = {.count = 0};
    for (uint32_t r = 0; r < TABLES; r++) {
        if (!has_table(which, r)) continue;
        store.widths[r] = (uint8_t)tables[r].width;
        for (uint32_t i = 0; i < tables[r].records; i++) {
            if (store.count == PLACES) die("too many records", tables[r].name);
            records[store.count++] = record(which == FINE, r, i);
        }
    }
    arrange(&store, records, store.count);
    return store;
}

static Record record_at(const Store *store, size_t place) {
    Record r = {.relation = store->relations[place]};
    memcpy(r.values, &store->values[WIDTH * place], sizeof r.values);
    return r;
}

// The store without the record at a place.
static Store without(const Store *store, size_t place) {
    Store rest = *store;
    size_t last = --rest.count, moved = last - place;
    memmove(&rest.relations[place], &rest.relations[place + 1], moved);
    memmove(&rest.values[WIDTH * place], &rest.values[WIDTH * (place + 1)], WIDTH * moved * sizeof rest.values[0]);
    rest.relations[last] = 0;
    memset(&rest.values[WIDTH * last], 0, WIDTH * sizeof rest.values[0]);
    return rest;
}

static int by_value(const void *a, const void *b) {
    uint32_t x = *(const uint32_t *)a, y = *(const uint32_t *)b;
    return (x > y) - (x < y);
}

static size_t distinct_values(const Store *store) {
    uint32_t all[WIDTH * PLACES];
    size_t n = 0, distinct = 0;
    for (size_t i = 0; i < store->count; i++)
        for (size_t j = 0; j < store->widths[store->relations[i]]; j++) all[n++] = store->values[WIDTH * i + j];
    qsort(all, n, sizeof all[0], by_value);
    for (size_t i = 0; i < n; i++) distinct += i == 0 || all[i - 1] != all[i];
    return distinct;
}

// ---- Queries ----------------------------------------------------------------------------------------------------------------------------------------------

typedef struct {
    const char *name;
    const Formula *formula;
    const char *sql;      // its rows; of an endless query a single 1 where it is endless, and 0 where it is not
    bool columns, endless, network;
} Query;

static Query queries[128];
static size_t query_count;

static void add(Query q) {
    if (query_count == sizeof queries / sizeof queries[0]) die("too many queries", q.name);
    queries[query_count++] = q;
}

// Whether a query is one of a store, and its name has the part.
static bool is_chosen(const Query *q, int store, const char *part) { return q->network == (store == NETWORK) && strstr(q->name, part); }

static bool has_query(int store, const char *part) {
    for (size_t i = 0; i < query_count; i++)
        if (is_chosen(&queries[i], store, part)) return true;
    return false;
}

// A query with columns; one without, whose SQL has a row where it holds; and an endless one, where SQLite decides whether some row that satisfies the query has
// a value that no record has: that is what endless means. The last is a query of the network, with columns.
static void ask(const char *name, const Formula *f, const char *sql) { add((Query){name, f, sql, true, false, false}); }
static void ask_whether(const char *name, const Formula *f, const char *sql) { add((Query){name, f, sql, false, false, false}); }
static void ask_endless(const char *name, const Formula *f, const char *sql) { add((Query){name, f, sql, true, true, false}); }
static void ask_network(const char *name, const Formula *f, const char *sql) { add((Query){name, f, sql, true, false, true}); }

// Variables. Columns come in this order; the sentences below bind the last four.
static const Term A = {false, 0}, B = {false, 1}, C = {false, 2}, D = {false, 3}, E = {false, 4}, F = {false, 5}, G = {false, 6};
static const Term M = {false, 12}, N = {false, 13}, O = {false, 14}, P = {false, 15};

static const Formula *on_joint(Term feature, Term joint) { return exists(rel(FEATURES, feature, joint, O, P), O, P); }
static const Formula *has_depth(Term feature, Term depth) { return exists(rel(FEATURES, feature, O, depth, P), O, P); }
static const Formula *is_joint(Term joint) { return exists(rel(JOINTS, joint, N, O, P), N, O, P); }
static const Formula *made_by(Term joint, Term maker) { return exists(rel(JOINTS, joint, N, O, maker), N, O); }
static const Formula *has_weld(Term joint, Term weld) { return exists(rel(WELDS, joint, weld, P), P); }
static const Formula *has_value(Term weld, Term value) { return exists(rel(READINGS, weld, value, O, P), O, P); }
static const Formula *is_read(Term weld) { return exists(rel(READINGS, weld, N, O, P), N, O, P); }
static const Formula *read_by(Term weld, Term sensor) { return exists(rel(READINGS, weld, N, O, sensor), N, O); }
static const Formula *dug_by(Term joint, Term crew) { return exists(rel(DIGS, joint, N, crew, P), N, P); }
static const Formula *is_dug(Term joint) { return exists(rel(DIGS, joint, N, O, P), N, O, P); }
static const Formula *is_bent(Term joint) { return exists(rel(BENDS, joint, O, P), O, P); }
static const Formula *is_repaired(Term feature) { return exists(rel(REPAIRS, feature, P), P); }

static void plain_lines(void) {
    ask("features of one joint", rel(FEATURES, A, con(joint_number(9)), B, C),
        "SELECT DISTINCT feature, depth, length FROM features WHERE joint = 409 ORDER BY 1, 2, 3");
    ask("all features", rel(FEATURES, A, B, C, D),
        "SELECT DISTINCT feature, joint, depth, length FROM features ORDER BY 1, 2, 3, 4");
    ask("depths, joint by joint", exists(rel(FEATURES, M, A, B, N), M, N),
        "SELECT DISTINCT joint, depth FROM features ORDER BY 1, 2");
}

static void untouched_lines(void) {
    ask("features on a joint no dig touched", conj(on_joint(A, B), neg(is_dug(B))),
        "SELECT DISTINCT feature, joint FROM features f WHERE NOT EXISTS (SELECT 1 FROM digs d WHERE d.joint = f.joint) ORDER BY 1, 2");
    ask("joints no dig touched, and their features", conj(on_joint(B, A), neg(is_dug(A))),
        "SELECT DISTINCT joint, feature FROM features f WHERE NOT EXISTS (SELECT 1 FROM digs d WHERE d.joint = f.joint) ORDER BY 1, 2");
    ask("no dig touched: features only", exists(conj(on_joint(A, B), neg(is_dug(B))), B),
        "SELECT DISTINCT feature FROM features f WHERE NOT EXISTS (SELECT 1 FROM digs d WHERE d.joint = f.joint) ORDER BY 1");
    ask("no dig touched: the not first", conj(neg(is_dug(B)), on_joint(A, B)),
        "SELECT DISTINCT feature, joint FROM features f WHERE NOT EXISTS (SELECT 1 FROM digs d WHERE d.joint = f.joint) ORDER BY 1, 2");
    ask("unrepaired features on bends", conj(rel(FEATURES, A, B, C, D), is_bent(B), neg(is_repaired(A))),
        "SELECT DISTINCT feature, joint, depth, length FROM features f WHERE joint IN (SELECT joint FROM bends)"
        " AND feature NOT IN (SELECT feature FROM repairs) ORDER BY 1, 2, 3, 4");
}

static void every_lines(void) {
    ask("joints where every weld has a reading", conj(is_joint(A), every(has_weld(A, B), is_read(B), B)),
        "SELECT DISTINCT joint FROM joints j WHERE NOT EXISTS (SELECT 1 FROM welds w WHERE w.joint = j.joint"
        " AND NOT EXISTS (SELECT 1 FROM readings r WHERE r.weld = w.weld)) ORDER BY 1");
    ask("joints with a weld where every one has", conj(exists(has_weld(A, B), B), every(has_weld(A, B), is_read(B), B)),
        "SELECT DISTINCT joint FROM welds j WHERE NOT EXISTS (SELECT 1 FROM welds w WHERE w.joint = j.joint"
        " AND NOT EXISTS (SELECT 1 FROM readings r WHERE r.weld = w.weld)) ORDER BY 1");
    ask("joints where every feature is repaired", conj(is_joint(A), every(on_joint(B, A), is_repaired(B), B)),
        "SELECT DISTINCT joint FROM joints j WHERE NOT EXISTS (SELECT 1 FROM features f WHERE f.joint = j.joint"
        " AND NOT EXISTS (SELECT 1 FROM repairs r WHERE r.feature = f.feature)) ORDER BY 1");
    ask("features on joints where every weld is read", conj(on_joint(A, B), every(has_weld(B, C), is_read(C), C)),
        "SELECT DISTINCT feature, joint FROM features f WHERE NOT EXISTS (SELECT 1 FROM welds w WHERE w.joint = f.joint"
        " AND NOT EXISTS (SELECT 1 FROM readings r WHERE r.weld = w.weld)) ORDER BY 1, 2");
}

static void pair_lines(void) {
    ask("equal to a bent joint, the equality first", conj(eq(A, B), is_bent(A)),
        "SELECT DISTINCT joint, joint FROM bends ORDER BY 1, 2");
    ask("pairs on one joint", exists(conj(on_joint(A, C), on_joint(B, C), neg(eq(A, B))), C),
        "SELECT DISTINCT f.feature, g.feature FROM features f JOIN features g ON g.joint = f.joint WHERE f.feature <> g.feature ORDER BY 1, 2");
    ask("joints, and pairs on them", conj(on_joint(B, A), on_joint(C, A), neg(eq(B, C))),
        "SELECT DISTINCT f.joint, f.feature, g.feature FROM features f JOIN features g ON g.joint = f.joint WHERE f.feature <> g.feature"
        " ORDER BY 1, 2, 3");
    ask("pairs of one depth on one joint", exists(conj(rel(FEATURES, A, C, D, E), rel(FEATURES, B, C, D, F), neg(eq(A, B))), C, D, E, F),
        "SELECT DISTINCT f.feature, g.feature FROM features f JOIN features g ON g.joint = f.joint AND g.depth = f.depth WHERE f.feature <> g.feature"
        " ORDER BY 1, 2");
    ask("triples of values of one weld",
        exists(conj(has_value(D, A), has_value(D, B), has_value(D, C), neg(eq(A, B)), neg(eq(A, C)), neg(eq(B, C))), D),
        "SELECT DISTINCT a.value, b.value, c.value FROM readings a JOIN readings b ON b.weld = a.weld JOIN readings c ON c.weld = a.weld"
        " WHERE a.value <> b.value AND a.value <> c.value AND b.value <> c.value ORDER BY 1, 2, 3");
    ask("pairs on bends of one maker",
        exists(conj(on_joint(A, C), on_joint(B, D), is_bent(C), is_bent(D), made_by(C, E), made_by(D, E), neg(eq(A, B))), C, D, E),
        "SELECT DISTINCT f.feature, g.feature FROM features f JOIN joints i ON i.joint = f.joint JOIN joints j ON j.maker = i.maker"
        " JOIN features g ON g.joint = j.joint WHERE f.feature <> g.feature AND i.joint IN (SELECT joint FROM bends)"
        " AND j.joint IN (SELECT joint FROM bends) ORDER BY 1, 2");
    ask("welds read with two values", exists(conj(has_value(A, B), has_value(A, C), neg(eq(B, C))), B, C),
        "SELECT DISTINCT r.weld FROM readings r JOIN readings s ON s.weld = r.weld WHERE r.value <> s.value ORDER BY 1");
    ask("pairs of bent joints of one maker", exists(conj(is_bent(A), is_bent(B), made_by(A, C), made_by(B, C), neg(eq(A, B))), C),
        "SELECT DISTINCT a.joint, b.joint FROM joints a JOIN joints b ON b.maker = a.maker WHERE a.joint <> b.joint"
        " AND a.joint IN (SELECT joint FROM bends) AND b.joint IN (SELECT joint FROM bends) ORDER BY 1, 2");
}

static void join_lines(void) {
    ask("feature, joint, weld, value", conj(on_joint(A, B), has_weld(B, C), has_value(C, D)),
        "SELECT DISTINCT f.feature, f.joint, w.weld, r.value FROM features f JOIN welds w ON w.joint = f.joint JOIN readings r ON r.weld = w.weld"
        " ORDER BY 1, 2, 3, 4");
    ask("value, weld, joint, feature", conj(on_joint(D, C), has_weld(C, B), has_value(B, A)),
        "SELECT DISTINCT r.value, w.weld, w.joint, f.feature FROM features f JOIN welds w ON w.joint = f.joint JOIN readings r ON r.weld = w.weld"
        " ORDER BY 1, 2, 3, 4");
    ask("feature, weld, joint, value", conj(on_joint(A, C), has_weld(C, B), has_value(B, D)),
        "SELECT DISTINCT f.feature, w.weld, f.joint, r.value FROM features f JOIN welds w ON w.joint = f.joint JOIN readings r ON r.weld = w.weld"
        " ORDER BY 1, 2, 3, 4");
    ask("dug joint, crew, weld, value", conj(dug_by(A, B), has_weld(A, C), has_value(C, D)),
        "SELECT DISTINCT d.joint, d.crew, w.weld, r.value FROM digs d JOIN welds w ON w.joint = d.joint JOIN readings r ON r.weld = w.weld"
        " ORDER BY 1, 2, 3, 4");
    ask("feature, joint, crew, task", conj(on_joint(A, B), dug_by(B, C), rel(TRAINED, C, D)),
        "SELECT DISTINCT f.feature, f.joint, d.crew, t.task FROM features f JOIN digs d ON d.joint = f.joint JOIN trained t ON t.crew = d.crew"
        " ORDER BY 1, 2, 3, 4");
    ask("task, crew, joint, angle", conj(rel(TRAINED, B, A), dug_by(C, B), exists(rel(BENDS, C, D, P), P)),
        "SELECT DISTINCT t.task, t.crew, d.joint, b.angle FROM trained t JOIN digs d ON d.crew = t.crew JOIN bends b ON b.joint = d.joint"
        " ORDER BY 1, 2, 3, 4");
    ask("maker, sensor over three tables", exists(conj(made_by(C, A), has_weld(C, D), read_by(D, B)), C, D),
        "SELECT DISTINCT j.maker, r.sensor FROM joints j JOIN welds w ON w.joint = j.joint JOIN readings r ON r.weld = w.weld ORDER BY 1, 2");
    ask("feature, value over three tables", exists(conj(on_joint(A, C), has_weld(C, D), has_value(D, B)), C, D),
        "SELECT DISTINCT f.feature, r.value FROM features f JOIN welds w ON w.joint = f.joint JOIN readings r ON r.weld = w.weld ORDER BY 1, 2");
}

static void division_lines(void) {
    ask("crews trained for every task", conj(rel(CREWS, A), every(rel(TASKS, B), rel(TRAINED, A, B), B)),
        "SELECT DISTINCT crew FROM crews c WHERE NOT EXISTS (SELECT 1 FROM tasks t"
        " WHERE NOT EXISTS (SELECT 1 FROM trained r WHERE r.crew = c.crew AND r.task = t.task)) ORDER BY 1");
    ask("sensors used on every weld of a bend",
        conj(exists(read_by(B, A), B), every(exists(conj(is_bent(C), has_weld(C, B)), C), read_by(B, A), B)),
        "SELECT sensor FROM (SELECT DISTINCT sensor FROM readings) s WHERE NOT EXISTS (SELECT 1 FROM welds w JOIN bends b ON b.joint = w.joint"
        " WHERE NOT EXISTS (SELECT 1 FROM readings r WHERE r.weld = w.weld AND r.sensor = s.sensor)) ORDER BY 1");
    ask("joints whose welds every sensor has read",
        conj(exists(has_weld(A, B), B), every(exists(read_by(C, D), C), exists(conj(has_weld(A, B), read_by(B, D)), B), D)),
        "SELECT joint FROM (SELECT DISTINCT joint FROM welds) j WHERE NOT EXISTS (SELECT 1 FROM (SELECT DISTINCT sensor FROM readings) s"
        " WHERE NOT EXISTS (SELECT 1 FROM welds w JOIN readings r ON r.weld = w.weld WHERE w.joint = j.joint AND r.sensor = s.sensor)) ORDER BY 1");
    ask("crews that can do all that another can",
        conj(rel(CREWS, A), rel(CREWS, B), neg(eq(A, B)), every(rel(TRAINED, B, C), rel(TRAINED, A, C), C)),
        "SELECT DISTINCT a.crew, b.crew FROM crews a, crews b WHERE a.crew <> b.crew AND NOT EXISTS (SELECT 1 FROM trained t WHERE t.crew = b.crew"
        " AND NOT EXISTS (SELECT 1 FROM trained u WHERE u.crew = a.crew AND u.task = t.task)) ORDER BY 1, 2");
}

static void union_lines(void) {
    ask("joints bent or dug", disj(is_bent(A), is_dug(A)),
        "SELECT joint FROM bends UNION SELECT joint FROM digs ORDER BY 1");
    ask("features repaired or on a bend", conj(on_joint(A, B), disj(is_repaired(A), is_bent(B))),
        "SELECT DISTINCT feature, joint FROM features WHERE feature IN (SELECT feature FROM repairs) OR joint IN (SELECT joint FROM bends) ORDER BY 1, 2");
    ask("features, welds and crews of a joint", disj(on_joint(B, A), has_weld(A, B), dug_by(A, B)),
        "SELECT joint, feature FROM features UNION SELECT joint, weld FROM welds UNION SELECT joint, crew FROM digs ORDER BY 1, 2");
    ask("days of a reading, a dig or a repair",
        disj(exists(rel(READINGS, M, N, A, P), M, N, P), exists(rel(DIGS, M, A, O, P), M, O, P), exists(rel(REPAIRS, M, A), M)),
        "SELECT day FROM readings UNION SELECT day FROM digs UNION SELECT day FROM repairs ORDER BY 1");
}

static void one_lines(void) {
    ask("joints with exactly one weld", exists(conj(has_weld(A, B), neg(exists(conj(has_weld(A, C), neg(eq(C, B))), C))), B),
        "SELECT DISTINCT joint FROM welds w WHERE NOT EXISTS (SELECT 1 FROM welds v WHERE v.joint = w.joint AND v.weld <> w.weld) ORDER BY 1");
    ask("joints with exactly one feature, and it", conj(on_joint(B, A), neg(exists(conj(on_joint(C, A), neg(eq(C, B))), C))),
        "SELECT DISTINCT joint, feature FROM features f"
        " WHERE NOT EXISTS (SELECT 1 FROM features g WHERE g.joint = f.joint AND g.feature <> f.feature) ORDER BY 1, 2");
    ask("features whose depth is on one joint only",
        conj(on_joint(A, B), neg(exists(conj(has_depth(A, C), has_depth(D, C), on_joint(D, E), neg(eq(E, B))), C, D, E))),
        "SELECT DISTINCT feature, joint FROM features f"
        " WHERE NOT EXISTS (SELECT 1 FROM features g WHERE g.depth = f.depth AND g.joint <> f.joint) ORDER BY 1, 2");
    ask("readings that are the only one of a weld",
        conj(rel(READINGS, A, B, C, D), neg(exists(conj(rel(READINGS, A, E, F, G), neg(conj(eq(E, B), eq(F, C), eq(G, D)))), E, F, G))),
        "SELECT DISTINCT weld, value, day, sensor FROM readings r WHERE NOT EXISTS (SELECT 1 FROM readings s WHERE s.weld = r.weld"
        " AND NOT (s.value = r.value AND s.day = r.day AND s.sensor = r.sensor)) ORDER BY 1, 2, 3, 4");
}

static void yes_no_lines(void) {
    ask_whether("is some dug joint without a weld?", exists(conj(is_dug(A), neg(exists(has_weld(A, B), B))), A),
                "SELECT 1 WHERE EXISTS (SELECT 1 FROM digs d WHERE NOT EXISTS (SELECT 1 FROM welds w WHERE w.joint = d.joint))");
    ask_whether("is every feature on a known joint?", every(on_joint(A, B), is_joint(B), A, B),
                "SELECT 1 WHERE NOT EXISTS (SELECT 1 FROM features f WHERE NOT EXISTS (SELECT 1 FROM joints j WHERE j.joint = f.joint))");
    ask_whether("is this joint bent?", is_bent(con(joint_number(16))),
                "SELECT 1 WHERE EXISTS (SELECT 1 FROM bends WHERE joint = 416)");
    ask_whether("is every feature of a bend repaired?", every(exists(conj(is_bent(B), on_joint(A, B)), B), is_repaired(A), A),
                "SELECT 1 WHERE NOT EXISTS (SELECT 1 FROM bends b JOIN features f ON f.joint = b.joint"
                " WHERE NOT EXISTS (SELECT 1 FROM repairs r WHERE r.feature = f.feature))");
    ask_whether("do depth and length tell features apart?",
                neg(exists(conj(rel(FEATURES, A, E, C, D), rel(FEATURES, B, F, C, D), neg(eq(A, B))), A, B, C, D, E, F)),
                "SELECT 1 WHERE NOT EXISTS (SELECT 1 FROM features f JOIN features g ON g.depth = f.depth AND g.length = f.length"
                " WHERE f.feature <> g.feature)");
    ask_whether("are three of one depth on one joint?",
                exists(conj(rel(FEATURES, A, E, D, N), rel(FEATURES, B, E, D, O), rel(FEATURES, C, E, D, P), neg(eq(A, B)), neg(eq(A, C)), neg(eq(B, C))),
                       A, B, C, D, E, N, O, P),
                "SELECT 1 WHERE EXISTS (SELECT 1 FROM features f JOIN features g ON g.joint = f.joint AND g.depth = f.depth"
                " JOIN features h ON h.joint = f.joint AND h.depth = f.depth"
                " WHERE f.feature <> g.feature AND f.feature <> h.feature AND g.feature <> h.feature)");
    ask_whether("has each maker a weld read by each sensor?",
                every(conj(exists(made_by(C, A), C), exists(read_by(D, B), D)), exists(conj(made_by(C, A), has_weld(C, D), read_by(D, B)), C, D), A, B),
                "SELECT 1 WHERE NOT EXISTS (SELECT 1 FROM (SELECT DISTINCT maker FROM joints) m, (SELECT DISTINCT sensor FROM readings) s"
                " WHERE NOT EXISTS (SELECT 1 FROM joints j JOIN welds w ON w.joint = j.joint JOIN readings r ON r.weld = w.weld"
                " WHERE j.maker = m.maker AND r.sensor = s.sensor))");
}

// Not safe-range, but with finitely many rows over these stores.
static void unsafe_lines(void) {
    ask("unsafe: an equality denied twice", neg(disj(neg(on_joint(A, B)), neg(eq(B, C)))),
        "SELECT DISTINCT feature, joint, joint FROM features ORDER BY 1, 2, 3");
    ask("unsafe: exists over an or", exists(disj(has_weld(A, B), is_bent(A)), B),
        "SELECT joint FROM welds UNION SELECT joint FROM bends ORDER BY 1");
    ask("unsafe: joints that something is no weld of", conj(is_joint(A), exists(neg(has_weld(A, B)), B)),
        "SELECT DISTINCT joint FROM joints ORDER BY 1");
    ask("unsafe: for all, as an implication", conj(rel(CREWS, A), neg(exists(neg(disj(neg(rel(TASKS, B)), rel(TRAINED, A, B))), B))),
        "SELECT DISTINCT crew FROM crews c WHERE NOT EXISTS (SELECT 1 FROM tasks t"
        " WHERE NOT EXISTS (SELECT 1 FROM trained r WHERE r.crew = c.crew AND r.task = t.task)) ORDER BY 1");
    ask("unsafe: the same feature or one beside it",
        conj(on_joint(A, con(joint_number(5))), disj(eq(A, B), exists(conj(on_joint(A, C), on_joint(B, C)), C))),
        "SELECT DISTINCT f.feature, g.feature FROM features f JOIN features g ON g.joint = f.joint WHERE f.joint = 405 ORDER BY 1, 2");
    ask("unsafe: four columns, two equalities first", conj(eq(C, A), eq(D, B), rel(TRAINED, A, B)),
        "SELECT DISTINCT crew, task, crew, task FROM trained ORDER BY 1, 2, 3, 4");
}

// A table of one number, n, that none of the tables has whose columns are listed. One such number stands for all: the SQL of an endless query gives it to a
// column.
#define FRESH(columns) "WITH fresh (n) AS (SELECT 1 + max(" columns ")) "
#define GREATEST(column, table) "(SELECT max(" column ") FROM " table ")"
#define OF_FEATURES GREATEST("feature", "features") ", " GREATEST("joint", "features") ", " GREATEST("depth", "features") ", " GREATEST("length", "features")
#define OF_WELDS GREATEST("joint", "welds") ", " GREATEST("weld", "welds") ", " GREATEST("heat", "welds")
#define OF_READINGS GREATEST("weld", "readings") ", " GREATEST("value", "readings") ", " GREATEST("day", "readings") ", " GREATEST("sensor", "readings")
#define OF_DIGS GREATEST("joint", "digs") ", " GREATEST("day", "digs") ", " GREATEST("crew", "digs") ", " GREATEST("cost", "digs")
#define OF_BENDS GREATEST("joint", "bends") ", " GREATEST("angle", "bends") ", " GREATEST("radius", "bends")
#define OF_TRAINED GREATEST("crew", "trained") ", " GREATEST("task", "trained")

static void endless_lines(void) {
    ask_endless("endless: no weld of an undug joint, 3 columns", conj(on_joint(A, B), neg(is_dug(B)), neg(has_weld(B, C))),
                FRESH(OF_FEATURES ", " OF_DIGS ", " OF_WELDS)
                "SELECT EXISTS (SELECT 1 FROM fresh, features f WHERE NOT EXISTS (SELECT 1 FROM digs d WHERE d.joint = f.joint)"
                " AND NOT EXISTS (SELECT 1 FROM welds w WHERE w.joint = f.joint AND w.weld = n))");
    ask_endless("endless: neither weld nor skill, 3 columns", conj(neg(has_weld(A, B)), neg(rel(TRAINED, B, C))),
                FRESH(OF_WELDS ", " OF_TRAINED)
                "SELECT EXISTS (SELECT 1 FROM fresh WHERE NOT EXISTS (SELECT 1 FROM welds w WHERE w.joint = n AND w.weld = n)"
                " AND NOT EXISTS (SELECT 1 FROM trained t WHERE t.crew = n AND t.task = n))");
    ask_endless("endless: a weld, or two equals, 3 columns", conj(is_bent(A), neg(is_dug(A)), disj(has_weld(A, B), eq(B, C))),
                FRESH(OF_BENDS ", " OF_DIGS ", " OF_WELDS)
                "SELECT EXISTS (SELECT 1 FROM fresh, bends b WHERE NOT EXISTS (SELECT 1 FROM digs d WHERE d.joint = b.joint)"
                " AND (EXISTS (SELECT 1 FROM welds w WHERE w.joint = b.joint AND w.weld = n) OR n = n))");
    ask_endless("endless: what no feature is, 4 columns", neg(rel(FEATURES, A, B, C, D)),
                FRESH(OF_FEATURES)
                "SELECT EXISTS (SELECT 1 FROM fresh"
                " WHERE NOT EXISTS (SELECT 1 FROM features f WHERE f.feature = n AND f.joint = n AND f.depth = n AND f.length = n))");
    ask_endless("endless: a join and a not, 4 columns", conj(on_joint(A, B), has_weld(B, C), neg(has_value(C, D))),
                FRESH(OF_FEATURES ", " OF_WELDS ", " OF_READINGS)
                "SELECT EXISTS (SELECT 1 FROM fresh, features f JOIN welds w ON w.joint = f.joint"
                " WHERE NOT EXISTS (SELECT 1 FROM readings r WHERE r.weld = w.weld AND r.value = n))");
    ask_endless("endless: one side of a union, 4 columns",
                disj(conj(on_joint(A, B), has_weld(B, C), eq(D, C)), conj(dug_by(A, B), is_bent(A), neg(eq(C, D)))),
                FRESH(OF_FEATURES ", " OF_WELDS ", " OF_DIGS ", " OF_BENDS)
                "SELECT EXISTS (SELECT 1 FROM fresh, features f JOIN welds w ON w.joint = f.joint WHERE w.weld = n)"
                " OR EXISTS (SELECT 1 FROM fresh, digs d JOIN bends b ON b.joint = d.joint WHERE n <> d.joint)");
    ask_endless("endless: a for-all of nothing, 4 columns",
                conj(rel(WELDS, A, B, C), every(exists(rel(READINGS, B, D, O, E), O), rel(BENDS, A, D, E), E)),
                FRESH(OF_WELDS ", " OF_READINGS ", " OF_BENDS)
                "SELECT EXISTS (SELECT 1 FROM fresh, welds w WHERE NOT EXISTS (SELECT 1 FROM readings r WHERE r.weld = w.weld AND r.value = n"
                " AND NOT EXISTS (SELECT 1 FROM bends b WHERE b.joint = w.joint AND b.angle = n AND b.radius = r.sensor)))");
}

// Each station of the list linked to the next one.
static const Formula *linked_of(int count, const Term *stations) {
    const Formula *links[NODES];
    for (int i = 0; i + 1 < count; i++) links[i] = rel(LINKS, stations[i], stations[i + 1]);
    return joined(AND, count - 1, links);
}
#define linked(...) linked_of(LISTED(Term, __VA_ARGS__))

static void path_lines(void) {
    ask_network("network: path of 3, both ends", exists(linked(A, C, D, B), C, D),
                "SELECT DISTINCT a.station, c.towards FROM links a JOIN links b ON b.station = a.towards JOIN links c ON c.station = b.towards ORDER BY 1, 2");
    ask_network("network: path of 5, both ends", exists(linked(A, C, D, E, F, B), C, D, E, F),
                "SELECT DISTINCT a.station, e.towards FROM links a JOIN links b ON b.station = a.towards JOIN links c ON c.station = b.towards"
                " JOIN links d ON d.station = c.towards JOIN links e ON e.station = d.towards ORDER BY 1, 2");
    ask_network("network: path of 8, its first station", exists(linked(A, B, C, D, E, F, G, M, N), B, C, D, E, F, G, M, N),
                "SELECT DISTINCT a.station FROM links a JOIN links b ON b.station = a.towards JOIN links c ON c.station = b.towards"
                " JOIN links d ON d.station = c.towards JOIN links e ON e.station = d.towards JOIN links f ON f.station = e.towards"
                " JOIN links g ON g.station = f.towards JOIN links h ON h.station = g.towards ORDER BY 1");
    ask_network("network: two links apart but not one", conj(exists(linked(A, C, B), C), neg(rel(LINKS, A, B))),
                "SELECT DISTINCT a.station, b.towards FROM links a JOIN links b ON b.station = a.towards"
                " WHERE NOT EXISTS (SELECT 1 FROM links c WHERE c.station = a.station AND c.towards = b.towards) ORDER BY 1, 2");
    ask_network("network: pumps two links apart", exists(conj(rel(PUMPS, C, A), linked(C, D, E), rel(PUMPS, E, B)), C, D, E),
                "SELECT DISTINCT p.pump, q.pump FROM pumps p JOIN links a ON a.station = p.station JOIN links b ON b.station = a.towards"
                " JOIN pumps q ON q.station = b.towards ORDER BY 1, 2");
}

static void cycle_lines(void) {
    ask_network("network: triangles", linked(A, B, C, A),
                "SELECT DISTINCT a.station, b.station, c.station FROM links a JOIN links b ON b.station = a.towards"
                " JOIN links c ON c.station = b.towards AND c.towards = a.station ORDER BY 1, 2, 3");
    ask_network("network: cycles of 4", linked(A, B, C, D, A),
                "SELECT DISTINCT a.station, b.station, c.station, d.station FROM links a JOIN links b ON b.station = a.towards"
                " JOIN links c ON c.station = b.towards JOIN links d ON d.station = c.towards AND d.towards = a.station ORDER BY 1, 2, 3, 4");
    ask_network("network: star of 4, its ends", exists(conj(linked(E, A), linked(E, B), linked(E, C), linked(E, D)), E),
                "SELECT DISTINCT a.towards, b.towards, c.towards, d.towards FROM links a JOIN links b ON b.station = a.station"
                " JOIN links c ON c.station = a.station JOIN links d ON d.station = a.station ORDER BY 1, 2, 3, 4");
}

// Tables that share no variable. In SQL the part that fails stands first, and CROSS JOIN keeps it there.
static void product_lines(void) {
    ask_network("network: no link out, beside three stations",
                conj(rel(STATIONS, A), neg(exists(rel(LINKS, A, E), E)), rel(STATIONS, B), rel(STATIONS, C), rel(STATIONS, D)),
                "SELECT DISTINCT a.station, b.station, c.station, d.station FROM"
                " (SELECT station FROM stations s WHERE NOT EXISTS (SELECT 1 FROM links l WHERE l.station = s.station)) a"
                " CROSS JOIN stations b CROSS JOIN stations c CROSS JOIN stations d ORDER BY 1, 2, 3, 4");
    ask_network("network: three tables, the contradiction last", conj(rel(STATIONS, A), rel(PUMPS, B, C), rel(STATIONS, D), exists(rel(LINKS, E, E), E)),
                "SELECT DISTINCT a.station, b.station, b.pump, d.station FROM (SELECT 1 WHERE EXISTS (SELECT 1 FROM links WHERE station = towards))"
                " CROSS JOIN stations a CROSS JOIN pumps b CROSS JOIN stations d ORDER BY 1, 2, 3, 4");
    ask_network("network: three tables, the last contradicted", conj(rel(STATIONS, A), rel(PUMPS, B, C), rel(STATIONS, D), rel(LINKS, D, D)),
                "SELECT DISTINCT a.station, b.station, b.pump, d.station FROM"
                " (SELECT station FROM stations s WHERE EXISTS (SELECT 1 FROM links l WHERE l.station = s.station AND l.towards = s.station)) d"
                " CROSS JOIN stations a CROSS JOIN pumps b ORDER BY 1, 2, 3, 4");
    ask_network("network: pairs that are linked or pumped", conj(rel(STATIONS, A), rel(STATIONS, B), disj(rel(LINKS, A, B), rel(PUMPS, A, B))),
                "SELECT DISTINCT a.station, b.station FROM stations a JOIN stations b WHERE EXISTS (SELECT 1 FROM links l WHERE l.station = a.station"
                " AND l.towards = b.station) OR EXISTS (SELECT 1 FROM pumps p WHERE p.station = a.station AND p.pump = b.station) ORDER BY 1, 2");
    ask_network("network: three tables, listed", conj(rel(LINKS, con(station_number(9)), A), rel(STATIONS, B), rel(LINKS, con(station_number(5)), C)),
                "SELECT DISTINCT a.towards, b.station, c.towards FROM links a CROSS JOIN stations b CROSS JOIN links c"
                " WHERE a.station = 2009 AND c.station = 2005 ORDER BY 1, 2, 3");
}

static void menu(void) {
    plain_lines();
    untouched_lines();
    every_lines();
    pair_lines();
    join_lines();
    division_lines();
    union_lines();
    one_lines();
    yes_no_lines();
    unsafe_lines();
    endless_lines();
    path_lines();
    cycle_lines();
    product_lines();
}

// ---- Changes by SQLite ------------------------------------------------------------------------------------------------------------------------------------

// The statement that removes a record of a table or puts one, with a parameter for each column.
static sqlite3_stmt *prepared_change(sqlite3 *db, int change, uint32_t r) {
    char sql[256];
    int n = snprintf(sql, sizeof sql, change == REMOVAL ? "DELETE FROM %s WHERE " : "INSERT INTO %s VALUES (", tables[r].name);
    for (uint32_t j = 0; j < tables[r].width; j++) {
        const char *between = j == 0 ? "" : change == REMOVAL ? " AND " : ", ";
        n += change == REMOVAL ? snprintf(sql + n, sizeof sql - (size_t)n, "%s%s = ?", between, tables[r].columns[j])
                               : snprintf(sql + n, sizeof sql - (size_t)n, "%s?", between);
    }
    if (change == PUT) snprintf(sql + n, sizeof sql - (size_t)n, ")");
    return prepared(db, sql);
}

// A prepared change of this record.
static void sqlite_change(sqlite3_stmt *statement, const Record *r) {
    for (uint32_t j = 0; j < tables[r->relation].width; j++) sqlite3_bind_int64(statement, (int)j + 1, r->values[j]);
    if (sqlite3_step(statement) != SQLITE_DONE || sqlite3_changes(sqlite3_db_handle(statement)) != 1) die("a record was not changed", "SQLite");
    sqlite3_reset(statement);
}

// ---- Timing -----------------------------------------------------------------------------------------------------------------------------------------------

// Seconds of one run of each: the median of several batches, taken in turn, so that a busy machine slows both down alike.
static void timed(Work *w, double *engine, double *sqlite) {
    double mine[BATCHES], theirs[BATCHES];
    for (int i = 0; i < 3; i++) {
        by_engine(w);
        by_sqlite(w);
    }
    for (int b = 0; b < BATCHES; b++) {
        mine[b] = seconds_of(by_engine, w);
        theirs[b] = seconds_of(by_sqlite, w);
    }
    *engine = median(mine);
    *sqlite = median(theirs);
}

// One query and one record of a full store, ready to be removed and put back.
typedef struct {
    Record record;
    Store stores[CHANGES];  // before a removal, and before a put
    List lists[CHANGES];    // of these stores
    uint8_t bytes[BYTES];
    size_t length;
    sqlite3_stmt *statement, *changes[CHANGES];
    uint32_t out[ROOM], joined[ROOM], left[ROOM];
} Turn;

static void turn_by_engine(Turn *t, int change) {
    engine_change(change, &t->stores[change], &t->lists[change], t->bytes, t->length, &t->record, t->joined, t->left);
}

static void turn_by_sqlite(Turn *t, int change) {
    sqlite_change(t->changes[change], &t->record);
    sqlite_find(t->statement, t->out);
}

// Seconds of one removal and of one put, taken in turn, over 200 of each or 20 ms.
static void batch_of_turns(void (*run)(Turn *, int), Turn *t, double seconds[CHANGES]) {
    double spent[CHANGES] = {0, 0};
    int n = 0;
    do {
        for (int change = 0; change < CHANGES; change++) {
            double start = now();
            run(t, change);
            spent[change] += now() - start;
        }
        n++;
    } while (n < 200 && spent[REMOVAL] + spent[PUT] < 20e-3);
    for (int change = 0; change < CHANGES; change++) seconds[change] = spent[change] / n;
}

// Seconds of one removal and of one put by each, as above.
static void timed_turns(Turn *t, double engine[CHANGES], double sqlite[CHANGES]) {
    double mine[CHANGES][BATCHES], theirs[CHANGES][BATCHES];
    for (int b = -1; b < BATCHES; b++) {
        batch_of_turns(turn_by_engine, t, engine);
        batch_of_turns(turn_by_sqlite, t, sqlite);
        for (int change = 0; 0 <= b && change < CHANGES; change++) {
            mine[change][b] = engine[change];
            theirs[change][b] = sqlite[change];
        }
    }
    for (int change = 0; change < CHANGES; change++) {
        engine[change] = median(mine[change]);
        sqlite[change] = median(theirs[change]);
    }
}

// ---- The report of answers --------------------------------------------------------------------------------------------------------------------------------

typedef struct {
    double logarithms, longest, worst;
    int queries, faults;
} Total;

static void count_query(Total *total, double engine, double sqlite) {
    total->logarithms += log(engine / sqlite);
    total->queries++;
    total->longest = fmax(total->longest, engine);
    total->worst = fmax(total->worst, engine / sqlite);
}

static void count_total(Total *all, const Total *total) {
    all->logarithms += total->logarithms;
    all->queries += total->queries;
    all->faults += total->faults;
    all->longest = fmax(all->longest, total->longest);
    all->worst = fmax(all->worst, total->worst);
}

static double mean_of(const Total *total) { return exp(total->logarithms / total->queries); }

// Whether both give the same: the same rows in the same order, or both endless.
static bool agree(const Query *q, Work *w, Reply *reply) {
    uint32_t theirs[ROOM];
    size_t rows = sqlite_find(w->statement, theirs);
    *reply = engine_find(w->store, w->bytes, w->length, w->out);
    if (reply->refusal) return false;
    if (q->endless) return rows == 1 && reply->endless == theirs[0];
    if (reply->endless || reply->rows != rows) return false;
    size_t numbers = q->columns ? rows * (size_t)sqlite3_column_count(w->statement) : 0;
    return numbers <= ROOM && memcmp(w->out, theirs, numbers * sizeof theirs[0]) == 0;
}

static void report(const Query *q, const Store *store, sqlite3 *db, Total *total) {
    Work w = {.store = store};
    w.length = pack(q->formula, w.bytes);
    w.statement = prepared(db, q->sql);
    Reply reply;
    bool same = agree(q, &w, &reply);
    double engine, sqlite;
    timed(&w, &engine, &sqlite);
    sqlite3_finalize(w.statement);
    char rows[32] = "endless";
    if (reply.refusal) snprintf(rows, sizeof rows, "refused %u", (unsigned)reply.refusal);
    else if (!reply.endless) snprintf(rows, sizeof rows, "%u", (unsigned)reply.rows);
    printf("  %-46s %8s %10.1f %10.1f %8.2f%s\n", q->name, rows, 1e6 * engine, 1e6 * sqlite, engine / sqlite, same ? "" : "  DIFFERS");
    fflush(stdout);
    total->faults += !same;
    count_query(total, engine, sqlite);
}

// All queries of one store whose name has the part.
static void report_store(int which, const char *part, Total *all) {
    if (!has_query(which, part)) return;
    Store store = filled(which);
    sqlite3 *db = opened(&store, tables);
    Total total = {0};
    printf("%zu records, %zu distinct values\n", store.count, distinct_values(&store));
    printf("  %-46s %8s %10s %10s %8s\n", "query", "rows", "engine us", "SQLite us", "ratio");
    for (size_t i = 0; i < query_count; i++)
        if (is_chosen(&queries[i], which, part)) report(&queries[i], &store, db, &total);
    printf("  %d queries: geometric mean %.2f times SQLite, longest %.3f ms\n\n", total.queries, mean_of(&total), 1e3 * total.longest);
    sqlite3_close(db);
    count_total(all, &total);
}

// The mean and the longest query over several stores. A bound of 0 for the mean is none.
static void print_reach(const char *over, const Total *total, double most) {
    if (total->queries == 0) return;
    printf("%s: geometric mean %.2f times SQLite", over, mean_of(total));
    if (most > 0) printf(" (at most %.1f)", most);
    printf(", longest %.3f ms (at most %.0f), worst %.1f times SQLite (at most %.0f).\n", 1e3 * total->longest, 1e3 * LONGEST, total->worst, WORST);
}

// Whether all is well: the rows are SQLite's and the reach is kept.
static bool report_answers(const char *part) {
    Total all = {0};
    for (int store = COARSE; store <= FINE; store++) report_store(store, part, &all);
    Total both = all;
    print_reach("Over both", &both, MEAN);
    if (both.queries) printf("For endless queries SQLite decides whether a row with a number that no record has is there.\n\n");
    report_store(NETWORK, part, &all);
    print_reach("Over all three", &all, 0);
    bool reached = all.longest <= LONGEST && all.worst <= WORST && (*part || mean_of(&both) <= MEAN);  // the mean is judged over all queries only
    printf("Rows %s SQLite's; the reach is %s.\n\n", all.faults ? "DIFFER from" : "equal", reached ? "kept" : "MISSED");
    return all.faults == 0 && reached;
}

// ---- The report of changes --------------------------------------------------------------------------------------------------------------------------------

// The list of a query over a store. Over 512 rows none can be opened: an empty one stands for it, and a change that comes to so many rows is refused.
static List opened_list(const Query *q, const Store *store, const uint8_t *bytes, size_t length) {
    uint32_t rows[ROOM];
    List list = {.columns = 0};
    for (uint32_t x = 0; x < 16; x++)
        if (is_free(q->formula, x)) list.variables[list.columns++] = (uint8_t)x;
    Reply found = engine_find(store, bytes, length, rows);
    if (found.refusal) die("refused", q->name);
    list.endless = found.endless;
    list.count = found.rows <= ROWS ? found.rows : 0;
    for (size_t i = 0; i < list.count; i++) memcpy(&list.values[WIDTH * i], &rows[list.columns * i], list.columns * sizeof rows[0]);
    return list;
}

// Whether a formula, or one within it, is a record of this relation.
static bool names(const Formula *f, uint32_t relation) {
    if (f->kind == RECORD) return f->relation == relation;
    return (f->left && names(f->left, relation)) || (f->right && names(f->right, relation));
}

// The place of the first record whose removal changes the rows, among those of relations that the query names; where there is none, of the first of those.
static size_t telling_place(const Query *q, const Store *store, const uint8_t *bytes, size_t length) {
    uint32_t all[ROOM] = {0}, fewer[ROOM] = {0};
    uint64_t rows = engine_find(store, bytes, length, all).rows;
    size_t first = PLACES;
    for (size_t i = 0; i < store->count; i++) {
        if (!names(q->formula, store->relations[i])) continue;
        if (first == PLACES) first = i;
        Store rest = without(store, i);
        memcpy(fewer, all, sizeof all);
        if (engine_find(&rest, bytes, length, fewer).rows != rows || memcmp(fewer, all, sizeof all) != 0) return i;
    }
    return first;
}

// Rows of k numbers, as SQLite gives them.
typedef struct {
    uint32_t numbers[ROOM];
    size_t count, k;
} Rows;

static Rows rows_by_sqlite(const Query *q, sqlite3_stmt *statement) {
    Rows rows = {.k = q->columns ? (size_t)sqlite3_column_count(statement) : 0};
    rows.count = sqlite_find(statement, rows.numbers);
    if (rows.count * rows.k > ROOM) die("too many rows", q->name);
    return rows;
}

static bool has_row(const Rows *rows, const uint32_t *row) {
    for (size_t i = 0; i < rows->count; i++)
        if (memcmp(&rows->numbers[rows->k * i], row, rows->k * sizeof row[0]) == 0) return true;
    return false;
}

// Whether the rows told are those of the first list that the second has not, in their order.
static bool are_only_in(const Rows *a, const Rows *b, const uint32_t *told, size_t count) {
    size_t n = 0;
    for (size_t i = 0; i < a->count; i++) {
        const uint32_t *row = &a->numbers[a->k * i];
        if (has_row(b, row)) continue;
        if (n == count || memcmp(&told[a->k * n], row, a->k * sizeof row[0]) != 0) return false;
        n++;
    }
    return n == count;
}

// A change made by both, and whether they give the same: the rows that joined and left; or a refusal, by cause 17, of over 512 rows. An endless query stays
// endless for SQLite too, and no row joins or leaves.
static bool turns_alike(const Query *q, Turn *t, int change, Change *told) {
    Rows before = rows_by_sqlite(q, t->statement);
    sqlite_change(t->changes[change], &t->record);
    Rows after = rows_by_sqlite(q, t->statement);
    *told = engine_change(change, &t->stores[change], &t->lists[change], t->bytes, t->length, &t->record, t->joined, t->left);
    if (q->endless) return before.numbers[0] == 1 && after.numbers[0] == 1 && t->lists[change].endless && told->refusal + told->joined + told->left == 0;
    if (before.count > ROWS || after.count > ROWS) return told->refusal == (after.count > ROWS ? 17 : 0);
    return !told->refusal && are_only_in(&after, &before, t->joined, told->joined) && are_only_in(&before, &after, t->left, told->left);
}

static Turn ready(const Query *q, const Store *store, sqlite3 *db) {
    Turn t = {.length = 0};
    t.length = pack(q->formula, t.bytes);
    size_t place = telling_place(q, store, t.bytes, t.length);
    t.record = record_at(store, place);
    t.stores[REMOVAL] = *store;
    t.stores[PUT] = without(store, place);
    t.statement = prepared(db, q->sql);
    for (int change = 0; change < CHANGES; change++) {
        t.lists[change] = opened_list(q, &t.stores[change], t.bytes, t.length);
        t.changes[change] = prepared_change(db, change, t.record.relation);
    }
    return t;
}

// The rows that a removal takes and brings (a put the reverse), and the times of both changes.
static void print_times(Turn *t, const Change *removal, Total totals[CHANGES]) {
    double engine[CHANGES], sqlite[CHANGES];
    timed_turns(t, engine, sqlite);
    printf(" %5u %5u", (unsigned)removal->left, (unsigned)removal->joined);
    for (int change = 0; change < CHANGES; change++) {
        printf(" %10.1f %10.1f %8.2f", 1e6 * engine[change], 1e6 * sqlite[change], engine[change] / sqlite[change]);
        count_query(&totals[change], engine[change], sqlite[change]);
    }
}

// Both changes of a record that matters for a query. Where they are refused, nothing is timed.
static void report_turn(const Query *q, const Store *store, sqlite3 *db, Total totals[CHANGES]) {
    static Turn t;
    t = ready(q, store, db);
    Change told[CHANGES];
    bool same = true;
    for (int change = 0; change < CHANGES; change++) same &= turns_alike(q, &t, change, &told[change]);
    uint64_t refusal = told[REMOVAL].refusal ? told[REMOVAL].refusal : told[PUT].refusal;
    printf("  %-46s", q->name);
    if (refusal) printf(" %8s %u", "refused", (unsigned)refusal);
    else print_times(&t, &told[REMOVAL], totals);
    printf("%s\n", same ? "" : "  DIFFERS");
    fflush(stdout);
    totals[REMOVAL].faults += !same;
    sqlite3_finalize(t.statement);
    for (int change = 0; change < CHANGES; change++) sqlite3_finalize(t.changes[change]);
}

static void print_totals(const char *over, const Total totals[CHANGES]) {
    if (totals[REMOVAL].queries == 0) return;
    printf("%s%d queries: geometric mean of a removal %.2f times SQLite, of a put %.2f; longest %.3f ms and %.3f ms\n", over, totals[REMOVAL].queries,
           mean_of(&totals[REMOVAL]), mean_of(&totals[PUT]), 1e3 * totals[REMOVAL].longest, 1e3 * totals[PUT].longest);
}

// A removal and a put for all queries of one store whose name has the part.
static void report_store_changes(int which, const char *part, Total all[CHANGES]) {
    if (!has_query(which, part)) return;
    Store store = filled(which);
    sqlite3 *db = opened(&store, tables);
    Total totals[CHANGES] = {0};
    printf("a removal from %zu records, %zu distinct values, and a put of the same record\n", store.count, distinct_values(&store));
    printf("  %-46s %5s %5s %10s %10s %8s %10s %10s %8s\n", "query", "left", "join", "removal us", "SQLite us", "ratio", "put us", "SQLite us", "ratio");
    for (size_t i = 0; i < query_count; i++)
        if (is_chosen(&queries[i], which, part)) report_turn(&queries[i], &store, db, totals);
    print_totals("  ", totals);
    printf("\n");
    sqlite3_close(db);
    for (int change = 0; change < CHANGES; change++) count_total(&all[change], &totals[change]);
}

// Whether all is well: the rows that joined and left are the difference of SQLite's, and the means over the coarse and the fine store are within reach.
static bool report_changes(const char *part) {
    Total all[CHANGES] = {0};
    for (int store = COARSE; store <= FINE; store++) report_store_changes(store, part, all);
    print_totals("Over both, ", all);
    bool reached = *part || fmax(mean_of(&all[REMOVAL]), mean_of(&all[PUT])) <= MEAN;
    if (all[REMOVAL].queries) printf("\n");
    report_store_changes(NETWORK, part, all);
    print_totals("Over all three, ", all);
    printf("A change that comes to over 512 rows is refused (cause 17), and not timed.\n");
    bool same = all[REMOVAL].faults == 0;
    printf("Rows that joined and left %s the difference of SQLite's; the reach, %.1f times SQLite, is %s.\n", same ? "are" : "DIFFER from", MEAN,
           reached ? "kept" : "MISSED");
    return same && reached;
}

int main(int argc, char **argv) {
    bool changes_only = argc > 1 && strcmp(argv[1], "changes") == 0;
    const char *part = argc > 1 + changes_only ? argv[1 + changes_only] : "";
    menu();
    if (!has_query(COARSE, part) && !has_query(NETWORK, part)) die("no such query", part);
    bool well = changes_only || report_answers(part);
    return report_changes(part) && well ? 0 : 1;
}
