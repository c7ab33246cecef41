// The engine on short queries that are hard to search, over stores of 64, 128 and 256 records.
//
// Each line is a formula of the calculus and a way to fill a store. A time is that of the whole call, as in bench.c, and the growth is the time at 256 records
// in times of that at 64. Lines that are dead have no row, or don't hold: only a search through all that could satisfy them finds that out.
//
// SQLite runs the SQL of a line (translate.h), as in bench.c: its time is that at 256 records, and its rows are compared at each size, in their order. A line
// that isn't safe-range has no SQL. Its rows are compared with those of a safe-range line that has the same over these stores, and there is no time of
// SQLite's. An endless line must be told to be endless.
//
// Then 2,000 random safe-range lines of 8 to 64 nodes are asked over full stores.
//
// The calls run in child processes, which end after 10 seconds in a call. A line that is cut off so isn't asked over larger stores, nor is its SQL.
//
// Usage: hard [PART], where only the lines whose name has this part are run; hard random, the random lines alone. It fails where rows differ or the reach is
// missed.
#define _POSIX_C_SOURCE 200809L
#define _DEFAULT_SOURCE
#include "clock.h"
#include "engine.h"
#include "formula.h"
#include "sqlite.h"
#include "translate.h"
#include <math.h>
#include <signal.h>
#include <stdarg.h>
#include <sys/mman.h>
#include <sys/wait.h>
#include <unistd.h>

// The reach: the seconds that a line may take, and that a clique of 6 may; and how many random lines may take longer than the former.
static const double LONGEST = 100e-3, LONGEST_CLIQUE = 1;
enum { RANDOM_OVER = 4 };

enum { CAP = 10, SIZES = 3 };
static const size_t sizes[SIZES] = {64, 128, 256};

// ---- Stores -----------------------------------------------------------------------------------------------------------------------------------------------

enum { LINK, SECOND, PAIR, SEAT, TRIPLE, WIDE, TASK, ONE, TWO, THREE, FOUR, FIVE, BAD, NONE, REST, TABLES };

static const Table tables[TABLES] = {
    [LINK] = {.name = "link", .columns = {"a", "b"}, .width = 2},
    [SECOND] = {.name = "second", .columns = {"a", "b"}, .width = 2},
    [PAIR] = {.name = "pair", .columns = {"a", "b"}, .width = 2},
    [SEAT] = {.name = "seat", .columns = {"a", "b"}, .width = 2},
    [TRIPLE] = {.name = "triple", .columns = {"a", "b", "c"}, .width = 3},
    [WIDE] = {.name = "wide", .columns = {"a", "b", "c", "d"}, .width = 4},
    [TASK] = {.name = "task", .columns = {"a"}, .width = 1},
    [ONE] = {.name = "one", .columns = {"a"}, .width = 1},
    [TWO] = {.name = "two", .columns = {"a"}, .width = 1},
    [THREE] = {.name = "three", .columns = {"a"}, .width = 1},
    [FOUR] = {.name = "four", .columns = {"a"}, .width = 1},
    [FIVE] = {.name = "five", .columns = {"a"}, .width = 1},
    [BAD] = {.name = "bad", .columns = {"a"}, .width = 1},
    [NONE] = {.name = "none", .columns = {"a"}, .width = 1},
    [REST] = {.name = "rest", .columns = {"a"}, .width = 1},
};

// The records of a store being filled.
typedef struct {
    Record records[PLACES];
    size_t count, most;
} Draft;

// A way to fill a store. What the number means stands at each.
typedef void Fill(Draft *d, uint32_t k);

static uint64_t seed;

// A number below n: it looks random, and is the same in every run.
static uint32_t below(uint32_t n) {
    seed += UINT64_C(0x9E3779B97F4A7C15);
    uint64_t h = seed;
    h = (h ^ h >> 30) * UINT64_C(0xBF58476D1CE4E5B9);
    h = (h ^ h >> 27) * UINT64_C(0x94D049BB133111EB);
    return (uint32_t)((h ^ h >> 31) % n);
}

// Holds one record more, where there is room and it isn't held yet; whether it did.
static bool hold_of(Draft *d, uint32_t relation, int count, const uint32_t *values) {
    Record r = {.relation = relation};
    memcpy(r.values, values, (size_t)count * sizeof values[0]);
    if (d->count == d->most) return false;
    for (size_t i = 0; i < d->count; i++)
        if (by_order(&d->records[i], &r) == 0) return false;
    d->records[d->count++] = r;
    return true;
}
#define hold(d, relation, ...) hold_of(d, relation, LISTED(uint32_t, __VA_ARGS__))

// Records of numbers that nothing else has, until so many records are held; or until there is no more room.
static void fill_until(Draft *d, uint32_t relation, size_t count) {
    while (d->count < count) {
        uint32_t x = 5000 + WIDTH * (uint32_t)d->count;
        const uint32_t values[WIDTH] = {x, x + 1, x + 2, x + 3};
        hold_of(d, relation, (int)tables[relation].width, values);
    }
}
static void fill_up(Draft *d, uint32_t relation) { fill_until(d, relation, d->most); }

static uint32_t number(uint32_t i) { return 100 + i; }

// k links out of each place, to others.
static void links(Draft *d, uint32_t k) {
    uint32_t places = (uint32_t)d->most / k;
    for (uint32_t x = 0; x < places; x++)
        for (uint32_t i = 0; i < k;) {
            uint32_t y = below(places);
            i += x != y && hold(d, LINK, number(x), number(y));
        }
}

// k links out of each place, but none out of one place in eight.
static void dead_ends(Draft *d, uint32_t k) {
    uint32_t places = (uint32_t)d->most * 8 / (7 * k) + 1;
    for (uint32_t x = 0; d->count < d->most; x++)
        for (uint32_t i = 0; x % 8 != 7 && i < k && d->count < d->most;) i += hold(d, LINK, number(x), number(below(places)));
}

// Each place linked to each, and to itself.
static void full(Draft *d, uint32_t k) {
    (void)k;
    uint32_t places = (uint32_t)sqrt((double)d->most);
    for (uint32_t x = 0; x < places; x++)
        for (uint32_t y = 0; y < places; y++) hold(d, LINK, number(x), number(y));
    fill_up(d, LINK);
}

// Links between places of k parts, from each to all of other parts, as far as there is room for all links of a place: there are many cliques of k, and none of
// k + 1.
static void parts(Draft *d, uint32_t k) {
    for (uint32_t x = 0; d->count + 2 * (x - x / k) <= d->most; x++)
        for (uint32_t y = 0; y < x; y++)
            if (x % k != y % k) {
                hold(d, LINK, number(x), number(y));
                hold(d, LINK, number(y), number(x));
            }
    fill_up(d, LINK);
}

// Two links out of a place or so, each with one back, and one clique of k.
static void planted(Draft *d, uint32_t k) {
    uint32_t places = (uint32_t)d->most / 4;
    for (uint32_t x = 0; x < k; x++)
        for (uint32_t y = 0; y < k; y++)
            if (x != y) hold(d, LINK, number(places - 1 - x), number(places - 1 - y));
    while (d->count + 1 < d->most) {
        uint32_t x = below(places), y = below(places);
        if (x != y && hold(d, LINK, number(x), number(y))) hold(d, LINK, number(y), number(x));
    }
    fill_up(d, LINK);
}

// Layers of places, each place linked to all of the next layer: k links lead from the first to the last. Every other link is one of the second relation where
// both are wanted.
static void put_layers(Draft *d, uint32_t k, bool both, bool ring) {
    uint32_t places = (uint32_t)sqrt((double)d->most / k), layers = k + !ring;
    for (uint32_t layer = 0; layer < k; layer++)
        for (uint32_t x = 0; x < places; x++)
            for (uint32_t y = 0; y < places; y++)
                hold(d, both && (x + y) % 2 ? SECOND : LINK, number(layer * places + x), number((layer + 1) % layers * places + y));
    fill_up(d, LINK);
}

// No path has more than k links.
static void layers(Draft *d, uint32_t k) { put_layers(d, k, false, false); }
static void layers_of_both(Draft *d, uint32_t k) { put_layers(d, k, true, false); }

// k layers in a ring: a walk of n links comes back only where k divides n.
static void ring(Draft *d, uint32_t k) { put_layers(d, k, false, true); }

// k links out of each centre.
static void stars(Draft *d, uint32_t k) {
    for (uint32_t x = 0; d->count + k <= d->most; x++)
        for (uint32_t i = 0; i < k; i++) hold(d, LINK, number(x), number(500 + (7 * x + i) % 50));
    fill_up(d, LINK);
}

// Five tables of an eighth of the records each, which share no number, and a sixth with the rest.
static void apart(Draft *d, uint32_t k) {
    (void)k;
    uint32_t each = (uint32_t)d->most / 8;
    for (uint32_t r = ONE; r <= FIVE; r++)
        for (uint32_t i = 0; i < each; i++) hold(d, r, number(100 * (r - ONE) + i));
    fill_up(d, BAD);
}

// k holes: one by one, as seats, whose two numbers are one, and each pair of two. Half of the rest are other seats, which have two numbers, and half are in a
// table of their own.
static void holes(Draft *d, uint32_t k) {
    for (uint32_t i = 0; i < k; i++) {
        hold(d, ONE, number(i));
        hold(d, SEAT, number(i), number(i));
        for (uint32_t j = 0; j < k; j++)
            if (i != j) hold(d, PAIR, number(i), number(j));
    }
    fill_until(d, SEAT, (d->count + d->most) / 2);
    fill_up(d, REST);
}

// k colours: one by one, and each pair of two. The other pairs have no colour.
static void colours(Draft *d, uint32_t k) {
    for (uint32_t i = 0; i < k; i++) {
        hold(d, ONE, number(i));
        for (uint32_t j = 0; j < k; j++)
            if (i != j) hold(d, PAIR, number(i), number(j));
    }
    fill_up(d, PAIR);
}

// So many more records of a relation, of random numbers below n. The two numbers of a pair differ.
static void scatter(Draft *d, uint32_t relation, size_t count, uint32_t n) {
    uint32_t width = tables[relation].width;
    for (size_t i = 0; i < count && d->count < d->most;) {
        uint32_t values[WIDTH];
        for (uint32_t j = 0; j < width; j++) values[j] = number(below(n));
        i += (width != 2 || values[0] != values[1]) && hold_of(d, relation, (int)width, values);
    }
}

// Records of many relations over a quarter as many numbers. Four numbers are paired with each task, and LINK and SECOND have a pair in common. With LOOPS these
// two have records of equal numbers, and ONE has the tasks; else they have none, and ONE has no record. With UNTRAINED nothing is paired with one of the tasks.
enum { PLAIN, LOOPS, UNTRAINED };
static void mixed(Draft *d, uint32_t k) {
    uint32_t n = (uint32_t)d->most, numbers = n / 4;
    for (uint32_t i = 0; i < 3; i++) {
        hold(d, TASK, number(i));
        hold(d, WIDE, number(4 + i), number(2 + i), number(4 + i), number(2 + i));
        for (uint32_t j = 0; j < 4; j++) hold(d, PAIR, number(8 + j), number(i));
        if (k == LOOPS) hold(d, ONE, number(i));
    }
    hold(d, LINK, number(6), number(7));
    hold(d, SECOND, number(6), number(7));
    if (k == LOOPS) {
        hold(d, LINK, number(0), number(3));
        hold(d, LINK, number(3), number(3));
        hold(d, SECOND, number(3), number(3));
    }
    if (k == UNTRAINED) hold(d, TASK, number(900));
    scatter(d, TWO, n / 16, numbers);
    scatter(d, LINK, n / 8, numbers);
    scatter(d, SECOND, n / 8, numbers);
    scatter(d, PAIR, n / 16, numbers);
    scatter(d, TRIPLE, n / 8, numbers);
    scatter(d, WIDE, n, numbers);
}

static Store filled(Fill *fill, uint32_t k, size_t records) {
    Draft d = {.most = records};
    Store store = {.count = 0};
    for (uint32_t r = 0; r < TABLES; r++) store.widths[r] = (uint8_t)tables[r].width;
    seed = 1;
    fill(&d, k);
    if (d.count != records) die("not filled", "store");
    arrange(&store, d.records, d.count);
    return store;
}

// ---- Lines ------------------------------------------------------------------------------------------------------------------------------------------------

typedef struct {
    char name[64];
    const Formula *formula;
    const Formula *same;  // has the same rows, and SQL; NULL where the line is endless
    Fill *fill;
    uint32_t k;
    double reach;
} Line;

static Line lines[128];
static size_t line_count;

// The name of the next line.
static const char *named(const char *format, ...) {
    static char name[sizeof lines[0].name];
    va_list arguments;
    va_start(arguments, format);
    if ((size_t)vsnprintf(name, sizeof name, format, arguments) >= sizeof name) die("too long", name);
    va_end(arguments);
    return name;
}

// A line; one whose rows are those of another formula, over stores of this kind; and one that is endless over them.
static void ask_as(const char *name, const Formula *f, const Formula *same, Fill *fill, uint32_t k) {
    if (line_count == sizeof lines / sizeof lines[0]) die("too many lines", name);
    Line *l = &lines[line_count++];
    *l = (Line){.formula = f, .same = same, .fill = fill, .k = k, .reach = LONGEST};
    memcpy(l->name, name, strlen(name));
}
static void ask(const char *name, const Formula *f, Fill *fill, uint32_t k) { ask_as(name, f, f, fill, k); }
static void ask_endless(const char *name, const Formula *f, Fill *fill, uint32_t k) { ask_as(name, f, NULL, fill, k); }

#define V(i) ((Term){false, (uint32_t)(i)})

// Parts of a conjunction or a disjunction, one after the other.
typedef struct {
    const Formula *parts[NODES];
    int count;
} List;

static void also(List *list, const Formula *f) { list->parts[list->count++] = f; }
static const Formula *all(const List *list) { return joined(AND, list->count, list->parts); }
static const Formula *any(const List *list) { return joined(OR, list->count, list->parts); }

// For some values of the variables from one number up to another, which is left out. What is below the first number is listed.
static const Formula *some(const Formula *f, int from, int to) {
    for (int x = to - 1; x >= from; x--) f = exists(f, V(x));
    return f;
}

// A formula that no row satisfies, in these columns.
static const Formula *nothing_of(int count, const Term *columns) {
    List list = {.count = 0};
    for (int i = 0; i < count; i++) also(&list, rel(NONE, columns[i]));
    return all(&list);
}
#define nothing(...) nothing_of(LISTED(Term, __VA_ARGS__))

// A closed part that doesn't hold.
static const Formula *contradiction(void) { return exists(conj(rel(BAD, V(15)), eq(V(15), con(1))), V(15)); }

static void product_lines(void) {
    for (int k = 3; k <= 5; k += 2) {
        int listed = k < WIDTH ? k : WIDTH;
        List last = {.count = 0}, within;
        for (int i = 0; i < k; i++) also(&last, rel((uint32_t)(ONE + i), V(i)));
        within = last;
        also(&last, contradiction());
        also(&within, rel(BAD, V(k - 1)));
        ask(named("product of %d, contradiction last", k), some(all(&last), 0, k), apart, 0);
        ask(named("product of %d, contradiction last, listed", k), some(all(&last), listed, k), apart, 0);
        ask(named("product of %d, its last contradicted, listed", k), some(all(&within), listed, k), apart, 0);
    }
    ask("product of 3, listed", conj(rel(ONE, V(0)), rel(TWO, V(1)), rel(THREE, V(2))), apart, 0);
    ask("a loop where there is none, beside two links", exists(conj(rel(LINK, V(4), V(4)), rel(LINK, V(0), V(1)), rel(LINK, V(2), V(3))), V(4)), links, 2);
    ask_as("no wide record, beside a contradiction",
           conj(neg(rel(WIDE, V(0), V(1), V(2), V(3))), exists(conj(rel(TRIPLE, V(4), V(5), V(6)), eq(V(4), con(1))), V(4), V(5), V(6))),
           nothing(V(0), V(1), V(2), V(3)), mixed, PLAIN);
}

// x = y, as: no z that is x is other than y.
static const Formula *hidden(Term x, Term y, Term z) { return neg(exists(conj(eq(z, x), neg(eq(z, y))), z)); }

static void equality_lines(void) {
    const Term a = V(0), b = V(1), c = V(2), d = V(3), e = V(4);
    const Formula *four = conj(hidden(a, b, e), hidden(b, c, e), hidden(c, d, e), hidden(d, a, e));
    ask_as("four hidden equalities", conj(four, rel(TASK, a)), conj(rel(TASK, a), eq(a, b), eq(b, c), eq(c, d)), mixed, PLAIN);
    ask_as("four hidden equalities, dead", conj(four, rel(ONE, a)), nothing(a, b, c, d), mixed, PLAIN);
}

// A path through these variables; each step goes by either of two relations where both are wanted.
static const Formula *path_of(bool both, int count, const Term *through) {
    List list = {.count = 0};
    for (int i = 0; i + 1 < count; i++) {
        const Formula *step = rel(LINK, through[i], through[i + 1]);
        also(&list, both ? disj(step, rel(SECOND, through[i], through[i + 1])) : step);
    }
    return all(&list);
}
#define path(both, ...) path_of(both, LISTED(Term, __VA_ARGS__))

static void path_lines(void) {
    const Formula *ends = some(path(false, V(0), V(2), V(3), V(4), V(5), V(1)), 2, 6);
    const Formula *first = some(path(false, V(0), V(1), V(2), V(3), V(4), V(5), V(6), V(7), V(8)), 1, 9);
    const Formula *by_either = path(true, V(0), V(1), V(2), V(3), V(4), V(5));
    ask("path of 5, both ends", ends, links, 2);
    ask("path of 5, both ends, full", ends, full, 0);
    ask("path of 8, its first", first, links, 2);
    ask("path of 8, its first, full", first, full, 0);
    ask("path of 8, its first, dead", first, layers, 7);
    ask("or-path of 5, its first", some(by_either, 1, 6), mixed, PLAIN);
    ask("or-path of 5, its first, dead", some(by_either, 1, 6), layers_of_both, 4);
    ask("or-path of 5, dead", some(by_either, 0, 6), layers_of_both, 4);
    ask("or-path of 5, contradiction last", conj(some(by_either, 0, 6), contradiction()), mixed, PLAIN);
}

// Links from one variable to those from another on.
static List star(Term centre, int from, int to) {
    List list = {.count = 0};
    for (int i = from; i < to; i++) also(&list, rel(LINK, centre, V(i)));
    return list;
}

static void star_lines(void) {
    List plain = star(V(0), 1, 7), longer = plain, different = plain;
    also(&longer, rel(LINK, V(6), V(7)));
    also(&longer, rel(LINK, V(7), V(8)));
    for (int i = 1; i < 7; i++)
        for (int j = 1; j < i; j++) also(&different, neg(eq(V(j), V(i))));
    ask("star of 6, its centre", some(all(&plain), 1, 7), stars, 5);
    ask("star of 6, dead", some(all(&longer), 0, 9), layers, 2);
    ask("star of 6, its centre, dead", some(all(&longer), 1, 9), layers, 2);
    ask("star of 6, ends all different", some(all(&different), 1, 7), stars, 6);
    ask("star of 6, ends all different, dead", some(all(&different), 1, 7), stars, 5);
    List ends = star(V(6), 0, 6);
    ask("star of 6, four ends", some(all(&ends), 4, 7), links, 2);
    also(&ends, rel(LINK, V(5), V(7)));
    also(&ends, rel(LINK, V(7), V(8)));
    ask("star of 6, four ends, dead", some(all(&ends), 4, 9), layers, 2);
}

// Every two of k variables linked.
static const Formula *clique(uint32_t relation, int k, int from) {
    List list = {.count = 0};
    for (int i = 0; i < k; i++)
        for (int j = 0; j < i; j++) also(&list, rel(relation, V(from + j), V(from + i)));
    return all(&list);
}

static void clique_lines(void) {
    for (int k = 4; k <= 6; k++) {
        const Formula *f = clique(LINK, k, 0);
        uint32_t size = (uint32_t)k;
        size_t before = line_count;
        ask(named("clique of %d, its first", k), some(f, 1, k), planted, size);
        ask(named("clique of %d, four of it, dense", k), some(f, 4, k), parts, size);
        ask(named("clique of %d, dead", k), some(f, 0, k), parts, size - 1);
        ask(named("clique of %d, four of it, dead", k), some(f, 4, k), parts, size - 1);
        for (size_t i = before; k == 6 && i < line_count; i++) lines[i].reach = LONGEST_CLIQUE;
    }
}

static const Formula *cycle(int k, int from) {
    List list = {.count = 0};
    for (int i = 0; i < k; i++) also(&list, rel(LINK, V(from + i), V(from + (i + 1) % k)));
    return all(&list);
}

static void cycle_lines(void) {
    for (int k = 4; k <= 5; k++) {
        const Formula *f = cycle(k, 0);
        ask(named("cycle of %d, four of it", k), some(f, 4, k), links, 2);
        ask(named("cycle of %d, four of it, full", k), some(f, 4, k), full, 0);
        ask(named("cycle of %d, dead", k), some(f, 0, k), ring, 3);
        ask(named("cycle of %d, four of it, dead", k), some(f, 4, k), ring, 3);
    }
}

// k pigeons, in as many holes or one fewer: told apart by one not of equalities, by a not for each, or as pairs of a relation. For 7 pigeons a not for each
// takes too many nodes.
static void pigeon_lines(void) {
    for (int k = 5; k <= 7; k += 2) {
        uint32_t fewer = (uint32_t)k - 1;
        const Formula *rest = exists(rel(REST, V(15)), V(15)), *paired = conj(clique(PAIR, k, 0), rest);
        List seated = {.count = 0}, each = {.count = 0}, equal = {.count = 0};
        for (int i = 0; i < k; i++) {
            also(&seated, rel(SEAT, V(i), V(i)));
            also(&each, rel(ONE, V(i)));
        }
        for (int i = 0; i < k; i++)
            for (int j = 0; j < i; j++) {
                also(&equal, eq(V(j), V(i)));
                also(&each, neg(eq(V(j), V(i))));
            }
        also(&seated, neg(any(&equal)));
        also(&each, rest);
        if (k == 7) ask(named("pigeons, %d in %d, by one not, the first", k, k), some(all(&seated), 1, k), holes, fewer + 1);
        ask(named("pigeons, %d in %d, by one not", k, k - 1), some(all(&seated), 0, k), holes, fewer);
        ask(named("pigeons, %d in %d, by one not, the first", k, k - 1), some(all(&seated), 1, k), holes, fewer);
        if (k == 5) ask(named("pigeons, %d in %d, by nots", k, k - 1), some(all(&each), 0, k), holes, fewer);
        ask(named("pigeons, %d in %d, by pairs, the first", k, k - 1), some(paired, 1, k), holes, fewer);
    }
}

// A path of so many, then four linked in a ring, or each with each: 3 colours don't suffice for the latter. Colours differ as pairs of a relation, or by nots.
static const Formula *coloured(int length, bool dead, bool by_nots) {
    List list = {.count = 0};
    for (int i = 0; by_nots && i < length + 4; i++) also(&list, rel(ONE, V(i)));
    for (int i = 1; i < length + 4; i++)
        for (int j = 0; j < i; j++) {
            bool linked = i - j == 1 || (length <= j && (dead || i - j == 3));
            if (linked) also(&list, by_nots ? neg(eq(V(j), V(i))) : rel(PAIR, V(j), V(i)));
        }
    return all(&list);
}

// A hub linked to a ring of so many: 3 colours don't suffice where they are odd.
static const Formula *wheel(int rim) {
    List list = {.count = 0};
    for (int i = 0; i < rim; i++) also(&list, rel(PAIR, V(1 + i), V(1 + (i + 1) % rim)));
    for (int i = 0; i < rim; i++) also(&list, rel(PAIR, V(0), V(1 + i)));
    return all(&list);
}

static void colour_lines(void) {
    for (int dead = 0; dead < 2; dead++) {
        const char *how = dead ? ", dead" : "";
        int rim = dead ? 9 : 10;
        ask(named("3-colouring, path of 12 and 4%s", how), some(coloured(12, dead, false), 0, 16), colours, 3);
        ask(named("3-colouring, path of 12 and 4, its first%s", how), some(coloured(12, dead, false), 1, 16), colours, 3);
        ask(named("3-colouring by nots, path of 5 and 4%s", how), some(coloured(5, dead, true), 0, 9), colours, 3);
        ask(named("3-colouring, wheel of %d, its hub%s", rim, how), some(wheel(rim), 1, rim + 1), colours, 3);
    }
}

// The positions from which the player to move can move so that the other can't move so that .. for so many moves.
static const Formula *game(int position, int moves) {
    const Formula *move = rel(LINK, V(position), V(position + 1));
    return exists(moves == 1 ? move : conj(move, neg(game(position + 1, moves - 1))), V(position + 1));
}

static void game_lines(void) {
    for (int k = 3; k <= 12; k++) {
        ask(named("game of %d moves, listed, full", k), game(0, k), full, 0);
        if (k < 11) continue;
        ask(named("game of %d moves, full", k), exists(game(0, k), V(0)), full, 0);
        ask(named("game of %d moves, listed, 2 moves each", k), game(0, k), dead_ends, 2);
        ask(named("game of %d moves, listed, 4 moves each", k), game(0, k), dead_ends, 4);
        ask(named("game of %d moves, 4 moves each", k), exists(game(0, k), V(0)), dead_ends, 4);
    }
}

static void every_lines(void) {
    const Term a = V(0), b = V(1), c = V(2), d = V(3), e = V(4), f = V(5), g = V(6);
#define TRAINED(x) conj(exists(rel(PAIR, x, f), f), every(rel(TASK, e), rel(PAIR, x, e), e))
    ask_as("for-all, 4 columns", every(rel(TASK, e), rel(WIDE, a, b, c, d), e), rel(WIDE, a, b, c, d), mixed, PLAIN);
    ask_as("for-all, 3 columns", every(rel(TASK, e), rel(TRIPLE, a, b, c), e), rel(TRIPLE, a, b, c), mixed, PLAIN);
    ask_as("for-all, 2 columns", every(rel(TASK, e), rel(LINK, a, b), e), rel(LINK, a, b), mixed, PLAIN);
    ask_as("for-all over links, 4 columns", every(rel(LINK, e, f), disj(rel(WIDE, a, b, c, d), neg(rel(SECOND, e, f))), e, f), rel(WIDE, a, b, c, d), mixed,
           PLAIN);
    ask_endless("for-all of an or, 4 columns, endless", every(rel(TASK, e), disj(rel(PAIR, a, e), rel(TRIPLE, b, c, d)), e), mixed, PLAIN);
    ask_as("for-all of an or, 4 columns, dead", every(rel(TASK, e), disj(rel(PAIR, a, e), conj(rel(TRIPLE, b, c, d), rel(ONE, a))), e), nothing(a, b, c, d),
           mixed, UNTRAINED);
    ask_as("for-all of an or, 3 columns", every(rel(TASK, e), disj(conj(rel(PAIR, a, e), rel(LINK, b, c)), rel(TRIPLE, a, b, c)), e),
           disj(rel(TRIPLE, a, b, c), conj(TRAINED(a), rel(LINK, b, c))), mixed, PLAIN);
    ask("division", TRAINED(a), mixed, PLAIN);
    ask_as("division, bare", every(rel(TASK, e), rel(PAIR, a, e), e), TRAINED(a), mixed, PLAIN);
    ask_as("division, bare, 3 columns", every(rel(TASK, e), conj(rel(PAIR, a, e), rel(LINK, b, c)), e), conj(TRAINED(a), rel(LINK, b, c)), mixed, PLAIN);
    ask_as("division, bare, 4 columns", every(rel(TASK, e), conj(rel(PAIR, a, e), rel(PAIR, b, e), rel(PAIR, c, e), rel(PAIR, d, e)), e),
           conj(TRAINED(a), TRAINED(b), TRAINED(c), TRAINED(d)), mixed, PLAIN);
    ask_endless("no loop, nor two equal, endless", neg(exists(disj(eq(d, b), eq(e, b), rel(LINK, a, a)), a)), mixed, PLAIN);
    ask_as("no loop, nor two equal, dead", neg(exists(disj(eq(d, b), eq(e, b), rel(LINK, a, a)), a)), nothing(b, d, e), mixed, LOOPS);
    ask_as("some for all, 2 columns, dead", exists(neg(exists(neg(disj(conj(rel(WIDE, a, f, b, f), rel(LINK, f, c)), rel(TRIPLE, a, b, c))), c)), a),
           nothing(b, f), mixed, PLAIN);
    ask_as("some for all, 3 columns",
           exists(neg(exists(conj(rel(TASK, c), neg(disj(conj(rel(WIDE, a, f, b, f), rel(LINK, f, g)), conj(rel(TRIPLE, a, b, g), rel(TWO, f))))), c)), a),
           exists(disj(conj(rel(WIDE, a, f, b, f), rel(LINK, f, g)), conj(rel(TRIPLE, a, b, g), rel(TWO, f))), a), mixed, PLAIN);
    ask_as("some for all, 3 columns, dead",
           exists(neg(exists(neg(conj(disj(rel(WIDE, a, f, b, f), rel(TRIPLE, f, b, d)), disj(eq(c, d), neg(rel(TASK, c))))), c)), a), nothing(b, d, f), mixed,
           PLAIN);
    ask_as("not some z not (x = z or r(x,y,x,w))", neg(exists(neg(disj(eq(a, e), rel(WIDE, a, b, a, d))), e)), rel(WIDE, a, b, a, d), mixed, PLAIN);
    ask_as("not some z not (x = z or r(x,y,v,w))", neg(exists(neg(disj(eq(a, e), rel(WIDE, a, b, c, d))), e)), rel(WIDE, a, b, c, d), mixed, PLAIN);
    ask_as("each number linked from one of four, dead", neg(exists(neg(disj(rel(LINK, a, e), rel(SECOND, b, e), rel(PAIR, c, e), eq(e, d))), e)),
           nothing(a, b, c, d), mixed, PLAIN);
#undef TRAINED
}

// Lines whose or, or whose for-all, leaves a column open where a loop or a record of ONE is held.
static void unsafe_lines(void) {
    const Term a = V(0), b = V(1), c = V(2), d = V(3), e = V(4);
    const struct {
        const char *name;
        const Formula *formula, *same;
        bool also_endless;
    } kinds[] = {
        {"a loop, or a product", disj(rel(LINK, d, d), conj(rel(ONE, b), rel(SECOND, a, c))), nothing(a, b, c, d), true},
        {"a loop, or another", disj(rel(LINK, a, a), rel(SECOND, b, b)), nothing(a, b), false},
        {"two loops, or a product", disj(rel(LINK, a, a), rel(SECOND, b, b), conj(rel(ONE, c), rel(LINK, a, b))), nothing(a, b, c), false},
        {"a loop by a number, or another", disj(conj(rel(LINK, a, a), rel(TWO, b)), conj(rel(SECOND, c, c), rel(TWO, d))), nothing(a, b, c, d), false},
        {"two ors", conj(disj(rel(TRIPLE, a, b, c), rel(LINK, d, d)), disj(rel(LINK, c, d), rel(ONE, a))), conj(rel(TRIPLE, a, b, c), rel(LINK, c, d)), true},
        {"a wide record, or a loop", conj(disj(rel(WIDE, a, b, c, d), conj(rel(LINK, a, b), rel(SECOND, d, d))), neg(rel(ONE, c))),
         conj(rel(WIDE, a, b, c, d), neg(rel(ONE, c))), true},
        {"ors denied", neg(disj(neg(rel(LINK, a, b)), neg(disj(rel(SECOND, b, c), rel(ONE, a))))), conj(rel(LINK, a, b), rel(SECOND, b, c)), false},
        {"some number of a wide record, or a loop", exists(disj(rel(WIDE, a, b, c, e), conj(rel(LINK, e, e), rel(TWO, a))), e),
         exists(rel(WIDE, a, b, c, e), e), false},
        {"a link, or no number", conj(rel(LINK, a, b), disj(rel(SECOND, b, c), conj(rel(LINK, b, b), neg(rel(TWO, c))))),
         conj(rel(LINK, a, b), rel(SECOND, b, c)), false},
        {"equal or linked", conj(disj(eq(a, b), rel(LINK, a, b)), disj(rel(SECOND, b, c), rel(ONE, b)), disj(eq(c, d), rel(ONE, d))),
         conj(disj(conj(eq(a, b), rel(SECOND, b, c)), conj(rel(LINK, a, b), rel(SECOND, b, c))), eq(c, d)), true},
        {"for all tasks an or", every(rel(TASK, e), disj(rel(WIDE, a, b, c, d), conj(rel(ONE, e), rel(LINK, a, a))), e), rel(WIDE, a, b, c, d), true},
        {"for all numbers a link and an or", neg(exists(neg(conj(rel(LINK, a, b), disj(eq(e, c), rel(ONE, d)))), e)), nothing(a, b, c, d), true},
    };
    for (size_t i = 0; i < sizeof kinds / sizeof kinds[0]; i++) {
        ask_as(named("unsafe: %s", kinds[i].name), kinds[i].formula, kinds[i].same, mixed, PLAIN);
        if (kinds[i].also_endless) ask_endless(named("unsafe: %s, endless", kinds[i].name), kinds[i].formula, mixed, LOOPS);
    }
}

// A link one way only, and a closed part that takes long to refute: denied, in three places, and as it is.
static void closed_lines(void) {
    const struct {
        const char *name;
        const Formula *closed;
        Fill *fill;
        uint32_t k;
    } kinds[] = {
        {"clique of 5", some(clique(LINK, 5, 2), 2, 7), parts, 4},
        {"product", some(conj(rel(LINK, V(2), V(3)), rel(LINK, V(4), V(5)), cycle(5, 6)), 2, 11), ring, 3},
    };
    for (size_t i = 0; i < sizeof kinds / sizeof kinds[0]; i++) {
        const Formula *link = rel(LINK, V(0), V(1)), *one_way = neg(rel(LINK, V(1), V(0))), *closed = kinds[i].closed;
        ask(named("closed: no %s, first", kinds[i].name), conj(neg(closed), link, one_way), kinds[i].fill, kinds[i].k);
        ask(named("closed: no %s, in the middle", kinds[i].name), conj(link, neg(closed), one_way), kinds[i].fill, kinds[i].k);
        ask(named("closed: no %s, last", kinds[i].name), conj(link, one_way, neg(closed)), kinds[i].fill, kinds[i].k);
        ask(named("closed: a %s, last", kinds[i].name), conj(link, one_way, closed), kinds[i].fill, kinds[i].k);
    }
}

static void menu(void) {
    product_lines();
    equality_lines();
    path_lines();
    star_lines();
    clique_lines();
    cycle_lines();
    pigeon_lines();
    colour_lines();
    game_lines();
    every_lines();
    unsafe_lines();
    closed_lines();
}

// ---- Measuring --------------------------------------------------------------------------------------------------------------------------------------------

// What a child process is to measure and has measured, in memory that it shares with its parent.
typedef struct {
    const char *name;
    Work work;
    const char *sql;  // NULL: the engine is measured
    bool once;        // no matter how short it is
    double seconds;
} Measure;

static void *shared_memory(size_t size) {
    void *memory = mmap(NULL, size, PROT_READ | PROT_WRITE, MAP_SHARED | MAP_ANONYMOUS, -1, 0);
    if (memory == MAP_FAILED) die("no memory", "hard");
    return memory;
}

// Runs this in a child process, which sets the alarm; whether it came to its end, and was not cut off.
static bool ends(const char *name, void (*child)(void *), void *work) {
    fflush(stdout);
    pid_t id = fork();
    if (id < 0) die("no child process", name);
    if (id == 0) {
        child(work);
        _exit(0);
    }
    int status;
    if (waitpid(id, &status, 0) != id) die("the child process was lost", name);
    if (WIFSIGNALED(status) && WTERMSIG(status) == SIGALRM) return false;
    if (!WIFEXITED(status) || WEXITSTATUS(status) != 0) die("the child process failed", name);
    return true;
}

// Seconds of one call: of the first, where it takes over 50 ms or is to be the only one; else the median of several batches.
static double timed(void (*call)(void *), Work *w, bool once) {
    double start = now(), times[BATCHES];
    call(w);
    double first = now() - start;
    if (once || first > 50e-3) return first;
    for (int b = 0; b < BATCHES; b++) times[b] = seconds_of(call, w);
    return median(times);
}

static void measure(void *work) {
    Measure *m = work;
    if (m->sql) m->work.statement = prepared(opened(m->work.store, tables), m->sql);
    alarm(CAP);
    m->seconds = timed(m->sql ? by_sqlite : by_engine, &m->work, m->once);
}

// The seconds that SQLite takes, or the engine where there is no SQL; INFINITY where it is cut off.
static double measured(Measure *m, const char *sql, bool once) {
    m->sql = sql;
    m->once = once;
    return ends(m->name, measure, m) ? m->seconds : INFINITY;
}

// ---- The report of lines ----------------------------------------------------------------------------------------------------------------------------------

// What was found of a line: the seconds at each size, those of SQLite at the last one, and the last reply. They are NAN where it wasn't asked, and INFINITY
// where it was cut off, SQLite at any size.
typedef struct {
    double engine[SIZES], longest, sqlite;
    Reply reply;
    bool differs, uncompared;
} Found;

typedef struct {
    int lines, faults, missed, uncompared;
    double longest;
    const char *longest_name;
} Total;

// Whether the engine's reply is SQLite's: the same rows in the same order, or a refusal where there is no room for them.
static bool agree(const Reply *reply, const uint32_t *rows, const Work *sqlite, size_t columns) {
    uint64_t numbers = sqlite->reply.rows * columns;
    if (reply->refusal) return reply->refusal == 18 && numbers > ROOM;
    return !reply->endless && reply->rows == sqlite->reply.rows && numbers <= ROOM && memcmp(rows, sqlite->out, numbers * sizeof rows[0]) == 0;
}

// Compares what the engine has just found with SQLite's rows, unless SQLite was cut off already.
static void compare(const Line *l, int size, Measure *m, Found *found) {
    static uint32_t rows[ROOM];
    uint32_t columns[VARIABLES];
    bool is_last = size + 1 == SIZES;
    const char *sql = sql_of(l->same, tables);
    if (!sql) die("no SQL", l->name);
    memcpy(rows, m->work.out, sizeof rows);
    double seconds = isinf(found->sqlite) ? INFINITY : measured(m, sql, !is_last || l->same != l->formula);
    if (is_last || isinf(seconds)) found->sqlite = seconds;
    if (isinf(seconds) || isinf(found->engine[size])) found->uncompared = true;
    else found->differs |= !agree(&found->reply, rows, &m->work, (size_t)free_variables(l->formula, columns));
}

// A line over a store of one size.
static void find(const Line *l, int size, Measure *m, Found *found) {
    Store store = filled(l->fill, l->k, sizes[size]);
    m->name = l->name;
    m->work.store = &store;
    m->work.length = pack(l->formula, m->work.bytes);
    found->engine[size] = measured(m, NULL, false);
    found->longest = fmax(found->longest, found->engine[size]);
    found->reply = m->work.reply;
    if (l->same) compare(l, size, m, found);
    else found->differs |= !isinf(found->longest) && !found->reply.endless;
}

static int nodes_of(const Formula *f) { return f ? 1 + nodes_of(f->left) + nodes_of(f->right) : 0; }

// A time, as long as the next one isn't asked for.
static const char *time_text(double seconds) {
    static char text[32];
    if (isnan(seconds)) snprintf(text, sizeof text, "-");
    else if (isinf(seconds)) snprintf(text, sizeof text, "> %d s", CAP);
    else if (seconds < 1e-3) snprintf(text, sizeof text, "%.1f us", 1e6 * seconds);
    else if (seconds < 1) snprintf(text, sizeof text, "%.1f ms", 1e3 * seconds);
    else snprintf(text, sizeof text, "%.2f s", seconds);
    return text;
}

static void print_ratio(double a, double b) {
    if (isfinite(a) && isfinite(b)) printf(" %8.2f", a / b);
    else printf(" %8s", "-");
}

static void print_line(const Line *l, const Found *found) {
    char rows[32] = "endless";
    double sqlite = l->same == l->formula ? found->sqlite : NAN;
    if (isinf(found->longest)) snprintf(rows, sizeof rows, "-");
    else if (found->reply.refusal) snprintf(rows, sizeof rows, "refused %u", (unsigned)found->reply.refusal);
    else if (!found->reply.endless) snprintf(rows, sizeof rows, "%u", (unsigned)found->reply.rows);
    printf("  %-54s %5d %10s", l->name, nodes_of(l->formula), rows);
    for (int size = 0; size < SIZES; size++) printf(" %10s", time_text(found->engine[size]));
    print_ratio(found->engine[SIZES - 1], found->engine[0]);
    printf(" %10s", time_text(sqlite));
    print_ratio(found->engine[SIZES - 1], sqlite);
    printf("%s%s\n", found->differs ? "  DIFFERS" : "", found->longest > l->reach ? "  MISSED" : "");
}

// A line over stores of all sizes, up to one at which it is cut off.
static void report(const Line *l, Measure *m, Total *total) {
    Found found = {.engine = {NAN, NAN, NAN}, .sqlite = NAN};
    for (int size = 0; size < SIZES && !isinf(found.longest); size++) find(l, size, m, &found);
    print_line(l, &found);
    total->lines++;
    total->faults += found.differs;
    total->missed += found.longest > l->reach;
    total->uncompared += found.uncompared;
    if (found.longest <= total->longest) return;
    total->longest = found.longest;
    total->longest_name = l->name;
}

static bool has_line(const char *part) {
    for (size_t i = 0; i < line_count; i++)
        if (strstr(lines[i].name, part)) return true;
    return false;
}

// Whether all is well: the rows are SQLite's and the reach is kept.
static bool report_lines(const char *part) {
    Measure *m = shared_memory(sizeof *m);
    Total total = {.longest_name = ""};
    printf("  %-54s %5s %10s %10s %10s %10s %8s %10s %8s\n", "line", "nodes", "rows", "64", "128", "256", "growth", "SQLite", "ratio");
    for (size_t i = 0; i < line_count; i++)
        if (strstr(lines[i].name, part)) report(&lines[i], m, &total);
    printf("  %d lines, the longest with %s: %s\n\n", total.lines, time_text(total.longest), total.longest_name);
    printf("Rows %s SQLite's", total.faults ? "DIFFER from" : "equal");
    if (total.uncompared) printf(" (lines where one of both was cut off: %d)", total.uncompared);
    printf("; the reach, %.1f s and %.0f s for cliques of 6, is ", LONGEST, LONGEST_CLIQUE);
    if (total.missed) printf("MISSED by %d.\n\n", total.missed);
    else printf("kept.\n\n");
    return total.faults == 0 && total.missed == 0;
}

// ---- Random lines -----------------------------------------------------------------------------------------------------------------------------------------

enum { RANDOM_LINES = 2000, RANDOM_STORES = 3, FEWEST = 8 };

// The random stores: how many relations they have, their widths, and how many numbers their records have.
static const struct {
    uint32_t relations, numbers;
    uint8_t widths[RELATIONS];
} random_kinds[RANDOM_STORES] = {
    {5, 8, {1, 2, 2, 3, 4}},
    {5, 24, {1, 2, 2, 3, 4}},
    {8, 40, {1, 1, 2, 2, 2, 2, 3, 4}},
};

// A full store of random records: of each relation an equal share, or half of the records that there can be.
static Store random_store(int which) {
    Draft d = {.most = PLACES};
    Store store = {.count = 0};
    uint32_t numbers = random_kinds[which].numbers, held[RELATIONS] = {0};
    memcpy(store.widths, random_kinds[which].widths, sizeof store.widths);
    seed = (uint64_t)which;
    while (d.count < d.most) {
        uint32_t values[WIDTH], relation = below(random_kinds[which].relations);
        for (int i = 0; i < store.widths[relation]; i++) values[i] = 1 + below(numbers);
        if (2 * held[relation] < pow(numbers, store.widths[relation])) held[relation] += hold_of(&d, relation, store.widths[relation], values);
    }
    arrange(&store, d.records, d.count);
    return store;
}

// Sets of variables, a bit for each.
static bool has(uint32_t variables, uint32_t x) { return variables >> x & 1; }

static int size_of(uint32_t variables) {
    int size = 0;
    for (uint32_t x = 0; x < VARIABLES; x++) size += has(variables, x);
    return size;
}

// One of these variables, of which there is one.
static uint32_t one_of(uint32_t variables) {
    uint32_t x;
    do x = below(VARIABLES);
    while (!has(variables, x));
    return x;
}

// A variable that is none of these: more often than not the first.
static uint32_t another(uint32_t variables) {
    uint32_t x = 0;
    if (below(4) == 0) return one_of(~variables);
    while (has(variables, x)) x++;
    return x;
}

// So many of these variables, or all of them where they are fewer.
static uint32_t some_of(uint32_t variables, int count) {
    while (size_of(variables) > count) variables &= ~(1u << one_of(variables));
    return variables;
}

// A record with these variables, or four of them; in its other places are these again, or constants.
static const Formula *random_record(int store, uint32_t variables) {
    const uint8_t *widths = random_kinds[store].widths;
    uint32_t relation, left = some_of(variables, WIDTH);
    do relation = below(random_kinds[store].relations);
    while (widths[relation] < size_of(left) || (widths[relation] > size_of(left) && below(8)));
    Term terms[WIDTH];
    for (int i = 0, first = (int)below(WIDTH); i < widths[relation]; i++) {
        Term *term = &terms[(first + i) % widths[relation]];
        *term = left ? V(one_of(left)) : variables && below(2) ? V(one_of(variables)) : con(1 + below(8));
        if (left) left &= ~(1u << term->number);
    }
    return rel_of(relation, widths[relation], terms);
}

static const Formula *random_formula(int store, int nodes, uint32_t variables);

// A negation, an equality, or else a formula that generates some of the variables, with one of those that are needed among them; these are needed no longer.
static const Formula *random_part(int store, int nodes, uint32_t *needed, uint32_t variables) {
    uint32_t kind = below(8);
    if (nodes > 1 && kind < 3) return neg(random_formula(store, nodes - 1, some_of(variables, 1 + (int)below(3))));
    if (nodes == 1 && kind == 3 && size_of(variables) > 1 && below(2)) {
        uint32_t x = one_of(variables);
        return eq(V(x), below(3) ? V(one_of(variables & ~(1u << x))) : con(1 + below(8)));
    }
    uint32_t on = some_of(*needed, 1 + (int)below(2));
    on |= some_of(variables & ~on, 2 - size_of(on) + (below(4) == 0));
    *needed &= ~on;
    return random_formula(store, nodes, on);
}

// A conjunction of so many nodes in which these variables are free. More often than not it generates those of them that are needed.
static const Formula *random_conjunction(int store, int nodes, uint32_t needed, uint32_t variables) {
    if (nodes < 3) return random_formula(store, nodes, needed ? needed : some_of(variables, 2));
    int size = below(2) ? 1 : 1 + (int)below((uint32_t)(nodes < 12 ? nodes - 2 : 10));
    const Formula *part = random_part(store, size, &needed, variables);
    return conj(part, random_conjunction(store, nodes - 1 - size, needed, variables));
}

// An exists over a conjunction: the more nodes, the more variables are bound, and 12 have a value at most.
static const Formula *random_exists(int store, int nodes, uint32_t variables) {
    int count = (int)below((uint32_t)(nodes < 28 ? 1 + nodes / 3 : 10)) / 2 + (nodes < 12 ? 0 : nodes / 6), most = 12 - size_of(variables);
    uint32_t all = variables;
    Term bound[VARIABLES];
    if (count > most) count = most;
    for (int i = 0; i < count; i++) {
        bound[i] = V(another(all));
        all |= 1u << bound[i].number;
    }
    return exists_of(random_conjunction(store, nodes - count, all, all), count, bound);
}

// A formula of so many nodes in which these variables are free. More often than not it generates them.
static const Formula *random_formula(int store, int nodes, uint32_t variables) {
    if (nodes == 1) return random_record(store, variables);
    if (nodes == 2) {
        uint32_t x = another(variables);
        return exists(random_record(store, variables | 1u << x), V(x));
    }
    if (below(nodes < 8 ? 2 : 5)) return random_exists(store, nodes, variables);
    int left = 1 + (int)below((uint32_t)nodes - 2);
    return disj(random_formula(store, left, variables), random_formula(store, nodes - 1 - left, variables));
}

// The i-th line, at this attempt, in place of all formulas before it: sizes are spread evenly, and it has none to four columns.
static const Formula *random_line(int i, int attempt) {
    formula_count = 0;
    seed = (uint64_t)i << 32 | (uint64_t)attempt;
    int nodes = FEWEST + i * (NODES + 1 - FEWEST) / RANDOM_LINES;
    return random_formula(i % RANDOM_STORES, nodes, (1u << i % 5) - 1);
}

// The random lines, asked one after the other.
typedef struct {
    Store stores[RANDOM_STORES];
    int next;  // the line that is asked, or comes next
    int attempts[RANDOM_LINES];
    double seconds[RANDOM_LINES];
} Series;

// Asks the lines from the next one on. Each is tried anew until it is safe-range.
static void ask_series(void *series) {
    static uint32_t out[ROOM];
    static uint8_t bytes[BYTES];
    Series *s = series;
    for (; s->next < RANDOM_LINES; s->next++) {
        int i = s->next;
        Reply reply;
        do {
            size_t length = pack(random_line(i, ++s->attempts[i]), bytes);
            alarm(CAP);
            double start = now();
            reply = engine_find_as(true, &s->stores[i % RANDOM_STORES], bytes, length, out);
            s->seconds[i] = now() - start;
        } while (reply.refusal == 11);
        if (reply.refusal && reply.refusal != 18) die("refused", "random line");
    }
}

static void print_formula(const Formula *f) {
    switch (f->kind) {
    case TRUTH: break;  // no query here has one
    case RECORD:
        printf("%u", f->relation);
        for (int i = 0; i < f->term_count; i++) printf("%s%s%u", i ? "," : "(", f->terms[i].constant ? "" : "v", f->terms[i].number);
        printf(")");
        break;
    case EQUALITY: printf("v%u = %s%u", f->terms[0].number, f->terms[1].constant ? "" : "v", f->terms[1].number); break;
    case NOT:
        printf("not ");
        print_formula(f->left);
        break;
    case AND:
    case OR:
        printf("(");
        print_formula(f->left);
        printf(f->kind == AND ? " and " : " or ");
        print_formula(f->right);
        printf(")");
        break;
    case EXISTS:
        printf("exists v%u ", f->variable);
        print_formula(f->left);
        break;
    }
}

// Whether the reach is kept.
static bool report_random(void) {
    Series *s = shared_memory(sizeof *s);
    for (int i = 0; i < RANDOM_STORES; i++) s->stores[i] = random_store(i);
    while (!ends("random lines", ask_series, s)) s->seconds[s->next++] = INFINITY;
    int over = 0, far_over = 0, cut_off = 0, longest = 0;
    for (int i = 0; i < RANDOM_LINES; i++) {
        over += s->seconds[i] > LONGEST;
        far_over += s->seconds[i] > LONGEST_CLIQUE;
        cut_off += isinf(s->seconds[i]) != 0;
        if (s->seconds[i] > s->seconds[longest]) longest = i;
    }
    bool kept = over <= RANDOM_OVER && cut_off == 0;
    printf("%d random safe-range lines of %d to %d nodes: %d take over 0.1 s (at most %d), %d over 1 s, and %d were cut off.\n", RANDOM_LINES, FEWEST, NODES,
           over, RANDOM_OVER, far_over, cut_off);
    printf("The longest, over %u numbers, with %s: ", random_kinds[longest % RANDOM_STORES].numbers, time_text(s->seconds[longest]));
    print_formula(random_line(longest, s->attempts[longest]));
    printf("\nThe reach is %s.\n", kept ? "kept" : "MISSED");
    return kept;
}

int main(int argc, char **argv) {
    const char *part = argc > 1 ? argv[1] : "";
    bool only_random = strcmp(part, "random") == 0;
    menu();
    if (!only_random && !has_line(part)) die("no such line", part);
    bool well = only_random || report_lines(part);
    if (only_random || !*part) well &= report_random();
    return well ? 0 : 1;
}
