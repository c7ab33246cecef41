// A fuzz of the host's entries: random packed inputs, whole and damaged, with lent outputs of many lengths. What each
// call replies, writes and leaves is held to include/palmrummy.h.
//
// Refusals and verdicts are compared, byte for byte, with the account of host_account.h, and so are answers where there
// is little to try. The answer with 16,384 bytes, or with far more where they are too few, decides what every other
// length must reply. Every call is made twice, over outputs that differ everywhere, with guard bytes on both sides; an
// input ends where readable memory ends.
//
// Usage: host_fuzz [INPUTS [SEED [FIRST]]]. An input depends on the seed and on its own number only, so that
// `host_fuzz 1 SEED NUMBER` tries one again. The exit status is 1 where a check fails.
#define _DEFAULT_SOURCE
#include <errno.h>
#include <inttypes.h>
#include <signal.h>
#include <stdarg.h>
#include <stdio.h>
#include <stdlib.h>
#include <string.h>
#include <sys/mman.h>
#include <unistd.h>

#include "host_account.h"

// ---- Random numbers ------------------------------------------------------------------------------------------------

static uint64_t state;

// SplitMix64.
static uint64_t next_random(void) {
    uint64_t z = state += UINT64_C(0x9E3779B97F4A7C15);
    z = (z ^ z >> 30) * UINT64_C(0xBF58476D1CE4E5B9);
    z = (z ^ z >> 27) * UINT64_C(0x94D049BB133111EB);
    return z ^ z >> 31;
}

static uint32_t below(uint32_t n) { return (uint32_t)((next_random() >> 32) * n >> 32); }

static uint32_t between(uint32_t low, uint32_t high) { return low + below(high - low + 1); }

static bool chance(uint32_t percent) { return below(100) < percent; }

// ---- Bytes ---------------------------------------------------------------------------------------------------------

// Room for inputs that are too long.
enum { SPACE = 16384 };

typedef struct {
    uint8_t bytes[SPACE];
    size_t length;
} Input;

static bool judge_input(Account *a, const Input *in) { return judge(a, in->bytes, in->length); }

static void append(Input *in, uint64_t number, size_t size) {
    write_number(in->bytes + in->length, number, size);
    in->length += size;
}

// ---- Formulas ------------------------------------------------------------------------------------------------------

// What an input is made over: the values of its records, its constants, and the variables of its query; and how often,
// in 100, a leaf is an equality, and another node a not or an exists.
static struct {
    uint8_t widths[PALMRUMMY_RELATIONS];
    uint32_t values[256], value_count;
    uint32_t constants[CONSTANTS], constant_count;
    uint32_t variables[16], variable_count;
    uint32_t equalities, nots, exists;
} over;

// The nodes of a formula, left subtree, right subtree, parent. Past 64 of them it is too large.
static struct {
    uint32_t word[NODES], left[NODES], right[NODES], count;
    bool too_large;
} tree;

static uint32_t add_node(uint32_t word, uint32_t left, uint32_t right) {
    if (tree.count == NODES) {
        tree.too_large = true;
        return NODES - 1;
    }
    tree.word[tree.count] = word;
    tree.left[tree.count] = left;
    tree.right[tree.count] = right;
    return tree.count++;
}

static uint32_t add_truth(bool value) { return add_node(value ? TRUE_WORD : 0, 0, 0); }
static uint32_t add_equality(uint32_t x, uint32_t t) { return add_node(2u << 29 | x << 25 | t << 20, 0, 0); }
static uint32_t add_not(uint32_t child) { return add_node(3u << 29, child, 0); }
static uint32_t add_and(uint32_t left, uint32_t right) { return add_node(4u << 29, left, right); }
static uint32_t add_or(uint32_t left, uint32_t right) { return add_node(5u << 29, left, right); }
static uint32_t add_exists(uint32_t x, uint32_t child) { return add_node(6u << 29 | x << 25, child, 0); }

static uint32_t add_record(uint32_t relation, const uint32_t *terms) {
    uint32_t width = over.widths[relation], word = 1u << 29 | relation << 25 | width << 22;
    for (uint32_t i = 0; i < width; i++) word |= terms[i] << (17 - 5 * i);
    return add_node(word, 0, 0);
}

// A relation of at least this width; 16 where there is none.
static uint32_t any_relation(uint32_t width) {
    uint32_t from = below(16);
    for (uint32_t i = 0; i < 16; i++)
        if (over.widths[(from + i) % 16] >= width) return (from + i) % 16;
    return 16;
}

static uint32_t any_variable(void) { return over.variables[below(over.variable_count)]; }

static uint32_t any_constant(void) { return 16 + below(over.constant_count); }

static uint32_t any_term(void) { return over.constant_count > 0 && chance(20) ? any_constant() : any_variable(); }

static uint32_t any_leaf(void) {
    uint32_t relation = any_relation(1), die = below(100);
    if (die < 6) return add_truth(chance(50));
    if (die < 6 + over.equalities || relation == 16) return add_equality(any_variable(), any_term());
    uint32_t terms[4];
    for (int i = 0; i < 4; i++) terms[i] = any_term();
    return add_record(relation, terms);
}

// Any formula of at most so many nodes.
static uint32_t any_formula(uint32_t budget) {
    if (budget < 2 || chance(8)) return any_leaf();
    uint32_t die = below(100);
    if (die < over.nots) return add_not(any_formula(budget - 1));
    if (die < over.nots + over.exists) return add_exists(any_variable(), any_formula(budget - 1));
    if (budget < 3) return any_leaf();
    uint32_t share = between(1, budget - 2), left = any_formula(share), right = any_formula(budget - 1 - share);
    return chance(60) ? add_and(left, right) : add_or(left, right);
}

// An element of a set that isn't empty.
static uint32_t any_of(uint32_t set) {
    for (uint32_t skip = below(ones(set)); skip > 0; skip--) set &= set - 1;
    uint32_t x = 0;
    while (!(set >> x & 1)) x++;
    return x;
}

static uint32_t any_part(uint32_t set) { return set & (uint32_t)next_random(); }

static uint32_t safe_formula(uint32_t set, uint32_t budget);

// One record or equality with these free variables, or a conjunction of two parts where no relation is wide enough.
static uint32_t safe_leaf(uint32_t set) {
    uint32_t relation = any_relation(ones(set) > 0 ? ones(set) : 1), terms[4], used = 0;
    if (ones(set) == 1 && chance(15)) return add_equality(any_of(set), any_constant());
    if (ones(set) > PALMRUMMY_WIDTH_MOST || relation == 16) {
        uint32_t one = 1u << any_of(set), left = safe_leaf(set & ~one);
        return add_and(left, safe_leaf(one));
    }
    for (uint32_t i = 0; i < over.widths[relation]; i++) {
        uint32_t rest = set & ~used, places = over.widths[relation] - i;
        bool filled = ones(rest) < places && chance(40);
        terms[i] = filled || rest == 0 ? (set == 0 || chance(30) ? any_constant() : any_of(set)) : any_of(rest);
        if (terms[i] < 16) used |= 1u << terms[i];
    }
    return add_record(relation, terms);
}

// Two formulas whose free variables are these together.
static uint32_t safe_pair(uint32_t set, uint32_t budget) {
    uint32_t part = any_part(set), left = safe_formula(part, budget / 2);
    return add_and(left, safe_formula((set & ~part) | any_part(set), budget / 2));
}

// One of them is told from another by an equality, on either side.
static uint32_t safe_equated(uint32_t set, uint32_t budget) {
    uint32_t x = any_of(set), rest = set & ~(1u << x), y = any_of(rest);
    if (chance(50)) {
        uint32_t left = chance(50) ? add_equality(x, y) : add_equality(y, x);
        return add_and(left, safe_formula(rest, budget - 2));
    }
    uint32_t left = safe_formula(rest, budget - 2);
    return add_and(left, chance(50) ? add_equality(x, y) : add_equality(y, x));
}

// Without some rows: a conjunction with a not, or the same as a not over an or.
static uint32_t safe_difference(uint32_t set, uint32_t budget) {
    bool turned = chance(30);
    uint32_t left = safe_formula(set, budget / 2);
    if (turned) left = add_not(left);
    uint32_t right = safe_formula(any_part(set), budget / 2);
    return turned ? add_not(add_or(left, right)) : add_and(left, add_not(right));
}

// A formula with exactly these free variables, each of them generated, and so is the variable of every exists. It is
// its own form, and safe-range. A relation and a constant must be there.
static uint32_t safe_formula(uint32_t set, uint32_t budget) {
    if (budget < 4) return safe_leaf(set);
    uint32_t left;
    switch (below(6)) {
    case 0:
        left = safe_formula(set, budget / 2);
        return add_or(left, safe_formula(set, budget / 2));
    case 1:
        return safe_difference(set, budget - 2);
    case 2:
        if (ones(set) < 5) {
            uint32_t x = any_of(0xFFFF & ~set);
            return add_exists(x, safe_formula(set | 1u << x, budget - 1));
        }
        return safe_pair(set, budget - 1);
    case 3:
        return ones(set) > 1 ? safe_equated(set, budget) : safe_leaf(set);
    case 4:
        return chance(80) ? safe_pair(set, budget - 1) : add_not(add_not(safe_formula(set, budget - 2)));
    default:
        return safe_pair(set, budget - 1);
    }
}

// The free variables of the last node of the tree.
static uint32_t tree_free(void) {
    static Account a;
    a = (Account){.nodes = tree.count};
    for (uint32_t i = 0; i < tree.count; i++) {
        uint32_t w = tree.word[i], one = first_child(w), two = second_child(w);
        a.node[i] = w | (one ? tree.left[i] << one : 0) | (two ? tree.right[i] << two : 0);
    }
    set_free(&a);
    return a.columns;
}

// The numbers of the nodes: as they are, or any others with children below their parents.
static void number_nodes(uint32_t *number) {
    bool done[NODES] = {false}, mixed = chance(50);
    for (uint32_t n = 0; n < tree.count; n++) {
        uint32_t i = mixed ? below(tree.count) : n;
        while (done[i] || (first_child(tree.word[i]) && !done[tree.left[i]]) ||
               (second_child(tree.word[i]) && !done[tree.right[i]]))
            i = (i + 1) % tree.count;
        done[i] = true;
        number[i] = n;
    }
}

static void append_query(Input *in) {
    uint32_t number[NODES], nodes[NODES];
    number_nodes(number);
    for (uint32_t i = 0; i < tree.count; i++) {
        uint32_t w = tree.word[i], one = first_child(w), two = second_child(w);
        nodes[number[i]] = w | (one ? number[tree.left[i]] << one : 0) | (two ? number[tree.right[i]] << two : 0);
    }
    append(in, 1u << 12 | tree.count << 5 | over.constant_count, 2);
    for (uint32_t i = 0; i < over.constant_count; i++) append(in, over.constants[i], 4);
    for (uint32_t i = 0; i < tree.count; i++) append(in, nodes[i], 4);
}

// ---- Whole inputs --------------------------------------------------------------------------------------------------

// What is known of an input from the way it was made.
typedef struct {
    bool safe;      // it is safe-range
    bool counted;   // its rows are so many
    uint32_t rows;
} Made;

static uint32_t any_value(void) {
    static const uint32_t values[] = {0, 1, 2, 255, 256, 65536, 0x7FFFFFFF, 0x80000000, 0xFFFFFFFE, 0xFFFFFFFF};
    if (chance(70)) return below(10);
    return chance(70) ? values[below(10)] : (uint32_t)next_random();
}

// Widths, so many values, constants of them or others, and variables.
static void any_surroundings(uint32_t values) {
    memset(&over, 0, sizeof over);
    uint32_t share = chance(80) ? 15 : 60;
    for (int i = 0; i < 16; i++)
        if (chance(share)) over.widths[i] = (uint8_t)between(1, 4);
    over.value_count = values;
    for (uint32_t i = 0; i < values; i++) over.values[i] = any_value();
    over.constant_count = chance(10) ? between(0, 16) : below(4);
    for (uint32_t i = 0; i < over.constant_count; i++)
        over.constants[i] = chance(80) ? over.values[below(values)] : any_value();
    over.variable_count = between(1, 6);
    for (uint32_t i = 0; i < over.variable_count; i++) over.variables[i] = below(16);
    over.equalities = 24;
    over.nots = over.exists = 20;
}

// Where safe formulas are made: a relation and a constant, at least.
static void need_leaves(void) {
    if (any_relation(1) == 16) over.widths[below(16)] = (uint8_t)between(1, 4);
    if (over.constant_count == 0) over.constants[over.constant_count++] = over.values[0];
}

static void begin(Input *in) {
    memcpy(in->bytes, over.widths, sizeof over.widths);
    in->length = PALMRUMMY_INPUT_COUNT;
    append(in, 0, 2);
}

static void append_record(Input *in, uint32_t relation, const uint32_t *values) {
    append(in, relation, 1);
    for (uint32_t v = 0; v < 4; v++) append(in, v < over.widths[relation] ? values[v] : 0, 4);
    uint8_t *count = in->bytes + PALMRUMMY_INPUT_COUNT;
    write_number(count, read_number(count, 2) + 1, 2);
}

static void append_records(Input *in, uint32_t count) {
    for (uint32_t i = 0; i < count; i++) {
        uint32_t relation = any_relation(1), values[4];
        if (relation == 16) return;
        for (int v = 0; v < 4; v++) values[v] = over.values[below(over.value_count)];
        append_record(in, relation, values);
    }
}

// Leaves, most of them under a not, joined by ands.
static void add_literals(uint32_t count) {
    for (uint32_t i = 0, last = 0; i < count; i++) {
        uint32_t leaf = any_leaf();
        if (chance(85)) leaf = add_not(leaf);
        last = i > 0 ? add_and(last, leaf) : leaf;
    }
}

// Binds free variables: those over 4 in most cases, and others as often as this.
static void bind_some(uint32_t percent) {
    for (uint32_t set = tree_free(); set != 0 && tree.count < NODES; set = tree_free()) {
        if (!chance(ones(set) > COLUMNS ? 98 : percent)) break;
        add_exists(any_of(set), tree.count - 1);
    }
}

// Any formula over few records.
static void make_any(Input *in) {
    bool large = chance(5);
    any_surroundings(between(1, chance(80) ? 3 : 8));
    if (large) over.exists = 5;
    begin(in);
    append_records(in, below(25));
    tree.count = 0;
    any_formula(large ? between(30, 60) : between(1, 20));
    bind_some(0);
    if (large && chance(50))
        while (tree.count < NODES) add_not(tree.count - 1);
    append_query(in);
}

// Few records, and many equalities and nots: what is asked of are numbers that aren't in the records.
static void make_sparse(Input *in) {
    any_surroundings(between(1, 2));
    memset(over.widths, 0, sizeof over.widths);
    over.widths[below(16)] = 1;
    if (chance(50)) over.values[0] = 0;
    over.constant_count = below(2);
    over.variable_count = between(2, 3);
    over.equalities = 50;
    over.nots = 35;
    begin(in);
    append_records(in, below(3));
    tree.count = 0;
    if (chance(50)) add_literals(between(2, 9));
    else any_formula(between(4, 24));
    bind_some(30);
    append_query(in);
}

// A formula with these free variables that is safe-range, of some budget's nodes, but at most 64.
static void make_safe_tree(uint32_t set, uint32_t budget) {
    do {
        tree.count = 0;
        tree.too_large = false;
        safe_formula(set, budget);
        budget = budget > 1 ? budget - 1 : 1;
    } while (tree.too_large);
}

static uint32_t any_columns(uint32_t most) {
    uint32_t set = 0;
    for (uint32_t n = below(most + 1); n > 0; n--) set |= 1u << below(16);
    return set;
}

// A safe-range formula over few records.
static void make_safe(Input *in, Made *made) {
    any_surroundings(between(1, chance(80) ? 3 : 8));
    need_leaves();
    begin(in);
    append_records(in, below(25));
    make_safe_tree(any_columns(COLUMNS), chance(5) ? between(20, 50) : between(1, 16));
    append_query(in);
    made->safe = true;
}

// Many records, at most 256 of them different, then so many repeats of them. First values are their own, or any.
static void append_many(Input *in, uint32_t count, uint32_t repeats) {
    bool own = chance(50);
    for (uint32_t i = 0; i < count; i++) {
        uint32_t values[4] = {own ? 7 * i : over.values[below(over.value_count)]};
        for (int v = 1; v < 4; v++) values[v] = over.values[below(over.value_count)];
        append_record(in, any_relation(1), values);
    }
    write_number(in->bytes + PALMRUMMY_INPUT_COUNT, count + repeats, 2);
    for (; repeats > 0; repeats--) {
        const uint8_t *again = in->bytes + PALMRUMMY_INPUT_RECORDS + PALMRUMMY_RECORD * below(count);
        memcpy(in->bytes + in->length, again, PALMRUMMY_RECORD);
        in->length += PALMRUMMY_RECORD;
    }
}

// Up to 256 records, and a simple safe-range formula.
static void make_full(Input *in, Made *made) {
    any_surroundings(between(4, 200));
    need_leaves();
    begin(in);
    uint32_t count = chance(60) ? PALMRUMMY_RECORDS_MOST : between(100, PALMRUMMY_RECORDS_MOST);
    append_many(in, count, chance(30) ? below(150) : 0);
    make_safe_tree(any_columns(2), between(1, 6));
    append_query(in);
    made->safe = true;
}

// Just 8,192 bytes: 18, and 476 records of 17, and a query of 15 constants and 5 nodes.
static void make_longest(Input *in, Made *made) {
    any_surroundings(between(4, 200));
    need_leaves();
    begin(in);
    append_many(in, PALMRUMMY_RECORDS_MOST, 476 - PALMRUMMY_RECORDS_MOST);
    over.constant_count = 15;
    uint32_t set = 1u << below(16);
    tree.count = 0;
    for (int i = 0; i < 3; i++) {
        uint32_t leaf = safe_leaf(set);
        if (i > 0) add_and(leaf - 1, leaf);
    }
    append_query(in);
    made->safe = true;
}

// All pairs of the records of two relations: near 2,048, 4,096 or 16,384 numbers, so that there is room just so or just
// not in many an output; or as many as 256 records have.
static void make_product(Input *in, Made *made) {
    static const uint32_t near[] = {2048, 4096, 4096, 16384, 65536};
    any_surroundings(4);
    uint32_t a = below(16), b = (a + between(1, 15)) % 16, columns = between(2, 4), wide = between(1, columns - 1);
    over.widths[a] = (uint8_t)wide;
    over.widths[b] = (uint8_t)(columns - wide);
    uint32_t n = chance(50) ? 1u << between(4, 7) : between(16, 200);
    uint32_t m = near[below(5)] / columns / n + (chance(40) ? below(4) : 0);
    if (m > PALMRUMMY_RECORDS_MOST - n) m = PALMRUMMY_RECORDS_MOST - n;
    begin(in);
    for (uint32_t i = 0; i < n + m; i++) {
        uint32_t values[4] = {3 * i};
        for (int v = 1; v < 4; v++) values[v] = over.values[below(4)];
        append_record(in, i < n ? a : b, values);
    }
    uint32_t from = below(16), terms[4];
    for (uint32_t i = 0; i < 4; i++) terms[i] = (from + 5 * i) % 16;
    tree.count = 0;
    add_record(a, terms);
    add_record(b, terms + wide);
    add_and(0, 1);
    append_query(in);
    *made = (Made){.safe = true, .counted = true, .rows = n * m};
}

// Over 4 free variables, or just 4.
static void make_open(Input *in) {
    any_surroundings(4);
    begin(in);
    append_records(in, below(4));
    uint32_t free_variables = between(4, 16), from = below(16);
    tree.count = 0;
    for (uint32_t i = 0; i < free_variables; i++) {
        uint32_t x = (from + i) % 16, leaf = add_equality(x, over.constant_count > 0 ? any_constant() : x);
        if (i > 0) add_and(leaf - 1, leaf);
    }
    append_query(in);
}

// Over 256 different records, or just 256; sometimes one that doesn't fit.
static void make_crowded(Input *in) {
    any_surroundings(4);
    need_leaves();
    begin(in);
    uint32_t count = between(PALMRUMMY_RECORDS_MOST, 420), wrong = chance(30) ? below(count) : count;
    for (uint32_t i = 0; i < count; i++) {
        uint32_t values[4] = {chance(90) ? i : i / 2, 1, 2, 3};
        append_record(in, any_relation(1), values);
        if (i == wrong) in->bytes[in->length - PALMRUMMY_RECORD] = (uint8_t)between(16, 255);
    }
    tree.count = 0;
    any_leaf();
    append_query(in);
}

// ---- Damage --------------------------------------------------------------------------------------------------------

static void any_bytes(Input *in, size_t count) {
    while (count-- > 0) append(in, below(256), 1);
}

// Whether a node has something for a cause of 6 to 9.
static bool can_fault(uint32_t w, uint32_t number) {
    return number == 6 || (number == 7 && first_child(w)) || (number == 8 && terms_of(w)) ||
           (number == 9 && kind_of(w) == RECORD);
}

// Where a node for such a cause stands in the query; NULL where there is none.
static uint8_t *find_node(Input *in, const Account *a, uint32_t number) {
    uint32_t from = below(a->nodes);
    for (uint32_t i = 0; i < a->nodes; i++) {
        uint32_t n = (from + i) % a->nodes;
        if (can_fault(a->node[n], number)) return in->bytes + (a->query - in->bytes) + 2 + 4 * (a->constants + n);
    }
    return NULL;
}

static void set_field(uint8_t *at, uint32_t shift, uint32_t mask, uint32_t value) {
    write_number(at, (read_number(at, 4) & ~((uint64_t)mask << shift)) | (uint64_t)value << shift, 4);
}

// A node with one of the faults 6 to 9, if the query has a node for it. By chance the field may stay right.
static void fault_node(Input *in, const Account *a, uint32_t number) {
    uint8_t *at = find_node(in, a, number);
    if (at == NULL) return;
    uint32_t w = (uint32_t)read_number(at, 4), child = second_child(w) && chance(50) ? second_child(w) : first_child(w);
    if (number == 6 && chance(30)) set_field(at, 29, 7, 7);
    else if (number == 6) set_field(at, below(zero_bits(w)), 1, 1);
    else if (number == 7) set_field(at, child, 63, below(chance(80) ? a->nodes : 64));
    else if (number == 8) set_field(at, term_shift(w, below(terms_of(w))), 31, between(16, 31));
    else if (chance(70)) set_field(at, 25, 15, below(16));
    else in->bytes[relation_of(w)] = (uint8_t)below(5);
}

// The end of an input moved, or the place where its query starts.
static void fault_length(Input *in, const Account *a) {
    size_t query = (size_t)(a->query - in->bytes);
    uint8_t *count = in->bytes + PALMRUMMY_INPUT_COUNT;
    if (in->length < query || in->length > PALMRUMMY_INPUT_MOST) return;
    switch (below(4)) {
    case 0:
        in->length = below((uint32_t)query);
        break;
    case 1:
        write_number(count, between((uint32_t)(in->length - 1) / PALMRUMMY_RECORD, 65535), 2);
        break;
    case 2:
        write_number(count, chance(50) ? a->records + 1 : below(a->records + 1), 2);
        break;
    default:
        any_bytes(in, PALMRUMMY_INPUT_MOST + (chance(50) ? 0 : below(2000)) + 1 - in->length);
    }
}

// The query's header or length at fault: 3, 4 or 5.
static void fault_header(Input *in, const Account *a, uint32_t number) {
    size_t query = (size_t)(a->query - in->bytes);
    uint8_t *q = in->bytes + query;
    if (in->length < query + 3) return;
    if (number == 3 && chance(50)) in->length = query + below(2);
    else if (number == 3) q[0] = (uint8_t)(q[0] % 16 + 16 * below(16));
    else if (number == 4 && chance(50)) write_number(q, 1u << 12 | a->nodes << 5 | between(17, 31), 2);
    else if (number == 4) write_number(q, 1u << 12 | (chance(30) ? 0 : between(65, 127)) << 5 | a->constants, 2);
    else if (chance(50)) in->length -= between(1, (uint32_t)(in->length - query) - 2);
    else any_bytes(in, between(1, 9));
}

// A record that doesn't fit.
static void fault_record(Input *in, const Account *a) {
    if (a->records == 0) return;
    uint8_t *r = in->bytes + PALMRUMMY_INPUT_RECORDS + PALMRUMMY_RECORD * below(a->records);
    if (chance(50)) r[0] = (uint8_t)below(chance(70) ? 16 : 256);
    else r[16 - below(8)] ^= (uint8_t)between(1, 255);
}

// One fault of a whole input, or one more of it.
static void fault(Input *in, const Account *a) {
    static const uint8_t numbers[] = {1, 2, 3, 4, 5, 6, 6, 7, 7, 8, 8, 9, 9, 13};
    uint32_t number = numbers[below(sizeof numbers)];
    if (number == 1) in->bytes[below(16)] = (uint8_t)between(5, 255);
    else if (number == 2) fault_length(in, a);
    else if (number == 13) fault_record(in, a);
    else if (number < 6) fault_header(in, a, number);
    else fault_node(in, a, number);
}

// Damage of any kind, anywhere, but more at the query than elsewhere.
static void damage(Input *in, const Account *a) {
    size_t query = a->query == NULL ? 0 : (size_t)(a->query - in->bytes), at, count;
    if (in->length <= query) query = 0;
    if (in->length == 0) return;
    at = chance(60) ? query + below((uint32_t)(in->length - query)) : below((uint32_t)in->length);
    count = between(1, 8);
    switch (below(6)) {
    case 0:
    case 1:
        in->bytes[at] ^= (uint8_t)(1u << below(8));
        break;
    case 2:
        in->bytes[at] = (uint8_t)below(256);
        break;
    case 3:
        in->length = at;
        break;
    case 4:
        memmove(in->bytes + at + count, in->bytes + at, in->length - at);
        for (size_t i = 0; i < count; i++) in->bytes[at + i] = (uint8_t)(chance(50) ? below(256) : 0);
        in->length += count;
        break;
    default:
        if (count > in->length - at) count = in->length - at;
        memmove(in->bytes + at, in->bytes + at + count, in->length - at - count);
        in->length -= count;
    }
}

// Any input, and what is known of it.
static Made make_input(Input *in) {
    static Account a;
    Made made = {0};
    uint32_t die = below(100);
    if (die < 4) {
        in->length = 0;
        any_bytes(in, chance(50) ? below(40) : chance(90) ? below(600) : below(12000));
        return made;
    }
    if (die < 40) make_any(in);
    else if (die < 55) make_sparse(in);
    else if (die < 84) make_safe(in, &made);
    else if (die < 88) make_full(in, &made);
    else if (die < 91) make_product(in, &made);
    else if (die < 94) make_open(in);
    else if (die < 96) make_crowded(in);
    else if (die < 98) make_longest(in, &made);
    else {
        make_any(in);
        any_bytes(in, PALMRUMMY_INPUT_MOST - in->length);
    }
    if (chance(55)) return made;
    bool whole = judge_input(&a, in) && chance(60);
    for (uint32_t times = between(1, 3); times > 0; times--) {
        if (whole) fault(in, &a);
        else damage(in, &a);
    }
    return (Made){0};
}

// ---- Calls ---------------------------------------------------------------------------------------------------------

// The list program's room, in bytes, and the most that is lent: more than any answer over two relations of 256 records.
enum { GUARD = 64, USUAL = 16384, LENT = 300000 };

static uint64_t seed, at_number;
static const Input *at_input;  // what a failure prints
static uint8_t *ceiling;       // the first byte that no call may touch: an input ends just below it
static uint8_t memory[8 + GUARD + LENT + GUARD];
static uint8_t *lent;          // in it, at any alignment: a guard, the lent output, a guard

static void print_hex(const uint8_t *bytes, size_t length) {
    static char line[2 * SPACE + 1];
    for (size_t i = 0; i < length; i++) {
        line[2 * i] = "0123456789abcdef"[bytes[i] >> 4];
        line[2 * i + 1] = "0123456789abcdef"[bytes[i] & 15];
    }
    line[2 * length] = '\n';
    fflush(stdout);
    if (write(STDOUT_FILENO, line, 2 * length + 1) < 0) _exit(1);
}

static bool complain(const char *format, ...) {
    printf("host fuzz: input %" PRIu64 " of seed %" PRIu64 ": ", at_number, seed);
    va_list words;
    va_start(words, format);
    vprintf(format, words);
    va_end(words);
    printf("; %zu bytes:\n", at_input->length);
    print_hex(at_input->bytes, at_input->length);
    return false;
}

#define CHECK(test, ...) \
    do { \
        if (!(test)) return complain(__VA_ARGS__); \
    } while (0)

// A call that reads or writes where it may not, or doesn't end.
static void on_signal(int number) {
    complain("signal %d", number);
    fflush(stdout);
    _exit(1);
}

// What byte i of a lent output holds before a call. The two fills differ everywhere.
static uint8_t filler(size_t i, int fill) { return (uint8_t)((i * 167 + i / 256 + 90) ^ (fill ? 255 : 0)); }

static void lend(size_t length, int fill) {
    for (size_t i = 0; i < length + 2 * GUARD; i++) lent[i] = filler(i, fill);
}

// Whether the lent output of this length is as before, but for its first bytes; its guards too.
static bool is_left(size_t length, size_t written, int fill) {
    for (size_t i = 0; i < GUARD; i++)
        if (lent[i] != filler(i, fill)) return false;
    for (size_t i = GUARD + written; i < length + 2 * GUARD; i++)
        if (lent[i] != filler(i, fill)) return false;
    return true;
}

static uint8_t *place(const Input *in) { return memcpy(ceiling - in->length, in->bytes, in->length); }

// A verdict. It is asked for twice, over different fills; the second time may differ in nothing.
static bool ask_verdict(const Input *in, uint32_t *reply, uint8_t *out) {
    for (int fill = 0; fill < 2; fill++) {
        const uint8_t *bytes = place(in);
        lend(PALMRUMMY_VERDICT, fill);
        uint32_t told = palmrummy_verdict(bytes, in->length, lent + GUARD);
        size_t written = told == 0 ? PALMRUMMY_VERDICT : 0;
        CHECK(told == 0 || palmrummy_verdict_is_refused(told), "verdict: reply %08" PRIx32, told);
        CHECK(memcmp(bytes, in->bytes, in->length) == 0, "verdict: the input is altered");
        CHECK(is_left(PALMRUMMY_VERDICT, written, fill), "verdict: reply %08" PRIx32 " and bytes altered", told);
        CHECK(fill == 0 || told == *reply, "verdict: first %08" PRIx32 ", then %08" PRIx32, *reply, told);
        CHECK(fill == 0 || memcmp(out, lent + GUARD, written) == 0, "verdict: other bytes the second time");
        *reply = told;
        memcpy(out, lent + GUARD, written);
    }
    return true;
}

// An answer over columns, twice too. Its bytes are handed back: rows × columns × 4 of them.
static bool ask_answer(const Input *in, uint32_t columns, size_t room, uint64_t *reply, uint8_t *out) {
    for (int fill = 0; fill < 2; fill++) {
        const uint8_t *bytes = place(in);
        lend(room, fill);
        uint64_t told = palmrummy_answer(bytes, in->length, lent + GUARD, room);
        size_t written = told < PALMRUMMY_ENDLESS ? (size_t)told * columns * 4 : 0;
        CHECK(written <= room, "answer into %zu bytes: %" PRIu64 " rows", room, told);
        CHECK(told >= PALMRUMMY_ENDLESS || columns > 0 || told <= 1, "%" PRIu64 " rows without columns", told);
        CHECK(memcmp(bytes, in->bytes, in->length) == 0, "answer into %zu bytes: the input is altered", room);
        CHECK(is_left(room, written, fill), "answer into %zu bytes: reply %" PRIx64 " and bytes altered", room, told);
        CHECK(fill == 0 || told == *reply, "answer into %zu bytes: first %" PRIx64 ", then %" PRIx64, room, *reply,
              told);
        CHECK(fill == 0 || memcmp(out, lent + GUARD, written) == 0, "answer into %zu bytes: other rows then", room);
        *reply = told;
        memcpy(out, lent + GUARD, written);
    }
    return true;
}

// ---- Checks of a verdict -------------------------------------------------------------------------------------------

// The verdict that the form must get, told from the query's: the same but for columns that aren't free in the form.
static void form_verdict(const uint8_t *v, uint32_t columns, uint8_t *out) {
    uint64_t ungenerated = read_number(v + PALMRUMMY_VERDICT_UNGENERATED, 2);
    memcpy(out, v, PALMRUMMY_VERDICT);
    memset(out + PALMRUMMY_VERDICT_VARIABLES, 0, PALMRUMMY_VERDICT_UNGENERATED - PALMRUMMY_VERDICT_VARIABLES);
    uint8_t count = 0;
    for (size_t c = 0; c < v[PALMRUMMY_VERDICT_COLUMNS]; c++) {
        uint8_t x = v[PALMRUMMY_VERDICT_VARIABLES + c];
        if (!(columns >> x & 1)) {
            ungenerated &= ~(UINT64_C(1) << (15 - x));
            continue;
        }
        out[PALMRUMMY_VERDICT_VARIABLES + count] = x;
        memcpy(out + PALMRUMMY_VERDICT_GENERATORS + 8 * count, v + PALMRUMMY_VERDICT_GENERATORS + 8 * c, 8);
        count++;
    }
    out[PALMRUMMY_VERDICT_COLUMNS] = count;
    write_number(out + PALMRUMMY_VERDICT_UNGENERATED, ungenerated, 2);
    out[PALMRUMMY_VERDICT_SAFE] = ungenerated == 0 && read_number(v + PALMRUMMY_VERDICT_UNRANGED, 8) == 0;
}

static bool same_verdict(const uint8_t *v, const uint8_t *wanted, const char *what) {
    for (size_t i = 0; i < PALMRUMMY_VERDICT; i++)
        CHECK(v[i] == wanted[i], "%s: byte %zu is %02x, not %02x", what, i, v[i], wanted[i]);
    return true;
}

// A verdict: what the account has; and its form, as the query of an input of the same widths and no records, gets the
// same again.
static bool check_verdict(const Input *in, const Account *a, const uint8_t *v, Input *form) {
    static Account f;
    static uint8_t wanted[PALMRUMMY_VERDICT], again[PALMRUMMY_VERDICT];
    account_verdict(a, wanted);
    if (!same_verdict(v, wanted, "verdict")) return false;
    memcpy(form->bytes, in->bytes, PALMRUMMY_RELATIONS);
    form->length = PALMRUMMY_RELATIONS;
    append(form, 0, 2);
    size_t length = palmrummy_query_length(v + PALMRUMMY_VERDICT_FORM);
    memcpy(form->bytes + form->length, v + PALMRUMMY_VERDICT_FORM, length);
    form->length += length;
    CHECK(judge_input(&f, form), "form: it would be refused %" PRIu32 " %" PRIu32, f.number, f.place);
    uint32_t reply;
    if (!ask_verdict(form, &reply, again)) return false;
    CHECK(reply == 0, "form: it is refused, %08" PRIx32, reply);
    form_verdict(v, f.columns, wanted);
    return same_verdict(again, wanted, "verdict on the form");
}

// ---- Checks of answers ---------------------------------------------------------------------------------------------

// Steps by the account's estimate: the account answers too; fewer lengths are tried; no answer is asked for.
static const double CHEAP = 3e4, DEAR = 1e6, TOO_DEAR = 1e9;

// The steps of an answer. A safe-range query takes no more than all pairs of its records.
static double steps_of(const Account *a, bool safe) {
    double all = cost(a), joined[NODES];
    for (uint32_t i = 0; i < a->nodes; i++) {
        uint32_t w = a->node[i];
        double left = first_child(w) ? joined[left_of(w)] : 1, right = second_child(w) ? joined[right_of(w)] : 1;
        if (kind_of(w) == RECORD)
            for (uint32_t r = 0; r < a->records; r++) left += a->record[PALMRUMMY_RECORD * r] == relation_of(w);
        joined[i] = kind_of(w) == OR ? left + right : left * right;
    }
    return safe && joined[a->nodes - 1] < all ? joined[a->nodes - 1] : all;
}

static bool is_among(uint32_t value, const uint32_t *values, size_t count) {
    size_t low = 0;
    while (low < count) {
        size_t middle = low + (count - low) / 2;
        if (values[middle] == value) return true;
        if (values[middle] < value) low = middle + 1;
        else count = middle;
    }
    return false;
}

// The rows of an answer: strictly ascending, of known values; and satisfying the query, where it has no exists to try.
static bool check_rows(const Account *a, uint64_t rows, uint32_t columns, const uint8_t *out) {
    static uint32_t known[KNOWN_MOST];
    size_t count = known_values(a, false, known);
    for (size_t i = 0; i < (size_t)rows * columns; i++) {
        uint32_t value = palmrummy_value(out, i);
        CHECK(is_among(value, known, count), "row %zu: %" PRIu32 " is not known to the query", i / columns, value);
    }
    for (size_t r = 1; columns > 0 && r < rows; r++)
        CHECK(memcmp(out + 4 * columns * (r - 1), out + 4 * columns * r, 4 * columns) < 0, "row %zu: its order", r);
    uint64_t right = a->depth[a->nodes - 1] > 0 ? rows : account_satisfied(a, out, rows);
    CHECK(right == rows, "row %" PRIu64 ": it doesn't satisfy the query", right);
    return true;
}

// The account's own answer: the same.
static bool check_account(const Account *a, uint64_t reply, uint32_t columns, const uint8_t *out) {
    static uint32_t numbers[LENT / 4];
    uint64_t wanted = account_answer(a, numbers, LENT / 4);
    CHECK(reply == wanted, "answer: %" PRIx64 ", not %" PRIx64, reply, wanted);
    for (size_t i = 0; reply < PALMRUMMY_ENDLESS && i < (size_t)reply * columns; i++)
        CHECK(palmrummy_value(out, i) == numbers[i], "row %zu: another than in the account", i / columns);
    return true;
}

// Lengths of lent outputs, where an answer needs so many bytes.
static size_t any_lengths(size_t need, bool dear, size_t *lengths) {
    static const size_t fixed[] = {1, 3, 4, 5, 8, 12, USUAL - 1, USUAL, USUAL + 1, USUAL + 4};
    size_t n = 0;
    lengths[n++] = 0;
    lengths[n++] = need;
    lengths[n++] = need + between(1, 8);
    if (need > 0) lengths[n++] = need - 1;
    lengths[n++] = between(USUAL, chance(5) ? LENT : 2 * USUAL);
    if (dear) return n;
    if (need >= 4) lengths[n++] = need - 4;
    lengths[n++] = below(64);
    lengths[n++] = below(2048);
    lengths[n++] = below(USUAL);
    for (size_t i = 0; i < sizeof fixed / sizeof fixed[0]; i++) lengths[n++] = fixed[i];
    return n;
}

static const uint64_t NO_ROOM = PALMRUMMY_ENDLESS + 256 * PALMRUMMY_CAUSE_ROOM;

// The answers with other lengths, as the one that was asked for first decides them.
static bool check_lengths(const Input *in, uint32_t columns, uint64_t reply, const uint8_t *out, bool dear) {
    static uint8_t other[LENT];
    size_t lengths[24], numbers = reply < PALMRUMMY_ENDLESS ? (size_t)reply * columns : 0;
    size_t count = any_lengths(4 * numbers, dear, lengths);
    for (size_t i = 0; i < count; i++) {
        uint64_t told, wanted = numbers <= lengths[i] / 4 ? reply : NO_ROOM;
        if (!ask_answer(in, columns, lengths[i], &told, other)) return false;
        CHECK(told == wanted, "answer into %zu bytes: %" PRIx64 ", but %" PRIx64 " at first", lengths[i], told, reply);
        CHECK(told >= PALMRUMMY_ENDLESS || memcmp(out, other, 4 * numbers) == 0, "answer into %zu bytes: other rows",
              lengths[i]);
    }
    return true;
}

// An answer with the usual room, or with all where that doesn't do; and that room.
static bool ask_first(const Input *in, uint32_t columns, size_t *room, uint64_t *reply, uint8_t *out) {
    *room = USUAL;
    if (!ask_answer(in, columns, *room, reply, out)) return false;
    if (*reply != NO_ROOM) return true;
    *room = LENT;
    return ask_answer(in, columns, *room, reply, out);
}

// The same records in another order, with a repeat: the same answer.
static bool check_order(const Input *in, const Account *a, uint32_t columns, size_t room, uint64_t reply,
                        const uint8_t *out) {
    static Input mixed;
    static uint8_t other[LENT];
    size_t records = PALMRUMMY_RECORD * (size_t)a->records, head = PALMRUMMY_INPUT_RECORDS;
    if (a->records == 0 || in->length + PALMRUMMY_RECORD > PALMRUMMY_INPUT_MOST) return true;
    memcpy(mixed.bytes, in->bytes, head);
    uint32_t from = below(a->records), step = chance(50) ? 1 : a->records - 1;
    for (uint32_t i = 0; i <= a->records; i++)
        memcpy(mixed.bytes + head + PALMRUMMY_RECORD * i,
               a->record + PALMRUMMY_RECORD * ((from + (uint64_t)i * step) % a->records), PALMRUMMY_RECORD);
    write_number(mixed.bytes + PALMRUMMY_INPUT_COUNT, a->records + 1, 2);
    memcpy(mixed.bytes + head + records + PALMRUMMY_RECORD, a->query, in->length - head - records);
    mixed.length = in->length + PALMRUMMY_RECORD;
    uint64_t told;
    if (!ask_answer(&mixed, columns, room, &told, other)) return false;
    CHECK(told == reply, "records in another order: %" PRIx64 ", not %" PRIx64, told, reply);
    size_t bytes = told < PALMRUMMY_ENDLESS ? 4 * (size_t)told * columns : 0;
    CHECK(memcmp(out, other, bytes) == 0, "records in another order: other rows");
    return true;
}

// The form over the same records: the same answer where it has the same columns. A column that it lacks can have any
// value, so that one row is infinitely many.
static bool check_form_answer(const Input *in, const Account *a, const Input *form, size_t room, uint64_t reply,
                              const uint8_t *out) {
    static Input with;
    static Account f;
    static uint8_t other[LENT];
    size_t head = (size_t)(a->query - in->bytes), query = form->length - PALMRUMMY_INPUT_RECORDS;
    memcpy(with.bytes, in->bytes, head);
    memcpy(with.bytes + head, form->bytes + PALMRUMMY_INPUT_RECORDS, query);
    with.length = head + query;
    judge_input(&f, &with);
    uint32_t columns = ones(f.columns);
    uint64_t told;
    if (!ask_answer(&with, columns, room, &told, other)) return false;
    if (f.columns == a->columns) {
        CHECK(told == reply, "the form over the records: %" PRIx64 ", not %" PRIx64, told, reply);
        size_t bytes = told < PALMRUMMY_ENDLESS ? 4 * (size_t)told * columns : 0;
        CHECK(memcmp(out, other, bytes) == 0, "the form over the records: other rows");
    } else {
        CHECK(reply == (told == 0 ? 0 : PALMRUMMY_ENDLESS), "a column not in the form: %" PRIx64, reply);
    }
    return true;
}

// ---- One input -----------------------------------------------------------------------------------------------------

static struct {
    uint64_t inputs, accepted, refused, endless, safe, some_rows, long_answers, compared, unanswered, failed;
    uint64_t numbers[256];
} tally;

static bool check_accepted(const Input *in, const Account *a, const Made *made, const uint8_t *v) {
    static Input form;
    static uint8_t out[LENT];
    bool safe = v[PALMRUMMY_VERDICT_SAFE] == 1;
    uint32_t columns = v[PALMRUMMY_VERDICT_COLUMNS];
    uint64_t reply;
    size_t room;
    if (!check_verdict(in, a, v, &form)) return false;
    CHECK(safe || !made->safe, "unsafe, but made safe-range");
    tally.safe += safe;
    double steps = steps_of(a, safe);
    if (steps > TOO_DEAR) {
        tally.unanswered++;
        return true;
    }
    if (!ask_first(in, columns, &room, &reply, out)) return false;
    CHECK(reply <= PALMRUMMY_ENDLESS || reply == NO_ROOM, "accepted, but the answer is %" PRIx64, reply);
    CHECK(!safe || reply != PALMRUMMY_ENDLESS, "safe and endless");
    CHECK(columns > 0 || reply <= 1, "no columns: %" PRIx64, reply);
    CHECK(!made->counted || reply == made->rows, "%" PRIu32 " rows were made, not %" PRIx64, made->rows, reply);
    tally.endless += reply == PALMRUMMY_ENDLESS;
    tally.numbers[PALMRUMMY_CAUSE_ROOM] += room == LENT;
    tally.some_rows += reply > 0 && reply < PALMRUMMY_ENDLESS;
    tally.long_answers += room == LENT && reply < PALMRUMMY_ENDLESS;
    bool dear = steps > DEAR || reply == NO_ROOM || (reply < PALMRUMMY_ENDLESS && reply > 200);
    if (reply < PALMRUMMY_ENDLESS && !check_rows(a, reply, columns, out)) return false;
    if (cost(a) <= CHEAP) {
        tally.compared++;
        if (!check_account(a, reply, columns, out)) return false;
    }
    if (!check_lengths(in, columns, reply, out, dear)) return false;
    return check_order(in, a, columns, room, reply, out) && check_form_answer(in, a, &form, room, reply, out);
}

// A refused input: the same refusal from both, whatever is lent.
static bool check_refused(const Input *in, uint32_t number, uint32_t place) {
    static uint8_t out[LENT];
    const size_t lengths[] = {0, 1, 4, below(64), below(2 * USUAL), USUAL, USUAL + 1};
    const uint64_t refusal = PALMRUMMY_ENDLESS + 256 * number + place;
    for (size_t i = 0; i < sizeof lengths / sizeof lengths[0]; i++) {
        uint64_t reply;
        if (!ask_answer(in, 1, lengths[i], &reply, out)) return false;
        CHECK(reply == refusal, "answer into %zu bytes: %" PRIx64 ", not %" PRIx64, lengths[i], reply, refusal);
        CHECK(palmrummy_answer_is_refused(reply) && palmrummy_refusal_number(reply) == number &&
                  palmrummy_refusal_place(reply) == place,
              "the number and the place of %" PRIx64, reply);
    }
    return true;
}

static bool check_input(const Input *in, const Made *made) {
    static Account a;
    static uint8_t v[PALMRUMMY_VERDICT];
    judge_input(&a, in);
    uint32_t wanted = a.number == 0 ? 0 : PALMRUMMY_REFUSED + 256 * a.number + a.place, reply;
    if (!ask_verdict(in, &reply, v)) return false;
    CHECK(reply == wanted, "verdict: reply %08" PRIx32 ", not %08" PRIx32, reply, wanted);
    CHECK(a.number == 0 || palmrummy_has_node(a.number) || a.place == 0, "a place for cause %" PRIu32, a.number);
    tally.numbers[a.number]++;
    if (reply == 0) return tally.accepted++, check_accepted(in, &a, made, v);
    tally.refused++;
    CHECK(palmrummy_refusal_number(reply) == a.number && palmrummy_refusal_place(reply) == a.place,
          "the number and the place of %08" PRIx32, reply);
    return check_refused(in, a.number, a.place);
}

// ---- The run -------------------------------------------------------------------------------------------------------

// Seconds for one input; and inputs from which on everything should have been met.
enum { PATIENCE = 120, MANY = 2000 };

static void set_up(void) {
    size_t page = (size_t)sysconf(_SC_PAGESIZE), size = (SPACE / page + 1) * page;
    uint8_t *pages = mmap(NULL, size + page, PROT_READ | PROT_WRITE, MAP_PRIVATE | MAP_ANONYMOUS, -1, 0);
    static uint8_t stack[1 << 16];
    stack_t other = {.ss_sp = stack, .ss_size = sizeof stack};
    struct sigaction action = {.sa_handler = on_signal, .sa_flags = SA_ONSTACK};
    const int signals[] = {SIGSEGV, SIGBUS, SIGILL, SIGFPE, SIGABRT, SIGALRM};
    bool ready = pages != MAP_FAILED && mprotect(pages + size, page, PROT_NONE) == 0 && sigaltstack(&other, NULL) == 0;
    for (size_t i = 0; ready && i < sizeof signals / sizeof signals[0]; i++)
        ready = sigaction(signals[i], &action, NULL) == 0;
    if (!ready) {
        perror("host fuzz");
        exit(2);
    }
    ceiling = pages + size;
}

// Every refusal of the table, safe-range queries and others, rows and endless answers: many inputs meet all of them.
static bool met_all(void) {
    static const uint8_t numbers[] = {1, 2, 3, 4, 5, 6, 7, 8, 9, 10, 13, 15, 18};
    bool met = tally.safe > 0 && tally.safe < tally.accepted && tally.some_rows > 0 && tally.endless > 0 &&
               tally.long_answers > 0;
    printf("host fuzz: refusals");
    for (size_t i = 0; i < sizeof numbers; i++) {
        printf("%s %d: %" PRIu64, i > 0 ? "," : "", numbers[i], tally.numbers[numbers[i]]);
        met = met && tally.numbers[numbers[i]] > 0;
    }
    printf("; safe %" PRIu64 ", some rows %" PRIu64 ", of over 4,096 numbers %" PRIu64 ", answers compared %" PRIu64
           ", verdict only %" PRIu64 "\n",
           tally.safe, tally.some_rows, tally.long_answers, tally.compared, tally.unanswered);
    return met;
}

static void end_with_usage(FILE *to, int status) {
    fputs("usage: host_fuzz [INPUTS [SEED [FIRST]]]\n", to);
    exit(status);
}

static uint64_t word_or(int count, char **words, int i, uint64_t otherwise) {
    if (i >= count) return otherwise;
    char *end;
    errno = 0;
    uint64_t number = strtoull(words[i], &end, 10);
    if (*words[i] < '0' || *words[i] > '9' || *end != '\0' || errno != 0) end_with_usage(stderr, 2);
    return number;
}

int main(int count, char **words) {
    static Input input;
    if (count == 2 && strcmp(words[1], "--help") == 0) end_with_usage(stdout, 0);
    if (count > 4) end_with_usage(stderr, 2);
    uint64_t inputs = word_or(count, words, 1, 20000), first = word_or(count, words, 3, 0);
    seed = word_or(count, words, 2, 1);
    at_input = &input;
    set_up();
    for (at_number = first; at_number - first < inputs && tally.failed < 3; at_number++) {
        state = seed * UINT64_C(0xD1342543DE82EF95) + at_number * UINT64_C(0x2545F4914F6CDD1D);
        lent = memory + at_number % 8;
        alarm(PATIENCE);
        Made made = make_input(&input);
        tally.inputs++;
        tally.failed += !check_input(&input, &made);
    }
    if (!met_all() && inputs >= MANY && tally.failed == 0) {
        puts("host fuzz: something of these was never met");
        tally.failed++;
    }
    printf("host fuzz: %" PRIu64 " inputs, %" PRIu64 " accepted, %" PRIu64 " refused, %" PRIu64 " endless, %" PRIu64
           " failed\n",
           tally.inputs, tally.accepted, tally.refused, tally.endless, tally.failed);
    return tally.failed > 0;
}
