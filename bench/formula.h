// Formulas of the calculus, and their packing into document 01's bytes: shared by the parts of the benchmark that have SQLite beside them.
#ifndef FORMULA_H
#define FORMULA_H
#include "engine.h"

// ---- Formulas ---------------------------------------------------------------------------------------------------------------------------------------------

enum { NODES = 64, CONSTANTS = 16, BYTES = 2 + 4 * CONSTANTS + 4 * NODES };

// The kinds of document 01.
typedef enum { TRUTH, RECORD, EQUALITY, NOT, AND, OR, EXISTS } Kind;

typedef struct {
    bool constant;
    uint32_t number;  // of the variable; or the constant itself
} Term;

typedef struct Formula {
    Kind kind;
    uint32_t relation;  // of a record
    Term terms[WIDTH];  // of a record, or the two of an equality
    int term_count;
    uint32_t variable;  // of an exists
    const struct Formula *left, *right;
} Formula;

static Formula formulas[4096];
static size_t formula_count;

static inline const Formula *new_formula(Formula f) {
    if (formula_count == sizeof formulas / sizeof formulas[0]) die("too many formulas", "queries");
    formulas[formula_count] = f;
    return &formulas[formula_count++];
}

// The length of a list of arguments, and the arguments as an array.
#define LISTED(type, ...) (int)(sizeof((type[]){__VA_ARGS__}) / sizeof(type)), (type[]){__VA_ARGS__}

static inline Term con(uint32_t value) { return (Term){true, value}; }

static inline const Formula *rel_of(uint32_t relation, int count, const Term *terms) {
    Formula f = {.kind = RECORD, .relation = relation, .term_count = count};
    memcpy(f.terms, terms, (size_t)count * sizeof(Term));
    return new_formula(f);
}
#define rel(relation, ...) rel_of(relation, LISTED(Term, __VA_ARGS__))

static inline const Formula *eq(Term variable, Term term) { return new_formula((Formula){.kind = EQUALITY, .terms = {variable, term}}); }

static inline const Formula *neg(const Formula *f) { return new_formula((Formula){.kind = NOT, .left = f}); }

// From the left: conj(f, g, h) is (f and g) and h.
static inline const Formula *joined(Kind kind, int count, const Formula *const *parts) {
    const Formula *all = parts[0];
    for (int i = 1; i < count; i++) all = new_formula((Formula){.kind = kind, .left = all, .right = parts[i]});
    return all;
}
#define conj(...) joined(AND, LISTED(const Formula *, __VA_ARGS__))
#define disj(...) joined(OR, LISTED(const Formula *, __VA_ARGS__))

// exists(f, x, y): for some x, for some y, f.
static inline const Formula *exists_of(const Formula *f, int count, const Term *variables) {
    while (count > 0) f = new_formula((Formula){.kind = EXISTS, .variable = variables[--count].number, .left = f});
    return f;
}
#define exists(f, ...) exists_of(f, LISTED(Term, __VA_ARGS__))

// every(f, g, x): for all x with f, g; by double negation.
#define every(f, g, ...) neg(exists(conj(f, neg(g)), __VA_ARGS__))

static inline bool is_free(const Formula *f, uint32_t x) {
    int terms = f->kind == EQUALITY ? 2 : f->term_count;
    for (int i = 0; i < terms; i++)
        if (!f->terms[i].constant && f->terms[i].number == x) return true;
    if (f->kind == EXISTS && f->variable == x) return false;
    return (f->left && is_free(f->left, x)) || (f->right && is_free(f->right, x));
}

// ---- Packing ----------------------------------------------------------------------------------------------------------------------------------------------

typedef struct {
    uint32_t constants[CONSTANTS], nodes[NODES];
    uint32_t constant_count, node_count;
} Packing;

static inline uint32_t pack_term(Packing *p, Term t) {
    if (!t.constant) return t.number;
    uint32_t i = 0;
    while (i < p->constant_count && p->constants[i] != t.number) i++;
    if (i == CONSTANTS) die("too many constants", "queries");
    if (i == p->constant_count) p->constants[p->constant_count++] = t.number;
    return 16 | i;
}

// The left subtree, then the right, then the parent, whose number is returned.
static inline uint32_t pack_node(Packing *p, const Formula *f) {
    uint32_t left = f->left ? pack_node(p, f->left) : 0;
    uint32_t right = f->right ? pack_node(p, f->right) : 0;
    uint32_t word = (uint32_t)f->kind << 29;
    switch (f->kind) {
    case TRUTH: break;  // no query here has one
    case RECORD:
        word |= f->relation << 25 | (uint32_t)f->term_count << 22;
        for (int i = 0; i < f->term_count; i++) word |= pack_term(p, f->terms[i]) << (17 - 5 * i);
        break;
    case EQUALITY: word |= f->terms[0].number << 25 | pack_term(p, f->terms[1]) << 20; break;
    case NOT: word |= left << 23; break;
    case AND:
    case OR: word |= left << 23 | right << 17; break;
    case EXISTS: word |= f->variable << 25 | left << 19; break;
    }
    if (p->node_count == NODES) die("too many nodes", "queries");
    p->nodes[p->node_count] = word;
    return p->node_count++;
}

static inline uint8_t *put_word(uint8_t *at, uint32_t word) {
    for (int shift = 24; shift >= 0; shift -= 8) *at++ = (uint8_t)(word >> shift);
    return at;
}

// The packed query of a formula; its length in bytes is returned.
static inline size_t pack(const Formula *f, uint8_t *bytes) {
    Packing p = {.node_count = 0};
    pack_node(&p, f);
    uint32_t header = 1u << 12 | p.node_count << 5 | p.constant_count;
    uint8_t *at = bytes;
    *at++ = (uint8_t)(header >> 8);
    *at++ = (uint8_t)header;
    for (uint32_t i = 0; i < p.constant_count; i++) at = put_word(at, p.constants[i]);
    for (uint32_t i = 0; i < p.node_count; i++) at = put_word(at, p.nodes[i]);
    return (size_t)(at - bytes);
}
#endif
