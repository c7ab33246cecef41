// A plain account of document 01 for packed inputs, which the engine's replies are compared with: refusals, the
// verdict, and answers where there is little to try. It shares nothing with the engine but include/palmrummy.h.
#ifndef HOST_ACCOUNT_H
#define HOST_ACCOUNT_H

#include "palmrummy.h"

enum { NODES = PALMRUMMY_NODES_MOST, CONSTANTS = PALMRUMMY_CONSTANTS_MOST, COLUMNS = PALMRUMMY_COLUMNS_MOST };
enum { TRUTH, RECORD, EQUALITY, NOT, AND, OR, EXISTS };
enum { TRUE_WORD = 1 << 28, VARIABLES = 16 };

// Numbers of `size` bytes, high byte first.
void write_number(uint8_t *at, uint64_t number, size_t size);
uint64_t read_number(const uint8_t *at, size_t size);

// ---- The fields of a node, at their places in its 32 bits ----------------------------------------------------------

static inline uint32_t kind_of(uint32_t w) { return w >> 29; }
static inline uint32_t relation_of(uint32_t w) { return w >> 25 & 15; }
static inline uint32_t variable_of(uint32_t w) { return w >> 25 & 15; }
static inline uint32_t term_count(uint32_t w) { return w >> 22 & 7; }
static inline bool has_two(uint32_t w) { return kind_of(w) == AND || kind_of(w) == OR; }

// The shift of a child's field; 0 where there is no such child.
static inline uint32_t first_child(uint32_t w) {
    return kind_of(w) == EXISTS ? 19 : kind_of(w) == NOT || has_two(w) ? 23 : 0;
}
static inline uint32_t second_child(uint32_t w) { return has_two(w) ? 17 : 0; }

// The children, where they are there.
static inline uint32_t left_of(uint32_t w) { return w >> first_child(w) & 63; }
static inline uint32_t right_of(uint32_t w) { return w >> second_child(w) & 63; }

// The terms that count: of a record as many as its term count, but four at most, of an equality one. Variables are
// below 16, constants from there on.
static inline uint32_t terms_of(uint32_t w) {
    uint32_t n = term_count(w);
    return kind_of(w) == RECORD ? (n < 4 ? n : 4) : kind_of(w) == EQUALITY ? 1 : 0;
}
static inline uint32_t term_shift(uint32_t w, uint32_t i) { return kind_of(w) == RECORD ? 17 - 5 * i : 20; }
static inline uint32_t term_of(uint32_t w, uint32_t i) { return w >> term_shift(w, i) & 31; }

// The low bits that are to be zero.
uint32_t zero_bits(uint32_t w);

// ---- Inputs --------------------------------------------------------------------------------------------------------

// What an input holds, as far as it was read before a refusal. It points into the input.
typedef struct {
    uint32_t number, place;      // of the refusal; 0 where it is accepted
    const uint8_t *widths;
    const uint8_t *record;       // the first one
    uint32_t records;            // their number, with repeats
    const uint8_t *query;
    uint32_t constants, nodes;   // their numbers
    uint32_t constant[CONSTANTS], node[NODES];
    uint32_t free[NODES];        // the free variables of each node, variable 0 the lowest bit
    uint32_t depth[NODES];       // how many exists with a variable of their child stand one below the other
    uint32_t columns;            // the free variables of the root
} Account;

uint32_t ones(uint32_t set);

// Sets the free variables and depths from the nodes.
void set_free(Account *a);

// Judges an input: causes 2, 1, 3 to 10, 13 and 15. The others may only be asked of an input that it accepts.
bool judge(Account *a, const uint8_t *bytes, size_t length);

// The bytes of the verdict.
void account_verdict(const Account *a, uint8_t out[PALMRUMMY_VERDICT]);

// The values of records and constants, each once, ascending: all, or only of relations that the query names.
enum { KNOWN_MOST = PALMRUMMY_INPUT_MOST / 4 };
size_t known_values(const Account *a, bool all, uint32_t known[KNOWN_MOST]);

// An estimate from above of the nodes that an answer looks at, where every value is tried for every variable.
double cost(const Account *a);

// How many of an answer's rows satisfy the query, from the first on up to one that doesn't.
uint64_t account_satisfied(const Account *a, const uint8_t *out, uint64_t rows);

// What an answer with room for so many numbers replies, and these numbers. It takes as long as the cost says.
uint64_t account_answer(const Account *a, uint32_t *numbers, size_t room);

#endif
