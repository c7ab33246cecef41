// Palmrummy for C and C++: the packed query of a rule; the verdict on a query, and its answers, over one packed input.
//
// The entries take numbers and byte runs only. All numbers in the bytes are unsigned, high byte first. "Document 01"
// is the scope paper; node, form, generator, safe-range and endless are its words. "Document 02" has the customer
// requests; rule, head and goal are its words.
//
// Link with target/staticlib/libhost.a, which `tools/build host` makes.
#ifndef PALMRUMMY_H
#define PALMRUMMY_H

#include <stdbool.h>
#include <stddef.h>
#include <stdint.h>

#ifdef __cplusplus
extern "C" {
#endif

// ---- The packed input ----------------------------------------------------------------------------------------------
//
//   offset        bytes     what
//   0             16        the widths of relations 0 to 15: how many values a record of it has, 1 to 4; 0 where absent
//   16            2         the number of records, n
//   18            17 × n    the records: a relation of 1 byte, four values of 4 bytes, those past the width zero
//   18 + 17 × n   the rest  the query
//
// Records come in any order, and repeats are kept once. At most 256 different ones are held, and an input is at most
// 8,192 bytes long.
//
// The query is a header of 2 bytes, then constants of 4 bytes, then nodes of 4 bytes. The header's bits, from the
// highest: version 4 (value 1), node count 7 (1 to 64), constant count 5 (0 to 16). A node's bits, from the highest,
// with zeros in all that are left:
//
//   kind (3 bits)   fields (bits)
//   0 truth         value 1: 1 is true
//   1 record        relation 4, term count 3, four terms of 5, those past the count zero
//   2 equality      variable 4, term 5
//   3 not           child 6
//   4 and, 5 or     left 6, right 6
//   6 exists        variable 4, child 6
//
// A term is 1 bit (0 variable, 1 constant), and 4 bits of the variable's number or the place among the constants. The
// last node is the root. A child's number is below its parent's, and each node but the last is a child exactly once.
#define PALMRUMMY_INPUT_MOST 8192   // bytes of an input
#define PALMRUMMY_RELATIONS 16      // width bytes, at the start
#define PALMRUMMY_INPUT_COUNT 16    // offset of the number of records
#define PALMRUMMY_INPUT_RECORDS 18  // offset of the first record
#define PALMRUMMY_RECORD 17         // bytes of a record
#define PALMRUMMY_RECORDS_MOST 256  // different records
#define PALMRUMMY_WIDTH_MOST 4
#define PALMRUMMY_NODES_MOST 64
#define PALMRUMMY_CONSTANTS_MOST 16
#define PALMRUMMY_COLUMNS_MOST 4
#define PALMRUMMY_QUERY_MOST 322    // bytes of a query: 2, 16 constants and 64 nodes of 4

// ---- Numbers returned ----------------------------------------------------------------------------------------------
//
//   palmrummy_rule      the number of bytes of the packed query, 6 to 322, where it is written
//   (32 bits)           2^31 + 256 × number for a refusal, whose place is written apart
//   palmrummy_verdict   0 where the verdict is written
//   (32 bits)           2^31 + 256 × number + place for a refusal
//   palmrummy_answer    the number of rows, where they are written: below 2^63, however long the lent output is
//   (64 bits)           2^63 where infinitely many rows satisfy the query (endless)
//                       2^63 + 256 × number + place for a refusal
#define PALMRUMMY_REFUSED UINT32_C(0x80000000)
#define PALMRUMMY_ENDLESS UINT64_C(0x8000000000000000)

static inline bool palmrummy_rule_is_refused(uint32_t reply) { return reply > PALMRUMMY_REFUSED; }

static inline bool palmrummy_verdict_is_refused(uint32_t reply) { return reply > PALMRUMMY_REFUSED; }

static inline bool palmrummy_answer_is_endless(uint64_t reply) { return reply == PALMRUMMY_ENDLESS; }

static inline bool palmrummy_answer_is_refused(uint64_t reply) { return reply > PALMRUMMY_ENDLESS; }

// The number of a refusal's cause, for refusals of every entry; and its place, for those of a verdict and an answer: a
// node of the query as read, or 0. The place of a refused rule can be any offset, and is not in the number returned.
static inline uint32_t palmrummy_refusal_number(uint64_t reply) { return (uint32_t)(reply / 256 % 256); }

static inline uint32_t palmrummy_refusal_place(uint64_t reply) { return (uint32_t)(reply % 256); }

// The causes that the entries can meet, with the numbers of document 01's table, in the order in which they are judged,
// each over the whole input. 13 and 15 are judged together, record by record. The other causes of that table (11, 12,
// 14, 16, 17, 19) belong to calls that are not here. Where the place is a node, it is the lowest faulty one. 20 is
// document 02's: palmrummy_rule meets no other cause, and it alone meets 20.
//
//   number  place   cause
//   20      a byte  rule text outside the grammar, or past a limit: see below
//   2       0       the input ends before its query, or is over 8,192 bytes
//   1       0       a width above 4
//   3       0       the query is under 2 bytes, or its version is not 1
//   4       0       node count 0 or over 64, or over 16 constants
//   5       0       the query's length is not 2 + 4 × constants + 4 × nodes
//   6       a node  kind 7, or a bit set that is to be zero, or a term past the term count that is not zero
//   7       a node  a child not below it; or not the last node and not a child exactly once
//   8       a node  a term's place among the constants is at or past their count
//   9       a node  a record whose relation is absent, or whose term count is not the relation's width
//   10      0       over 4 free variables
//   13      0       a record's relation is absent or over 15, or a value past its width is not zero
//   15      0       over 256 different records
//   18      0       rows × columns over the room of the lent output: from palmrummy_answer only
#define PALMRUMMY_CAUSE_RULE 20
#define PALMRUMMY_CAUSE_INPUT 2
#define PALMRUMMY_CAUSE_WIDTH 1
#define PALMRUMMY_CAUSE_VERSION 3
#define PALMRUMMY_CAUSE_COUNTS 4
#define PALMRUMMY_CAUSE_LENGTH 5
#define PALMRUMMY_CAUSE_BITS 6
#define PALMRUMMY_CAUSE_CHILD 7
#define PALMRUMMY_CAUSE_CONSTANT 8
#define PALMRUMMY_CAUSE_RELATION 9
#define PALMRUMMY_CAUSE_COLUMNS 10
#define PALMRUMMY_CAUSE_RECORD 13
#define PALMRUMMY_CAUSE_RECORDS 15
#define PALMRUMMY_CAUSE_ROOM 18

// Whether a cause's place is a node.
static inline bool palmrummy_has_node(uint32_t number) {
    return PALMRUMMY_CAUSE_BITS <= number && number <= PALMRUMMY_CAUSE_RELATION;
}

// ---- Rules ---------------------------------------------------------------------------------------------------------
//
// A rule is Datalog text in ASCII, such as q(X0,X2):-r3(X0,17),not r1(X2),X0 = X2. with nothing before its first and
// after its last byte, a line feed neither. Its only spaces are the one after not and the two around the equals sign.
//
//   rule      head :- goal , .. goal .
//   head      q, or q ( variable , .. variable )      the columns
//   goal      relation, not relation, or variable = term
//   relation  r number ( term , .. term )
//   term      variable or number
//   variable  X number
//   number    decimal digits without leading zeros
//
// The limits of a rule:
// - The variables of the head are distinct, ascend, and each stands in a goal. There are at most 4.
// - A relation has at most 4 terms. Relations and variables are numbered 0 to 15. A number as a term is at most
//   4,294,967,295.
// - The packed query has at most 64 nodes and 16 constants.
//
// The packed query joins the goals by and, from the left. Around them it has an exists for each variable of the goals
// that is absent from the head, the highest number innermost. Constants stand once each, by first use. Nodes are
// numbered left subtree, right subtree, parent. The query's columns are the variables of the head; its rows are those
// for which some whole numbers for the other variables make every goal true.
//
// To ask it, put it after the widths and records of an input. Whether the widths suit its relations is judged there
// (cause 9).
//
// The place of a refusal is an offset in the text, which can be past 65,535. It is the first byte at which no rule can
// continue, whatever its limits; or the text's length, where the text ends early or is a rule past a limit.

// ---- The verdict ---------------------------------------------------------------------------------------------------
//
//   offset  bytes   what
//   0       1       1 where the query is safe-range, else 0
//   1       1       the number of columns, 0 to 4
//   2       4       the columns: the free variables of the query as read, ascending; zeros past their number
//   6       4 × 8   the generators of each column: a bit for each node of the form, node 0 the highest; 0 where it has
//                   none, and past the number of columns
//   38      2       the columns that aren't generated in the form: a bit for each variable, variable 0 the highest
//   40      8       the exists nodes of the form whose variable isn't generated in their child: bits as in generators
//   48      322     the form, packed as a query with the same constants; zeros after it
//
// A record generates the variables among its terms, an equality with a constant its variable. An and generates what
// either child does. Where neither child generates x, and one child is an equality of x and another variable y, the and
// generates x from where the other child generates y: x = y and 1(x) generates y from 1(x), as 1(x) and x = y does
// (document 02, Point 3). Its steps are tried in this order: the left child, the right child, an equality on the right,
// an equality on the left. An or generates what both children do, an exists what its child does but for its own
// variable. A node under a not is judged as denied (document 01); a denied node carries nothing over by an equality.
//
// A query is safe-range where the numbers at 38 and 40 are both 0. A column can be generated and have no generators:
// false generates every variable, from no node. The number at 38 tells.
#define PALMRUMMY_VERDICT 370
#define PALMRUMMY_VERDICT_SAFE 0
#define PALMRUMMY_VERDICT_COLUMNS 1
#define PALMRUMMY_VERDICT_VARIABLES 2
#define PALMRUMMY_VERDICT_GENERATORS 6
#define PALMRUMMY_VERDICT_UNGENERATED 38
#define PALMRUMMY_VERDICT_UNRANGED 40
#define PALMRUMMY_VERDICT_FORM 48

// How many bytes a packed query has, told from its header. Use it on the form of a verdict, or on a packed rule, whose
// headers are always right.
static inline size_t palmrummy_query_length(const uint8_t *query) {
    size_t header = (size_t)query[0] << 8 | query[1];
    return 2 + 4 * (header % 32) + 4 * (header / 32 % 128);
}

// ---- The answers ---------------------------------------------------------------------------------------------------
//
// The rows, one after the other, from the front of the lent output: for each column of the verdict the value of its
// variable, 4 bytes. Rows ascend strictly, by the first column, then by the second, and so on. Without columns a row
// has no bytes: the reply is 1 where the query is satisfied and 0 where not.
//
// The room is the output's length / 4 numbers, rounded down, however long the output is. An answer is refused 18 exactly
// where rows × columns exceed the room. An endless answer and one without columns need no room. The list program's room
// is 4,096 numbers: with an output of 16,384 bytes, 18 is returned for exactly the inputs that the list program refuses
// 18.

// The i-th number of an answer: with k columns, row r has the numbers k × r to k × r + k - 1.
static inline uint32_t palmrummy_value(const uint8_t *out, size_t i) {
    const uint8_t *b = out + 4 * i;
    return (uint32_t)b[0] << 24 | (uint32_t)b[1] << 16 | (uint32_t)b[2] << 8 | b[3];
}

// ---- The entries ---------------------------------------------------------------------------------------------------
//
// What is written and what is left:
// - The input and the text are only read, and nothing past their length.
// - A refusal leaves every byte of the lent output as it was. So does an endless answer.
// - A packed rule writes all 322 bytes of the lent query, zeros past the packed one, and leaves the lent place as it
//   was. A refused rule writes the place, and leaves the query as it was.
// - A verdict writes all 370 bytes.
// - An answer writes rows × columns × 4 bytes; the rest of the lent output is as it was.
// - The reply and what is written depend on the input or text and the output's length, never on what was in the output.
//
// What the caller must ensure:
// - Pointers must be non-null, even for length 0. Any alignment will do for bytes; a lent place is aligned as its type.
// - The output is writable, overlaps nothing of the input, and nobody else reads or writes it during the call. Nobody
//   writes the input during the call. The same holds of a lent query and place, which don't overlap, and of the text.
// - There is stack for the call: docs/ARCHITECTURE.md says how much.
//
// There is no other state: no global variables, no heap, no files. Calls may be made at once from any number of
// threads, also over the same input, each with an output of its own. Every call returns, whatever the bytes are; how
// long an answer takes depends on the query.

// The packed query of a rule, at the front of `query`; or the place of its refusal.
uint32_t palmrummy_rule(const uint8_t *text, size_t length, uint8_t query[PALMRUMMY_QUERY_MOST], uint64_t place[1]);

// The verdict on the query of a packed input.
uint32_t palmrummy_verdict(const uint8_t *input, size_t length, uint8_t out[PALMRUMMY_VERDICT]);

// The rows that satisfy the query of a packed input over its records, into the `room` bytes at `out`.
uint64_t palmrummy_answer(const uint8_t *input, size_t length, uint8_t *out, size_t room);

#ifdef __cplusplus
}
#endif

#endif
