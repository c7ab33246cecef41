// The verdict on chains of equalities, through the host's entry: 1 to 31 equalities of x and y and one record joined by and. The equalities stand on the right
// of their ands, on the left, or on either side in turn. The record is 1(x), which generates both through the chain, or 1(z), which generates neither. An and
// asks a child for x, and then for y through an equality: of 1(z), where no step finds anything, the order taken word for word would ask 2^31 times. The sets
// of the pass before it tell the way, so that the search looks at no node twice.
//
// The verdict's input has no record. Beside it the same line is read only, from an input whose one record is faulty: the query is read first, and the input is
// then refused 13. So the ratio is what judging a line costs beside reading it. The time for each node tells whether a chain costs more for its length.
//
// Usage: verdicts. It fails where a line isn't judged as said above, with the record as the one generator; no time makes it fail.
#define _POSIX_C_SOURCE 200809L
#include <math.h>
#include <stdbool.h>
#include <stdio.h>
#include <string.h>

#include "palmrummy.h"
#include "timing.h"

enum { X = 0, Z = 2, LONGEST = 31, HEAD = PALMRUMMY_INPUT_RECORDS + PALMRUMMY_RECORD };

// ---- What is measured -------------------------------------------------------------------------------------------------------------------------------------

// A line in the input to judge, and in the one that is read only.
typedef struct {
    uint8_t input[HEAD + PALMRUMMY_QUERY_MOST], faulty[HEAD + PALMRUMMY_QUERY_MOST], verdict[PALMRUMMY_VERDICT];
    size_t input_length, faulty_length;
    uint32_t nodes[PALMRUMMY_NODES_MOST], node_count;
} Work;

static uint32_t judge(void *work) {
    Work *w = work;
    return palmrummy_verdict(w->input, w->input_length, w->verdict);
}

static uint32_t read_only(void *work) {
    Work *w = work;
    return palmrummy_verdict(w->faulty, w->faulty_length, w->verdict);
}

static uint32_t add(Work *w, uint32_t word) {
    w->nodes[w->node_count] = word;
    return w->node_count++;
}

static uint32_t add_and(Work *w, uint32_t left, uint32_t right) { return add(w, 4u << 29 | left << 23 | right << 17); }

// Whether equality i, the highest one first, stands on the left of its and.
typedef bool Side(int i);

static bool on_right(int i) { return i < 0; }

static bool on_left(int i) { return i >= 0; }

static bool in_turn(int i) { return i % 2 == 0; }

// The chain from equality i on above the record of a variable, and its root's number. The record's number goes to *record.
static uint32_t chain(Work *w, Side *is_left, int i, int length, uint32_t variable, uint32_t *record) {
    const uint32_t equality = 2u << 29 | 1u << 20;  // x = y
    if (i == length) return *record = add(w, 1u << 29 | 1u << 25 | 1u << 22 | variable << 17);
    if (is_left(i)) {
        uint32_t left = add(w, equality);
        return add_and(w, left, chain(w, is_left, i + 1, length, variable, record));
    }
    uint32_t left = chain(w, is_left, i + 1, length, variable, record);
    return add_and(w, left, add(w, equality));
}

static void put_number(uint8_t *at, uint32_t number, int bytes) {
    for (int i = 0; i < bytes; i++) at[i] = (uint8_t)(number >> 8 * (bytes - 1 - i));
}

// Both inputs of the nodes. Relation 1 has one column; the faulty record is of relation 16, which there is not.
static void set_inputs(Work *w) {
    uint8_t query[PALMRUMMY_QUERY_MOST];
    size_t length = 2 + 4 * (size_t)w->node_count;
    put_number(query, 1u << 12 | w->node_count << 5, 2);
    for (uint32_t i = 0; i < w->node_count; i++) put_number(query + 2 + 4 * i, w->nodes[i], 4);
    memset(w->input, 0, sizeof w->input);
    w->input[1] = 1;
    memcpy(w->faulty, w->input, sizeof w->faulty);
    memcpy(w->input + PALMRUMMY_INPUT_RECORDS, query, length);
    w->input_length = PALMRUMMY_INPUT_RECORDS + length;
    w->faulty[PALMRUMMY_INPUT_COUNT + 1] = 1;
    w->faulty[PALMRUMMY_INPUT_RECORDS] = PALMRUMMY_RELATIONS;
    memcpy(w->faulty + HEAD, query, length);
    w->faulty_length = HEAD + length;
}

// ---- The report -------------------------------------------------------------------------------------------------------------------------------------------

// Whether both inputs are answered as they should be: a record of x generates x and y, one of z itself alone.
static bool is_right(Work *w, uint32_t variable, uint32_t record) {
    uint32_t reply = read_only(w);
    bool read = palmrummy_verdict_is_refused(reply) && palmrummy_refusal_number(reply) == PALMRUMMY_CAUSE_RECORD;
    uint8_t generators[3 * 8] = {0}, bit = (uint8_t)(128 >> record % 8), ungenerated = variable == X ? 0 : 0xc0;
    for (uint32_t c = 0; c < 3; c++)
        if (variable == X ? c < 2 : c == variable) generators[8 * c + record / 8] = bit;
    bool judged = !palmrummy_verdict_is_refused(judge(w)) && w->verdict[PALMRUMMY_VERDICT_SAFE] == (variable == X);
    judged = judged && memcmp(w->verdict + PALMRUMMY_VERDICT_GENERATORS, generators, sizeof generators) == 0;
    return read && judged && w->verdict[PALMRUMMY_VERDICT_UNGENERATED] == ungenerated;
}

// The longest time is put into *longest; false where a verdict isn't right.
static bool report_chains(const char *name, Side *is_left, uint32_t variable, double *longest) {
    bool well = true;
    for (int length = 1; length <= LONGEST; length = 2 * length + 1) {
        static Work w;
        uint32_t record;
        w.node_count = 0;
        chain(&w, is_left, 0, length, variable, &record);
        set_inputs(&w);
        bool right = is_right(&w, variable, record);
        double judging, reading;
        timed(&w, judge, read_only, &judging, &reading);
        printf("  %-14s %-8s %8d %6u %12.1f %10.1f %8.2f %10.1f%s\n", name, variable == X ? "1(x)" : "1(z)", length, (unsigned)w.node_count, 1e9 * judging, 1e9 * reading, judging / reading,
               1e9 * judging / w.node_count, right ? "" : "  NOT RIGHT");
        *longest = fmax(*longest, judging);
        well = well && right;
    }
    return well;
}

int main(void) {
    double longest = 0;
    bool well = true;
    printf("  %-14s %-8s %8s %6s %12s %10s %8s %10s\n", "equalities", "record", "how many", "nodes", "judged ns", "read ns", "ratio", "ns a node");
    for (uint32_t variable = X; variable <= Z; variable += Z) {
        well = report_chains("on the right", on_right, variable, &longest) && well;
        well = report_chains("on the left", on_left, variable, &longest) && well;
        well = report_chains("in turn", in_turn, variable, &longest) && well;
    }
    printf("Chains of up to %d equalities: at most %.1f microseconds.\n", LONGEST, 1e6 * longest);
    return well ? 0 : 1;
}
