// Rule text beside packed queries, through the host's entries.
//
// A rule is packed by palmrummy_rule. The same line packed is read by palmrummy_verdict, from an input whose only record is faulty: the query is read first,
// and the input is then refused 13, before anything is judged of the query. So the second time is that of reading a packed line, and the ratio says what text
// costs beside it. Both are small beside finding rows.
//
// Then one text of the grammar that is past the limits, of 8 KB, is read to its end and refused there: its time is told in MB a second, and in times of a loop
// that adds up the same bytes, each by way of a table.
//
// Usage: rules FILE.. with a rule each, whose last line feed is left out. It fails where a rule is refused, or the long text isn't refused at its end; no time
// makes it fail.
#define _POSIX_C_SOURCE 200809L
#include <math.h>
#include <stdio.h>
#include <stdlib.h>
#include <string.h>

#include "palmrummy.h"
#include "timing.h"

enum { LONG = 8192, HEAD = PALMRUMMY_INPUT_RECORDS + PALMRUMMY_RECORD };

static void die(const char *what, const char *which) {
    fprintf(stderr, "rules: %s: %s\n", which, what);
    exit(2);
}

// ---- What is measured -------------------------------------------------------------------------------------------------------------------------------------

// A rule, and an input with the same line packed.
typedef struct {
    uint8_t text[LONG], input[HEAD + PALMRUMMY_QUERY_MOST], query[PALMRUMMY_QUERY_MOST], verdict[PALMRUMMY_VERDICT];
    size_t text_length, input_length;
    uint64_t place, sum;
} Work;

static uint32_t pack_rule(void *work) {
    Work *w = work;
    return palmrummy_rule(w->text, w->text_length, w->query, &w->place);
}

static uint32_t read_packed(void *work) {
    Work *w = work;
    return palmrummy_verdict(w->input, w->input_length, w->verdict);
}

static uint32_t add_up(void *work) {
    Work *w = work;
    static const uint8_t table[256] = {['0'] = 1, ['X'] = 2, ['r'] = 3, [','] = 4, ['('] = 5, [')'] = 6};
    uint64_t sum = w->sum;
    for (size_t i = 0; i < w->text_length; i++) sum = sum * 31 + table[w->text[i]];
    w->sum = sum;
    return (uint32_t)sum;
}

// The input of a packed query: each relation is as wide as its nodes have terms, and one record is of relation 16, which there is not.
static void set_input(Work *w, size_t length) {
    memset(w->input, 0, sizeof w->input);
    const uint8_t *end = w->query + length;
    for (const uint8_t *at = w->query + 2 + 4 * (w->query[1] % 32); at < end; at += 4) {
        uint32_t node = palmrummy_value(at, 0);
        if (node >> 29 == 1) w->input[node >> 25 & 15] = (uint8_t)(node >> 22 & 7);
    }
    w->input[PALMRUMMY_INPUT_COUNT + 1] = 1;
    w->input[PALMRUMMY_INPUT_RECORDS] = PALMRUMMY_RELATIONS;
    memcpy(w->input + HEAD, w->query, length);
    w->input_length = HEAD + length;
}

// ---- The report -------------------------------------------------------------------------------------------------------------------------------------------

static void read_text(Work *w, const char *name) {
    FILE *file = fopen(name, "rb");
    if (!file) die("can't be read", name);
    w->text_length = fread(w->text, 1, sizeof w->text, file);
    if (ferror(file) || w->text_length == sizeof w->text) die("can't be read, or is too long", name);
    fclose(file);
    if (w->text_length > 0 && w->text[w->text_length - 1] == '\n') w->text_length--;
}

// Adds the logarithm of the ratio of both times; false where the rule is refused.
static bool report_rule(const char *name, double *logarithms) {
    static Work w;
    read_text(&w, name);
    const char *folder = strrchr(name, '/');
    uint32_t length = pack_rule(&w);
    if (palmrummy_rule_is_refused(length)) {
        printf("  %-32s refused 20 %llu\n", folder ? folder + 1 : name, (unsigned long long)w.place);
        return false;
    }
    set_input(&w, length);
    uint32_t reply = read_packed(&w);
    bool right = palmrummy_verdict_is_refused(reply) && palmrummy_refusal_number(reply) == PALMRUMMY_CAUSE_RECORD;
    double text, packed;
    timed(&w, pack_rule, read_packed, &text, &packed);
    printf("  %-32s %6zu %6u %10.1f %10.1f %8.2f%s\n", folder ? folder + 1 : name, w.text_length, (unsigned)length, 1e9 * text, 1e9 * packed, text / packed,
           right ? "" : "  NOT READ");
    *logarithms += log(text / packed);
    return right;
}

// As many goals as there is room for; the first has what is left over in the digits of its number.
static void set_long_text(Work *w) {
    static const char start[] = "q(X0):-r3(X0,", goal[] = "),not r3(X0,17),X0 = X1,r3(X12,4294967295", end[] = ").";
    size_t goals = (LONG - sizeof start - sizeof end) / (sizeof goal - 1), at = sizeof start - 1;
    size_t digits = LONG - (sizeof start - 1) - (sizeof end - 1) - goals * (sizeof goal - 1);
    memcpy(w->text, start, at);
    memset(w->text + at, '7', digits);
    at += digits;
    for (size_t i = 0; i < goals; i++, at += sizeof goal - 1) memcpy(w->text + at, goal, sizeof goal - 1);
    memcpy(w->text + at, end, sizeof end - 1);
    w->text_length = LONG;
}

static bool report_long_text(void) {
    static Work w;
    set_long_text(&w);
    bool right = palmrummy_rule_is_refused(pack_rule(&w)) && w.place == LONG;
    double text, loop;
    timed(&w, pack_rule, add_up, &text, &loop);
    printf("A text of %d bytes, past the limits: %.0f MB/s, %.2f times a loop over its bytes%s.\n", LONG, 1e-6 * LONG / text, text / loop,
           right ? "" : "; it is NOT REFUSED at its end");
    return right;
}

int main(int argc, char **argv) {
    if (argc < 2) die("no rule is named", "usage: rules FILE..");
    double logarithms = 0;
    bool well = true;
    printf("  %-32s %6s %6s %10s %10s %8s\n", "rule", "bytes", "packed", "text ns", "packed ns", "ratio");
    for (int i = 1; i < argc; i++) well &= report_rule(argv[i], &logarithms);
    printf("  %d rules: geometric mean %.2f times reading the line packed\n\n", argc - 1, exp(logarithms / (argc - 1)));
    return report_long_text() && well ? 0 : 1;
}
