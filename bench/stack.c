// The stack that an answer, a put and a removal use, on queries as deep as 64 nodes allow: the calls run on a painted stack, and what is no longer painted was
// used. With HOST defined, the stack that the host's entries use on the same queries and on a long rule.
//
// Usage: stack. It fails where more than the bounds of docs/ARCHITECTURE.md is used.
#define _GNU_SOURCE
#include <pthread.h>
#include <stdbool.h>
#include <stdint.h>
#include <stdio.h>
#include <stdlib.h>
#include <string.h>
#include <sys/mman.h>

#ifdef HOST
#include "palmrummy.h"
#else
extern uint64_t palmrummy_find(const uint8_t *widths, const uint8_t *relations, const uint32_t *values, size_t count, const uint8_t *bytes, size_t length,
                               bool wanted, uint32_t *out, size_t room);

extern uint64_t palmrummy_change(const uint8_t *widths, const uint8_t *relations, const uint32_t *values, size_t count, const uint8_t *variables,
                                 size_t columns, const uint32_t *rows, size_t held, bool endless, const uint64_t *counts, const uint8_t *bytes, size_t length,
                                 bool removal, uint8_t relation, const uint32_t *tuple, uint32_t *joined, size_t joined_room, uint32_t *left,
                                 size_t left_room);
#endif

enum { NODES = 64, STACK = 1 << 20, BOUND = 240 * 1024, CHANGE_BOUND = 320 * 1024, HOST_BOUND = 240 * 1024, VERDICT_BOUND = 48 * 1024, RULE_BOUND = 16 * 1024, ROOM = 4096, RECORDS = 2, NUMBERS = 2048 };

static uint8_t widths[16] = {0, 2}, relations[256] = {1, 1};
static uint32_t values[1024] = {0, 7, 0, 0, 7, 0, 0, 0};
static uint8_t bytes[2 + 4 * NODES];
static size_t length;
static size_t refused;

// An empty list of the query's columns, which are the variables free in it.
static uint8_t variables[4];
static size_t columns;

static void set_columns(uint32_t free_variables) {
    memset(variables, 0, sizeof variables);
    columns = 0;
    for (uint8_t x = 0; x < 16 && columns < sizeof variables; x++)
        if (free_variables >> x & 1) variables[columns++] = x;
}

static void put(size_t at, uint32_t word) {
    for (int i = 0; i < 4; i++) bytes[at + (size_t)i] = (uint8_t)(word >> (24 - 8 * i));
}

// A path of so many nodes above a record, by a pattern's letters in turn: n is a not, a and o an and and an or with a record of their own, e an exists that
// binds the first variable of the last record. Records have two variables, each the next one's first.
static void chain(const char *pattern, uint32_t nodes) {
    uint32_t n = 0, variable = 0, free_variables = 3;
    put(2, 1u << 29 | 1u << 25 | 2u << 22 | 0u << 17 | 1u << 12);
    for (size_t i = 0;; i++) {
        char kind = pattern[i % strlen(pattern)];
        bool two = kind == 'a' || kind == 'o';
        if (n + (two ? 2 : 1) >= nodes) break;
        uint32_t child = n++;
        if (two) {
            variable = (variable + 15) % 16;
            free_variables |= 1u << variable | 1u << (variable + 1) % 16;
            put(2 + 4 * (size_t)n, 1u << 29 | 1u << 25 | 2u << 22 | variable << 17 | (variable + 1) % 16 << 12);
            n++;
            put(2 + 4 * (size_t)n, (kind == 'a' ? 4u : 5u) << 29 | child << 23 | (n - 1) << 17);
        } else {
            if (kind == 'e') free_variables &= ~(1u << (variable + 1) % 16);
            put(2 + 4 * (size_t)n, kind == 'e' ? 6u << 29 | (variable + 1) % 16 << 25 | child << 19 : 3u << 29 | child << 23);
        }
    }
    uint32_t header = 1u << 12 | (n + 1) << 5;
    bytes[0] = (uint8_t)(header >> 8);
    bytes[1] = (uint8_t)header;
    length = 2 + 4 * ((size_t)n + 1);
    set_columns(free_variables);
}

#ifdef HOST
static uint8_t input[PALMRUMMY_INPUT_RECORDS + PALMRUMMY_RECORD * RECORDS + sizeof bytes], verdict[PALMRUMMY_VERDICT], answers[4 * ROOM];

// The widths, the records and the query as a packed input; its length.
static size_t packed(void) {
    size_t at = PALMRUMMY_INPUT_RECORDS;
    memset(input, 0, sizeof input);
    memcpy(input, widths, sizeof widths);
    input[PALMRUMMY_INPUT_COUNT + 1] = RECORDS;
    for (size_t r = 0; r < RECORDS; r++) {
        input[at++] = relations[r];
        for (size_t v = 0; v < 4; v++, at += 4) input[at + 3] = (uint8_t)values[4 * r + v];
    }
    memcpy(input + at, bytes, length);
    return at + length;
}

static void *answer(void *unused) {
    (void)unused;
    refused += palmrummy_answer_is_refused(palmrummy_answer(input, packed(), answers, sizeof answers));
    return NULL;
}

// A rule of 63 nodes and 16 constants, with a head of four variables.
static void *pack(void *unused) {
    static const char text[] = "q(X0,X1,X2,X3):-r1(X0,0,1,2),r2(X1,3,4,5),r3(X2,6,7,8),r4(X3,9,10,11),r5(X4,12,13,14),r6(X5,X6,X7,15),"
                               "r7(X8,X9,X10,X11),r8(X12,X13,X14,X15),not r9(X0),not r10(X1),not r11(X2),not r12(X3),X0 = X1,X2 = 0,r0(X0),r0(X1),r0(X2),r0(X3),"
                               "r0(X4),r0(X5),r0(X6),r0(X7),r0(X8),r0(X9).";
    static uint8_t query[PALMRUMMY_QUERY_MOST];
    static uint64_t place;
    (void)unused;
    refused += palmrummy_rule_is_refused(palmrummy_rule((const uint8_t *)text, sizeof text - 1, query, &place));
    return NULL;
}

static void *judge(void *unused) {
    (void)unused;
    refused += palmrummy_verdict_is_refused(palmrummy_verdict(input, packed(), verdict));
    return NULL;
}
#else
static uint32_t out[ROOM], out_too[ROOM], rows[NUMBERS];
static uint64_t counts[3];

static bool is_refusal(uint64_t reply) { return reply > UINT64_C(1) << 63; }

static void *answer(void *unused) {
    (void)unused;
    palmrummy_find(widths, relations, values, RECORDS, bytes, length, true, out, ROOM);
    refused += is_refusal(palmrummy_find(widths, relations, values, RECORDS, bytes, length, false, out, ROOM));
    return NULL;
}

// The last record removed, or another put past it.
static uint64_t changed(bool removal) {
    const uint32_t tuple[4] = {7, removal ? 0 : 7, 0, 0};
    return palmrummy_change(widths, relations, values, RECORDS, variables, columns, rows, 0, false, counts, bytes, length, removal, 1, tuple, out, ROOM,
                            out_too, ROOM);
}

static void *change(void *unused) {
    (void)unused;
    refused += is_refusal(changed(true));
    refused += is_refusal(changed(false));
    return NULL;
}
#endif

// The bytes of a painted stack that calls used.
static size_t used(void *(*call)(void *)) {
    uint8_t *stack = mmap(NULL, STACK, PROT_READ | PROT_WRITE, MAP_PRIVATE | MAP_ANONYMOUS, -1, 0);
    if (stack == MAP_FAILED) exit(2);
    memset(stack, 0xA5, STACK);
    pthread_attr_t attributes;
    pthread_t thread;
    pthread_attr_init(&attributes);
    pthread_attr_setstack(&attributes, stack, STACK);
    if (pthread_create(&thread, &attributes, call, NULL) != 0) exit(2);
    pthread_join(thread, NULL);
    size_t free_bytes = 0;
    while (free_bytes < STACK && stack[free_bytes] == 0xA5) free_bytes++;
    munmap(stack, STACK);
    return STACK - free_bytes;
}

int main(void) {
    static const char *patterns[] = {"n", "ae", "aen", "ane", "oe", "oen", "one", "aenn", "anene", "aeone", "naen", "aeaen"};
    size_t most = 0, most_too = 0;
    for (size_t p = 0; p < sizeof patterns / sizeof patterns[0]; p++)
        for (uint32_t nodes = 1; nodes <= NODES; nodes++) {
            chain(patterns[p], nodes);
#ifdef HOST
            size_t n = used(answer), m = used(judge);
#else
            size_t n = used(answer), m = used(change);
#endif
            if (n > most) most = n;
            if (m > most_too) most_too = m;
        }
#ifdef HOST
    const size_t bound = HOST_BOUND, bound_too = VERDICT_BOUND;
    const char *too = "a verdict";
#else
    const size_t bound = BOUND, bound_too = CHANGE_BOUND;
    const char *too = "a change";
#endif
    printf("stack: at most %zu bytes used by an answer (bound %zu), %zu by %s (bound %zu), with those of a thread's start; %zu refused\n", most, bound, most_too, too,
           bound_too, refused);
#ifdef HOST
    size_t rule = used(pack);
    printf("stack: %zu bytes used by a rule (bound %d); %zu refused\n", rule, RULE_BOUND, refused);
    if (rule > RULE_BOUND) return 1;
#endif
    return most > bound || most_too > bound_too || refused > 0;
}
