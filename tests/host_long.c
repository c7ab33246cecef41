// Long answers of the host's entry: all rows of 1(x), of 1(x) and 1(y), and of 1(x) and 1(y) and 1(z) over so many
// records of one column, up to some hundred thousand numbers. The rows are worked out here, one by one, and compared
// with those written; with a byte too few the answer is refused 18, and no byte of the output is altered.
//
// Usage: host_long [MOST]. Only answers of at most so many numbers are tried. The exit status is 1 where a check fails.
#include <errno.h>
#include <inttypes.h>
#include <stdio.h>
#include <stdlib.h>
#include <string.h>

#include "palmrummy.h"

enum { GUARD = 64, SPARE = 4096, MOST = 400000, FILL = 0x5A };

static uint8_t input[PALMRUMMY_INPUT_MOST];
static uint8_t memory[GUARD + 4 * MOST + SPARE + GUARD];
static uint64_t calls, failed;

static size_t put(size_t at, uint64_t number, size_t size) {
    for (size_t i = 0; i < size; i++) input[at + i] = (uint8_t)(number >> 8 * (size - 1 - i));
    return at + size;
}

// The values of the records, ascending: their bytes differ from each other.
static uint32_t value(size_t i) { return (uint32_t)(i * 16777259 + 5); }

// Record n-1 first, then the others from record 0 on; and a conjunction of a record node for each column.
static size_t make_input(size_t records, size_t columns) {
    memset(input, 0, sizeof input);
    input[1] = 1;
    size_t at = put(PALMRUMMY_INPUT_COUNT, records, 2);
    for (size_t i = 0; i < records; i++) {
        at = put(at, 1, 1);
        at = put(at, value((i + records - 1) % records), 4) + 12;
    }
    uint32_t nodes[2 * PALMRUMMY_COLUMNS_MOST], count = 0;
    for (uint32_t x = 0; x < columns; x++) {
        nodes[count++] = 1u << 29 | 1u << 25 | 1u << 22 | x << 17;
        if (x > 0) nodes[count] = 4u << 29 | (count - 2) << 23 | (count - 1) << 17, count++;
    }
    at = put(at, 1u << 12 | count << 5, 2);
    for (uint32_t i = 0; i < count; i++) at = put(at, nodes[i], 4);
    return at;
}

// Whether the memory lent is as filled, but for the first bytes of the output.
static bool is_left(size_t room, size_t written) {
    for (size_t i = 0; i < GUARD; i++)
        if (memory[i] != FILL) return false;
    for (size_t i = GUARD + written; i < GUARD + room + GUARD; i++)
        if (memory[i] != FILL) return false;
    return true;
}

// Column c of row r: the rows count up, as numbers whose digits are the records, the last column the fastest.
static uint32_t wanted(uint64_t r, size_t c, size_t records, size_t columns) {
    for (size_t d = c + 1; d < columns; d++) r /= records;
    return value((size_t)(r % records));
}

static const char *fault(size_t length, size_t records, size_t columns, uint64_t rows, size_t room) {
    memset(memory, FILL, GUARD + room + GUARD);
    uint64_t reply = palmrummy_answer(input, length, memory + GUARD, room);
    calls++;
    if (rows * columns > room / 4) {
        if (reply != PALMRUMMY_ENDLESS + 256 * PALMRUMMY_CAUSE_ROOM) return "not refused 18";
        return is_left(room, 0) ? NULL : "refused, and bytes altered";
    }
    if (reply != rows) return "another number of rows";
    if (!is_left(room, (size_t)(4 * rows * columns))) return "bytes past the rows altered";
    for (uint64_t r = 0; r < rows; r++)
        for (size_t c = 0; c < columns; c++)
            if (palmrummy_value(memory + GUARD, (size_t)(r * columns + c)) != wanted(r, c, records, columns))
                return "another row";
    return NULL;
}

static void try_answer(size_t records, size_t columns, uint64_t most) {
    uint64_t rows = 1;
    for (size_t c = 0; c < columns; c++) rows *= records;
    if (rows * columns > most) return;
    size_t length = make_input(records, columns), need = (size_t)(4 * rows * columns);
    const size_t rooms[] = {need,         need - 1, need - 3, need - 4, need / 2, 0, need + 1, need + 2, need + 3,
                            need + SPARE};
    for (size_t i = 0; i < sizeof rooms / sizeof rooms[0]; i++) {
        const char *what = fault(length, records, columns, rows, rooms[i]);
        if (what == NULL) continue;
        printf("host long: %zu records, %zu columns, %zu bytes: %s\n", records, columns, rooms[i], what);
        failed++;
    }
}

static void end_with_usage(FILE *to, int status) {
    fputs("usage: host_long [MOST]\n", to);
    exit(status);
}

static uint64_t word_or(int count, char **words, int i, uint64_t otherwise) {
    if (i >= count) return otherwise;
    char *end;
    errno = 0;
    uint64_t number = strtoull(words[i], &end, 10);
    if (*words[i] < '0' || *words[i] > '9' || *end != '\0' || errno != 0) end_with_usage(stderr, 2);
    return number;
}

int main(int count, char **words) {
    if (count == 2 && strcmp(words[1], "--help") == 0) end_with_usage(stdout, 0);
    if (count > 2) end_with_usage(stderr, 2);
    // Numbers on both sides of 2,048, 4,096, 8,192 and 65,536; and many more.
    static const size_t cases[][2] = {{256, 1}, {31, 2},  {32, 2}, {33, 2}, {45, 2}, {46, 2}, {64, 2}, {65, 2},
                                      {100, 2}, {181, 2}, {182, 2}, {256, 2}, {8, 3}, {9, 3},  {11, 3}, {12, 3},
                                      {27, 3},  {28, 3},  {40, 3},  {5, 4},   {6, 4}, {8, 4},  {11, 4}, {12, 4}};
    uint64_t most = word_or(count, words, 1, MOST);
    for (size_t i = 0; i < sizeof cases / sizeof cases[0]; i++)
        try_answer(cases[i][0], cases[i][1], most < MOST ? most : MOST);
    printf("host long: %" PRIu64 " calls, %" PRIu64 " failed\n", calls, failed);
    return failed > 0;
}
