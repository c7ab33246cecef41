// The list program over the host's entries: reads a packed input, and prints the lines that document 01's list program
// prints for it.
//
// Usage: menu_line [FILE]. Without a file it reads standard input. The exit status is 0 where the lines are printed,
// also that of a refusal; 1 where a file can't be read or the lines can't be written; 2 where the usage is another.
#define _POSIX_C_SOURCE 200809L
#include <errno.h>
#include <fcntl.h>
#include <inttypes.h>
#include <stdio.h>
#include <stdlib.h>
#include <string.h>
#include <unistd.h>

#include "palmrummy.h"

// One byte more than the longest input: the engine tells a longer one by its length.
static uint8_t input[PALMRUMMY_INPUT_MOST + 1];
static uint8_t verdict[PALMRUMMY_VERDICT];

// The list program's room: an answer is refused 18 where that program refuses it.
enum { NUMBERS = 4096 };
static uint8_t answer[4 * NUMBERS];

static int failed(const char *what) {
    fprintf(stderr, "menu_line: %s: %s\n", what, strerror(errno));
    return EXIT_FAILURE;
}

// Reads to the end of the file, or until the input is full: how many bytes, or -1 where a read fails. A read that brings
// fewer bytes than asked is followed by another, and one that a signal interrupts is made again.
static ssize_t read_input(int file) {
    size_t length = 0;
    while (length < sizeof input) {
        ssize_t got = read(file, input + length, sizeof input - length);
        if (got == 0) break;
        if (got < 0 && errno != EINTR) return -1;
        if (got > 0) length += (size_t)got;
    }
    return (ssize_t)length;
}

static void print_refusal(uint64_t reply) {
    printf("refused %" PRIu32 " %" PRIu32 "\n", palmrummy_refusal_number(reply), palmrummy_refusal_place(reply));
}

static void print_rows(uint64_t rows, size_t columns) {
    for (size_t r = 0; r < rows; r++) {
        fputs("row", stdout);
        for (size_t c = 0; c < columns; c++) printf(" %" PRIu32, palmrummy_value(answer, r * columns + c));
        putchar('\n');
    }
    printf("rows %" PRIu64 "\n", rows);
}

// The lines for an input of so many bytes. Nothing is printed before both replies are there: a refusal is one line.
static void print_lines(size_t length) {
    uint32_t judged = palmrummy_verdict(input, length, verdict);
    if (palmrummy_verdict_is_refused(judged)) {
        print_refusal(judged);
        return;
    }
    uint64_t found = palmrummy_answer(input, length, answer, sizeof answer);
    if (palmrummy_answer_is_refused(found)) {
        print_refusal(found);
        return;
    }
    size_t columns = verdict[PALMRUMMY_VERDICT_COLUMNS];
    puts(verdict[PALMRUMMY_VERDICT_SAFE] ? "safe" : "unsafe");
    fputs("columns", stdout);
    for (size_t c = 0; c < columns; c++) printf(" %d", verdict[PALMRUMMY_VERDICT_VARIABLES + c]);
    putchar('\n');
    if (palmrummy_answer_is_endless(found))
        puts("endless");
    else
        print_rows(found, columns);
}

int main(int count, char **words) {
    if (count > 2) {
        fputs("usage: menu_line [FILE]\n", stderr);
        return 2;
    }
    const char *name = count == 2 ? words[1] : "standard input";
    int file = count == 2 ? open(name, O_RDONLY) : STDIN_FILENO;
    if (file < 0) return failed(name);
    ssize_t length = read_input(file);
    if (length < 0) return failed(name);
    if (count == 2) close(file);
    print_lines((size_t)length);
    if (fflush(stdout) != 0 || ferror(stdout)) return failed("standard output");
    return EXIT_SUCCESS;
}
