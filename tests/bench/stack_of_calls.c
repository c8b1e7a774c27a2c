/*
 * Prints how many bytes of stack the library's calls take: the deepest byte that a call changes of a stack of its own.
 * With --check it prints nothing, and fails unless a transfer in place takes less than a part's 256 bytes more than a
 * read.
 */
#define _GNU_SOURCE
#include "qspi.h"

#include <stdio.h>
#include <stdlib.h>
#include <string.h>
#include <ucontext.h>

enum { BYTES = 4096, WORDS = 65536, STACK = 65536, PAINT = 0xA5, PART = 256 };

static uint32_t log_words[WORDS], answers[WORDS];
static uint8_t bytes[BYTES], command[4];
static struct qspi_counts counts;
static uint32_t number;
static ucontext_t here, there;
static _Alignas(64) uint8_t stack[STACK];

#define LENT 3, log_words, WORDS, answers, WORDS

static void nothing(void) { number = QSPI_DONE; }
static void write_call(void) { number = qspi_write(LENT, bytes, BYTES, &counts); }
static void read_call(void) { number = qspi_read(LENT, bytes, BYTES, &counts); }
static void transfer_call(void) { number = qspi_transfer(LENT, bytes, BYTES, command, sizeof command, &counts); }
static void in_place_call(void) { number = qspi_transfer_in_place(LENT, bytes, BYTES, &counts); }
static void flush_call(void) { number = qspi_flush(LENT, &counts); }
static void mode_call(void) { number = qspi_set_work_mode(LENT, true, QSPI_QUAD, &counts); }
static void quad_read_call(void) {
    number = qspi_read_quad(LENT, 0, command, sizeof command, 0, 0, bytes, BYTES, &counts);
}
static void quad_write_call(void) { number = qspi_write_quad(LENT, command, sizeof command, bytes, BYTES, &counts); }

static void fail(const char *why) {
    fprintf(stderr, "error: %s\n", why);
    exit(1);
}

/* The bytes that are changed of the stack that a call is given. */
static size_t changed(void (*call)(void)) {
    memset(stack, PAINT, sizeof stack);
    if (getcontext(&there) != 0) {
        fail("no context");
    }
    there.uc_stack.ss_sp = stack;
    there.uc_stack.ss_size = sizeof stack;
    there.uc_link = &here;
    makecontext(&there, call, 0);
    if (swapcontext(&here, &there) != 0) {
        fail("no context");
    }
    size_t untouched = 0;
    while (untouched < sizeof stack && stack[untouched] == PAINT) {
        untouched++;
    }
    return sizeof stack - untouched;
}

/* Those of the call itself. Its functions are bound by a first call, which is not measured. */
static size_t taken(void (*call)(void)) {
    call();
    size_t all = changed(call);
    if (number != QSPI_DONE) {
        fail("a call was not done");
    }
    return all - changed(nothing);
}

static void row(const char *name, void (*call)(void)) { printf("| %s | %zu |\n", name, taken(call)); }

int main(int argc, char **argv) {
    /* Ready for every wait, with one byte received. */
    for (size_t i = 0; i < WORDS; i++) {
        answers[i] = 1;
    }
    if (argc == 2 && strcmp(argv[1], "--check") == 0) {
        return taken(in_place_call) < taken(read_call) + PART ? 0 : 1;
    }
    if (argc > 1) {
        fprintf(stderr, "error: --check is the only option\n");
        return 2;
    }
    printf("| call | stack, bytes |\n|---|---|\n");
    row("write", write_call);
    row("read", read_call);
    row("transfer", transfer_call);
    row("transfer in place", in_place_call);
    row("quad read", quad_read_call);
    row("quad write", quad_write_call);
    row("flush", flush_call);
    row("mode Quad", mode_call);
    return 0;
}
