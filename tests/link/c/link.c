/* Calls every function of the header, and holds its answers to documents 01 and 02. */
#include "link.h"

#include <inttypes.h>
#include <stdio.h>
#include <string.h>

uint32_t log_words[WORDS];
const uint32_t zeros[WORDS];
uint32_t ones[WORDS];
struct qspi_counts counts;

/* Checks of the running test that do not hold. */
static unsigned faults;

void check(bool holds, const char *what, const char *file, int line) {
    if (!holds) {
        faults++;
        printf("%s:%d: not so: %s\n", file, line, what);
        printf("    counts: %" PRIu64 " %" PRIu64 " %" PRIu64 " %" PRIu64 "\n", counts.entries, counts.taken,
               counts.polls, counts.longest);
    }
}

void lend(void) {
    for (size_t i = 0; i < WORDS; i++) {
        log_words[i] = UNTOUCHED;
        ones[i] = 1;
    }
    memset(&counts, UNTOUCHED_BYTE, sizeof counts);
}

bool call_ended(uint32_t number, uint32_t expected, uint64_t entries, uint64_t taken, uint64_t polls,
                uint64_t longest) {
    if (number != expected || counts.entries != entries || counts.taken != taken || counts.polls != polls ||
        counts.longest != longest) {
        return false;
    }
    for (size_t i = 2 * (size_t)entries; i < WORDS; i++) {
        if (log_words[i] != UNTOUCHED) {
            return false;
        }
    }
    return true;
}

struct values values(enum qspi_op op, uint32_t place) {
    struct values found = {0, 0};
    for (size_t i = 0; i < counts.entries && i < WORDS / 2; i++) {
        uint32_t first = log_words[2 * i];
        if (QSPI_OP(first) == (uint32_t)op && QSPI_PLACE(first) == place) {
            found.together |= log_words[2 * i + 1];
            found.count++;
        }
    }
    return found;
}

static void (*const tests[])(void) = {
    test_clock,       test_dummies,     test_limit,          test_open,     test_open_flags,     test_open_refused,
    test_core_rate,   test_no_clock,    test_bus_rates,      test_free,     test_flush,          test_mode,
    test_write,       test_read,        test_transfer,       test_in_place, test_quad_read,      test_quad_write,
    test_too_long,    test_transaction, test_chains_refused, test_delays,   test_delays_refused, test_sheet,
    test_sheet_delay, test_no_sheets,
};

int main(void) {
    const size_t count = sizeof tests / sizeof *tests;
    size_t failed = 0;
    for (size_t i = 0; i < count; i++) {
        faults = 0;
        lend();
        tests[i]();
        failed += faults > 0;
    }
    printf("%zu passed, %zu failed\n", count - failed, failed);
    return failed > 0;
}
