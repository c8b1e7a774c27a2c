// What a C++ program does with the library: opens a bus, and delays by its core rate; a bus is refused where its core
// rate is 0 or no module clock is eligible. The header is included twice.
#include "qspi.h"

#include <cstdio>

#include "qspi.h"

static const uint32_t zeros[20] = {};
static uint32_t log_words[60];
static qspi_counts counts;
static int faults = 0;

// P1's PLL, those of which no module clock is eligible, and a core rate.
static const uint32_t p1_pll = 1200000000u, no_clock[] = {0, 3200000032u, UINT32_MAX};
static const uint32_t core = 1000000001u;

static void check(bool holds, const char *what) {
    if (!holds) {
        std::printf("not so: %s\n", what);
        faults = 1;
    }
}

// Opens instance 0 for P1's target. Gives the number.
static uint32_t opened(uint32_t pll_hz, uint32_t core_hz, uint32_t limit, uint32_t *sck_hz) {
    counts = {7, 7, 7, 7};
    *sck_hz = 7;
    return qspi_open(limit, log_words, 60, zeros, 20, 0, false, pll_hz, 24000000u, core_hz, 10000000u, false, false,
                     true, QSPI_STANDARD, false, false, true, true, false, false, sck_hz, &counts);
}

// One delay on a memory of no bytes. Gives the number.
static uint32_t delayed(uint32_t core_hz, uint32_t ns) {
    const uint32_t words[QSPI_RECORD_WORDS] = {QSPI_KIND_DELAY, ns};
    uint8_t memory[1] = {};
    return qspi_transaction(1, core_hz, log_words, 60, zeros, 0, memory, 0, words, QSPI_RECORD_WORDS, &counts);
}

// Whether the log begins with a delay of so many cycles.
static bool logged(uint32_t cycles) {
    return QSPI_OP(log_words[0]) == QSPI_DELAY && QSPI_PLACE(log_words[0]) == 0 && log_words[1] == cycles;
}

// Whether an opening of this rate was refused: its counts are 0, and the log is as the longest delay left it.
static bool refused(uint32_t sck_hz) {
    return sck_hz == 0 && counts.entries == 0 && counts.taken == 0 && counts.polls == 0 && counts.longest == 0 &&
           logged(UINT32_MAX);
}

int main() {
    uint32_t sck_hz = 0, mod_div = 7, kind = 7, count = 7;
    check(qspi_default_limit() == 100000, "the limit");
    check(opened(p1_pll, core, 1, &sck_hz) == QSPI_DONE && sck_hz == 10000000u, "an opening");
    check(counts.entries == 30 && counts.taken == 13, "the counts of an opening");
    check(opened(1, core, 1, &sck_hz) == QSPI_DONE && sck_hz == 1, "an opening from 1 Hz");
    check(opened(3200000031u, core, 1, &sck_hz) == QSPI_DONE && sck_hz == 10000000u, "the highest PLL that opens");
    check(delayed(core, 1) == QSPI_DONE && counts.entries == 1 && logged(2), "1 ns at 10^9 + 1 Hz");
    check(delayed(core, 4294967290u) == QSPI_DONE && logged(UINT32_MAX), "FFFFFFFF hex cycles");
    check(delayed(core, 4294967291u) == QSPI_CYCLES && counts.entries == 0 && logged(UINT32_MAX), "one more");
    check(opened(p1_pll, 0, 1, &sck_hz) == QSPI_CYCLES && refused(sck_hz), "an opening at core rate 0");
    for (uint32_t pll_hz : no_clock) {
        check(opened(pll_hz, core, 1, &sck_hz) == QSPI_NO_CLOCK && refused(sck_hz), "an opening without a clock");
        check(opened(pll_hz, core, 0, &sck_hz) == QSPI_NO_CLOCK && refused(sck_hz), "23 before 7");
        check(opened(pll_hz, 0, 1, &sck_hz) == QSPI_CYCLES && refused(sck_hz), "14 before 23");
        qspi_select_clock(pll_hz, 10000000u, &mod_div, &kind, &count);
        check(mod_div == 0 && kind == QSPI_CDR1 && count == 0, "the choice of a clock alone");
    }
    return faults;
}
