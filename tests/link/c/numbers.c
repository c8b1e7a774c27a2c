/* The functions on numbers alone. */
#include "link.h"

struct clock {
    uint32_t pll, target, mod_div, kind, count, rate;
};

/* P1 to P6. */
static const struct clock clocks[] = {
    {1200000000u, 10000000u, 11, QSPI_CDR2, 4, 10000000u},
    {24000000u, 10000000u, 2, QSPI_CDR1, 0, 8000000u},
    {100000000u, 50000000u, 0, QSPI_CDR1, 1, 50000000u},
    {3200000031u, 100000000u, 31, QSPI_CDR1, 0, 100000000u},
    {3200000032u, 100000000u, 0, QSPI_CDR1, 0, 3200000032u},
    {0, 10000000u, 0, QSPI_CDR1, 0, 0},
};

/* No dividers: module divider, kind, count. */
static const uint32_t no_dividers[][3] = {
    {32, QSPI_CDR1, 0}, {0, QSPI_CDR1, 16}, {0, QSPI_CDR2, 256}, {0, 0, 0}, {0, 3, 0}, {UINT32_MAX, QSPI_CDR2, 1},
};

void test_clock(void) {
    uint32_t m, kind, count, rate;
    for (size_t i = 0; i < sizeof clocks / sizeof *clocks; i++) {
        const struct clock *c = &clocks[i];
        m = kind = count = rate = UINT32_MAX;
        qspi_select_clock(c->pll, c->target, &m, &kind, &count);
        CHECK(m == c->mod_div && kind == c->kind && count == c->count);
        CHECK(qspi_actual_sck(c->pll, m, kind, count, &rate) == QSPI_DONE && rate == c->rate);
    }
    for (size_t i = 0; i < sizeof no_dividers / sizeof *no_dividers; i++) {
        const uint32_t *d = no_dividers[i];
        rate = UINT32_MAX;
        CHECK(qspi_actual_sck(1000000, d[0], d[1], d[2], &rate) == QSPI_DIVIDER && rate == 0);
    }
    CHECK(qspi_actual_sck(UINT32_MAX, 31, QSPI_CDR2, 255, &rate) == QSPI_DONE && rate == 262143);
}

/* P7 to P10, and the largest margin. */
void test_dummies(void) {
    CHECK(qspi_dummy_bytes_for(100000000u, 80, 0) == 1);
    CHECK(qspi_dummy_bytes_for(100000000u, 81, 0) == 2);
    CHECK(qspi_dummy_bytes_for(100000000u, 20480, 0) == 1);
    CHECK(qspi_dummy_bytes_for(100000000u, 20480, 3) == 3);
    CHECK(qspi_dummy_bytes_for(100000000u, 20400, 1) == 255);
    CHECK(qspi_dummy_bytes_for(100000000u, 0, 255) == 255);
    CHECK(qspi_dummy_bytes_for(0, 0, 0) == 0);
}

void test_limit(void) {
    CHECK(qspi_default_limit() == 100000);
}
