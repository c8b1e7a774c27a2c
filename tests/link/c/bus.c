/* Opening and release, flush and work mode. */
#include "link.h"

#include <string.h>

/* What an opening is asked for. */
struct opening {
    uint32_t instance;
    bool qpi, idle_high, second_transition, master, bit_mode, lsb_first, cs, cs_idle_high, cs_high, cs_1;
    uint32_t work_mode;
};

static uint32_t rate;

/* The rates that it is told. */
struct rates {
    uint32_t pll_hz, core_hz, freq;
};

static const struct rates p1 = {1200000000u, CORE_HZ, 10000000u};

/* Opens at these rates, on as many zero answers. */
static uint32_t opened_at(const struct rates *at, uint32_t limit, size_t log_len, size_t answers_len,
                          const struct opening *o) {
    lend();
    rate = UINT32_MAX;
    return qspi_open(limit, log_words, log_len, zeros, answers_len, o->instance, o->qpi, at->pll_hz, 24000000u,
                     at->core_hz, at->freq, o->idle_high, o->second_transition, o->master, o->work_mode, o->bit_mode,
                     o->lsb_first, o->cs, o->cs_idle_high, o->cs_high, o->cs_1, &rate, &counts);
}

/* Opens with P1's clock. */
static uint32_t opened(uint32_t limit, size_t log_len, size_t answers_len, const struct opening *o) {
    return opened_at(&p1, limit, log_len, answers_len, o);
}

/* Opens from a PLL rate and at a core rate, for P1's target. */
static uint32_t opened_from(uint32_t pll_hz, uint32_t core_hz, uint32_t limit, const struct opening *o) {
    const struct rates at = {pll_hz, core_hz, p1.freq};
    return opened_at(&at, limit, WORDS, WORDS, o);
}

void test_open(void) {
    struct opening plain = {.instance = 2, .cs = true};
    ENDED(opened(1, WORDS, WORDS, &plain), QSPI_DONE, 30, 13, 0, 0);
    CHECK(rate == 10000000);
    CHECK(values(QSPI_WRITE, QSPI_MODULE_CLOCK + 2).together == 0x310B);
    CHECK(values(QSPI_WRITE, 0x024).together == 0x1004);
    CHECK(values(QSPI_WRITE, 0x014).together == 0xFFFFFFFF);
    CHECK(values(QSPI_DELAY, 0).count == 4);
    /* Cut at the last entry, and before the last change: no rate. */
    ENDED(opened(1, 59, WORDS, &plain), QSPI_LOG, 29, 13, 0, 0);
    CHECK(rate == 0);
    ENDED(opened(1, WORDS, 12, &plain), QSPI_ANSWERS, 28, 12, 0, 0);
    CHECK(rate == 0);
    /* Without a chip-select record there is one change less. */
    struct opening without = {.instance = 2};
    ENDED(opened(1, WORDS, WORDS, &without), QSPI_DONE, 28, 12, 0, 0);
}

/* All that an opening writes at a place. */
static uint32_t written(uint32_t place, struct opening o) {
    CHECK(opened(1, WORDS, WORDS, &o) == QSPI_DONE);
    return values(QSPI_WRITE, place).together;
}

/* Each flag arrives as itself: of what is written on zero answers, it sets or clears exactly its own bits. */
void test_open_flags(void) {
    uint32_t plain = written(0x008, (struct opening){.cs = true});
    CHECK((written(0x008, (struct opening){.cs = false}) ^ plain) == 1u << 6);
    CHECK((written(0x008, (struct opening){.cs = true, .idle_high = true}) ^ plain) == 1u << 1);
    CHECK((written(0x008, (struct opening){.cs = true, .lsb_first = true}) ^ plain) == 1u << 12);
    CHECK((written(0x008, (struct opening){.cs = true, .cs_idle_high = true}) ^ plain) == 1u << 2);
    CHECK((written(0x008, (struct opening){.cs = true, .cs_high = true}) ^ plain) == 1u << 7);
    CHECK((written(0x008, (struct opening){.cs = true, .cs_1 = true}) ^ plain) == 1u << 4);
    CHECK(written(0x008, (struct opening){.cs = false, .cs_idle_high = true, .cs_high = true, .cs_1 = true}) ==
          written(0x008, (struct opening){.cs = false}));
    CHECK(!(written(0x004, (struct opening){.master = false}) & 2));
    CHECK(written(0x004, (struct opening){.master = true}) & 2);
    CHECK(written(0x040, (struct opening){.bit_mode = true}) == 3);
    CHECK(written(0x040, (struct opening){.bit_mode = false}) == 0);
    CHECK(written(0x038, (struct opening){.qpi = true, .work_mode = QSPI_QPI_MODE}) == 1u << 31);
}

void test_open_refused(void) {
    const struct {
        uint32_t limit, number;
        struct opening asked;
    } refused[] = {
        {1, QSPI_SPI_MODE, {.second_transition = true}},
        {1, QSPI_SPI_MODE, {.second_transition = true, .idle_high = true}},
        {1, QSPI_INSTANCE, {.instance = 4}},
        {1, QSPI_QPI, {.work_mode = QSPI_QPI_MODE}},
        {0, QSPI_LIMIT, {.instance = 3}},
        {1, QSPI_CHAIN, {.work_mode = 7}},
        {0, QSPI_CHAIN, {.work_mode = 7, .instance = 4, .second_transition = true}},
        {0, QSPI_SPI_MODE, {.instance = 4, .second_transition = true}},
    };
    for (size_t i = 0; i < sizeof refused / sizeof *refused; i++) {
        REFUSED(opened(refused[i].limit, WORDS, WORDS, &refused[i].asked), refused[i].number);
        CHECK(rate == 0);
    }
}

/* Core rate 0 is refused, after 5 and before 7. At every other an opening does the same. */
void test_core_rate(void) {
    static uint32_t at_another[WORDS];
    const struct opening plain = {.instance = 2, .cs = true};
    const struct opening four = {.instance = 4}, qpi = {.work_mode = QSPI_QPI_MODE};
    ENDED(opened(1, WORDS, WORDS, &plain), QSPI_DONE, 30, 13, 0, 0);
    memcpy(at_another, log_words, sizeof at_another);
    ENDED(opened_from(p1.pll_hz, 1, 1, &plain), QSPI_DONE, 30, 13, 0, 0);
    CHECK(rate == 10000000 && memcmp(log_words, at_another, sizeof at_another) == 0);
    ENDED(opened_from(p1.pll_hz, UINT32_MAX, 1, &plain), QSPI_DONE, 30, 13, 0, 0);
    CHECK(rate == 10000000 && memcmp(log_words, at_another, sizeof at_another) == 0);
    REFUSED(opened_from(p1.pll_hz, 0, 1, &plain), QSPI_CYCLES);
    CHECK(rate == 0);
    REFUSED(opened_from(p1.pll_hz, 0, 0, &plain), QSPI_CYCLES);
    REFUSED(opened_from(p1.pll_hz, 0, 1, &qpi), QSPI_QPI);
    REFUSED(opened_from(p1.pll_hz, 0, 1, &four), QSPI_INSTANCE);
}

/* Without an eligible module clock an opening is refused, after 14 and before 7. The choice of clock alone is not. */
void test_no_clock(void) {
    const uint32_t without[] = {0, 3200000032u, UINT32_MAX};
    const struct opening plain = {.instance = 2, .cs = true}, four = {.instance = 4}, no_mode = {.work_mode = 7};
    const struct opening qpi = {.work_mode = QSPI_QPI_MODE}, mode_1 = {.second_transition = true};
    uint32_t mod_div, kind, count;
    for (size_t i = 0; i < sizeof without / sizeof *without; i++) {
        REFUSED(opened_from(without[i], CORE_HZ, 1, &plain), QSPI_NO_CLOCK);
        CHECK(rate == 0);
        REFUSED(opened_from(without[i], CORE_HZ, 0, &plain), QSPI_NO_CLOCK);
        REFUSED(opened_from(without[i], 0, 1, &plain), QSPI_CYCLES);
        REFUSED(opened_from(without[i], CORE_HZ, 1, &qpi), QSPI_QPI);
        REFUSED(opened_from(without[i], CORE_HZ, 1, &four), QSPI_INSTANCE);
        REFUSED(opened_from(without[i], CORE_HZ, 1, &mode_1), QSPI_SPI_MODE);
        REFUSED(opened_from(without[i], CORE_HZ, 1, &no_mode), QSPI_CHAIN);
        mod_div = kind = count = UINT32_MAX;
        qspi_select_clock(without[i], p1.freq, &mod_div, &kind, &count);
        CHECK(mod_div == 0 && kind == QSPI_CDR1 && count == 0);
        CHECK(qspi_actual_sck(without[i], mod_div, kind, count, &rate) == QSPI_DONE && rate == without[i]);
    }
}

/* Every other PLL opens, whatever the target: at a rate from 1 to 100,000,000 Hz. */
void test_bus_rates(void) {
    const struct {
        uint32_t pll_hz, freq, rate;
    } buses[] = {
        {1, 0, 1},
        {1, 10000000u, 1},
        {1, UINT32_MAX, 1},
        {100000, 0, 100000},
        {100000000u, UINT32_MAX, 100000000u},
        {100000001u, UINT32_MAX, 50000000u},
        {3200000031u, 0, 97656},
        {3200000031u, 10000000u, 10000000u},
        {3200000031u, UINT32_MAX, 100000000u},
    };
    const struct opening plain = {.instance = 2, .cs = true};
    for (size_t i = 0; i < sizeof buses / sizeof *buses; i++) {
        const struct rates at = {buses[i].pll_hz, CORE_HZ, buses[i].freq};
        ENDED(opened_at(&at, 1, WORDS, WORDS, &plain), QSPI_DONE, 30, 13, 0, 0);
        CHECK(rate == buses[i].rate && rate >= 1 && rate <= 100000000u);
    }
    /* The last was divided by 32, and by 1. */
    CHECK(values(QSPI_WRITE, QSPI_MODULE_CLOCK + 2).together == 0x311F);
    CHECK(values(QSPI_WRITE, 0x024).together == 0);
}

void test_free(void) {
    const uint32_t set[] = {0xFFFFFFFF};
    ENDED(qspi_free(LOG, set, 1, 0, &counts), QSPI_DONE, 2, 1, 0, 0);
    CHECK(values(QSPI_WRITE, QSPI_MODULE_CLOCK).together == 0xFFFFCEFF);
    lend();
    ENDED(qspi_free(LOG, set, 1, UINT32_MAX, &counts), QSPI_DONE, 2, 1, 0, 0);
    CHECK(values(QSPI_WRITE, QSPI_MODULE_CLOCK + 3).count == 1);
    lend();
    ENDED(qspi_free(log_words, 1, set, 1, 0, &counts), QSPI_LOG, 0, 0, 0, 0);
    ENDED(qspi_free(LOG, set, 0, 0, &counts), QSPI_ANSWERS, 0, 0, 0, 0);
}

/* P11: two unready polls and a ready one; three unready ones. */
void test_flush(void) {
    const uint32_t answers[] = {START, START, 0}, unready[] = {START, START, START, 0};
    ENDED(qspi_flush(3, LOG, answers, 3, &counts), QSPI_DONE, 3, 3, 3, 2);
    CHECK(values(QSPI_READ, 0x008).count == 3);
    lend();
    ENDED(qspi_flush(3, LOG, unready, 4, &counts), QSPI_TIMEOUT, 3, 3, 3, 3);
    lend();
    ENDED(qspi_flush(3, log_words, 5, answers, 3, &counts), QSPI_LOG, 2, 2, 2, 2);
    lend();
    ENDED(qspi_flush(3, LOG, answers, 2, &counts), QSPI_ANSWERS, 2, 2, 2, 2);
    lend();
    REFUSED(qspi_flush(0, LOG, answers, 3, &counts), QSPI_LIMIT);
}

/* Every mode but QPI leaves QPI: where 038 answers all ones, bit 31 of the word written is clear. */
void test_mode(void) {
    const uint32_t ones[] = {0, UINT32_MAX, 0};
    for (uint32_t mode = QSPI_STANDARD; mode < QSPI_QPI_MODE; mode++) {
        lend();
        ENDED(qspi_set_work_mode(1, LOG, zeros, WORDS, false, mode, &counts), QSPI_DONE, 5, 3, 1, 0);
        lend();
        ENDED(qspi_set_work_mode(1, LOG, ones, 3, false, mode, &counts), QSPI_DONE, 5, 3, 1, 0);
        CHECK((values(QSPI_WRITE, 0x038).together | 3u << 28) == (UINT32_MAX ^ 1u << 31));
    }
    lend();
    ENDED(qspi_set_work_mode(1, LOG, ones, 3, true, QSPI_QPI_MODE, &counts), QSPI_DONE, 3, 2, 1, 0);
    CHECK(values(QSPI_WRITE, 0x038).together == UINT32_MAX);
    lend();
    ENDED(qspi_set_work_mode(1, LOG, zeros, WORDS, true, QSPI_QPI_MODE, &counts), QSPI_DONE, 3, 2, 1, 0);
    CHECK(values(QSPI_WRITE, 0x038).together == (1u << 29 | 1u << 31));
    lend();
    ENDED(qspi_set_work_mode(1, LOG, zeros, WORDS, false, QSPI_QPI_MODE, &counts), QSPI_UNSUPPORTED, 1, 1, 1, 0);
    lend();
    REFUSED(qspi_set_work_mode(1, LOG, zeros, WORDS, true, 7, &counts), QSPI_CHAIN);
    REFUSED(qspi_set_work_mode(0, LOG, zeros, WORDS, true, 7, &counts), QSPI_LIMIT);
}
