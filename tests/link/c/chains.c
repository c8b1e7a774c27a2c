/* Transactions and sheets. */
#include "link.h"

#include <string.h>

/* Sends 1 to 3 as they stand, then reads into 0 to 2; then a delay of 9 ns, which is 4.32 cycles, rounded up. */
void test_transaction(void) {
    const uint32_t words[] = {
        QSPI_KIND_TRANSFER, 0, 3, 1, 3, 0, 0, 2,
        QSPI_KIND_DELAY, 9, 0, 0, 0, 0, 0, 0,
    };
    uint8_t memory[] = {5, 6, 7, 8};
    ENDED(qspi_transaction(3, CORE_HZ, LOG, ones, 20, memory, sizeof memory, words, 16, &counts), QSPI_DONE, 36, 20, 7,
          0);
    CHECK(memcmp(memory, (const uint8_t[]){1, 1, 1, 8}, sizeof memory) == 0);
    CHECK(values(QSPI_BYTE_WRITTEN, 0x200).together == (6 | 7 | 8));
    CHECK(log_words[70] == (uint32_t)QSPI_DELAY << 16 && log_words[71] == 5);
    lend();
    ENDED(qspi_transaction(3, CORE_HZ, LOG, ones, 20, memory, 0, words, 0, &counts), QSPI_DONE, 0, 0, 0, 0);
    REFUSED(qspi_transaction(0, CORE_HZ, LOG, ones, 20, memory, sizeof memory, words, 16, &counts), QSPI_LIMIT);
}

void test_chains_refused(void) {
    const struct {
        uint32_t number, words[QSPI_RECORD_WORDS];
        size_t count;
    } refused[] = {
        {QSPI_CHAIN, {QSPI_KIND_READ, 0, 1}, 7},
        {QSPI_CHAIN, {0, 0, 1}, 8},
        {QSPI_CHAIN, {QSPI_KIND_FLUSH}, 8},
        {QSPI_CHAIN, {QSPI_KIND_READ, 0, 1, 0, 0, 0, 0, 1}, 8},
        {QSPI_CHAIN, {QSPI_KIND_READ, 0, 1, 0, 0, 0, 0, 2}, 8},
        {QSPI_WINDOW, {QSPI_KIND_READ, 1, 4}, 8},
        {QSPI_WINDOW, {QSPI_KIND_READ, UINT32_MAX, UINT32_MAX}, 8},
    };
    uint8_t memory[] = {5, 6, 7, 8};
    for (size_t i = 0; i < sizeof refused / sizeof *refused; i++) {
        REFUSED(qspi_transaction(1, CORE_HZ, LOG, ones, WORDS, memory, 4, refused[i].words, refused[i].count, &counts),
                refused[i].number);
        CHECK(memcmp(memory, (const uint8_t[]){5, 6, 7, 8}, sizeof memory) == 0);
    }
}

/* At 10^9 + 1 Hz these are FFFFFFFF hex cycles, rounded up; one nanosecond more is one cycle more. */
#define LONGEST_NS 4294967290u

/* One delay by itself. */
static uint32_t delayed(uint32_t core_hz, uint32_t ns) {
    const uint32_t words[] = {QSPI_KIND_DELAY, ns, 0, 0, 0, 0, 0, 0};
    uint8_t memory[] = {5};
    lend();
    return qspi_transaction(1, core_hz, LOG, ones, 0, memory, 0, words, 8, &counts);
}

/* A delay has the fewest cycles that last at least its nanoseconds; at core rate 0, which no opening takes, none. */
void test_delays(void) {
    const struct {
        uint32_t core_hz, ns, cycles;
    } delays[] = {
        {1000000000u, 1, 1},
        {1000000001u, 1, 2},
        {999999999u, 2, 2},
        {2, 3, 1},
        {CORE_HZ, 1000000000u, CORE_HZ},
        {CORE_HZ, 0, 0},
        {0, UINT32_MAX, 0},
        {1000000000u, UINT32_MAX, UINT32_MAX},
        {1000000001u, LONGEST_NS, UINT32_MAX},
    };
    for (size_t i = 0; i < sizeof delays / sizeof *delays; i++) {
        ENDED(delayed(delays[i].core_hz, delays[i].ns), QSPI_DONE, 1, 0, 0, 0);
        CHECK(values(QSPI_DELAY, 0).count == 1 && values(QSPI_DELAY, 0).together == delays[i].cycles);
    }
}

/* More than FFFFFFFF hex cycles, also by rounding up. The record's own 8 goes before 14, a later record's 9 behind. */
void test_delays_refused(void) {
    const uint32_t bad_next[] = {QSPI_KIND_DELAY, LONGEST_NS + 1, 0, 0, 0, 0, 0, 1};
    const uint32_t chain[] = {
        QSPI_KIND_READ, 0, 4, 0, 0, 0, 0, 2,
        QSPI_KIND_DELAY, LONGEST_NS + 1, 0, 0, 0, 0, 0, 3,
        QSPI_KIND_READ, 1, 4, 0, 0, 0, 0, 0,
    };
    uint8_t memory[] = {5, 6, 7, 8};
    REFUSED(delayed(2000000000u, 1u << 31), QSPI_CYCLES);
    REFUSED(delayed(1000000001u, LONGEST_NS + 1), QSPI_CYCLES);
    REFUSED(delayed(UINT32_MAX, UINT32_MAX), QSPI_CYCLES);
    REFUSED(qspi_transaction(1, 1000000001u, LOG, ones, WORDS, memory, 4, bad_next, 8, &counts), QSPI_CHAIN);
    REFUSED(qspi_transaction(1, 1000000001u, LOG, ones, WORDS, memory, 4, chain, 24, &counts), QSPI_CYCLES);
    REFUSED(qspi_transaction(1, 1000000000u, LOG, ones, WORDS, memory, 4, chain, 24, &counts), QSPI_WINDOW);
    CHECK(memcmp(memory, (const uint8_t[]){5, 6, 7, 8}, sizeof memory) == 0);
}

/* Stores words, little-endian; gives the place behind them. */
static uint8_t *put(uint8_t *at, const uint32_t *words, size_t count) {
    for (size_t i = 0; i < 4 * count; i++) {
        *at++ = (uint8_t)(words[i / 4] >> 8 * (i % 4));
    }
    return at;
}

/* P12, document 01's sheet: header, record, answers. Its memory is the byte 9f. */
static const uint32_t sample[] = {
    3, 10000000, 0, 1, 8,
    QSPI_KIND_WRITE, 0, 1, 0, 0, 0, 0, 0,
    0, 0, 0, 0, 0, 0, 0, 0,
};

/* What it enters in the log. */
static const uint32_t sample_log[] = {
    0x10018, 0, 0x20018, 0x80008000,
    0x50000, 10,
    0x10030, 0, 0x20030, 1,
    0x10034, 0, 0x20034, 1,
    0x10038, 0, 0x20038, 1,
    0x10008, 0, 0x20008, 0x80000000,
    0x1001C, 0, 0x30200, 0x9f,
    0x1001C, 0,
    0x10008, 0,
};

void test_sheet(void) {
    uint8_t bytes[85], given[85];
    *put(bytes, sample, 21) = 0x9f;
    memcpy(given, bytes, sizeof bytes);
    ENDED(qspi_sheet(bytes, sizeof bytes, LOG, &counts), QSPI_DONE, 15, 8, 3, 0);
    CHECK(memcmp(log_words, sample_log, sizeof sample_log) == 0);
    CHECK(memcmp(bytes, given, sizeof bytes) == 0);
}

/* A sheet's delay has half its nanoseconds as cycles, however many they are. */
void test_sheet_delay(void) {
    const uint32_t words[] = {
        1, 10000000, 0, 2, 0,
        QSPI_KIND_DELAY, 3, 0, 0, 0, 0, 0, 2,
        QSPI_KIND_DELAY, UINT32_MAX, 0, 0, 0, 0, 0, 0,
    };
    uint8_t bytes[84];
    put(bytes, words, 21);
    ENDED(qspi_sheet(bytes, sizeof bytes, LOG, &counts), QSPI_DONE, 2, 0, 0, 0);
    CHECK(log_words[1] == 1 && log_words[3] == UINT32_MAX / 2);
}

void test_no_sheets(void) {
    static uint8_t bytes[QSPI_SHEET_BYTES + 1];
    *put(bytes, sample, 21) = 0x9f;
    REFUSED(qspi_sheet(bytes, 0, LOG, &counts), QSPI_SHEET);
    REFUSED(qspi_sheet(bytes, 83, LOG, &counts), QSPI_SHEET);
    REFUSED(qspi_sheet(bytes, sizeof bytes, LOG, &counts), QSPI_SHEET);
    /* Without its memory the record's window is outside. */
    REFUSED(qspi_sheet(bytes, 84, LOG, &counts), QSPI_WINDOW);
    bytes[8] = 2;
    REFUSED(qspi_sheet(bytes, 85, LOG, &counts), QSPI_SHEET);
    bytes[8] = 0;
    bytes[20] = 10;
    REFUSED(qspi_sheet(bytes, 85, LOG, &counts), QSPI_CHAIN);
    bytes[0] = 0;
    REFUSED(qspi_sheet(bytes, 85, LOG, &counts), QSPI_LIMIT);
}
