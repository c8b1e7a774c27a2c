/* The calls that send and receive bytes. */
#include "link.h"

#include <stdlib.h>
#include <string.h>

static uint8_t bytes[300];

/* Whether so many bytes are `got`, and all others are untouched. */
static bool received(size_t count, uint8_t got) {
    for (size_t i = 0; i < sizeof bytes; i++) {
        if (bytes[i] != (i < count ? got : UNTOUCHED_BYTE)) {
            return false;
        }
    }
    return true;
}

static void lend_bytes(void) {
    lend();
    memset(bytes, UNTOUCHED_BYTE, sizeof bytes);
}

void test_write(void) {
    uint8_t sent[64] = {0x9f};
    ENDED(qspi_write(3, LOG, zeros, WORDS, sent, 1, &counts), QSPI_DONE, 15, 8, 3, 0);
    CHECK(values(QSPI_BYTE_WRITTEN, 0x200).together == 0x9f);
    lend();
    /* A ready first write of 64 bytes makes 78 entries. */
    ENDED(qspi_write(3, LOG, zeros, WORDS, sent, 64, &counts), QSPI_DONE, 78, 8, 3, 0);
    lend();
    ENDED(qspi_write(3, LOG, zeros, WORDS, sent, 0, &counts), QSPI_DONE, 0, 0, 0, 0);
    REFUSED(qspi_write(0, LOG, zeros, WORDS, sent, 1, &counts), QSPI_LIMIT);
}

void test_read(void) {
    const uint32_t cut[] = {0, 0, 0, 0, 0, 2, 0x12345678};
    lend_bytes();
    ENDED(qspi_read(3, LOG, ones, WORDS, bytes, 2, &counts), QSPI_DONE, 16, 10, 3, 0);
    CHECK(received(2, 1));
    lend_bytes();
    /* Cut before the second byte; of the answer the low eight bits are stored. */
    ENDED(qspi_read(3, LOG, cut, 7, bytes, 2, &counts), QSPI_ANSWERS, 13, 7, 1, 0);
    CHECK(received(1, 0x78));
    lend_bytes();
    REFUSED(qspi_read(0, LOG, ones, WORDS, bytes, 2, &counts), QSPI_LIMIT);
    CHECK(received(0, 0));
}

void test_transfer(void) {
    const uint8_t sent[] = {7};
    lend_bytes();
    ENDED(qspi_transfer(3, LOG, ones, WORDS, bytes, 1, sent, 1, &counts), QSPI_DONE, 29, 16, 5, 0);
    CHECK(received(1, 1));
    CHECK(values(QSPI_BYTE_WRITTEN, 0x200).together == 7);
    lend_bytes();
    ENDED(qspi_transfer(3, LOG, ones, WORDS, bytes, 0, sent, 1, &counts), QSPI_DONE, 15, 8, 3, 0);
    lend_bytes();
    ENDED(qspi_transfer(3, LOG, ones, WORDS, bytes, 1, sent, 0, &counts), QSPI_DONE, 14, 8, 2, 0);
    lend_bytes();
    REFUSED(qspi_transfer(0, LOG, ones, WORDS, bytes, 1, sent, 1, &counts), QSPI_LIMIT);
    CHECK(received(0, 0));
}

/* By parts of 256 bytes and of 1. */
void test_in_place(void) {
    lend_bytes();
    ENDED(qspi_transfer_in_place(3, LOG, ones, WORDS, bytes, 257, &counts), QSPI_DONE, 826, 545, 268, 0);
    CHECK(received(257, 1));
    CHECK(values(QSPI_BYTE_WRITTEN, 0x200).count == 257);
    lend_bytes();
    REFUSED(qspi_transfer_in_place(0, LOG, ones, WORDS, bytes, 257, &counts), QSPI_LIMIT);
    CHECK(received(0, 0));
}

/* With the dummies of P7, of P8, and of P9 at margin 3: one, two and three. */
void test_quad_read(void) {
    const uint8_t command[] = {0x6b};
    lend_bytes();
    ENDED(qspi_read_quad(3, LOG, ones, WORDS, 100000000u, command, 1, 80, 0, bytes, 1, &counts), QSPI_DONE, 40, 22, 7, 0);
    CHECK(received(1, 1));
    lend_bytes();
    ENDED(qspi_read_quad(3, LOG, ones, WORDS, 100000000u, command, 1, 81, 0, bytes, 1, &counts), QSPI_DONE, 41, 22, 7, 0);
    lend_bytes();
    ENDED(qspi_read_quad(3, LOG, ones, WORDS, 100000000u, command, 1, 20480, 3, bytes, 1, &counts), QSPI_DONE, 42, 22, 7,
          0);
    lend_bytes();
    REFUSED(qspi_read_quad(0, LOG, ones, WORDS, 100000000u, command, 1, 80, 0, bytes, 1, &counts), QSPI_LIMIT);
    CHECK(received(0, 0));
}

void test_quad_write(void) {
    const uint8_t command[] = {0x32}, data[] = {8};
    ENDED(qspi_write_quad(3, LOG, zeros, WORDS, command, 1, data, 1, &counts), QSPI_DONE, 40, 22, 8, 0);
    CHECK(values(QSPI_BYTE_WRITTEN, 0x200).together == (0x32 | 8));
    lend();
    REFUSED(qspi_write_quad(0, LOG, zeros, WORDS, command, 1, data, 1, &counts), QSPI_LIMIT);
}

/* FFFFFF is taken, 1000000 hex is refused, but not in place and not as a quad read's command. */
void test_too_long(void) {
    const size_t n = QSPI_MAX_LENGTH + 1;
    uint8_t *sent = calloc(n, 1), *got = calloc(n, 1);
    CHECK(sent && got);
    if (sent && got) {
        REFUSED(qspi_write(1, LOG, ones, WORDS, sent, n, &counts), QSPI_LENGTH);
        REFUSED(qspi_read(1, LOG, ones, WORDS, got, n, &counts), QSPI_LENGTH);
        REFUSED(qspi_transfer(1, LOG, ones, WORDS, got, n, sent, 1, &counts), QSPI_LENGTH);
        REFUSED(qspi_transfer(1, LOG, ones, WORDS, got, 1, sent, n, &counts), QSPI_LENGTH);
        REFUSED(qspi_read_quad(1, LOG, ones, WORDS, 1, sent, 1, 1, 1, got, n, &counts), QSPI_LENGTH);
        REFUSED(qspi_write_quad(1, LOG, ones, WORDS, sent, n, sent, 1, &counts), QSPI_LENGTH);
        REFUSED(qspi_write_quad(1, LOG, ones, WORDS, sent, 1, sent, n, &counts), QSPI_LENGTH);
        CHECK(memcmp(sent, got, n) == 0);
        ENDED(qspi_write(1, log_words, 0, ones, WORDS, sent, n - 1, &counts), QSPI_LOG, 0, 0, 0, 0);
        ENDED(qspi_transfer_in_place(1, log_words, 0, ones, WORDS, got, n, &counts), QSPI_LOG, 0, 0, 0, 0);
        ENDED(qspi_read_quad(1, log_words, 0, ones, WORDS, 1, sent, n, 1, 1, got, 1, &counts), QSPI_LOG, 0, 0, 0, 0);
    }
    free(sent);
    free(got);
}
