/* What the parts of the C test share. */
#ifndef LINK_H
#define LINK_H

#include "qspi.h"

/* What log words and bytes hold before a call, so that one that is written shows. */
#define UNTOUCHED 0x5AA5C33Cu
#define UNTOUCHED_BYTE 0xEEu

/* Bit 31 of 008: a wait for the transfer's end is not ready with it. */
#define START 0x80000000u

#define WORDS 4000

/* The core rate of most calls. */
#define CORE_HZ 480000000u

/* What calls are lent. */
extern uint32_t log_words[WORDS];
extern const uint32_t zeros[WORDS];
extern uint32_t ones[WORDS]; /* all ready, one byte got at a time */
extern struct qspi_counts counts;

/* The arguments that most calls begin with. */
#define LOG log_words, WORDS

#define CHECK(what) check((what), #what, __FILE__, __LINE__)
#define ENDED(number, expected, entries, taken, polls, longest) \
    CHECK(call_ended((number), (expected), (entries), (taken), (polls), (longest)))
#define REFUSED(number, expected) ENDED(number, expected, 0, 0, 0, 0)

void check(bool holds, const char *what, const char *file, int line);

/* Makes what is lent ready for the next call. */
void lend(void);

/* Whether the call that `lend` was called for gave `expected` and these counts, and wrote the log no further. */
bool call_ended(uint32_t number, uint32_t expected, uint64_t entries, uint64_t taken, uint64_t polls,
                uint64_t longest);

/* The values entered by an op at a place, all put together by `or`, and how many they are. */
struct values {
    uint32_t together;
    size_t count;
};
struct values values(enum qspi_op op, uint32_t place);

void test_clock(void);
void test_dummies(void);
void test_limit(void);
void test_open(void);
void test_open_flags(void);
void test_open_refused(void);
void test_core_rate(void);
void test_no_clock(void);
void test_bus_rates(void);
void test_free(void);
void test_flush(void);
void test_mode(void);
void test_write(void);
void test_read(void);
void test_transfer(void);
void test_in_place(void);
void test_quad_read(void);
void test_quad_write(void);
void test_too_long(void);
void test_transaction(void);
void test_chains_refused(void);
void test_delays(void);
void test_delays_refused(void);
void test_sheet(void);
void test_sheet_delay(void);
void test_no_sheets(void);

#endif
