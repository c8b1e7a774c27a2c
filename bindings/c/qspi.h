/*
 * The blocking QSPI flash driver, proved: the functions of target/staticlib/libexports.a (x86-64, System V calls).
 *
 * Registers. No call touches a register. A call is lent the words that the registers answer (`answers`): each register
 * read, and each byte got, takes the next. It writes what it did into a lent `log`.
 *
 * Log. Two words an entry: first op x 65,536 + place, then the value. QSPI_OP and QSPI_PLACE take the first word apart.
 * A place is a register's offset, or QSPI_MODULE_CLOCK + instance for the module clock register. An odd last word of the
 * log is never used.
 *
 * Numbers. A call gives a number (enum qspi_number) and writes its counts (struct qspi_counts); an opening writes its
 * rate (*sck_hz) too, which is 0 unless the number is 0. For all else that was lent, there are two ways to end:
 *   refused    (3 to 9, 13, 14, 23) all counts are 0, and nothing is written;
 *   otherwise  (0, 1, 2, 10, 11) the first 2 x entries words of the log are written, and each byte that was got is stored.
 *              All other words and bytes keep their values.
 * 10 and 11 are given at an access: where the next entry does not fit the log (10), or where it would be a read or a
 * byte got and no answer is left (11); 10 is tested first. That access does not happen. Where a comment below says
 * "at an access: 10, 11", it is these two.
 *
 * Functions of numbers alone (qspi_select_clock, qspi_actual_sck, qspi_dummy_bytes_for, qspi_default_limit) make no
 * access: they are lent no log and no counts. One of them refuses, qspi_actual_sck by 12; it writes *rate then too, as 0.
 *
 * Limit. The unready poll with number `limit` in one wait ends the call with 1. Limit 0 is refused by 7. The Rust driver
 * has qspi_default_limit().
 *
 * Core rate. A delay in a chain is asked for in nanoseconds, and logged as the cycles that the core waits. `core_hz` is
 * the core rate in Hz. The cycles of a delay of ns nanoseconds are the ceiling of ns x core_hz / 10^9, and so last at
 * least ns; with core rate 0 they are 0. More than 2^32 - 1 cycles are refused by 14. The core rate is a part of an
 * opened bus: the opening is given it, and refuses 0 by 14; each transaction on the bus is given the same. A sheet has
 * none: a delay there has half its nanoseconds as cycles, rounded down, and a sheet never gives 14.
 *
 * What is lent. A slice is a pointer and its length, counted in elements. No pointer is null, not even with length 0, and
 * each is aligned for its type. Everything is lent for the call alone, and what a call writes (all that is not const) does
 * not overlap anything else that is lent to the same call. This is all that is asked: the functions are defined for every
 * other input. They keep nothing between calls, so calls on different memory may run at the same time.
 */
#ifndef QSPI_H
#define QSPI_H

#include <assert.h> /* static_assert of C11; C++ has the word itself */
#include <stdbool.h>
#include <stddef.h>
#include <stdint.h>

#ifdef __cplusplus
extern "C" {
#endif

/* The numbers that calls give. */
enum qspi_number {
    QSPI_DONE = 0,        /* done */
    QSPI_TIMEOUT = 1,     /* the unready poll number `limit` of a wait */
    QSPI_UNSUPPORTED = 2, /* work mode QPI on a chip without it */
    QSPI_SPI_MODE = 3,    /* opening in SPI mode 1 or 3 */
    QSPI_INSTANCE = 4,    /* opening of an instance above 3 */
    QSPI_QPI = 5,         /* opening in work mode QPI on a chip without it */
    QSPI_LENGTH = 6,      /* a length above QSPI_MAX_LENGTH in one phase */
    QSPI_LIMIT = 7,       /* limit 0 */
    QSPI_CHAIN = 8,       /* a chain of records that is none, or a work mode's number above 6 */
    QSPI_WINDOW = 9,      /* a record's window outside the memory: start + length above its length */
    QSPI_LOG = 10,        /* log used up */
    QSPI_ANSWERS = 11,    /* answers used up */
    QSPI_DIVIDER = 12,    /* no divider; of qspi_actual_sck alone */
    QSPI_SHEET = 13,      /* bytes that are no sheet */
    QSPI_CYCLES = 14,     /* core rate 0 at an opening, or a delay of more than 2^32 - 1 cycles */
    QSPI_NO_CLOCK = 23    /* opening without an eligible module clock: a PLL of 0, or of 3,200,000,032 and more */
};

/* The counts of a call: all 0 where it is refused. */
struct qspi_counts {
    uint64_t entries; /* entries made in the log */
    uint64_t taken;   /* answers taken */
    uint64_t polls;   /* reads made to test readiness */
    uint64_t longest; /* the most unready polls in one wait */
};
#if defined(__cplusplus) || __STDC_VERSION__ >= 201112L
static_assert(sizeof(struct qspi_counts) == 4 * sizeof(uint64_t), "the library writes these counts and nothing more");
#endif

/* What an entry of the log is. */
enum qspi_op {
    QSPI_READ = 1,         /* a register read; value: its word */
    QSPI_WRITE = 2,        /* a register write; value: its word */
    QSPI_BYTE_WRITTEN = 3, /* a byte written to tx_data */
    QSPI_BYTE_GOT = 4,     /* a byte got from rx_data: the low eight bits of the answer */
    QSPI_DELAY = 5         /* a delay; place 0, value: its cycles */
};

/* The work modes, by number. */
enum qspi_work_mode {
    QSPI_STANDARD = 0,   /* 1-bit data transfer */
    QSPI_THREE_WIRE = 1, /* 1-bit bidirectional (half-duplex) */
    QSPI_DUAL = 2,       /* 2-bit data only */
    QSPI_DUAL_IO = 3,    /* 2-bit address and data */
    QSPI_QUAD = 4,       /* 4-bit data only */
    QSPI_QUAD_IO = 5,    /* 4-bit address and data */
    QSPI_QPI_MODE = 6    /* 4-bit command, address and data */
};

/* The two clock dividers of the controller. */
enum qspi_divider {
    QSPI_CDR1 = 1, /* module clock / 2^count, count 0 to 15 */
    QSPI_CDR2 = 2  /* module clock / (2 x (count + 1)), count 0 to 255 */
};

/*
 * A record of a chain is eight words: kind, f1 to f6, next. Records are numbered from 1 in the order of the slice; the chain
 * starts at 1 and goes on with next, which is larger than the record's own number and at most the count of records, or 0 at
 * the end. A window is a start and a length in the lent memory; windows may overlap. Fields that a kind does not use, and
 * records off the chain, are not looked at.
 */
enum qspi_kind {
    QSPI_KIND_WRITE = 1,      /* window f1 f2 */
    QSPI_KIND_READ = 2,       /* window f1 f2 */
    QSPI_KIND_TRANSFER = 3,   /* reads into f1 f2, after writing f3 f4 */
    QSPI_KIND_IN_PLACE = 4,   /* window f1 f2 */
    QSPI_KIND_DELAY = 5,      /* f1 nanoseconds: ceiling of f1 x core_hz / 10^9 cycles; in a sheet f1 / 2 */
    QSPI_KIND_FLUSH = 6,      /* 6 to 9: in a sheet only */
    QSPI_KIND_MODE = 7,       /* f1: the work mode's number */
    QSPI_KIND_QUAD_READ = 8,  /* command f1 f2, tclqv f3, margin f4 (at most 255), data f5 f6 */
    QSPI_KIND_QUAD_WRITE = 9  /* command f1 f2, data f5 f6 */
};

#define QSPI_MAX_LENGTH 0xFFFFFFu     /* bytes in one phase */
#define QSPI_MODULE_CLOCK 0x1000u     /* place of instance 0's module clock register */
#define QSPI_RECORD_WORDS 8u          /* words of a record */
#define QSPI_SHEET_BYTES 65536u       /* the longest sheet */
#define QSPI_SHEET_LOG_WORDS 8192u    /* the log that the sheet program lends: 4,096 entries */

#define QSPI_OP(word) ((uint32_t)(word) >> 16)        /* of an entry's first word */
#define QSPI_PLACE(word) ((uint32_t)(word) & 0xFFFFu) /* of an entry's first word */

/*
 * Opens the bus of an instance (0 to 3): module clock, reset, dividers, control mode, transfer settings, work mode, FIFOs.
 *   qpi                          the chip has QPI
 *   pll_hz                       the PLL's rate, which the module clock is divided from
 *   osc_hz                       the oscillator's rate
 *   core_hz                      the core rate, the one to give to each qspi_transaction on this bus
 *   freq                         target rate; taken as 100,000 to 100,000,000, the nearest rate is chosen
 *   idle_high, second_transition the SPI mode: the clock's idle level, and the transition on which data is captured
 *   master                       control mode master, else slave
 *   work_mode                    enum qspi_work_mode
 *   bit_mode, lsb_first          bit mode enabled; least significant bit first
 *   cs                           there is a chip-select record; without one the next three are not looked at
 *   cs_idle_high, cs_high, cs_1  its polarity, its level, and pin 1 in place of pin 0
 * Gives 8 for a work mode above 6, 3 for second_transition (SPI modes 1 and 3), 4, 5, 14 for core rate 0, 23 where no
 * module clock is from 1 to 100,000,000 Hz (pll_hz 0, or 3,200,000,032 and more), 7, the first of these that holds; at
 * an access: 10, 11; else 0.
 * Writes *sck_hz always: with 0 the bus's rate, from 1 to 100,000,000 Hz, else 0. There is no wait: polls and longest
 * are 0.
 */
uint32_t qspi_open(uint32_t limit, uint32_t *log, size_t log_len, const uint32_t *answers, size_t answers_len,
                   uint32_t instance, bool qpi, uint32_t pll_hz, uint32_t osc_hz, uint32_t core_hz, uint32_t freq,
                   bool idle_high, bool second_transition, bool master, uint32_t work_mode, bool bit_mode,
                   bool lsb_first, bool cs, bool cs_idle_high, bool cs_high, bool cs_1, uint32_t *sck_hz,
                   struct qspi_counts *counts);

/*
 * Releases an instance: disables its clock and resets its module, by one change of the module clock register. An instance
 * above 3 uses that of 3. There is no limit.
 * Gives at the access: 10, 11; else 0 with 2 entries and 1 answer taken.
 */
uint32_t qspi_free(uint32_t *log, size_t log_len, const uint32_t *answers, size_t answers_len, uint32_t instance,
                   struct qspi_counts *counts);

/*
 * Writes all of `bytes` on a single line. No bytes: no access.
 * Gives 7; 6 for more than QSPI_MAX_LENGTH bytes; at an access: 10, 11; 1 in a wait for space, for an empty FIFO or for
 * the transfer's end; else 0.
 */
uint32_t qspi_write(uint32_t limit, uint32_t *log, size_t log_len, const uint32_t *answers, size_t answers_len,
                    const uint8_t *bytes, size_t bytes_len, struct qspi_counts *counts);

/*
 * Reads `bytes_len` bytes into `bytes`. No bytes: no access.
 * Gives 7; 6 for more than QSPI_MAX_LENGTH bytes; at an access: 10, 11; 1 in a wait for bytes or for the transfer's end;
 * else 0.
 * Writes a byte of `bytes` when it is got; if the call ends before, the rest keep their values.
 */
uint32_t qspi_read(uint32_t limit, uint32_t *log, size_t log_len, const uint32_t *answers, size_t answers_len,
                   uint8_t *bytes, size_t bytes_len, struct qspi_counts *counts);

/*
 * Writes all of `write`, then reads all of `read`: as qspi_write, then as qspi_read.
 * Gives 7; 6 for more than QSPI_MAX_LENGTH bytes in either, before anything is written; then as the two calls.
 */
uint32_t qspi_transfer(uint32_t limit, uint32_t *log, size_t log_len, const uint32_t *answers, size_t answers_len,
                       uint8_t *read, size_t read_len, const uint8_t *write, size_t write_len,
                       struct qspi_counts *counts);

/*
 * Writes `bytes` and reads as many back in their place, by parts of 256 bytes: each part is written, then read. No copy
 * of a part is made.
 * Gives 7; at an access: 10, 11; 1 in a wait; else 0. No length is refused.
 */
uint32_t qspi_transfer_in_place(uint32_t limit, uint32_t *log, size_t log_len, const uint32_t *answers,
                                size_t answers_len, uint8_t *bytes, size_t bytes_len, struct qspi_counts *counts);

/*
 * Waits for the transfer to complete.
 * Gives 7; at a poll: 10, 11; 1 at the unready poll number `limit`; else 0.
 */
uint32_t qspi_flush(uint32_t limit, uint32_t *log, size_t log_len, const uint32_t *answers, size_t answers_len,
                    struct qspi_counts *counts);

/*
 * Waits for the transfer to complete, then changes the work mode. `qpi`: the chip has QPI; `mode`: enum qspi_work_mode.
 * Every mode other than QSPI_QPI_MODE leaves QPI: it clears bit 31 of trans_misc_control (038) too.
 * Gives 7; 8 for a mode above 6; 10, 11 or 1 in the wait; then 2 for QSPI_QPI_MODE on a chip without QPI, with the wait's
 * counts; else at an access: 10, 11; else 0.
 */
uint32_t qspi_set_work_mode(uint32_t limit, uint32_t *log, size_t log_len, const uint32_t *answers, size_t answers_len,
                            bool qpi, uint32_t mode, struct qspi_counts *counts);

/*
 * Reads `data` on four lines, after `command` and its dummy bytes on one. `hz`: the rate of the bus; `tclqv_ns`: the time in
 * which the flash puts out data; `margin`: dummy bytes added. The frame holds at most 16 bytes: at most 8 dummies
 * (qspi_dummy_bytes_for), after as much of the command as fits before them.
 * Gives 7; 6 for more than QSPI_MAX_LENGTH bytes of data (the command has no such test); then as met at an access: 10, 11,
 * or 1 in a wait; else 0. After the data the work mode Standard is tried even where the data failed, and its own number
 * other than 0 is the one that is given.
 */
uint32_t qspi_read_quad(uint32_t limit, uint32_t *log, size_t log_len, const uint32_t *answers, size_t answers_len,
                        uint32_t hz, const uint8_t *command, size_t command_len, uint32_t tclqv_ns, uint8_t margin,
                        uint8_t *data, size_t data_len, struct qspi_counts *counts);

/*
 * Writes `data` on four lines, after `command` on one.
 * Gives 7; 6 for more than QSPI_MAX_LENGTH bytes in either; then as met at an access: 10, 11, or 1 in a wait; else 0. After
 * the data the work mode Standard is tried even where the data failed, and its own number other than 0 is the one that is
 * given.
 */
uint32_t qspi_write_quad(uint32_t limit, uint32_t *log, size_t log_len, const uint32_t *answers, size_t answers_len,
                         const uint8_t *command, size_t command_len, const uint8_t *data, size_t data_len,
                         struct qspi_counts *counts);

/*
 * Runs a chain of records of kinds 1 to 5 (`words`, see enum qspi_kind) on the lent memory. The whole chain is tested before
 * the first access. No words: an empty transaction. `core_hz`: the core rate that the bus was opened with. A delay of 0
 * cycles is logged too.
 * Gives 7; then the first fault along the chain, record by record: 8 for a kind that is none of 1 to 5 or a bad next,
 * 14 for a delay of more than 2^32 - 1 cycles, 9 for a window outside the memory, 6 for more than QSPI_MAX_LENGTH bytes
 * in one phase; 8 also for words_len no multiple of 8, before any record; then as met at an access: 10, 11, or 1 in a
 * wait; else 0. The first number other than 0 ends it.
 */
uint32_t qspi_transaction(uint32_t limit, uint32_t core_hz, uint32_t *log, size_t log_len, const uint32_t *answers,
                          size_t answers_len, uint8_t *memory, size_t memory_len, const uint32_t *words,
                          size_t words_len, struct qspi_counts *counts);

/*
 * Runs a whole sheet: little-endian words limit, rate (any), QPI (0 or 1), record count, answer count; the records, of
 * kinds 1 to 9; the answers; all bytes behind them are the memory that the chain works on.
 * Gives 13 for bytes that are no sheet (more than QSPI_SHEET_BYTES, fewer than the header or its counts need, a QPI word
 * above 1), before anything else; 7 for limit 0; 8, 9 along the chain; then as met at an access: 10, 11, or 1 in a wait; 2
 * for the work mode QPI on a chip without it; else 0. A sheet's memory is too short for 6, and half of a delay's
 * nanoseconds is never too many cycles for 14.
 * Writes in `bytes` only what is got into the memory; header, records and answers keep their values.
 * Needs some 72,000 bytes of stack, far more than the other calls: it copies records and answers to a buffer.
 */
uint32_t qspi_sheet(uint8_t *bytes, size_t bytes_len, uint32_t *log, size_t log_len, struct qspi_counts *counts);

/*
 * The dividers whose rate is nearest to a target, any 32-bit number: among equally near ones one not above the target, among
 * those the first, by module divider, Cdr1 before Cdr2, count. Where no module clock is from 1 to 100,000,000 Hz, which
 * an opening refuses by 23: 0, Cdr1, 0. Refuses nothing itself. Writes *mod_div (0 to 31), *kind (enum qspi_divider)
 * and *count.
 */
void qspi_select_clock(uint32_t pll, uint32_t target, uint32_t *mod_div, uint32_t *kind, uint32_t *count);

/*
 * The rate that dividers give, rounded down at each division.
 * Gives 12 for a module divider above 31, a kind other than 1 and 2, a Cdr1 count above 15 or a Cdr2 count above 255; else 0.
 * Writes *rate always: the rate with 0, else 0.
 */
uint32_t qspi_actual_sck(uint32_t pll, uint32_t mod_div, uint32_t kind, uint32_t count, uint32_t *rate);

/*
 * The dummy bytes of a quad read at a rate: the bits that pass in `tclqv_ns`, in bytes modulo 256, and `margin` more; at most
 * 255, and at least 1 unless the bits and the margin are 0. Refuses nothing.
 */
uint8_t qspi_dummy_bytes_for(uint32_t hz, uint32_t tclqv_ns, uint8_t margin);

/* The limit of unready polls in one wait that the Rust driver has: 100,000. */
uint32_t qspi_default_limit(void);

#ifdef __cplusplus
}
#endif

#endif
