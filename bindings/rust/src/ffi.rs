//! The functions of the library as it exports them, in the order of the C header. `tests/link` holds these declarations to
//! the header, to the Rattle functions and to the names in the library.
//!
//! Those that take pointers are safe to call where each pointer and its length are those of a slice that is lent for the
//! call, and where what is written overlaps nothing else.

use crate::ended::Counts;

unsafe extern "C" {
    pub fn qspi_open(
        limit: u32,
        log: *mut u32,
        log_len: usize,
        answers: *const u32,
        answers_len: usize,
        instance: u32,
        qpi: bool,
        pll_hz: u32,
        osc_hz: u32,
        core_hz: u32,
        freq: u32,
        idle_high: bool,
        second_transition: bool,
        master: bool,
        work_mode: u32,
        bit_mode: bool,
        lsb_first: bool,
        cs: bool,
        cs_idle_high: bool,
        cs_high: bool,
        cs_1: bool,
        sck_hz: &mut u32,
        counts: &mut Counts,
    ) -> u32;
    pub fn qspi_free(
        log: *mut u32,
        log_len: usize,
        answers: *const u32,
        answers_len: usize,
        instance: u32,
        counts: &mut Counts,
    ) -> u32;
    pub fn qspi_write(
        limit: u32,
        log: *mut u32,
        log_len: usize,
        answers: *const u32,
        answers_len: usize,
        bytes: *const u8,
        bytes_len: usize,
        counts: &mut Counts,
    ) -> u32;
    pub fn qspi_read(
        limit: u32,
        log: *mut u32,
        log_len: usize,
        answers: *const u32,
        answers_len: usize,
        bytes: *mut u8,
        bytes_len: usize,
        counts: &mut Counts,
    ) -> u32;
    pub fn qspi_transfer(
        limit: u32,
        log: *mut u32,
        log_len: usize,
        answers: *const u32,
        answers_len: usize,
        read: *mut u8,
        read_len: usize,
        write: *const u8,
        write_len: usize,
        counts: &mut Counts,
    ) -> u32;
    pub fn qspi_transfer_in_place(
        limit: u32,
        log: *mut u32,
        log_len: usize,
        answers: *const u32,
        answers_len: usize,
        bytes: *mut u8,
        bytes_len: usize,
        counts: &mut Counts,
    ) -> u32;
    pub fn qspi_flush(
        limit: u32,
        log: *mut u32,
        log_len: usize,
        answers: *const u32,
        answers_len: usize,
        counts: &mut Counts,
    ) -> u32;
    pub fn qspi_set_work_mode(
        limit: u32,
        log: *mut u32,
        log_len: usize,
        answers: *const u32,
        answers_len: usize,
        qpi: bool,
        mode: u32,
        counts: &mut Counts,
    ) -> u32;
    pub fn qspi_read_quad(
        limit: u32,
        log: *mut u32,
        log_len: usize,
        answers: *const u32,
        answers_len: usize,
        hz: u32,
        command: *const u8,
        command_len: usize,
        tclqv_ns: u32,
        margin: u8,
        data: *mut u8,
        data_len: usize,
        counts: &mut Counts,
    ) -> u32;
    pub fn qspi_write_quad(
        limit: u32,
        log: *mut u32,
        log_len: usize,
        answers: *const u32,
        answers_len: usize,
        command: *const u8,
        command_len: usize,
        data: *const u8,
        data_len: usize,
        counts: &mut Counts,
    ) -> u32;
    pub fn qspi_transaction(
        limit: u32,
        core_hz: u32,
        log: *mut u32,
        log_len: usize,
        answers: *const u32,
        answers_len: usize,
        memory: *mut u8,
        memory_len: usize,
        words: *const u32,
        words_len: usize,
        counts: &mut Counts,
    ) -> u32;
    pub fn qspi_sheet(bytes: *mut u8, bytes_len: usize, log: *mut u32, log_len: usize, counts: &mut Counts) -> u32;
    pub safe fn qspi_select_clock(pll: u32, target: u32, mod_div: &mut u32, kind: &mut u32, count: &mut u32);
    pub safe fn qspi_actual_sck(pll: u32, mod_div: u32, kind: u32, count: u32, rate: &mut u32) -> u32;
    pub safe fn qspi_dummy_bytes_for(hz: u32, tclqv_ns: u32, margin: u8) -> u8;
    pub safe fn qspi_default_limit() -> u32;
}
