//! Recording cells that do at an access what the port does, and no more: test the log's room, test and take the next
//! answer, store two words, count. The log and the answers are lent; nothing is allocated. For one thread.

#[path = "../../../../oracle/recorder/src/call.rs"]
pub mod call;

use std::cell::UnsafeCell;
use std::ops::SubAssign;
use std::panic::resume_unwind;
use std::ptr::null;

/// The number of the cut, 10 or 11.
#[derive(Clone, Copy, Debug)]
pub struct Cut(pub u32);

/// What a run has done so far.
#[derive(Clone, Copy, Debug, Default, PartialEq, Eq)]
pub struct Counts {
    pub entries: usize,
    pub taken: usize,
    pub polls: usize,
    pub longest: u32,
}

struct State {
    limit: u32,
    log: *mut u32,
    /// The entries that the log holds.
    room: usize,
    answers: *const u32,
    answer_count: usize,
    counts: Counts,
    /// 1 while a wait is under way, else 0.
    waiting: usize,
    block: usize,
    clocks: [usize; 4],
}

struct Shared(UnsafeCell<State>);

// One thread uses it.
unsafe impl Sync for Shared {}

static STATE: Shared = Shared(UnsafeCell::new(State {
    limit: 0,
    log: null::<u32>() as *mut u32,
    room: 0,
    answers: null(),
    answer_count: 0,
    counts: Counts { entries: 0, taken: 0, polls: 0, longest: 0 },
    waiting: 0,
    block: 0,
    clocks: [0; 4],
}));

#[inline(always)]
fn state() -> &'static mut State {
    unsafe { &mut *STATE.0.get() }
}

/// Begins a run.
///
/// # Safety
/// The log and the answers outlive the run.
pub unsafe fn begin(limit: u32, log: &mut [u32], answers: &[u32]) {
    let s = state();
    s.limit = limit;
    (s.log, s.room) = (log.as_mut_ptr(), log.len() / 2);
    (s.answers, s.answer_count) = (answers.as_ptr(), answers.len());
    s.counts = Counts::default();
    s.waiting = 0;
}

/// Ends a run.
pub fn end() -> Counts {
    state().counts
}

/// Says where the registers lie.
pub fn lay_out(block: usize, clocks: [usize; 4]) {
    let s = state();
    (s.block, s.clocks) = (block, clocks);
}

#[cold]
#[inline(never)]
fn cut(number: u32) -> ! {
    resume_unwind(Box::new(Cut(number)))
}

impl State {
    /// The place of a register: its offset, or 1000 hex and the instance.
    #[inline(always)]
    fn place(&self, address: usize) -> u32 {
        let offset = address.wrapping_sub(self.block);
        // rx_data is the last register.
        if offset <= 0x300 {
            offset as u32
        } else {
            0x1000 + self.clocks.iter().position(|&c| c == address).map_or(0, |i| i as u32)
        }
    }

    #[inline(always)]
    fn store(&mut self, op: u32, place: u32, value: u32) {
        let at = 2 * self.counts.entries;
        // The caller has tested the room.
        unsafe {
            *self.log.add(at) = op << 16 | place;
            *self.log.add(at + 1) = value;
        }
        self.counts.entries += 1;
    }

    #[inline(always)]
    fn enter(&mut self, op: u32, place: u32, value: u32) {
        if self.counts.entries >= self.room {
            cut(10);
        }
        self.store(op, place, value);
    }

    #[inline(always)]
    fn ask(&mut self, op: u32, place: u32, mask: u32) -> u32 {
        if self.counts.entries >= self.room {
            cut(10);
        }
        if self.counts.taken >= self.answer_count {
            cut(11);
        }
        let answer = unsafe { *self.answers.add(self.counts.taken) } & mask;
        self.counts.taken += 1;
        self.store(op, place, answer);
        answer
    }
}

#[inline(always)]
pub fn read(address: usize) -> u32 {
    let s = state();
    let word = s.ask(1, s.place(address), u32::MAX);
    s.counts.polls += s.waiting;
    word
}

#[inline(always)]
pub fn write(address: usize, value: u32) {
    let s = state();
    s.enter(2, s.place(address), value);
}

/// A delay in cycles.
#[inline(always)]
pub fn delay(cycles: u32) {
    state().enter(5, 0, cycles);
}

/// Stands for the pointer to tx_data.
#[derive(Clone, Copy)]
pub struct TxData;

impl TxData {
    /// # Safety
    /// Nothing is asked; a pointer's method of this name is unsafe.
    #[inline(always)]
    pub unsafe fn write_volatile(self, byte: u8) {
        state().enter(3, 0x200, u32::from(byte));
    }
}

/// Stands for the pointer to rx_data.
#[derive(Clone, Copy)]
pub struct RxData;

impl RxData {
    /// # Safety
    /// Nothing is asked; a pointer's method of this name is unsafe.
    #[inline(always)]
    pub unsafe fn read_volatile(self) -> u8 {
        state().ask(4, 0x300, 0xFF) as u8
    }
}

/// A wait's limit, counted down once for each unready poll. It lives as long as the wait.
pub struct Countdown {
    left: u32,
    unready: u32,
}

/// Begins a wait: stands for the limit constant.
#[inline(always)]
pub fn countdown() -> Countdown {
    let s = state();
    s.waiting = 1;
    Countdown { left: s.limit, unready: 0 }
}

impl SubAssign<u32> for Countdown {
    #[inline(always)]
    fn sub_assign(&mut self, one: u32) {
        self.left -= one;
        self.unready += one;
    }
}

impl PartialEq<u32> for Countdown {
    #[inline(always)]
    fn eq(&self, other: &u32) -> bool {
        self.left == *other
    }
}

impl Drop for Countdown {
    #[inline(always)]
    fn drop(&mut self) {
        let s = state();
        s.waiting = 0;
        s.counts.longest = s.counts.longest.max(self.unready);
    }
}
