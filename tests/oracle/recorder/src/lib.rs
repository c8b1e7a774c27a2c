//! Records what the driver does to its registers and hands out the words that they answer.
//!
//! Document 01, "How a call ends": a run is cut where the next entry does not fit the log (10), or is a read or a byte
//! got with no answer left (11); 10 is tested first. The cut leaves the driver by unwinding.

pub mod call;

use std::cell::RefCell;
use std::ops::SubAssign;
use std::panic::resume_unwind;

/// One log entry.
#[derive(Clone, Copy, Debug, PartialEq, Eq)]
pub struct Entry {
    pub op: u8,
    pub place: u32,
    pub value: u32,
}

/// The number of the cut, 10 or 11.
#[derive(Clone, Copy, Debug)]
pub struct Cut(pub u32);

/// A read or a byte got that wants an answer.
#[derive(Clone, Copy, Debug)]
pub struct Asked {
    pub place: u32,
    /// Of a poll: the unready polls of its wait before it.
    pub poll: Option<u64>,
}

/// Where the answers of a run come from.
pub type Source = Box<dyn FnMut(&Record, Asked) -> Option<u32>>;

/// What a run has done so far.
#[derive(Clone, Debug, Default)]
pub struct Record {
    pub log: Vec<Entry>,
    pub answers: Vec<u32>,
    pub polls: u64,
    pub longest: u64,
}

#[derive(Default)]
struct Recorder {
    limit: u64,
    capacity: usize,
    source: Option<Source>,
    record: Record,
    /// Where the register block of the controller lies.
    block: usize,
    /// Where the module clock words of instances 0 to 3 lie.
    clocks: [usize; 4],
    /// Unready polls of the wait that is under way.
    wait: Option<u64>,
}

thread_local! {
    static RECORDER: RefCell<Recorder> = RefCell::default();
}

impl Recorder {
    /// The place of a register: its offset, or 1000 hex and the instance.
    fn place(&self, address: usize) -> u32 {
        match self.clocks.iter().position(|&c| c == address) {
            Some(instance) => 0x1000 + instance as u32,
            None => (address - self.block) as u32,
        }
    }

    fn enter(&mut self, op: u8, place: u32, value: u32) -> Result<(), Cut> {
        if self.record.log.len() >= self.capacity {
            return Err(Cut(10));
        }
        self.record.log.push(Entry { op, place, value });
        Ok(())
    }

    /// The next answer, entered as what `says` makes of it.
    fn ask(&mut self, op: u8, place: u32, says: fn(u32) -> u32) -> Result<u32, Cut> {
        if self.record.log.len() >= self.capacity {
            return Err(Cut(10));
        }
        let asked = Asked { place, poll: if op == 1 { self.wait } else { None } };
        let source = self.source.as_mut().expect("no run was begun");
        let answer = source(&self.record, asked).ok_or(Cut(11))?;
        self.record.answers.push(answer);
        self.enter(op, place, says(answer))?;
        Ok(says(answer))
    }
}

/// Begins a run with a list of answers.
pub fn begin(limit: u64, capacity: usize, answers: Vec<u32>) {
    let mut answers = answers.into_iter();
    begin_from(limit, capacity, Box::new(move |_, _| answers.next()));
}

/// Begins a run whose answers come from a source.
pub fn begin_from(limit: u64, capacity: usize, source: Source) {
    RECORDER.with(|r| {
        let r = &mut *r.borrow_mut();
        r.limit = limit;
        r.capacity = capacity;
        r.source = Some(source);
        r.record = Record::default();
        r.wait = None;
    })
}

/// Says where the registers lie.
pub fn lay_out(block: usize, clocks: [usize; 4]) {
    RECORDER.with(|r| {
        let r = &mut *r.borrow_mut();
        r.block = block;
        r.clocks = clocks;
    })
}

/// Ends a run.
pub fn end() -> Record {
    RECORDER.with(|r| std::mem::take(&mut r.borrow_mut().record))
}

fn recorded<T>(f: impl FnOnce(&mut Recorder) -> Result<T, Cut>) -> T {
    match RECORDER.with(|r| f(&mut r.borrow_mut())) {
        Ok(value) => value,
        Err(cut) => resume_unwind(Box::new(cut)),
    }
}

/// A register read. While a wait's countdown is alive it is a poll.
pub fn read(address: usize) -> u32 {
    recorded(|r| {
        let word = r.ask(1, r.place(address), |answer| answer)?;
        if r.wait.is_some() {
            r.record.polls += 1;
        }
        Ok(word)
    })
}

/// A register write.
pub fn write(address: usize, value: u32) {
    recorded(|r| r.enter(2, r.place(address), value))
}

/// A delay in cycles.
pub fn delay(cycles: u32) {
    recorded(|r| r.enter(5, 0, cycles))
}

/// Stands for the pointer to tx_data.
#[derive(Clone, Copy)]
pub struct TxData;

impl TxData {
    /// # Safety
    /// Nothing is asked; a pointer's method of this name is unsafe.
    pub unsafe fn write_volatile(self, byte: u8) {
        recorded(|r| r.enter(3, 0x200, u32::from(byte)))
    }
}

/// Stands for the pointer to rx_data.
#[derive(Clone, Copy)]
pub struct RxData;

impl RxData {
    /// # Safety
    /// Nothing is asked; a pointer's method of this name is unsafe.
    pub unsafe fn read_volatile(self) -> u8 {
        recorded(|r| r.ask(4, 0x300, |answer| answer & 0xFF)) as u8
    }
}

/// A wait's limit, counted down once for each unready poll. It lives as long as the wait.
pub struct Countdown {
    left: u64,
}

/// Begins a wait: stands for the limit constant.
pub fn countdown() -> Countdown {
    RECORDER.with(|r| {
        let r = &mut *r.borrow_mut();
        r.wait = Some(0);
        Countdown { left: r.limit }
    })
}

impl SubAssign<u64> for Countdown {
    fn sub_assign(&mut self, one: u64) {
        self.left -= one;
        unready();
    }
}

/// Counts an unready poll of the wait under way.
fn unready() {
    RECORDER.with(|r| {
        let r = &mut *r.borrow_mut();
        let unready = r.wait.unwrap_or(0) + 1;
        r.wait = Some(unready);
        r.record.longest = r.record.longest.max(unready);
    })
}

impl PartialEq<u64> for Countdown {
    fn eq(&self, other: &u64) -> bool {
        self.left == *other
    }
}

impl Drop for Countdown {
    fn drop(&mut self) {
        RECORDER.with(|r| r.borrow_mut().wait = None)
    }
}
