//! One case: read, run, written.

use crate::chain::{OF_SHEETS, OF_TRANSACTIONS, chain, run};
use crate::plan::Plan;
use crate::sheet::Sheet;
use crate::words::Words;
use recorder::Record;
use recorder::call::{Call, How, Opening};
use std::cell::RefCell;
use std::fmt::Write;

/// The limit, the log's length in words and the answers of a run, in the places where a case line has them.
struct Lent {
    limit: u64,
    log_words: usize,
}

impl Lent {
    fn read(w: &mut Words) -> Result<Self, String> {
        Ok(Lent { limit: u64::from(w.u32()?), log_words: w.usize()? })
    }

    /// The last words of every call's case: the answers. The run begins with them.
    fn begin(&self, w: &mut Words) -> Result<(), String> {
        let answers = w.list()?;
        w.end()?;
        self.begin_with(answers);
        Ok(())
    }

    fn begin_with(&self, answers: Vec<u32>) {
        match PLAN.take() {
            None => recorder::begin(self.limit, self.log_words / 2, answers),
            Some(mut plan) => {
                let source = move |record: &Record, asked| Some(plan.answer(record, asked));
                recorder::begin_from(self.limit, self.log_words / 2, Box::new(source));
            }
        }
    }
}

/// The chip with QPI or the one without.
pub(crate) fn call(qpi: bool, rate: u32, c: Call<'_>) -> How {
    if qpi { d13x::calls::call(rate, c) } else { d21x::calls::call(rate, c) }
}

/// The log and the end line. A panic has a line of its own in place of the end line.
fn ended(how: &How, out: &mut String) {
    let record = recorder::end();
    MADE.set(record.answers.clone());
    for e in &record.log {
        let letter = char::from(b"rwbgd"[usize::from(e.op) - 1]);
        writeln!(out, "{letter} {:04x} {:08x}", e.place, e.value).unwrap();
    }
    let counts = format!("{} {} {} {}", record.log.len(), record.answers.len(), record.polls, record.longest);
    match how {
        How::Number(n) => writeln!(out, "end {n} {counts}"),
        How::Panic(said) => writeln!(out, "panic {counts} {said}"),
    }
    .unwrap();
}

/// A line for each byte that is no longer what was given.
fn changed(given: &[u8], now: &[u8], out: &mut String) {
    for (i, (a, b)) in given.iter().zip(now).enumerate() {
        if a != b {
            writeln!(out, "m {i:08x} {b:02x}").unwrap();
        }
    }
}

/// A call that receives into `buffer`.
fn receiving(mut buffer: Vec<u8>, out: &mut String, f: impl FnOnce(&mut [u8]) -> How) {
    let given = buffer.clone();
    let how = f(&mut buffer);
    ended(&how, out);
    changed(&given, &buffer, out);
}

thread_local! {
    /// The plan that makes up the answers of a run in place of the case's own, and those that it made up.
    static PLAN: RefCell<Option<Plan>> = const { RefCell::new(None) };
    static MADE: RefCell<Vec<u32>> = const { RefCell::new(Vec::new()) };
}

/// The answers that the run of a case takes from a plan; the case's own are not used.
pub fn answered_by(line: &str, plan: Plan) -> Vec<u32> {
    PLAN.set(Some(plan));
    answer(line, &mut String::new()).unwrap_or_else(|why| panic!("{line}: {why}"));
    MADE.take()
}

/// Answers one case line.
pub fn answer(line: &str, out: &mut String) -> Result<(), String> {
    let w = &mut Words::new(line);
    match w.name()? {
        "open" => open(w, out),
        "free" => free(w, out),
        "write" => write(w, out),
        "read" => read(w, out),
        "inplace" => inplace(w, out),
        "transfer" => transfer(w, out),
        "flush" => flush(w, out),
        "mode" => mode(w, out),
        "quadread" => quadread(w, out),
        "quadwrite" => quadwrite(w, out),
        "transaction" => transaction(w, out),
        "clock" => clock(w, out),
        "sck" => sck(w, out),
        "dummy" => dummy(w, out),
        "sheet" => sheet(w, true, out),
        "print" => sheet(w, false, out),
        name => Err(format!("{name} is no case")),
    }
}

fn write(w: &mut Words, out: &mut String) -> Result<(), String> {
    let (lent, bytes) = (Lent::read(w)?, w.bytes()?);
    lent.begin(w)?;
    ended(&call(true, 0, Call::Write(&bytes)), out);
    Ok(())
}

fn read(w: &mut Words, out: &mut String) -> Result<(), String> {
    let (lent, buffer) = (Lent::read(w)?, w.bytes()?);
    lent.begin(w)?;
    receiving(buffer, out, |b| call(true, 0, Call::Read(b)));
    Ok(())
}

fn inplace(w: &mut Words, out: &mut String) -> Result<(), String> {
    let (lent, buffer) = (Lent::read(w)?, w.bytes()?);
    lent.begin(w)?;
    receiving(buffer, out, |b| call(true, 0, Call::InPlace(b)));
    Ok(())
}

fn transfer(w: &mut Words, out: &mut String) -> Result<(), String> {
    let (lent, buffer, sent) = (Lent::read(w)?, w.bytes()?, w.bytes()?);
    lent.begin(w)?;
    receiving(buffer, out, |b| call(true, 0, Call::Transfer(b, &sent)));
    Ok(())
}

fn flush(w: &mut Words, out: &mut String) -> Result<(), String> {
    Lent::read(w)?.begin(w)?;
    ended(&call(true, 0, Call::Flush), out);
    Ok(())
}

fn mode(w: &mut Words, out: &mut String) -> Result<(), String> {
    let (lent, qpi, mode) = (Lent::read(w)?, w.flag()?, w.up_to(6)?);
    lent.begin(w)?;
    ended(&call(qpi, 0, Call::Mode(mode)), out);
    Ok(())
}

fn quadread(w: &mut Words, out: &mut String) -> Result<(), String> {
    let (lent, rate, command) = (Lent::read(w)?, w.u32()?, &w.bytes()?);
    let (tclqv_ns, margin, buffer) = (w.u32()?, w.up_to(255)? as u8, w.bytes()?);
    lent.begin(w)?;
    receiving(buffer, out, |data| call(true, rate, Call::QuadRead { command, tclqv_ns, margin, data }));
    Ok(())
}

fn quadwrite(w: &mut Words, out: &mut String) -> Result<(), String> {
    let (lent, command, data) = (Lent::read(w)?, w.bytes()?, w.bytes()?);
    lent.begin(w)?;
    ended(&call(true, 0, Call::QuadWrite(&command, &data)), out);
    Ok(())
}

/// The Rust takes no core rate; so too at an opening.
fn transaction(w: &mut Words, out: &mut String) -> Result<(), String> {
    let (lent, _core_hz, records, memory) = (Lent::read(w)?, w.u32()?, w.list()?, w.bytes()?);
    lent.begin(w)?;
    match chain(&records, OF_TRANSACTIONS, memory.len()) {
        Some(chain) => receiving(memory, out, |m| run(&chain, true, 0, m)),
        None => writeln!(out, "refused").unwrap(),
    }
    Ok(())
}

fn open(w: &mut Words, out: &mut String) -> Result<(), String> {
    let mut o = Opening {
        instance: w.u32()?,
        mode: w.up_to(3)?,
        master: w.flag()?,
        work_mode: w.up_to(6)?,
        bit_mode_en: w.flag()?,
        lsb_first: w.flag()?,
        cs_config: None,
        freq: 0,
        pll_hz: 0,
        osc_hz: 0,
    };
    let selects = w.flag()?;
    let record = [w.up_to(1)?, w.up_to(1)?, w.up_to(1)?];
    o.cs_config = selects.then_some(record);
    o.freq = w.u32()?;
    o.pll_hz = w.u32()?;
    o.osc_hz = w.u32()?;
    let (_core_hz, qpi) = (w.u32()?, w.flag()?);
    let lent = Lent::read(w)?;
    lent.begin(w)?;
    let (how, rate) = if qpi { d13x::calls::open(&o) } else { d21x::calls::open(&o) };
    ended(&how, out);
    writeln!(out, "rate {rate}").unwrap();
    Ok(())
}

fn free(w: &mut Words, out: &mut String) -> Result<(), String> {
    let instance = w.u32()?;
    let lent = Lent { limit: 1, log_words: w.usize()? };
    lent.begin(w)?;
    ended(&d13x::calls::free(instance), out);
    Ok(())
}

fn clock(w: &mut Words, out: &mut String) -> Result<(), String> {
    let (pll_hz, target) = (w.u32()?, w.u32()?);
    w.end()?;
    let (m, kind, c) = d13x::calls::select_clock(pll_hz, target);
    let (_, rate) = d13x::calls::actual_sck(pll_hz, m, kind, c);
    writeln!(out, "clock {m} {kind} {c} {rate}").unwrap();
    Ok(())
}

/// The Rust's dividers are bytes: a wider one cannot be given to it.
fn sck(w: &mut Words, out: &mut String) -> Result<(), String> {
    let (pll_hz, m, kind, c) = (w.u32()?, w.u32()?, w.up_to(2)?, w.u32()?);
    w.end()?;
    match (u8::try_from(m), u8::try_from(c)) {
        (Ok(m), Ok(c)) => match d13x::calls::actual_sck(pll_hz, m, kind as u8, c) {
            (How::Number(n), rate) => writeln!(out, "sck {n} {rate}"),
            (How::Panic(said), _) => writeln!(out, "panic {said}"),
        },
        _ => writeln!(out, "none"),
    }
    .unwrap();
    Ok(())
}

fn dummy(w: &mut Words, out: &mut String) -> Result<(), String> {
    let (rate, tclqv_ns, margin) = (w.u32()?, w.u32()?, w.up_to(255)? as u8);
    w.end()?;
    writeln!(out, "dummy {}", d13x::calls::dummy_bytes_for(rate, tclqv_ns, margin)).unwrap();
    Ok(())
}

/// The log of a sheet: 4,096 entries.
const SHEET_LOG_WORDS: usize = 8192;

/// Runs the bytes as a sheet; where a memory is asked for, its changed bytes are told by their place in it.
fn sheet(w: &mut Words, told: bool, out: &mut String) -> Result<(), String> {
    let mut bytes = w.bytes()?;
    w.end()?;
    let Some((s, chain)) = Sheet::read(&bytes).and_then(|s| {
        let chain = chain(&s.records, OF_SHEETS, bytes.len() - s.memory)?;
        Some((s, chain))
    }) else {
        writeln!(out, "refused").unwrap();
        return Ok(());
    };
    let lent = Lent { limit: u64::from(s.limit), log_words: SHEET_LOG_WORDS };
    lent.begin_with(s.answers);
    let memory = &mut bytes[s.memory..];
    let given = memory.to_vec();
    let how = run(&chain, s.qpi, s.rate, memory);
    ended(&how, out);
    if told {
        changed(&given, memory, out);
    }
    Ok(())
}
