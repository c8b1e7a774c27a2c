//! One case: read, run, written.

use crate::lines::answer_each;
use crate::program;
use crate::received::{parts, places, received};
use crate::words::Words;
use qspi::{Ended, Lent, by_number};
use std::fmt::Write as _;
use std::io::{self, BufRead, Write};

/// Reads the fields of a case and writes what the port did.
type Answer = fn(&mut Words, &mut String) -> Result<(), String>;

/// Every case name and what answers it.
const CASES: [(&str, Answer); 16] = [
    ("open", open),
    ("free", free),
    ("write", write),
    ("read", read),
    ("inplace", inplace),
    ("transfer", transfer),
    ("flush", flush),
    ("mode", mode),
    ("quadread", quadread),
    ("quadwrite", quadwrite),
    ("transaction", transaction),
    ("clock", clock),
    ("sck", sck),
    ("dummy", dummy),
    ("sheet", sheet),
    ("print", print),
];

/// What a log word holds before a call, so that one written past the last entry shows.
const UNTOUCHED: u32 = 0x5AA5_C33C;

/// With what the case of a call begins, but an opening's and a release's: the limit, and the words of the lent log.
struct Room {
    limit: u32,
    log_words: usize,
}

impl Room {
    fn read(w: &mut Words) -> Result<Room, String> {
        Ok(Room { limit: w.u32()?, log_words: w.usize()? })
    }

    /// Makes a call on a lent log and the answers that end the case.
    fn lend(&self, w: &mut Words, f: impl FnOnce(&mut Lent) -> Ended) -> Result<(Ended, Vec<u32>), String> {
        let answers = w.list()?;
        w.end()?;
        let mut log = vec![UNTOUCHED; self.log_words];
        let ended = f(&mut Lent { limit: self.limit, log: &mut log, answers: &answers });
        Ok((ended, log))
    }

    /// Makes a call that receives nothing, and writes how it ended.
    fn call(&self, w: &mut Words, out: &mut String, f: impl FnOnce(&mut Lent) -> Ended) -> Result<(), String> {
        let (e, log) = self.lend(w, f)?;
        ended(e, &log, true, out)
    }

    /// Makes a call that receives into a buffer, at these places one after the other.
    fn receive(
        &self,
        w: &mut Words,
        out: &mut String,
        mut buffer: Vec<u8>,
        places: impl Iterator<Item = usize>,
        f: impl FnOnce(&mut Lent, &mut [u8]) -> Ended,
    ) -> Result<(), String> {
        let given = buffer.clone();
        let (e, log) = self.lend(w, |lent| f(lent, &mut buffer))?;
        on_memory(e, &log, [&given, &buffer], places, out)
    }
}

/// Writes the log, the end line and, if the call wrote what it must not, `changed`: a word past the last entry or, as
/// the caller says, a byte.
fn ended(e: Ended, log: &[u32], bytes_kept: bool, out: &mut String) -> Result<(), String> {
    for entry in e.log(log) {
        writeln!(out, "{entry}").map_err(|e| e.to_string())?;
    }
    writeln!(out, "{e}").map_err(|e| e.to_string())?;
    if !bytes_kept || e.split(log).1.iter().any(|&word| word != UNTOUCHED) {
        out.push_str("changed\n");
    }
    Ok(())
}

/// Writes how a call ended that received at these places, and a line for each byte that is no longer what was given.
fn on_memory(
    e: Ended,
    log: &[u32],
    [given, now]: [&[u8]; 2],
    places: impl Iterator<Item = usize>,
    out: &mut String,
) -> Result<(), String> {
    ended(e, log, now == received(given, places, e.log(log)), out)?;
    for (i, (a, b)) in given.iter().zip(now).enumerate() {
        if a != b {
            writeln!(out, "m {i:08x} {b:02x}").map_err(|e| e.to_string())?;
        }
    }
    Ok(())
}

fn open(w: &mut Words, out: &mut String) -> Result<(), String> {
    let instance = w.u32()?;
    let mode = w.up_to(3)?;
    let (master, work_mode) = (w.flag()?, w.u32()?);
    let (bit_mode, lsb_first) = (w.flag()?, w.flag()?);
    let (selects, record) = (w.flag()?, [w.flag()?, w.flag()?, w.flag()?]);
    let (freq, pll_hz, osc_hz, core_hz) = (w.u32()?, w.u32()?, w.u32()?, w.u32()?);
    let (qpi, room) = (w.flag()?, Room::read(w)?);
    let asked = by_number::Opening {
        instance,
        qpi,
        pll_hz,
        osc_hz,
        core_hz,
        freq,
        idle_high: mode >= 2,
        second_transition: mode % 2 == 1,
        master,
        work_mode,
        bit_mode,
        lsb_first,
        cs: selects.then_some(record),
    };
    let mut rate = 0;
    room.call(w, out, |lent| {
        let (ended, hz) = by_number::open(lent, &asked);
        rate = hz;
        ended
    })?;
    writeln!(out, "rate {rate}").map_err(|e| e.to_string())
}

fn free(w: &mut Words, out: &mut String) -> Result<(), String> {
    let (instance, log_words) = (w.u32()?, w.usize()?);
    Room { limit: 1, log_words }.call(w, out, |lent| qspi::free(lent.log, lent.answers, instance))
}

fn write(w: &mut Words, out: &mut String) -> Result<(), String> {
    let (room, bytes) = (Room::read(w)?, w.bytes()?);
    room.call(w, out, |lent| qspi::write(lent, &bytes))
}

fn read(w: &mut Words, out: &mut String) -> Result<(), String> {
    let (room, bytes) = (Room::read(w)?, w.bytes()?);
    room.receive(w, out, bytes, 0.., qspi::read)
}

fn transfer(w: &mut Words, out: &mut String) -> Result<(), String> {
    let (room, bytes, sent) = (Room::read(w)?, w.bytes()?, w.bytes()?);
    room.receive(w, out, bytes, 0.., |lent, bytes| qspi::transfer(lent, bytes, &sent))
}

fn flush(w: &mut Words, out: &mut String) -> Result<(), String> {
    Room::read(w)?.call(w, out, qspi::flush)
}

fn inplace(w: &mut Words, out: &mut String) -> Result<(), String> {
    let (room, bytes) = (Room::read(w)?, w.bytes()?);
    room.receive(w, out, bytes, 0.., qspi::transfer_in_place)
}

fn mode(w: &mut Words, out: &mut String) -> Result<(), String> {
    let (room, qpi, mode) = (Room::read(w)?, w.flag()?, w.u32()?);
    room.call(w, out, |lent| by_number::set_work_mode(lent, qpi, mode))
}

fn quadread(w: &mut Words, out: &mut String) -> Result<(), String> {
    let (room, hz, command) = (Room::read(w)?, w.u32()?, w.bytes()?);
    let (tclqv_ns, margin, bytes) = (w.u32()?, w.up_to(255)? as u8, w.bytes()?);
    let asked = qspi::QuadRead { hz, command: &command, tclqv_ns, margin };
    room.receive(w, out, bytes, 0.., |lent, bytes| qspi::read_quad(lent, &asked, bytes))
}

fn quadwrite(w: &mut Words, out: &mut String) -> Result<(), String> {
    let (room, command, data) = (Room::read(w)?, w.bytes()?, w.bytes()?);
    room.call(w, out, |lent| qspi::write_quad(lent, &command, &data))
}

fn transaction(w: &mut Words, out: &mut String) -> Result<(), String> {
    let (room, core_hz) = (Room::read(w)?, w.u32()?);
    let (records, memory) = (w.list()?, w.bytes()?);
    room.receive(w, out, memory, places(&records), |lent, memory| qspi::transaction(lent, core_hz, memory, &records))
}

fn clock(w: &mut Words, out: &mut String) -> Result<(), String> {
    let (pll, target) = (w.u32()?, w.u32()?);
    w.end()?;
    let (m, kind, count) = by_number::select_clock(pll, target);
    let (_, rate) = by_number::actual_sck(pll, m, kind, count);
    writeln!(out, "clock {m} {kind} {count} {rate}").map_err(|e| e.to_string())
}

fn sck(w: &mut Words, out: &mut String) -> Result<(), String> {
    let (pll, m, kind, count) = (w.u32()?, w.u32()?, w.u32()?, w.u32()?);
    w.end()?;
    let (number, rate) = by_number::actual_sck(pll, m, kind, count);
    writeln!(out, "sck {} {rate}", number.get()).map_err(|e| e.to_string())
}

fn dummy(w: &mut Words, out: &mut String) -> Result<(), String> {
    let (rate, tclqv_ns, margin) = (w.u32()?, w.u32()?, w.up_to(255)? as u8);
    w.end()?;
    let count = qspi::dummy_bytes_for(rate, tclqv_ns, margin);
    writeln!(out, "dummy {count}").map_err(|e| e.to_string())
}

fn sheet(w: &mut Words, out: &mut String) -> Result<(), String> {
    let mut bytes = w.bytes()?;
    w.end()?;
    let given = bytes.clone();
    let mut log = vec![UNTOUCHED; qspi::SHEET_LOG_WORDS];
    let e = qspi::sheet(&mut bytes, &mut log);
    let (records, memory) = parts(&given);
    let (before, now) = bytes.split_at(memory);
    if before != &given[..memory] {
        return ended(e, &log, false, out);
    }
    on_memory(e, &log, [&given[memory..], now], places(&records), out)
}

fn print(w: &mut Words, out: &mut String) -> Result<(), String> {
    let bytes = w.bytes()?;
    w.end()?;
    out.push_str(&program::printed(&bytes).map_err(|e| e.to_string())?);
    Ok(())
}

/// Answers one case line.
fn answer(line: &str, out: &mut String) -> Result<(), String> {
    let w = &mut Words::new(line);
    let name = w.name()?;
    match CASES.iter().find(|(known, _)| *known == name) {
        Some((_, f)) => f(w, out),
        None => Err(format!("{name} is no case")),
    }
}

/// Answers every case of the input.
pub fn answer_all(input: impl BufRead, output: impl Write) -> io::Result<()> {
    answer_each(input, output, answer)
}

#[cfg(test)]
mod tests {
    use super::*;

    /// A case of each name, and the last line of its answer.
    const ONE_OF_EACH: [(&str, &str); 16] = [
        ("open 2 0 1 0 0 0 0 0 0 0 10000000 1200000000 24000000 1 0 1 9 0", "rate 0"),
        ("free 0 4 1 0xffffffff", "end 0 2 1 0 0"),
        ("write 0 10 1 0 0", "end 7 0 0 0 0"),
        ("read 1 40 1 0 8 1 1 1 1 1 1 1 1", "m 00000000 01"),
        ("inplace 1 10 0 0 0", "end 0 0 0 0 0"),
        ("transfer 1 10 1 0 1 0 0", "end 11 0 0 0 0"),
        ("flush 3 100 3 0x80000000 0x80000000 0", "end 0 3 3 3 2"),
        ("mode 1 10 0 6 1 0", "end 2 1 1 1 0"),
        ("quadread 1 0 1 0 0 1 0 1 0 0", "end 10 0 0 0 0"),
        ("quadwrite 1 0 0 0 0 0 0", "end 10 0 0 0 0"),
        ("transaction 1 2 9 1 0 0 0 0", "end 8 0 0 0 0"),
        ("clock 1200000000 10000000", "clock 11 2 4 10000000"),
        ("sck 1000000 32 1 0", "sck 12 0"),
        ("dummy 100000000 81 0", "dummy 2"),
        ("sheet 19 0", "end 13 0 0 0 0"),
        ("print 20 0", "end 7 0 0 0 0"),
    ];

    #[test]
    fn one_of_each() {
        for ((line, end), (name, _)) in ONE_OF_EACH.into_iter().zip(CASES) {
            let mut out = String::new();
            assert_eq!(answer(line, &mut out), Ok(()), "{line}");
            assert!(line.starts_with(&format!("{name} ")));
            assert_eq!(out.lines().last(), Some(end), "{line}");
        }
    }

    /// The core rate is the library's: 1 ns at 1.5 GHz, a cycle too many for 32 bits, an opening at 0.
    #[test]
    fn core_rates() {
        for (line, due) in [
            ("transaction 1 2 1500000000 8 5 1 0 0 0 0 0 0 0 0 0", "d 0000 00000002\nend 0 1 0 0 0\n"),
            ("transaction 1 2 1000000001 8 5 4294967291 0 0 0 0 0 0 0 0 0", "end 14 0 0 0 0\n"),
            ("open 2 0 1 0 0 0 0 0 0 0 10000000 1200000000 24000000 0 1 1 9 0", "end 14 0 0 0 0\nrate 0\n"),
        ] {
            let mut out = String::new();
            assert_eq!((answer(line, &mut out), out.as_str()), (Ok(()), due), "{line}");
        }
    }

    /// An opening is refused by 23 at the PLLs that no module clock is eligible for, and not at those next to them.
    #[test]
    fn plls() {
        for (pll, number) in [(0, 23), (1, 11), (3_200_000_031, 11), (3_200_000_032, 23), (u32::MAX, 23)] {
            let (line, mut out) =
                (format!("open 2 0 1 0 0 0 0 0 0 0 10000000 {pll} 24000000 1 0 1 9 0"), String::new());
            let due = format!("end {number} 0 0 0 0\nrate 0\n");
            assert_eq!((answer(&line, &mut out), out), (Ok(()), due), "{line}");
        }
    }

    /// A read that writes a byte that it did not receive, or a word past its last entry.
    #[test]
    fn what_must_not_be_written_shows() {
        let answered = |spoil: fn(&mut Lent, &mut [u8])| {
            let (w, mut out) = (&mut Words::new("1 40 2 0 7 0 0 0 0 0 1 9"), String::new());
            let (room, bytes) = (Room::read(w).unwrap(), w.bytes().unwrap());
            let read = |lent: &mut Lent, bytes: &mut [u8]| {
                let e = qspi::read(lent, bytes);
                spoil(lent, bytes);
                e
            };
            room.receive(w, &mut out, bytes, 0.., read).unwrap();
            out.lines().rev().take_while(|line| !line.starts_with('g')).map(String::from).collect::<Vec<String>>()
        };
        assert_eq!(answered(|_, _| {}), ["m 00000000 09", "end 11 13 7 1 0"]);
        assert_eq!(answered(|_, b| b[1] = 5), ["m 00000001 05", "m 00000000 09", "changed", "end 11 13 7 1 0"]);
        assert_eq!(answered(|lent, _| lent.log[39] = 0), ["m 00000000 09", "changed", "end 11 13 7 1 0"]);
    }

    #[test]
    fn names_and_ends() {
        let mut out = Vec::new();
        let input = "# a comment\n\ntransaction 1 2 9 0 0 0 0\nflush 3 100 0\nflash 1\nclock 24000000 10000000\nsheet 19 0\nsheet 20 1 1\nprint 20 0\n";
        answer_all(input.as_bytes(), &mut out).unwrap();
        let text = String::from_utf8(out).unwrap();
        assert_eq!(
            text,
            "end 0 0 0 0 0\n.\nend 11 0 0 0 0\n.\nerror flash is no case\n.\nclock 2 1 0 8000000\n.\n\
             end 13 0 0 0 0\n.\nend 0 0 0 0 0\n.\nend 7 0 0 0 0\n.\n"
        );
    }
}
