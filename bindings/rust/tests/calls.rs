//! Every call once at least, with what documents 01 and 02 say of it.

use qspi::{
    Bus, Choice, Config, CsConfig, CsLevel, CsPin, CtrlMode, Divider, Ended, Entry, Lent, Number, Opening, Operation,
    Polarity, QuadRead, SHEET_BYTES, SHEET_LOG_WORDS, SheetOperation, SpiMode, Window, WorkMode, by_number,
};

/// What a log word holds before a call.
const UNTOUCHED: u32 = 0x5AA5_C33C;

/// The core rate of most calls.
const CORE_HZ: u32 = 480_000_000;

/// START, which a wait for the transfer's end is not ready with.
const START: u32 = 0x8000_0000;

/// What the sheet program prints for document 01's sheet, whose one record writes one byte.
const PRINTED: &str = include_str!("../../../crates/qspi_sheet/stdout");

/// Makes a call on a log of so many words: its end line, and the entries it made. The other words keep their values.
fn called(
    limit: u32,
    log_words: usize,
    answers: &[u32],
    call: impl FnOnce(&mut Lent) -> Ended,
) -> (String, Vec<Entry>) {
    let mut log = vec![UNTOUCHED; log_words];
    let ended = call(&mut Lent { limit, log: &mut log, answers });
    assert!(ended.split(&log).1.iter().all(|&word| word == UNTOUCHED));
    (ended.to_string(), ended.log(&log).collect())
}

/// The end line of a call at limit 3, with room and as many answers 1 as it asks for: all ready, one byte got at a time.
fn ready(call: impl FnOnce(&mut Lent) -> Ended) -> String {
    called(3, 4000, &[1; 4000], call).0
}

/// The values entered by an op's letter at a place.
fn values(entries: &[Entry], letter: char, place: u16) -> Vec<u32> {
    let there = |e: &&Entry| e.op.letter() == letter && e.place == place;
    entries.iter().filter(there).map(|e| e.value).collect()
}

fn window(start: u32, length: u32) -> Window {
    Window { start, length }
}

fn choice(mod_div: u8, divider: Divider) -> Choice {
    Choice { mod_div, divider }
}

#[test]
fn p1_to_p6_clock() {
    for (pll, target, expected, rate) in [
        (1_200_000_000, 10_000_000, choice(11, Divider::Cdr2(4)), 10_000_000),
        (24_000_000, 10_000_000, choice(2, Divider::Cdr1(0)), 8_000_000),
        (100_000_000, 50_000_000, choice(0, Divider::Cdr1(1)), 50_000_000),
        (3_200_000_031, 100_000_000, choice(31, Divider::Cdr1(0)), 100_000_000),
        (3_200_000_032, 100_000_000, choice(0, Divider::Cdr1(0)), 3_200_000_032),
        (0, 10_000_000, choice(0, Divider::Cdr1(0)), 0),
    ] {
        assert_eq!(qspi::select_clock(pll, target), expected);
        assert_eq!(qspi::actual_sck(pll, expected), Ok(rate));
    }
}

#[test]
fn twelve_with_rate_0() {
    let refused = choice(32, Divider::Cdr2(0));
    assert_eq!(qspi::actual_sck(1_000_000, refused), Err(Number::Divider));
    let refused = choice(0, Divider::Cdr1(16));
    assert_eq!(qspi::actual_sck(1_000_000, refused), Err(Number::Divider));
    for (m, kind, count) in [(32, 1, 0), (0, 1, 16), (0, 2, 256), (0, 0, 0), (0, 3, 0), (u32::MAX, 2, 1)] {
        let answer = by_number::actual_sck(1_000_000, m, kind, count);
        assert_eq!(answer, (Number::Divider, 0), "{m} {kind} {count}");
    }
    assert_eq!(by_number::actual_sck(1_000_000, 31, 1, 15), (Number::Done, 0));
    assert_eq!(by_number::actual_sck(u32::MAX, 31, 2, 255), (Number::Done, 262_143));
}

#[test]
fn p7_to_p10_dummies() {
    for (tclqv_ns, margin, dummies) in [(80, 0, 1), (81, 0, 2), (20_480, 0, 1), (20_480, 3, 3), (20_400, 1, 255)] {
        assert_eq!(qspi::dummy_bytes_for(100_000_000, tclqv_ns, margin), dummies);
    }
    assert_eq!(qspi::dummy_bytes_for(100_000_000, 0, 0), 0);
}

#[test]
fn the_limit_of_the_rust() {
    assert_eq!(qspi::default_limit(), 100_000);
}

#[test]
fn p11_flush() {
    let (end, entries) = called(3, 7, &[START, START, 0], qspi::flush);
    assert_eq!(end, "end 0 3 3 3 2");
    assert_eq!(values(&entries, 'r', 0x008), [START, START, 0]);
    let (end, entries) = called(3, 7, &[START, START, START, 0], qspi::flush);
    assert_eq!(end, "end 1 3 3 3 3");
    assert_eq!(entries.len(), 3);
}

#[test]
fn log_and_answers_used_up() {
    for (log_words, answers, expected) in [
        (0, &[][..], "end 10 0 0 0 0"),
        (1, &[0][..], "end 10 0 0 0 0"),
        (2, &[][..], "end 11 0 0 0 0"),
        (5, &[START, START, 0][..], "end 10 2 2 2 2"),
        (6, &[START, START][..], "end 11 2 2 2 2"),
    ] {
        assert_eq!(called(3, log_words, answers, qspi::flush).0, expected);
    }
}

#[test]
fn p12_sheet() {
    let sample = include_bytes!("../../../crates/qspi_sheet/stdin");
    let (mut bytes, mut log) = (*sample, vec![UNTOUCHED; SHEET_LOG_WORDS]);
    let ended = qspi::sheet(&mut bytes, &mut log);
    let lines = ended.log(&log).map(|e| e.to_string());
    let printed: Vec<String> = lines.chain([ended.to_string()]).collect();
    assert_eq!(printed.join("\n") + "\n", PRINTED);
    assert_eq!(&bytes, sample);
    assert!(ended.split(&log).1.iter().all(|&word| word == UNTOUCHED));
}

#[test]
fn a_sheet_of_every_kind() {
    let (a, b) = (window(0, 1), window(1, 1));
    let operations = [
        Operation::Write(a).into(),
        Operation::Read(b).into(),
        Operation::Transfer { read: a, write: b }.into(),
        Operation::InPlace(b).into(),
        Operation::Delay { ns: 9 }.into(),
        SheetOperation::Flush,
        SheetOperation::Mode(WorkMode::QuadIO),
        SheetOperation::QuadRead { command: a, tclqv_ns: 80, margin: 0, data: b },
        SheetOperation::QuadWrite { command: a, data: b },
    ];
    let sheet = qspi::Sheet {
        limit: 3,
        rate: 100_000_000,
        qpi: false,
        operations: &operations,
        answers: &[1; 100],
        memory: &[5, 6],
    };
    let (mut bytes, mut log) = (sheet.bytes(), [0; 500]);
    let ended = qspi::sheet(&mut bytes, &mut log);
    // Entries 15, 14, 29, 29, 1, 1, 5, 40 and 40, each as that call makes by itself.
    assert_eq!(ended.to_string(), "end 0 174 96 32 0");
    assert_eq!(bytes[sheet.memory_start()..], [1, 1]);
    assert_eq!(bytes[..sheet.memory_start()], sheet.bytes()[..sheet.memory_start()]);
}

/// A sheet opens no bus and takes any rate: a quad read goes by it, with 0, 1, 2 and at most 8 dummies here.
#[test]
fn a_sheet_at_any_rate() {
    let operations = [SheetOperation::QuadRead { command: window(0, 1), tclqv_ns: 80, margin: 0, data: window(1, 1) }];
    for (rate, entries) in [(0, 39), (1, 40), (100_000_000, 40), (100_000_001, 41), (u32::MAX, 47)] {
        let (answers, memory) = (&[1; 22], &[0x6b, 0xEE]);
        let sheet = qspi::Sheet { limit: 3, rate, qpi: false, operations: &operations, answers, memory };
        let (end, _) = called(3, 100, &[], |lent| qspi::sheet(&mut sheet.bytes(), lent.log));
        assert_eq!(end, format!("end 0 {entries} 22 7 0"), "{rate}");
    }
}

#[test]
fn write() {
    let (end, entries) = called(3, 31, &[0; 8], |lent| qspi::write(lent, &[0x9f]));
    let lines: Vec<String> = entries.iter().map(Entry::to_string).collect();
    assert_eq!(lines.join("\n") + "\n" + &end + "\n", PRINTED);
    // A ready first write of 64 bytes makes 78 entries.
    assert_eq!(called(1, 200, &[0; 8], |lent| qspi::write(lent, &[7; 64])).0, "end 0 78 8 3 0");
    assert_eq!(called(1, 0, &[], |lent| qspi::write(lent, &[])).0, "end 0 0 0 0 0");
}

#[test]
fn read() {
    let mut bytes = [0xEE; 2];
    assert_eq!(ready(|lent| qspi::read(lent, &mut bytes)), "end 0 16 10 3 0");
    assert_eq!(bytes, [1, 1]);
    // Cut before the second byte, which keeps its value; of the answer the low eight bits are stored.
    let mut bytes = [0xEE; 2];
    let answers = [0, 0, 0, 0, 0, 2, 0x1234_5678];
    assert_eq!(called(3, 100, &answers, |lent| qspi::read(lent, &mut bytes)).0, "end 11 13 7 1 0");
    assert_eq!(bytes, [0x78, 0xEE]);
    assert_eq!(called(1, 0, &[], |lent| qspi::read(lent, &mut [])).0, "end 0 0 0 0 0");
}

#[test]
fn transfer() {
    let mut bytes = [0xEE];
    assert_eq!(ready(|lent| qspi::transfer(lent, &mut bytes, &[7])), "end 0 29 16 5 0");
    assert_eq!(bytes, [1]);
    assert_eq!(ready(|lent| qspi::transfer(lent, &mut [], &[7])), "end 0 15 8 3 0");
    assert_eq!(ready(|lent| qspi::transfer(lent, &mut bytes, &[])), "end 0 14 8 2 0");
}

#[test]
fn transfer_in_place() {
    let mut bytes = [7; 257];
    let (end, entries) = called(3, 4000, &[1; 4000], |lent| qspi::transfer_in_place(lent, &mut bytes));
    // Parts of 256 bytes and of 1: 273 and 15 entries to write, 524 and 14 to read.
    assert_eq!(end, "end 0 826 545 268 0");
    assert_eq!(values(&entries, 'w', 0x030), [256, 256, 1, 1]);
    assert_eq!(values(&entries, 'b', 0x200), [7; 257]);
    assert_eq!(bytes, [1; 257]);
}

#[test]
fn work_mode() {
    let mode = |qpi, mode| ready(|lent| qspi::set_work_mode(lent, qpi, mode));
    for other in &WorkMode::ALL[..6] {
        assert_eq!(mode(false, *other), "end 0 5 3 1 0");
    }
    assert_eq!(mode(true, WorkMode::Qpi), "end 0 3 2 1 0");
    // Unsupported, after the wait.
    assert_eq!(mode(false, WorkMode::Qpi), "end 2 1 1 1 0");
    let (end, entries) = called(1, 10, &[0; 3], |lent| qspi::set_work_mode(lent, false, WorkMode::Quad));
    assert_eq!(end, "end 0 5 3 1 0");
    assert_eq!(values(&entries, 'w', 0x038), [1 << 29]);
    // Where 038 answers all ones, every mode but QPI clears bit 31.
    let over_ones = |mode| {
        let (end, entries) = called(1, 10, &[0, u32::MAX, 0], |lent| qspi::set_work_mode(lent, true, mode));
        assert!(end.starts_with("end 0 "));
        values(&entries, 'w', 0x038)
    };
    assert_eq!(over_ones(WorkMode::Standard), [0x4FFF_FFFF]);
    assert_eq!(over_ones(WorkMode::DualIO), [0x5FFF_FFFF]);
    assert_eq!(over_ones(WorkMode::Quad), [0x6FFF_FFFF]);
    assert_eq!(over_ones(WorkMode::Qpi), [0xFFFF_FFFF]);
}

#[test]
fn quad_read() {
    let read = |tclqv_ns, margin| {
        let asked = QuadRead { hz: 100_000_000, command: &[0x6b], tclqv_ns, margin };
        let mut data = [0xEE];
        let end = ready(|lent| qspi::read_quad(lent, &asked, &mut data));
        assert_eq!(data, [1]);
        end
    };
    // The dummies of P7, P8 and P9: one, two, and three.
    assert_eq!(read(80, 0), "end 0 40 22 7 0");
    assert_eq!(read(81, 0), "end 0 41 22 7 0");
    assert_eq!(read(20_480, 3), "end 0 42 22 7 0");
}

#[test]
fn quad_write() {
    let (end, entries) = called(3, 100, &[0; 30], |lent| qspi::write_quad(lent, &[0x32], &[8]));
    assert_eq!(end, "end 0 40 22 8 0");
    assert_eq!(values(&entries, 'b', 0x200), [0x32, 8]);
}

#[test]
fn transaction() {
    // Sends 1..4 as they stand, then reads into 0..3; a delay of 9 ns is 4.32 cycles, rounded up.
    let words =
        qspi::chain(&[Operation::Transfer { read: window(0, 3), write: window(1, 3) }, Operation::Delay { ns: 9 }]);
    let mut memory = [5, 6, 7, 8];
    let (end, entries) = called(3, 100, &[1; 20], |lent| qspi::transaction(lent, CORE_HZ, &mut memory, &words));
    assert_eq!(end, "end 0 36 20 7 0");
    assert_eq!(values(&entries, 'b', 0x200), [6, 7, 8]);
    assert_eq!(values(&entries, 'd', 0), [10, 10, 5]);
    assert_eq!(memory, [1, 1, 1, 8]);
    assert_eq!(called(1, 0, &[], |lent| qspi::transaction(lent, CORE_HZ, &mut [], &[])).0, "end 0 0 0 0 0");
}

/// A bus of this core rate, made by hand.
fn bus(core_hz: u32) -> Bus {
    Bus { sck_hz: 10_000_000, core_hz }
}

/// A delay of FFFFFFFF hex cycles at 10^9 + 1 Hz, rounded up; one nanosecond more is one cycle more.
const LONGEST_NS: u32 = 4_294_967_290;

#[test]
fn a_delay_lasts_at_least_its_nanoseconds() {
    for (core_hz, ns, cycles) in [
        (1_000_000_000, 1, 1),
        (1_000_000_001, 1, 2),
        (999_999_999, 1, 1),
        (999_999_999, 2, 2),
        (2, 3, 1),
        (1, u32::MAX, 5),
        (CORE_HZ, 1_000_000_000, CORE_HZ),
        (CORE_HZ, 0, 0),
        (0, u32::MAX, 0),
        (1_000_000_000, u32::MAX, u32::MAX),
        (u32::MAX, 1_000_000_000, u32::MAX),
        (1_000_000_001, LONGEST_NS, u32::MAX),
    ] {
        let words = qspi::chain(&[Operation::Delay { ns }]);
        let (end, entries) = called(1, 4, &[], |lent| bus(core_hz).transaction(lent, &mut [], &words));
        assert_eq!((end.as_str(), values(&entries, 'd', 0)), ("end 0 1 0 0 0", vec![cycles]), "{core_hz} {ns}");
    }
}

/// As papers already printed have it.
#[test]
fn a_delay_in_a_sheet_is_half_its_nanoseconds() {
    let operations = [0, 1, 3, LONGEST_NS + 1, u32::MAX].map(|ns| Operation::Delay { ns }.into());
    let sheet =
        qspi::Sheet { limit: 1, rate: 10_000_000, qpi: false, operations: &operations, answers: &[], memory: &[] };
    let (end, entries) = called(1, 12, &[], |lent| qspi::sheet(&mut sheet.bytes(), lent.log));
    assert_eq!(end, "end 0 5 0 0 0");
    assert_eq!(values(&entries, 'd', 0), [0, 0, 1, 2_147_483_645, 2_147_483_647]);
}

/// P1's clock on instance 2.
fn opening() -> Opening {
    Opening {
        instance: 2,
        qpi: false,
        pll_hz: 1_200_000_000,
        osc_hz: 24_000_000,
        core_hz: CORE_HZ,
        config: Config::default(),
    }
}

/// An opening on a log of so many words and so many zero answers: its bus, its end line, and the entries it made.
fn opened(log_words: usize, answers: usize, opening: Opening) -> (Option<Bus>, String, Vec<Entry>) {
    let mut bus = None;
    let (end, entries) = called(1, log_words, &vec![0; answers], |lent| {
        let opened = qspi::open(lent, &opening);
        bus = opened.bus;
        opened.ended
    });
    (bus, end, entries)
}

#[test]
fn open() {
    let (bus, end, entries) = opened(200, 20, opening());
    assert_eq!(bus, Some(Bus { sck_hz: 10_000_000, core_hz: CORE_HZ }));
    // Thirteen changes and four delays.
    assert_eq!(end, "end 0 30 13 0 0");
    assert_eq!(values(&entries, 'w', 0x1002), [0x110B, 0, 0x2000]);
    assert_eq!(values(&entries, 'w', 0x024), [0x1004]);
    assert_eq!(values(&entries, 'd', 0), [500, 500, 100, 100]);
    assert_eq!(values(&entries, 'w', 0x014), [0xFFFF_FFFF]);
}

/// The bus keeps the core rate that the opening was given. What the opening itself does is the same at each.
#[test]
fn an_opened_bus_delays_by_its_core_rate() {
    let second = qspi::chain(&[Operation::Delay { ns: 1_000_000_000 }]);
    let (_, _, at_another) = opened(200, 20, opening());
    for core_hz in [1, 1_000_000_001, u32::MAX] {
        let (bus, _, entries) = opened(200, 20, Opening { core_hz, ..opening() });
        assert_eq!(entries, at_another);
        let bus = bus.unwrap();
        assert_eq!(bus.core_hz, core_hz);
        let (_, entries) = called(1, 2, &[], |lent| bus.transaction(lent, &mut [], &second));
        assert_eq!(values(&entries, 'd', 0), [core_hz]);
    }
}

/// Next to a PLL without an eligible module clock too, and whatever the target.
#[test]
fn an_opened_bus_has_a_rate_from_1_to_100_mhz() {
    for (pll_hz, freq, sck_hz) in [
        (1, 0, 1),
        (1, 10_000_000, 1),
        (1, u32::MAX, 1),
        (100_000, 0, 100_000),
        (100_000_000, u32::MAX, 100_000_000),
        (100_000_001, u32::MAX, 50_000_000),
        (3_200_000_031, 0, 97_656),
        (3_200_000_031, 10_000_000, 10_000_000),
        (3_200_000_031, u32::MAX, 100_000_000),
    ] {
        let config = Config { freq, ..Config::default() };
        let (bus, end, _) = opened(200, 20, Opening { pll_hz, config, ..opening() });
        assert_eq!((bus, end.as_str()), (Some(Bus { sck_hz, core_hz: CORE_HZ }), "end 0 30 13 0 0"), "{pll_hz} {freq}");
        let choice = qspi::select_clock(pll_hz, freq.clamp(100_000, 100_000_000));
        assert_eq!(qspi::actual_sck(pll_hz, choice), Ok(sck_hz));
    }
    // Around each multiple of the least rate that is too high for a module clock.
    for n in 1..=31 {
        for pll_hz in [n * 100_000_001 - 1, n * 100_000_001] {
            let (bus, ..) = opened(200, 20, Opening { pll_hz, config: Config::nor_flash(), ..opening() });
            assert!((1..=100_000_000).contains(&bus.unwrap().sck_hz), "{pll_hz}");
        }
    }
}

/// All that an opening on zero answers writes at a place.
fn written(place: u16, opening: Opening) -> u32 {
    let (_, entries) = called(1, 200, &[0; 20], |lent| qspi::open(lent, &opening).ended);
    assert_eq!(entries.last().map(|e| e.place), Some(0x014));
    values(&entries, 'w', place).into_iter().fold(0, |all, word| all | word)
}

/// Of what is written on zero answers, a field sets or clears exactly its own bits.
#[test]
fn each_field_of_a_configuration_arrives() {
    let low = CsConfig { polarity: Polarity::IdleLow, level: CsLevel::Low, pin: CsPin::Cs0 };
    let plain = Config { cs_config: Some(low), ..Config::nor_flash() };
    let at = |place, config| written(place, Opening { config, ..opening() });
    let changed = |place, config| at(place, config) ^ at(place, plain);
    let select = |cs| changed(0x008, Config { cs_config: Some(cs), ..plain });
    assert_eq!(changed(0x008, Config { cs_config: None, ..plain }), 1 << 6);
    assert_eq!(changed(0x008, Config { mode: SpiMode::Mode2, ..plain }), 1 << 1);
    assert_eq!(changed(0x008, Config { lsb_first: true, ..plain }), 1 << 12);
    assert_eq!(select(CsConfig { polarity: Polarity::IdleHigh, ..low }), 1 << 2);
    assert_eq!(select(CsConfig { level: CsLevel::High, ..low }), 1 << 7);
    assert_eq!(select(CsConfig { pin: CsPin::Cs1, ..low }), 1 << 4);
    assert_eq!(changed(0x004, Config { ctrl_mode: CtrlMode::Slave, ..plain }), 1 << 1);
    assert_eq!(changed(0x040, Config { bit_mode_en: true, ..plain }), 3);
    assert_eq!(changed(0x038, Config { work_mode: WorkMode::Dual, ..plain }), 1 << 28);
    // 008 bit 13 is set exactly if the rate is not above the oscillator's; QPI opens on a chip that has it.
    let slow = Opening { osc_hz: 99_999_999, config: plain, ..opening() };
    let fast = Opening { osc_hz: 100_000_000, ..slow };
    assert_eq!(written(0x008, slow) ^ written(0x008, fast), 1 << 13);
    let work_mode = WorkMode::Qpi;
    assert_eq!(written(0x038, Opening { qpi: true, config: Config { work_mode, ..plain }, ..slow }), 1 << 31);
}

#[test]
fn an_opening_that_is_cut_has_no_bus() {
    for (log_words, answers, end) in [(58, 20, "end 10 29 13 0 0"), (200, 12, "end 11 28 12 0 0")] {
        let (bus, ended, _) = opened(log_words, answers, opening());
        assert_eq!((bus, ended.as_str()), (None, end));
    }
}

#[test]
fn release() {
    for (instance, place) in [(0, 0x1000), (3, 0x1003), (4, 0x1003), (u32::MAX, 0x1003)] {
        let mut log = [UNTOUCHED; 5];
        let ended = qspi::free(&mut log, &[0xFFFF_FFFF], instance);
        assert_eq!(ended.to_string(), "end 0 2 1 0 0");
        let entries: Vec<Entry> = ended.log(&log).collect();
        assert_eq!(values(&entries, 'w', place), [0xFFFF_CEFF]);
        assert_eq!(log[4], UNTOUCHED);
    }
    assert_eq!(qspi::free(&mut [], &[], 0).number, Number::Log);
    assert_eq!(qspi::free(&mut [0; 2], &[], 0).number, Number::Answers);
}

/// The number of a call that is refused: its counts are 0 and the log keeps its values.
fn refused(limit: u32, call: impl FnOnce(&mut Lent) -> Ended) -> u32 {
    let mut number = None;
    let (end, _) = called(limit, 400, &[1; 400], |lent| {
        let ended = call(lent);
        number = Some(ended.number);
        ended
    });
    let number = number.unwrap();
    assert_eq!(end, format!("end {} 0 0 0 0", number.get()));
    assert!(number.is_refusal());
    number.get()
}

/// The number of an opening that is refused: it has no bus.
fn opening_refused(limit: u32, opening: Opening) -> u32 {
    refused(limit, |lent| {
        let opened = qspi::open(lent, &opening);
        assert_eq!(opened.bus, None);
        opened.ended
    })
}

#[test]
fn openings_refused() {
    let refused = opening_refused;
    let with = |config| Opening { config, ..opening() };
    let mode = |mode| with(Config { mode, ..Config::default() });
    assert_eq!(refused(1, mode(SpiMode::Mode1)), 3);
    assert_eq!(refused(1, mode(SpiMode::Mode3)), 3);
    assert_eq!(refused(1, Opening { instance: 4, ..opening() }), 4);
    let no_qpi = with(Config { work_mode: WorkMode::Qpi, ..Config::default() });
    assert_eq!(refused(1, no_qpi), 5);
    assert_eq!(refused(1, Opening { core_hz: 0, ..opening() }), 14);
    assert_eq!(refused(0, opening()), 7);
    // 3 before 4 before 5 before 14 before 7; 23 stands between the last two.
    assert_eq!(refused(0, Opening { instance: 4, core_hz: 0, ..mode(SpiMode::Mode3) }), 3);
    assert_eq!(refused(0, Opening { instance: 4, core_hz: 0, ..no_qpi }), 4);
    assert_eq!(refused(0, Opening { core_hz: 0, ..no_qpi }), 5);
    assert_eq!(refused(0, Opening { core_hz: 0, ..opening() }), 14);
}

/// As 23, after 14 and before 7. The choice of a clock alone gives its fallback there.
#[test]
fn openings_without_a_clock_refused() {
    let no_qpi = Config { work_mode: WorkMode::Qpi, ..Config::default() };
    let mode_1 = Config { mode: SpiMode::Mode1, ..Config::default() };
    for pll_hz in [0, 3_200_000_032, 3_200_000_033, u32::MAX] {
        let without = Opening { pll_hz, ..opening() };
        for freq in [0, 10_000_000, u32::MAX] {
            let config = Config { freq, ..Config::default() };
            assert_eq!(opening_refused(1, Opening { config, ..without }), 23);
            let fallback = choice(0, Divider::Cdr1(0));
            assert_eq!(qspi::select_clock(pll_hz, freq), fallback);
            assert_eq!(qspi::actual_sck(pll_hz, fallback), Ok(pll_hz));
        }
        assert_eq!(opening_refused(0, without), 23);
        assert_eq!(opening_refused(0, Opening { core_hz: 0, ..without }), 14);
        assert_eq!(opening_refused(1, Opening { core_hz: 0, ..without }), 14);
        assert_eq!(opening_refused(1, Opening { config: no_qpi, ..without }), 5);
        assert_eq!(opening_refused(1, Opening { instance: 4, ..without }), 4);
        assert_eq!(opening_refused(1, Opening { config: mode_1, ..without }), 3);
    }
    // Also where there is neither log nor answer.
    let mut lent = Lent { limit: 1, log: &mut [], answers: &[] };
    let opened = qspi::open(&mut lent, &Opening { pll_hz: 0, ..opening() });
    assert_eq!(opened.ended.done(), Err(Number::NoClock));
}

/// An opening by numbers that every test but that of the limit refuses.
const ALL_WRONG: by_number::Opening = by_number::Opening {
    instance: 9,
    qpi: false,
    pll_hz: 0,
    osc_hz: 1,
    core_hz: 0,
    freq: 1,
    idle_high: false,
    second_transition: true,
    master: true,
    work_mode: 7,
    bit_mode: false,
    lsb_first: false,
    cs: None,
};

/// The refusals in their order, each once what was refused before is mended. Each has rate 0.
#[test]
fn an_opening_with_all_wrong() {
    let refused = |opening: &by_number::Opening| {
        refused(0, |lent| {
            let (ended, rate) = by_number::open(lent, opening);
            assert_eq!(rate, 0);
            ended
        })
    };
    let mut asked = ALL_WRONG;
    assert_eq!(refused(&asked), 8);
    asked.work_mode = 6;
    assert_eq!(refused(&asked), 3);
    asked.second_transition = false;
    assert_eq!(refused(&asked), 4);
    asked.instance = 3;
    assert_eq!(refused(&asked), 5);
    asked.qpi = true;
    assert_eq!(refused(&asked), 14);
    asked.core_hz = 1;
    assert_eq!(refused(&asked), 23);
    asked.pll_hz = 1;
    assert_eq!(refused(&asked), 7);
}

#[test]
fn numbers_that_are_no_work_mode() {
    assert_eq!(refused(1, |lent| by_number::open(lent, &ALL_WRONG).0), 8);
    assert_eq!(refused(1, |lent| by_number::set_work_mode(lent, true, 7)), 8);
    assert_eq!(refused(0, |lent| by_number::set_work_mode(lent, true, 7)), 7);
}

#[test]
fn limit_0() {
    let asked = QuadRead { hz: 1, command: &[1], tclqv_ns: 1, margin: 1 };
    let mut bytes = [0xEE; 2];
    assert_eq!(refused(0, qspi::flush), 7);
    assert_eq!(refused(0, |lent| qspi::write(lent, &[1])), 7);
    assert_eq!(refused(0, |lent| qspi::read(lent, &mut bytes)), 7);
    assert_eq!(refused(0, |lent| qspi::transfer(lent, &mut bytes, &[1])), 7);
    assert_eq!(refused(0, |lent| qspi::transfer_in_place(lent, &mut bytes)), 7);
    assert_eq!(refused(0, |lent| qspi::set_work_mode(lent, false, WorkMode::Qpi)), 7);
    assert_eq!(refused(0, |lent| qspi::read_quad(lent, &asked, &mut bytes)), 7);
    assert_eq!(refused(0, |lent| qspi::write_quad(lent, &[1], &[1])), 7);
    assert_eq!(refused(0, |lent| qspi::transaction(lent, CORE_HZ, &mut bytes, &[1])), 7);
    assert_eq!(bytes, [0xEE; 2]);
}

#[test]
fn lengths_above_ffffff() {
    let mut long = vec![0xEE; qspi::MAX_LENGTH + 1];
    let sent = long.clone();
    let asked = QuadRead { hz: 1, command: &sent, tclqv_ns: 1, margin: 1 };
    assert_eq!(refused(1, |lent| qspi::write(lent, &sent)), 6);
    assert_eq!(refused(1, |lent| qspi::read(lent, &mut long)), 6);
    assert_eq!(refused(1, |lent| qspi::transfer(lent, &mut [], &sent)), 6);
    assert_eq!(refused(1, |lent| qspi::transfer(lent, &mut long, &[])), 6);
    assert_eq!(refused(1, |lent| qspi::read_quad(lent, &asked, &mut long)), 6);
    assert_eq!(refused(1, |lent| qspi::write_quad(lent, &sent, &[])), 6);
    assert_eq!(refused(1, |lent| qspi::write_quad(lent, &[], &sent)), 6);
    let mut chain = |operations: &[Operation]| {
        refused(1, |lent| qspi::transaction(lent, u32::MAX, &mut long, &qspi::chain(operations)))
    };
    let (read, delay) = (Operation::Read(window(0, 0x100_0000)), Operation::Delay { ns: u32::MAX });
    assert_eq!(chain(&[read]), 6);
    assert_eq!(chain(&[read, delay]), 6);
    assert_eq!(chain(&[delay, read]), 14);
    assert!(long == sent);
    // FFFFFF is taken; in place, and as a quad read's command, every length is.
    assert_eq!(called(1, 0, &[], |lent| qspi::write(lent, &sent[1..])).0, "end 10 0 0 0 0");
    assert_eq!(called(1, 0, &[], |lent| qspi::transfer_in_place(lent, &mut long)).0, "end 10 0 0 0 0");
    assert_eq!(called(1, 0, &[], |lent| qspi::read_quad(lent, &asked, &mut [])).0, "end 10 0 0 0 0");
}

/// The number by which a chain on a memory of four bytes is refused: they keep their values.
fn chain_refused(limit: u32, core_hz: u32, words: &[u32]) -> u32 {
    let mut memory = [0xEE; 4];
    let number = refused(limit, |lent| bus(core_hz).transaction(lent, &mut memory, words));
    assert_eq!(memory, [0xEE; 4]);
    number
}

#[test]
fn chains_refused() {
    let refused = |words: &[u32]| chain_refused(1, CORE_HZ, words);
    // No multiple of eight; kinds 0, and 6 of a sheet; a next that is its own number, or of no record.
    assert_eq!(refused(&[2, 0, 1, 0, 0, 0, 0]), 8);
    assert_eq!(refused(&[0, 0, 1, 0, 0, 0, 0, 0]), 8);
    assert_eq!(refused(&[6, 0, 1, 0, 0, 0, 0, 0]), 8);
    assert_eq!(refused(&[2, 0, 1, 0, 0, 0, 0, 1]), 8);
    assert_eq!(refused(&[2, 0, 1, 0, 0, 0, 0, 2]), 8);
    // A window one byte outside, also behind a sound record.
    let good = Operation::Read(window(0, 4));
    assert_eq!(refused(&qspi::chain(&[Operation::Read(window(1, 4))])), 9);
    assert_eq!(refused(&qspi::chain(&[good, Operation::Write(window(5, 0))])), 9);
    assert_eq!(refused(&qspi::chain(&[good, Operation::InPlace(window(u32::MAX, 1))])), 9);
}

#[test]
fn delays_of_too_many_cycles() {
    let delay = |ns| Operation::Delay { ns };
    // One cycle too many, also where only the ceiling makes it so; and the most that can be asked for.
    for (core_hz, ns) in [(2_000_000_000, 1 << 31), (1_000_000_001, LONGEST_NS + 1), (u32::MAX, u32::MAX)] {
        assert_eq!(chain_refused(1, core_hz, &qspi::chain(&[delay(ns)])), 14);
    }
    let refused = |limit, operations: &[Operation]| chain_refused(limit, 1_000_000_001, &qspi::chain(operations));
    let (good, outside, long) = (Operation::Read(window(0, 4)), Operation::Read(window(1, 4)), delay(LONGEST_NS + 1));
    // Nothing is done of the records before it. The first fault along the chain is told, and 7 before any.
    assert_eq!(refused(1, &[good, delay(LONGEST_NS), long, good]), 14);
    assert_eq!(refused(1, &[long, outside]), 14);
    assert_eq!(refused(1, &[outside, long]), 9);
    assert_eq!(refused(0, &[long]), 7);
    // Its own 8 goes before it, that of a later record behind it; that of the slice before any record.
    assert_eq!(chain_refused(1, 1_000_000_001, &long.record(1)), 8);
    assert_eq!(chain_refused(1, 1_000_000_001, &[long.record(2), [0; 8]].concat()), 14);
    assert_eq!(chain_refused(1, 1_000_000_001, &long.record(0)[..7]), 8);
}

#[test]
fn no_sheets() {
    let refused = |mut bytes: Vec<u8>| {
        let given = bytes.clone();
        let number = refused(1, |lent| qspi::sheet(&mut bytes, lent.log));
        assert!(bytes == given);
        number
    };
    let header = |words: [u32; 5], length| {
        let mut bytes = words.map(u32::to_le_bytes).concat();
        bytes.resize(length, 0xEE);
        bytes
    };
    assert_eq!(refused(vec![]), 13);
    assert_eq!(refused(vec![0; 19]), 13);
    assert_eq!(refused(header([0, 0, 2, 0, 0], 20)), 13);
    assert_eq!(refused(header([0, 0, 0, 1, 0], 51)), 13);
    assert_eq!(refused(header([0, 0, 0, 0, 1], 23)), 13);
    assert_eq!(refused(header([0, 0, 0, 0x0800_0000, 0], 100)), 13);
    assert_eq!(refused(header([1, 0, 0, 0, 0], SHEET_BYTES + 1)), 13);
    assert_eq!(refused(header([0, 0, 0, 0, 0], SHEET_BYTES)), 7);
    assert_eq!(refused(header([1, 0, 0, 1, 0], 60)), 8);
}
