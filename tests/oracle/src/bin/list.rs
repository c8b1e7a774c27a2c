//! Writes the fixed list: each case with the oracle's answer. The same list at each run.

use oracle::plan::{Plan, Random};
use oracle::{answer, answered_by};
use std::fmt::Write as _;

/// The cases, in the order in which they are made.
struct List {
    cases: Vec<String>,
    random: Random,
}

/// Enough words of log for every case here.
const ENOUGH: usize = 4000;

impl List {
    /// A case whose answers the plan makes up; `head` and `tail` stand before and after the log's length.
    fn planned(&mut self, head: &str, log_words: usize, tail: &str, plan: &Plan) -> Vec<u32> {
        let answers = answered_by(&format!("{head} {log_words} {tail} 0"), plan.clone());
        self.add(head, log_words, tail, &answers);
        answers
    }

    fn add(&mut self, head: &str, log_words: usize, tail: &str, answers: &[u32]) {
        let mut line = format!("{head} {log_words} {tail} {}", answers.len());
        for a in answers {
            write!(line, " {a:#x}").unwrap();
        }
        self.cases.push(line.split_whitespace().collect::<Vec<_>>().join(" "));
    }

    /// The same with its log or its answers cut in some places.
    fn cut(&mut self, head: &str, tail: &str, plan: &Plan, log_words: &[usize], answers: &[usize]) {
        let all = self.planned(head, ENOUGH, tail, plan);
        for &n in log_words {
            self.add(head, n, tail, &all);
        }
        for &n in answers {
            self.add(head, ENOUGH, tail, &all[..n.min(all.len())]);
        }
    }

    fn plan(&mut self, unready: &[u64], portion: u32) -> Plan {
        Plan::new(unready, portion, self.random.number())
    }

    /// `LENGTH GIVEN b1 ..`: all bytes given.
    fn bytes(&mut self, length: usize) -> String {
        let mut text = format!("{length} {length}");
        for _ in 0..length {
            write!(text, " {:#04x}", self.random.below(256)).unwrap();
        }
        text
    }

    fn call(&mut self, text: &str) {
        self.cases.push(text.to_string());
    }
}

const LIMITS: [u64; 5] = [1, 2, 3, 5, 100_000];
const LENGTHS: [usize; 10] = [0, 1, 2, 63, 64, 65, 255, 256, 257, 512];
/// The core rate where it is not what a case is about.
const CORE: u32 = 1_000_000_000;

/// Writes, reads, transfers and in-place calls of every length, every wait ready.
fn ready_transfers(l: &mut List) {
    for length in LENGTHS {
        let bytes = l.bytes(length);
        let sized = format!("{length} 0");
        let plan = l.plan(&[0], 64);
        l.planned("write 5", ENOUGH, &bytes, &plan);
        l.planned("read 5", ENOUGH, &sized, &plan);
        if length < 300 {
            l.planned("inplace 5", ENOUGH, &bytes, &plan);
            l.planned("transfer 5", ENOUGH, &format!("{sized} {bytes}"), &plan);
        }
    }
}

/// Writes, reads and transfers with one wait slow or timed out.
fn slow_transfers(l: &mut List) {
    for limit in LIMITS {
        for slow in [0, 1, 2, 3, 4] {
            let waits: Vec<u64> = (0..6).map(|i| if i == slow { limit.min(5) } else { 0 }).collect();
            let fast: Vec<u64> = waits.iter().map(|&n| n.min(limit - 1).min(4)).collect();
            for unready in [waits, fast] {
                let (bytes, plan) = (l.bytes(5), l.plan(&unready, 3));
                l.planned(&format!("write {limit}"), ENOUGH, &bytes, &plan);
                l.planned(&format!("read {limit}"), ENOUGH, "5 0", &plan);
                l.planned(&format!("transfer {limit}"), ENOUGH, &format!("2 0 {bytes}"), &plan);
            }
        }
    }
}

/// Writes and reads cut everywhere, and an in-place call cut in each of its parts and in each half of them.
fn cut_transfers(l: &mut List) {
    let (bytes, plan) = (l.bytes(3), l.plan(&[1, 0], 2));
    let odd: Vec<usize> = (0..46).collect();
    let few: Vec<usize> = (0..14).collect();
    l.cut("write 3", &bytes, &plan, &odd, &few);
    l.cut("read 3", "3 0", &plan, &odd, &few);
    // A receive count above the FIFO's depth, and bytes in the buffer that are not received.
    let wide = l.plan(&[0], 255);
    l.planned("read 3", ENOUGH, "300 0", &wide);
    l.cut("read 3", "4 4 1 2 3 4", &wide, &[24, 26, 28, 30], &[]);
    let (bytes, plan) = (l.bytes(300), l.plan(&[0], 200));
    l.cut(
        "inplace 2",
        &bytes,
        &plan,
        &[20, 300, 560, 620, 1130, 1150, 1200, 1260, 1330],
        &[4, 8, 12, 150, 280, 290, 310, 330],
    );
}

/// Flushes and mode calls.
fn modes(l: &mut List) {
    for limit in LIMITS {
        for unready in [0, 1, 2, 3, 5] {
            let plan = l.plan(&[unready.min(limit)], 64);
            l.planned(&format!("flush {limit}"), ENOUGH, "", &plan);
        }
    }
    l.cut("flush 3", "", &Plan::new(&[2], 1, 7), &[0, 1, 2, 3, 4, 5], &[0, 1, 2]);
    for chip in [0, 1] {
        for mode in 0..7 {
            for unready in [0, 2, 3] {
                let plan = l.plan(&[unready], 64);
                l.planned("mode 3", ENOUGH, &format!("{chip} {mode}"), &plan);
            }
        }
        let plan = l.plan(&[1], 64);
        for mode in [1, 4, 6] {
            l.cut("mode 2", &format!("{chip} {mode}"), &plan, &[0, 2, 4, 5, 6, 8, 10], &[0, 1, 2, 3]);
        }
    }
}

/// Quad calls with one wait slow or timed out: before, in and after the data.
fn slow_quads(l: &mut List) {
    for limit in [1, 2, 3, 100_000] {
        for slow in 0..8 {
            let waits: Vec<u64> = (0..10).map(|i| if i == slow { limit.min(4) } else { 0 }).collect();
            let (command, data, plan) = (l.bytes(4), l.bytes(3), l.plan(&waits, 64));
            let read = format!("100000000 {command} 80 0 3 0");
            l.planned(&format!("quadread {limit}"), ENOUGH, &read, &plan);
            l.planned(&format!("quadwrite {limit}"), ENOUGH, &format!("{command} {data}"), &plan);
        }
    }
}

/// Quad calls whose data times out, and Standard is still tried: it succeeds or is cut.
fn cut_quads(l: &mut List) {
    let waits = [0, 0, 0, 0, 2, 0];
    let (command, plan) = (l.bytes(1), Plan::new(&waits, 64, 3));
    let (log, answers) = ([58, 60, 62, 64, 66, 68, 70], [16, 17, 18, 19, 20, 21]);
    l.cut("quadread 2", &format!("1000000 {command} 0 0 2 0"), &plan, &log, &answers);
    l.cut("quadwrite 2", &format!("{command} 2 2 1 2"), &plan, &log, &answers);
}

/// Quad calls with every wait ready: commands that are cut for the dummies, short and empty ones.
fn ready_quads(l: &mut List) {
    for (length, tclqv, margin) in [
        (0, 0, 0),
        (20, 0, 0),
        (20, 1, 0),
        (20, 800, 100),
        (16, 80, 0),
        (15, 80, 0),
        (9, 20480, 0),
        (8, 20400, 1),
        (3, 1, 255),
    ] {
        let (command, plan) = (l.bytes(length), l.plan(&[0], 64));
        l.planned("quadread 3", ENOUGH, &format!("100000000 {command} {tclqv} {margin} 1 0"), &plan);
        l.planned("quadwrite 3", ENOUGH, &format!("{command} 1 1 7"), &plan);
    }
    let plan = l.plan(&[0], 64);
    l.planned("quadread 3", ENOUGH, "100000000 0 0 0 0 0 0", &plan);
    l.planned("quadwrite 3", ENOUGH, "0 0 0 0", &plan);
}

/// Chains: overlapping windows, records that are skipped, delays, and cuts.
fn chains(l: &mut List) {
    let memory = "8 8 1 2 3 4 5 6 7 8";
    let chains = [
        "0",
        "8 5 1001 0 0 0 0 0 0",
        "8 3 0 4 2 4 0 0 0",
        "8 3 2 4 0 4 0 0 0",
        "8 4 1 6 0 0 0 0 0",
        "16 1 0 3 0 0 0 0 2 2 1 3 0 0 0 0 0",
        "16 2 0 3 0 0 0 0 2 1 1 3 0 0 0 0 0",
        "24 5 7 0 0 0 0 0 3 99 1 2 3 4 5 6 7 2 8 0 0 0 0 0 0",
        "24 4 0 8 0 0 0 0 2 3 4 4 0 8 0 0 3 5 0xffffffff 0 0 0 0 0 0",
        "8 1 8 0 0xffffffff 1 2 3 0",
    ];
    for chain in chains {
        for unready in [&[0][..], &[0, 1, 0], &[0, 0, 2], &[2]] {
            let plan = l.plan(unready, 3);
            l.planned("transaction 2", ENOUGH, &format!("{CORE} {chain} {memory}"), &plan);
        }
        let plan = l.plan(&[0, 1], 2);
        l.cut("transaction 3", &format!("{CORE} {chain} {memory}"), &plan, &[0, 30, 44, 60], &[3, 7, 12, 20]);
    }
}

/// The bytes of a sheet as a case has them: header, records, answers, memory.
fn sheet_text(header: [u32; 3], records: &[[u32; 8]], answers: &[u32], memory: &[u8]) -> String {
    let counts = [records.len() as u32, answers.len() as u32];
    let words = header.iter().chain(&counts);
    let words = words.chain(records.iter().flatten()).chain(answers);
    let mut bytes: Vec<u8> = words.flat_map(|w| w.to_le_bytes()).collect();
    bytes.extend(memory);
    let text: Vec<String> = bytes.iter().map(u8::to_string).collect();
    format!("{} {} {}", bytes.len(), bytes.len(), text.join(" "))
}

/// A chain of every kind.
const EVERY_KIND: [[u32; 8]; 10] = [
    [1, 0, 3, 9, 9, 9, 9, 2],
    [7, 4, 9, 9, 9, 9, 9, 3],
    [2, 1, 4, 9, 9, 9, 9, 4],
    [3, 2, 4, 0, 4, 9, 9, 5],
    [4, 1, 6, 9, 9, 9, 9, 6],
    [5, 1001, 9, 9, 9, 9, 9, 7],
    [6, 9, 9, 9, 9, 9, 9, 8],
    [8, 0, 4, 81, 1, 2, 5, 9],
    [9, 1, 2, 9, 9, 0, 8, 10],
    [7, 6, 9, 9, 9, 9, 9, 0],
];

/// Sheets: windows that overlap, records that are skipped, every kind on both chips, slow waits, answers short by one.
fn sheets(l: &mut List) {
    let memory = [1, 2, 3, 4, 5, 6, 7, 8];
    let chains: [(u32, &[[u32; 8]]); 6] = [
        (0, &[]),
        (1, &[[1, 0, 3, 9, 9, 9, 9, 0]]),
        (0, &[[8, 0, 3, 0, 0, 1, 4, 2], [9, 1, 3, 9, 9, 0, 4, 0]]),
        (1, &[[6, 9, 9, 9, 9, 9, 9, 3], [99; 8], [4, 0, 8, 9, 9, 9, 9, 0]]),
        (0, &EVERY_KIND),
        (1, &EVERY_KIND),
    ];
    for (chip, chain) in chains {
        for unready in [&[0][..], &[0, 1, 0], &[0, 0, 2], &[0, 0, 0, 0, 0, 2, 0]] {
            let (header, plan) = ([2, 100_000_000, chip], l.plan(unready, 3));
            let asked = sheet_text(header, chain, &[], &memory);
            let answers = answered_by(&format!("sheet {asked}"), plan);
            for answers in [&answers[..], &answers[..answers.len().saturating_sub(1)]] {
                l.call(&format!("sheet {}", sheet_text(header, chain, answers, &memory)));
            }
        }
    }
}

/// Openings of every kind, and one that is cut.
fn openings(l: &mut List) {
    let plan = Plan::new(&[0], 64, 11);
    for instance in 0..4 {
        for work in 0..7 {
            for chip in [0, 1] {
                if work == 6 && chip == 0 {
                    continue;
                }
                let (bit, lsb, mode) = (work & 1 ^ instance & 1, instance >> 1, (work & 1) * 2);
                let select = format!("{} {} {} {}", work % 3 % 2, instance & 1, instance >> 1, work & 1);
                let freq = [0, 100_000, 10_000_000, 24_000_000, 50_000_000, 100_000_000, 4_000_000_000u64][work];
                let pll = [1_200_000_000, 24_000_000, 3_200_000_031, 3_200_000_032u64][instance];
                let head = format!("open {instance} {mode} {chip} {work} {bit} {lsb} {select}");
                let head = format!("{head} {freq} {pll} 24000000 {CORE} {chip} 5");
                l.planned(&head, ENOUGH, "", &plan);
            }
        }
    }
    let head = format!("open 1 0 1 1 0 1 1 1 1 1 8000000 24000000 8000000 {CORE} 1 1");
    let log: Vec<usize> = (0..66).step_by(3).collect();
    let few: Vec<usize> = (0..15).collect();
    l.cut(&head, "", &plan, &log, &few);
}

fn releases(l: &mut List) {
    let plan = Plan::new(&[0], 64, 11);
    for instance in [0, 1, 2, 3, 4, 200] {
        l.planned(&format!("free {instance}"), 4, "", &plan);
        l.planned(&format!("free {instance}"), 3, "", &plan);
    }
    l.call("free 0 1 1 7");
    l.call("free 0 4 0");
}

/// Clock choices and rates at ties and edges.
fn clocks(l: &mut List) {
    let plls = [
        0,
        1,
        2,
        99_999_999,
        100_000_000,
        100_000_001,
        24_000_000,
        1_200_000_000,
        3_199_999_999,
        3_200_000_031,
        3_200_000_032,
        u32::MAX,
    ];
    let targets = [0, 1, 99_999, 100_000, 8_000_000, 10_000_000, 24_000_000, 99_999_999, 100_000_000, u32::MAX];
    for pll in plls {
        for target in targets {
            l.call(&format!("clock {pll} {target}"));
        }
    }
    for (m, kind, c) in [(0, 1, 0), (31, 1, 15), (31, 2, 255), (11, 2, 4), (0, 2, 0)] {
        l.call(&format!("sck 1200000000 {m} {kind} {c}"));
        l.call(&format!("sck 4294967295 {m} {kind} {c}"));
    }
}

/// Dummies at ties and edges.
fn dummies(l: &mut List) {
    for tclqv in [0, 1, 79, 80, 81, 20_399, 20_400, 20_401, 20_480, 20_481, u32::MAX] {
        for (rate, margin) in
            [(0, 0), (1, 0), (100_000_000, 0), (100_000_000, 1), (100_000_000, 3), (100_000_000, 255), (u32::MAX, 0)]
        {
            l.call(&format!("dummy {rate} {tclqv} {margin}"));
        }
    }
}

/// Chains with delays, alone and between other records, one delay off the chain, at several core rates; and one cut.
fn delays(l: &mut List) {
    let memory = "4 4 1 2 3 4";
    let between = "48 5 3 9 9 9 9 9 2 1 0 2 9 9 9 9 4 5 77 9 9 9 9 9 4 5 1000000 9 9 9 9 9 5 2 1 3 9 9 9 9 6 \
                   5 2 9 9 9 9 9 0";
    let chains = [
        "8 5 1 9 9 9 9 9 0",
        "8 5 1001 9 9 9 9 9 0",
        between,
        "32 5 0 9 9 9 9 9 2 3 0 1 2 2 9 9 3 5 999999999 9 9 9 9 9 4 4 1 2 9 9 9 9 0",
    ];
    for core in [0, 1, 2, 480_000_000, 999_999_999, CORE, 1_000_000_001, 1_500_000_000, u32::MAX] {
        for chain in chains {
            let plan = l.plan(&[0, 1], 2);
            l.planned("transaction 3", ENOUGH, &format!("{core} {chain} {memory}"), &plan);
        }
    }
    let (plan, log) = (l.plan(&[0, 1], 2), (0..90).step_by(3).collect::<Vec<usize>>());
    l.cut("transaction 3", &format!("480000000 {between} {memory}"), &plan, &log, &[0, 5, 10, 15, 19]);
}

/// Delays of as many cycles as 32 bits hold, of nearly as many, of one more and of many more.
fn longest_delays(l: &mut List) {
    for (core, ns) in [
        (999_999_999, u32::MAX),
        (CORE, u32::MAX),
        (1_000_000_001, 4_294_967_290),
        (1_000_000_001, 4_294_967_291),
        (1_000_000_001, u32::MAX),
        (u32::MAX, 1_000_000_000),
        (u32::MAX, 1_000_000_001),
        (u32::MAX, u32::MAX),
    ] {
        l.call(&format!("transaction 1 4000 {core} 8 5 {ns} 9 9 9 9 9 0 0 0 0"));
    }
}

/// Delays of too many cycles: with a bad next, before and behind other records that are refused or not, and off the chain.
fn too_long_delays(l: &mut List) {
    let [long, write, outside] = ["5 2000000000 9 9 9 9 9", "1 0 2 9 9 9 9", "1 3 2 9 9 9 9"];
    let flush = "6 9 9 9 9 9 9";
    let chains = [
        format!("8 {long} 0"),
        format!("8 {long} 1"),
        format!("8 {long} 2"),
        format!("9 {long} 0 9"),
        format!("16 {long} 2 {outside} 0"),
        format!("16 {outside} 2 {long} 0"),
        format!("16 {long} 2 {flush} 0"),
        format!("16 {flush} 2 {long} 0"),
        format!("16 {long} 2 {write} 1"),
        format!("16 {long} 2 {write} 0"),
        format!("16 {write} 2 {long} 0"),
        format!("24 {write} 3 {long} 0 5 7 9 9 9 9 9 0"),
    ];
    for chain in chains {
        let plan = l.plan(&[0], 64);
        l.planned("transaction 1", ENOUGH, &format!("4000000000 {chain} 4 4 1 2 3 4"), &plan);
    }
}

/// Openings at the core rate 0, alone and with what else is refused; and at the ends of the core rates that are taken.
fn core_rates(l: &mut List) {
    let (rates, nine) = ("10000000 1200000000 24000000", "9 1 2 3 4 5 6 7 8 9");
    let plan = Plan::new(&[0], 64, 11);
    for (core, limit) in [(0, 5), (0, 0), (1, 5), (u32::MAX, 5)] {
        l.planned(&format!("open 1 0 1 0 0 0 0 0 0 0 {rates} {core} 1 {limit}"), ENOUGH, "", &plan);
    }
    for limit in [5, 0] {
        for first in ["1 1 1 0", "3 3 0 4", "4 0 1 0", "4294967295 2 1 1"] {
            l.call(&format!("open {first} 0 0 0 0 0 0 {rates} 0 1 {limit} 60 {nine}"));
        }
        l.call(&format!("open 2 2 1 6 0 0 0 0 0 0 {rates} 0 0 {limit} 60 {nine}"));
        l.call(&format!("open 2 2 1 6 0 0 0 0 0 0 {rates} 0 1 {limit} 60 {nine}"));
    }
}

/// Openings at PLLs with and without an eligible module clock, each at targets at both bounds and beyond them.
fn module_clocks(l: &mut List) {
    let plls = [0, 1, 99, 3_200_000_031, 3_200_000_032, u32::MAX];
    let pairs = plls.iter().flat_map(|pll| [0, 99_999, 100_000, 100_000_000, u32::MAX].map(|freq| (pll, freq)));
    for (work, (pll, freq)) in (0..7).cycle().zip(pairs) {
        let instance = l.random.below(4);
        let [mode, master, bit, lsb, select, polarity, level, pin, chip] = [(); 9].map(|()| l.random.below(2));
        let (mode, chip, plan) = (2 * mode, if work == 6 { 1 } else { chip }, l.plan(&[0], 64));
        let head = format!("open {instance} {mode} {master} {work} {bit} {lsb} {select} {polarity} {level} {pin}");
        l.planned(&format!("{head} {freq} {pll} 24000000 {CORE} {chip} 5"), ENOUGH, "", &plan);
    }
}

/// Openings without an eligible module clock, with what else is refused.
fn no_clock(l: &mut List) {
    let nine = "9 1 2 3 4 5 6 7 8 9";
    for (pll, limit) in [(0, 5), (3_200_000_032_u32, 0)] {
        let rates = format!("10000000 {pll} 24000000");
        for first in ["1 1 1 0", "3 3 0 4", "4 0 1 0", "4294967295 2 1 1"] {
            l.call(&format!("open {first} 0 0 0 0 0 0 {rates} {CORE} 1 {limit} 60 {nine}"));
        }
        for (core, chip) in [(0, 0), (CORE, 0), (0, 1), (CORE, 1)] {
            l.call(&format!("open 2 2 1 6 0 0 0 0 0 0 {rates} {core} {chip} {limit} 60 {nine}"));
        }
    }
}

fn main() -> Result<(), String> {
    let mut l = List { cases: Vec::new(), random: Random(1) };
    let parts = [
        ready_transfers, slow_transfers, cut_transfers, modes, slow_quads, cut_quads, ready_quads, chains, openings,
        releases, clocks, dummies, sheets, delays, longest_delays, too_long_delays, core_rates, module_clocks,
        no_clock,
    ];
    parts.iter().for_each(|part| part(&mut l));
    // A panic of the driver is an answer.
    std::panic::set_hook(Box::new(|_| {}));
    for case in &l.cases {
        let mut text = String::new();
        answer(case, &mut text).map_err(|why| format!("{case}: {why}"))?;
        println!("{case}\n{text}.");
    }
    Ok(())
}
