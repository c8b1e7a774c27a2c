//! Case lines from a source of numbers.

use crate::delays::MOST;
use crate::rng::Rng;
use crate::sheet::sheet;
use crate::walk::{Bus, Walk, frame};
use std::fmt::Write;

pub const NAMES: [&str; 16] = [
    "open", "free", "write", "read", "inplace", "transfer", "flush", "mode", "quadread", "quadwrite", "transaction",
    "clock", "sck", "dummy", "sheet", "print",
];

/// PLLs at the bounds of those with an eligible module clock, and targets at the bounds that an opening clamps them to.
const PLLS: [u32; 6] = [0, 1, 99, 3_200_000_031, 3_200_000_032, u32::MAX];
const TARGETS: [u32; 5] = [0, 99_999, 100_000, 100_000_000, u32::MAX];

const HUGE: [usize; 3] = [0xFF_FFFF, 0x100_0000, 0x100_0001];

/// One case line of the given name.
pub fn case(rng: &mut Rng, name: &str) -> String {
    let rate = pll(rng);
    match name {
        "open" => open(rng),
        "free" => {
            let instance = instance(rng);
            let mut walk = Walk::new(rng);
            walk.changes(1);
            line(&format!("free {instance}"), walk, "")
        }
        "clock" => format!("clock {rate} {}", target(rng, rate)),
        "sck" => format!("sck {rate} {}", dividers(rng)),
        "dummy" => {
            let [rate, tclqv, margin] = timing(rng);
            format!("dummy {rate} {tclqv} {margin}")
        }
        "sheet" | "print" => sheet(rng, name),
        _ => on_a_bus(rng, name),
    }
}

/// ` LENGTH GIVEN b1 .. bGIVEN`.
fn bytes(rng: &mut Rng, length: usize) -> String {
    let most = length.min(600);
    let some = rng.below(most + 1);
    let given = rng.pick(&[0, some, most, most]);
    let mut text = format!(" {length} {given}");
    (0..given).for_each(|_| write!(text, " {}", rng.below(256)).unwrap());
    text
}

/// ` COUNT w1 .. wCOUNT`.
pub fn list(words: &[u32]) -> String {
    let mut text = format!(" {}", words.len());
    words.iter().for_each(|w| write!(text, " {w:#x}").unwrap());
    text
}

/// The words of a log in which the walk's entries fit exactly, nearly or not.
fn log_words(walk: &mut Walk) -> usize {
    let (enough, rng) = (2 * walk.entries, &mut *walk.rng);
    let (less, few, more) = (rng.below(enough + 1), rng.below(4), enough + rng.below(100));
    let (odd, short) = (enough.saturating_sub(1), enough.saturating_sub(2));
    rng.pick(&[enough, enough, enough, enough, enough, enough + 1, odd, short, less, few, more, more, more])
}

/// Now and then takes answers away, adds some or makes some random.
pub fn disturb(rng: &mut Rng, answers: &mut Vec<u32>) {
    let n = answers.len();
    match rng.below(24) {
        0 => answers.truncate(rng.below(n + 1)),
        1 | 2 => answers.truncate(n.saturating_sub(1)),
        3 => (0..=rng.below(5)).for_each(|_| answers.push(rng.word())),
        4 => answers.iter_mut().for_each(|a| *a = rng.u32()),
        5 | 6 if n > 0 => (0..=rng.below(3)).for_each(|_| answers[rng.below(n)] = rng.word()),
        _ => {}
    }
}

/// A line: what stands before the log's length, the fields behind it, the answers.
fn line(before: &str, mut walk: Walk, fields: &str) -> String {
    let log = log_words(&mut walk);
    disturb(walk.rng, &mut walk.answers);
    format!("{before} {log}{fields}{}", list(&walk.answers))
}

pub fn length(rng: &mut Rng) -> usize {
    match rng.below(2000) {
        0 => rng.pick(&HUGE),
        1..500 => rng.below(3),
        500..800 => 63 + rng.below(3),
        800..900 => 127 + rng.below(3),
        900..1000 => 255 + rng.below(3),
        1000..1050 => rng.pick(&[300, 512]),
        _ => 3 + rng.below(40),
    }
}

fn on_a_bus(rng: &mut Rng, name: &str) -> String {
    let (a, b) = (length(rng), length(rng));
    let (one, two) = (bytes(rng, a), bytes(rng, b));
    let (qpi, mode) = (rng.below(2), rng.below(7));
    let mut walk = Walk::new(rng);
    let (fields, _) = match name {
        "write" | "read" => (one, walk.phase(a, name == "read")),
        "inplace" => (one, walk.in_place(a)),
        "transfer" => (one + &two, walk.transfer(a, b)),
        "flush" => (String::new(), walk.flush()),
        "mode" => (format!(" {qpi} {mode}"), walk.mode(mode, qpi == 1)),
        "transaction" => {
            let (mut words, core_hz) = (chain(walk.rng, 5, 0, a), core_rate(walk.rng));
            delays(walk.rng, core_hz, &mut words);
            if walk.rng.once_in(6) {
                damage(walk.rng, &mut words);
            }
            (format!(" {core_hz}{}{one}", list(&words)), walk.chain(&words, Bus { rate: 0, qpi: true }))
        }
        _ => {
            let (command, sent) = command(walk.rng, name == "quadread");
            (command + &two, walk.quad(sent, b, name == "quadread"))
        }
    };
    line(&format!("{name} {}", walk.limit), walk, &fields)
}

/// The fields before the data of a quad read or write, and how many bytes are sent for them.
fn command(rng: &mut Rng, reads: bool) -> (String, usize) {
    let length = if !reads && rng.once_in(1000) { rng.pick(&HUGE) } else { rng.below(21) };
    let command = bytes(rng, length);
    if !reads {
        return (command, length);
    }
    let [rate, tclqv, margin] = timing(rng);
    (format!(" {rate}{command} {tclqv} {margin}"), frame(length, [rate, tclqv, margin]))
}

fn instance(rng: &mut Rng) -> u32 {
    let some = rng.below(6) as u32;
    match rng.below(12) {
        0 => rng.pick(&[255, 256, 259, 0x1_0000, u32::MAX]),
        1 => some,
        _ => some % 4,
    }
}

fn open(rng: &mut Rng) -> String {
    let [mode, master, bit, lsb, select, polarity, level, pin] = [(); 8].map(|_| rng.below(2));
    let mode = 2 * mode + usize::from(rng.once_in(12));
    let (work, qpi) = (rng.below(7), usize::from(!rng.once_in(4)));
    let (any, bound) = (pll(rng), rng.pick(&PLLS));
    let pll = rng.pick(&[any, any, any, bound]);
    let (any, bound) = (target(rng, pll), rng.pick(&TARGETS));
    let freq = rng.pick(&[any, any, bound]);
    let near = rng.near(freq);
    let osc = rng.pick(&[24_000_000, near, near, pll, 0, u32::MAX]);
    let mut before = format!("open {} {mode} {master} {work} {bit} {lsb}", instance(rng));
    let core_hz = core_rate(rng);
    let mut walk = Walk::new(rng);
    let limit = walk.limit;
    write!(before, " {select} {polarity} {level} {pin} {freq} {pll} {osc} {core_hz} {qpi} {limit}").unwrap();
    walk.changes(12 + select + usize::from(work == 1 && bit == 0));
    walk.delays(4);
    line(&before, walk, "")
}

fn pll(rng: &mut Rng) -> u32 {
    let edge = rng.pick(&[0, 1, 31, 32, 24_000_000, 1_200_000_000, 3_200_000_031, 3_200_000_032, u32::MAX]);
    let multiple = 100_000_000 * rng.below(43) as u32;
    let above = (u64::from(multiple) + rng.below(35) as u64).min(u64::from(u32::MAX)) as u32;
    let (edge, below, any, sized) = (rng.near(edge), rng.near(multiple), rng.u32(), rng.sized());
    rng.pick(&[edge, below, above, any, sized])
}

/// The rate of one choice of dividers.
fn rate(rng: &mut Rng, pll: u32) -> u32 {
    let (module, half) = (pll / (1 + rng.below(32) as u32), 1 + rng.below(256) as u32);
    if rng.once_in(3) { module >> rng.below(16) } else { module / (2 * half) }
}

/// A target at an edge, beside a rate, or half way between two, where there may be a tie.
fn target(rng: &mut Rng, pll: u32) -> u32 {
    let edge = rng.pick(&[0, 100_000, 10_000_000, 50_000_000, 100_000_000, 3_200_000_031, u32::MAX]);
    let (a, b) = (rate(rng, pll), rate(rng, pll));
    let (edge, beside, between) = (rng.near(edge), rng.near(a), a.min(b) + a.abs_diff(b) / 2);
    let (any, sized) = (rng.u32(), rng.sized());
    rng.pick(&[edge, edge, beside, between, between, any, sized])
}

/// `M KIND C`.
fn dividers(rng: &mut Rng) -> String {
    let (kind, sized) = (1 + rng.below(2), rng.sized());
    let wide = rng.pick(&[16, 17, 31, 32, 33, 255, 256, u32::MAX, sized]);
    let (m, c) = (rng.below(32) as u32, rng.below(if kind == 1 { 16 } else { 256 }) as u32);
    match rng.below(8) {
        0 => format!("{wide} {kind} {c}"),
        1 if kind == 1 => format!("{m} 1 {wide}"),
        _ => format!("{m} {kind} {c}"),
    }
}

/// Rate, tclqv and margin.
fn timing(rng: &mut Rng) -> [u32; 3] {
    let rate = hz(rng);
    let [tclqv, margin] = delay(rng, rate);
    [rate, tclqv, margin]
}

pub fn hz(rng: &mut Rng) -> u32 {
    let sized = rng.sized();
    rng.pick(&[0, 1, 100_000, 10_000_000, 100_000_000, u32::MAX, sized, sized])
}

/// tclqv and margin, often where the number of dummies turns.
fn delay(rng: &mut Rng, rate: u32) -> [u32; 2] {
    let (any, byte) = (rng.sized(), rng.below(256) as u32);
    let bytes = rng.pick(&[1, 2, 8, 9, 254, 255, 256, 256, 256, 257, 512]);
    let turn = 8_000_000_000_u64 * bytes / u64::from(rate.max(1));
    let near = rng.near(turn.min(u64::from(u32::MAX)) as u32);
    let tclqv = rng.pick(&[0, 1, 8, 80, u32::MAX, any, near, near, near, near, near]);
    let margin = rng.pick(&[0, 0, 0, 1, 3, 7, 8, 9, 254, 255, byte]);
    [tclqv, margin]
}

/// A window of the memory: start and length.
pub fn window(rng: &mut Rng, memory: usize) -> [u32; 2] {
    let most = rng.pick(&[3, 70, 70, 600]).min(memory);
    let some = rng.below(most + 1);
    let length = rng.pick(&[0, some, some, some, some, memory]);
    [rng.below(memory - length + 1) as u32, length as u32]
}

/// The fields f1 to f6 of a record on a memory of the given length, those that its kind does not use as they come.
fn fields(rng: &mut Rng, kind: u32, rate: u32, memory: usize) -> [u32; 6] {
    let [[a, b], [c, d]] = [(); 2].map(|()| window(rng, memory));
    let [tclqv, margin] = delay(rng, rate);
    let (ns, mode) = (rng.pick(&[0, 1, 2, 3, 1000, u32::MAX]), rng.pick(&[0, 1, 2, 3, 4, 5, 6, 6, 6]));
    let any = [(); 6].map(|()| rng.word());
    match kind {
        1 | 2 | 4 => [a, b, any[2], any[3], any[4], any[5]],
        3 => [a, b, c, d, any[4], any[5]],
        5 => [ns, any[1], any[2], any[3], any[4], any[5]],
        7 => [mode, any[1], any[2], any[3], any[4], any[5]],
        8 => [a, b, tclqv, margin, c, d],
        9 => [a, b, any[2], any[3], c, d],
        _ => any,
    }
}

/// The words of a chain of kinds up to `highest` on a memory of the given length.
pub fn chain(rng: &mut Rng, highest: u32, rate: u32, memory: usize) -> Vec<u32> {
    let count = rng.pick(&[0, 1, 1, 1, 2, 2, 2, 3, 3, 4, 4, 5, 5, 6, 7]);
    let mut words = Vec::new();
    for number in 1..=count {
        let kind = 1 + rng.below(highest as usize) as u32;
        let next = number + 1 + usize::from(rng.once_in(4));
        let next = if next > count { 0 } else { next as u32 };
        words.push(kind);
        words.extend(fields(rng, kind, rate, memory));
        words.push(next);
    }
    words
}

fn core_rate(rng: &mut Rng) -> u32 {
    let (any, sized) = (rng.u32(), rng.sized());
    rng.pick(&[0, 1, 2, 999_999_999, 1_000_000_000, 1_000_000_001, u32::MAX, any, any, sized])
}

/// Makes delays of some of a transaction's records, and gives all its delays their nanoseconds.
fn delays(rng: &mut Rng, core_hz: u32, words: &mut [u32]) {
    let among = rng.pick(&[2, 3, 9]);
    for r in words.chunks_exact_mut(8) {
        if rng.once_in(among) {
            r[0] = 5;
        }
        if r[0] == 5 {
            r[1] = nanoseconds(rng, core_hz);
        }
    }
}

/// Those of a delay, now and then about as many as it can last, and where its cycles are a whole number.
fn nanoseconds(rng: &mut Rng, core_hz: u32) -> u32 {
    let most = MOST * 1_000_000_000 / u128::from(core_hz.max(1));
    let (last, whole) = (rng.near(most.min(MOST) as u32), rng.near(1_000_000_000));
    let (few, sized, any) = (rng.below(2000) as u32, rng.sized(), rng.u32());
    rng.pick(&[0, 1, 2, 3, few, few, few, few, sized, sized, sized, sized, whole, last, last, any, u32::MAX])
}

/// Makes one word of a transaction's chain wrong, or its length.
fn damage(rng: &mut Rng, words: &mut Vec<u32>) {
    let more = 1 + rng.below(7);
    if words.len() < 8 || rng.once_in(6) {
        words.extend((0..more).map(|_| rng.word()));
    } else {
        damage_record(rng, words);
    }
}

/// Makes one word of a record wrong.
pub fn damage_record(rng: &mut Rng, words: &mut [u32]) {
    let count = words.len() / 8;
    let (at, field) = (rng.below(count), rng.pick(&[0, 0, 1, 2, 3, 4, 5, 6, 7, 7]));
    let any = rng.sized();
    let word = &mut words[8 * at + field];
    *word = match field {
        0 => rng.pick(&[0, 6, 7, 8, 9, 10, u32::MAX, any]),
        7 => rng.pick(&[1, at as u32 + 1, count as u32 + 1, u32::MAX, any]),
        _ => rng.pick(&[word.wrapping_add(1), word.wrapping_sub(1), 7, 256, u32::MAX, any]),
    };
}
