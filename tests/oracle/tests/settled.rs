//! What document 01 settles, on the Rust.

use oracle::answer;
use oracle::plan::Plan;

/// The lines that answer a case.
fn lines(case: &str) -> Vec<String> {
    std::panic::set_hook(Box::new(|_| {}));
    let mut text = String::new();
    answer(case, &mut text).unwrap();
    text.lines().map(String::from).collect()
}

fn last(case: &str) -> String {
    lines(case).pop().unwrap()
}

/// The case with the answers that a plan makes up: `head` and `tail` stand before and after the log's length.
fn planned(head: &str, log_words: usize, tail: &str, plan: Plan) -> String {
    let answers = oracle::answered_by(&format!("{head} {log_words} {tail} 0"), plan);
    let words: Vec<String> = answers.iter().map(u32::to_string).collect();
    format!("{head} {log_words} {tail} {} {}", answers.len(), words.join(" "))
}

/// So many times the same word.
fn repeated(word: u32, count: usize) -> String {
    let words = vec![word.to_string(); count].join(" ");
    format!("{count} {words}")
}

/// The bytes of a sheet as a case has them: words, then memory.
fn sheet(words: &[u32], memory: &[u8]) -> String {
    let mut bytes: Vec<u8> = words.iter().flat_map(|w| w.to_le_bytes()).collect();
    bytes.extend(memory);
    let text: Vec<String> = bytes.iter().map(u8::to_string).collect();
    format!("{} {} {}", bytes.len(), bytes.len(), text.join(" "))
}

#[test]
fn sample_sheet() {
    let log = "r 0018 00000000\nw 0018 80008000\nd 0000 0000000a\nr 0030 00000000\nw 0030 00000001\nr 0034 00000000\n\
               w 0034 00000001\nr 0038 00000000\nw 0038 00000001\nr 0008 00000000\nw 0008 80000000\nr 001c 00000000\n\
               b 0200 0000009f\nr 001c 00000000\nr 0008 00000000\nend 0 15 8 3 0";
    assert_eq!(lines("write 3 8192 1 1 0x9f 8 0 0 0 0 0 0 0 0").join("\n"), log);
    let mut words = vec![3, 10_000_000, 0, 1, 8, 1, 0, 1];
    words.resize(21, 0);
    let sample = sheet(&words, &[0x9f]);
    assert_eq!(lines(&format!("sheet {sample}")).join("\n"), log);
    assert_eq!(lines(&format!("print {sample}")).join("\n"), log);
}

/// A sheet of one record, its answers all 1: ready for every wait, one byte received at a time.
fn one_record(qpi: u32, record: [u32; 8], answers: usize, memory: &[u8]) -> String {
    let mut words = vec![3, 100_000_000, qpi, 1, answers as u32];
    words.extend(record);
    words.resize(13 + answers, 1);
    sheet(&words, memory)
}

#[test]
fn kinds_of_a_sheet() {
    let ends = |qpi, record, end: &str| {
        let case = format!("print {}", one_record(qpi, record, 100, &[7; 4]));
        assert_eq!(last(&case), end, "{record:?}");
    };
    ends(0, [6, 9, 9, 9, 9, 9, 9, 0], "end 0 1 1 1 0");
    ends(0, [7, 5, 9, 9, 9, 9, 9, 0], "end 0 5 3 1 0");
    ends(0, [7, 6, 9, 9, 9, 9, 9, 0], "end 2 1 1 1 0");
    ends(1, [7, 6, 9, 9, 9, 9, 9, 0], "end 0 3 2 1 0");
    // Command 1 and the one dummy of P7, or the two of P8.
    ends(0, [8, 0, 1, 80, 0, 1, 1, 0], "end 0 40 22 7 0");
    ends(0, [8, 0, 1, 81, 0, 1, 1, 0], "end 0 41 22 7 0");
    ends(0, [9, 0, 1, 9, 9, 1, 1, 0], "end 0 40 22 8 0");
    for record in [[7, 7], [10, 0], [8, 4], [0, 0]] {
        ends(1, [record[0], record[1], 1, 0, 0, 0, 0, 0], "refused");
    }
    ends(1, [8, 0, 1, 0, 256, 0, 0, 0], "refused");
    ends(1, [8, 0, 1, 0, 255, 4, 1, 0], "refused");
}

#[test]
fn memory_of_a_sheet() {
    // Sends 1..4 as they stand, then reads into 0..3; the bytes are told by their places in the memory.
    let case = one_record(0, [3, 0, 3, 1, 3, 9, 9, 0], 20, &[5, 6, 7, 8]);
    let told = lines(&format!("sheet {case}"));
    let sent: Vec<&str> = told.iter().filter_map(|l| l.strip_prefix("b 0200 ")).collect();
    assert_eq!(sent, ["00000006", "00000007", "00000008"]);
    assert_eq!(told[told.len() - 4..], ["end 0 35 20 7 0", "m 00000000 01", "m 00000001 01", "m 00000002 01"]);
}

#[test]
fn p1_to_p6_clock() {
    for (pll, target, choice) in [
        (1_200_000_000u32, 10_000_000, "11 2 4 10000000"),
        (24_000_000, 10_000_000, "2 1 0 8000000"),
        (100_000_000, 50_000_000, "0 1 1 50000000"),
        (3_200_000_031, 100_000_000, "31 1 0 100000000"),
        (3_200_000_032, 100_000_000, "0 1 0 3200000032"),
        (0, 10_000_000, "0 1 0 0"),
    ] {
        assert_eq!(last(&format!("clock {pll} {target}")), format!("clock {choice}"));
    }
}

#[test]
fn p7_to_p10_dummies() {
    for (tclqv, margin, count) in [(80, 0, 1), (81, 0, 2), (20_480, 0, 1), (20_480, 3, 3), (20_400, 1, 255)] {
        assert_eq!(last(&format!("dummy 100000000 {tclqv} {margin}")), format!("dummy {count}"));
    }
}

#[test]
fn p11_flush() {
    assert_eq!(last("flush 3 100 3 0x80000000 0x80000000 0"), "end 0 3 3 3 2");
    assert_eq!(last("flush 3 100 4 0x80000000 0x80000000 0x80000000 0"), "end 1 3 3 3 3");
}

#[test]
fn ready_first_write_of_64_bytes() {
    assert_eq!(last(&format!("write 3 8192 64 0 {}", repeated(0, 8))), "end 0 78 8 3 0");
}

#[test]
fn longest_length() {
    let taken = lines("write 3 40 0xffffff 0 20 0 0 0 0 0 0 0 0 0 0 0 0 0 0 0 0 0 0 0 0");
    assert_eq!(taken[4], "w 0030 00ffffff");
    assert_eq!(taken.last().unwrap(), "end 10 20 6 1 0");
    let refused = lines("write 3 40 0x1000000 0 20 0 0 0 0 0 0 0 0 0 0 0 0 0 0 0 0 0 0 0 0");
    assert_eq!(refused.len(), 5);
    assert!(refused[4].starts_with("panic 4 2 0 0 Total bytes out of range"));
}

#[test]
fn default_opening() {
    let answers = repeated(0, 13);
    let opened = lines(&format!("open 0 0 1 0 0 0 1 1 0 0 10000000 1200000000 24000000 800000000 1 5 60 {answers}"));
    assert_eq!(opened[30..], ["end 0 30 13 0 0", "rate 10000000"]);
}

#[test]
fn panics_of_an_opening() {
    assert!(lines("open 0 1 1 0 0 0 0 0 0 0 1 1 1 9 1 5 60 0")[0].starts_with("panic 0 0 0 0 "));
    assert!(lines("open 4 0 1 0 0 0 0 0 0 0 1 1 1 9 1 5 60 0")[0].starts_with("panic 0 0 0 0 "));
    let qpi = lines(&format!("open 0 0 1 6 0 0 0 0 0 0 1 1 1 9 0 5 60 {}", repeated(0, 20)));
    assert!(qpi[21].starts_with("panic 21 9 0 0 "));
}

#[test]
fn standard_after_a_read_that_times_out() {
    // One command byte, ready; mode Quad, ready; the read's data wait times out at limit 2; Standard is ready.
    let case = planned("quadread 2", 8192, "1000000 1 1 0x6b 0 0 2 0", Plan::new(&[0, 0, 0, 0, 2, 0], 64, 1));
    let log = lines(&case);
    assert!(log.last().unwrap().starts_with("end 1 "));
    let places: Vec<&str> = log[log.len() - 6..log.len() - 1].iter().map(|l| &l[..6]).collect();
    assert_eq!(places, ["r 0008", "r 0038", "w 0038", "r 0008", "w 0008"]);
}

#[test]
fn every_wait_at_the_rust_limit() {
    for slow in 0..3 {
        for unready in [99_999, 100_000] {
            let mut waits = [0; 3];
            waits[slow] = unready;
            let case = planned("write 100000", 400_000, "1 1 7", Plan::new(&waits, 64, 5));
            let end = if unready == 100_000 { "end 1 " } else { "end 0 " };
            assert!(last(&case).starts_with(end), "{slow} {unready}");
        }
    }
    let case = planned("read 100000", 400_000, "1 0", Plan::new(&[100_000], 64, 5));
    assert!(last(&case).starts_with("end 1 100011 100005 100000 100000"));
}

#[test]
fn the_largest_limit() {
    assert_eq!(last("flush 4294967295 100 2 0x80000000 0"), "end 0 2 2 2 1");
    assert_eq!(last("flush 4294967295 100 2 0x80000000 0x80000000"), "end 11 2 2 2 2");
}

/// Half the nanoseconds at a delay, the clock's rate at an opening, whatever the core rate.
#[test]
fn no_core_rate_is_looked_at() {
    for core in [0, 1, 1_000_000_000, u32::MAX] {
        let delays = format!("transaction 3 8 {core} 16 5 7 0 0 0 0 0 2 5 4294967295 0 0 0 0 0 0 0 0 0");
        assert_eq!(lines(&delays), ["d 0000 00000003", "d 0000 7fffffff", "end 0 2 0 0 0"]);
        let opening =
            format!("open 0 0 1 0 0 0 0 0 0 0 10000000 1200000000 24000000 {core} 1 5 60 {}", repeated(0, 13));
        assert_eq!(last(&opening), "rate 10000000");
    }
}

#[test]
fn overlapping_windows() {
    // Reads into 0..2, sends 1..3 as they stand.
    let case = planned("transaction 3", 8192, "9 8 3 0 2 1 2 0 0 0 3 3 1 2 3", Plan::new(&[0], 64, 9));
    let sent: Vec<String> = lines(&case).into_iter().filter(|l| l.starts_with('b')).collect();
    assert_eq!(sent, ["b 0200 00000002", "b 0200 00000003"]);
}
