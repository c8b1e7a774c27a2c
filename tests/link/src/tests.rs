//! The header, the package, the Rattle functions and the library have the same functions; the first three have the same
//! counts.

use crate::{Functions, counts_in_c, counts_in_rust, in_c, in_rattle, in_rust, without};
use std::collections::BTreeSet;
use std::fs;
use std::path::{Path, PathBuf};
use std::process::Command;

fn root() -> PathBuf {
    Path::new(env!("CARGO_MANIFEST_DIR")).join("../..")
}

fn text(path: &str) -> String {
    fs::read_to_string(root().join(path)).unwrap_or_else(|e| panic!("{path}: {e}"))
}

/// The text of every file with an ending below a folder.
fn all_text(folder: PathBuf, ending: &str) -> String {
    let mut together = String::new();
    for found in fs::read_dir(&folder).unwrap_or_else(|e| panic!("{}: {e}", folder.display())) {
        let path = found.unwrap().path();
        if path.is_dir() {
            together += &all_text(path, ending);
        } else if path.extension().is_some_and(|e| e == ending) {
            together += &fs::read_to_string(path).unwrap();
        }
    }
    together
}

/// The text of the crates' sources. What `rt` keeps of them beside src is left out: it may be older.
fn sources() -> String {
    let crates = fs::read_dir(root().join("crates")).unwrap();
    let sources = crates.map(|found| found.unwrap().path().join("src")).filter(|source| source.is_dir());
    sources.map(|source| all_text(source, "rt")).collect()
}

fn header() -> Functions {
    in_c(&text("bindings/c/qspi.h"))
}

/// That both have the same functions; a difference is shown by itself.
fn same(a: &Functions, b: &Functions) {
    assert!(!a.is_empty());
    assert!(a.keys().eq(b.keys()), "{:?}\n{:?}", a.keys(), b.keys());
    for (name, function) in a {
        assert_eq!(function, &b[name], "{name}");
    }
}

#[test]
fn the_package_declares_what_the_header_does() {
    same(&in_rust(&text("bindings/rust/src/ffi.rs")), &header());
}

#[test]
fn the_header_declares_what_rattle_exports() {
    same(&header(), &in_rattle(&sources()));
}

#[test]
fn the_header_declares_what_the_library_has() {
    let archive = root().join("target/staticlib/libexports.a");
    let nm = Command::new("nm").args(["--extern-only", "--defined-only", "--format=posix"]).arg(archive).output();
    let nm = nm.expect("nm is on PATH");
    assert!(nm.status.success(), "{}", String::from_utf8_lossy(&nm.stderr));
    let listed = String::from_utf8(nm.stdout).unwrap();
    let symbols = listed.lines().filter_map(|line| line.split_once(' '));
    let symbols: BTreeSet<String> = symbols.map(|(name, rest)| format!("{name} {}", &rest[..1])).collect();
    let functions: BTreeSet<String> = header().keys().map(|name| format!("{name} T")).collect();
    assert_eq!(symbols, functions);
}

#[test]
fn the_counts_have_the_same_fields_in_the_same_order() {
    let rattle = counts_in_rust(&text("crates/counts/src/lib.rt"));
    assert!(!rattle.is_empty());
    assert_eq!(counts_in_c(&text("bindings/c/qspi.h")), rattle);
    assert_eq!(counts_in_rust(&text("bindings/rust/src/ended.rs")), rattle);
}

#[test]
fn every_function_has_a_comment() {
    let text = text("bindings/c/qspi.h");
    for name in header().keys() {
        let before = text.split(&format!("{name}(uint")).next().unwrap();
        let before = before.split(&format!("{name}(void")).next().unwrap();
        let line_before = before.trim_end_matches(|c| c != '\n').trim_end();
        assert!(line_before.ends_with("*/"), "{name}");
    }
}

/// The name of an error's constant in C: `SPI_MODE` of `SpiMode`.
fn constant(error: &str) -> String {
    let mut name = String::new();
    for letter in error.chars() {
        if letter.is_uppercase() && !name.is_empty() {
            name.push('_');
        }
        name.extend(letter.to_uppercase());
    }
    name
}

/// The numbers of documents 01 and 02: the errors of the crate config, each with its number, and done.
fn numbers() -> Vec<(String, String)> {
    let of_line = |l: &str| {
        let (error, number) = l.strip_prefix("    ")?.strip_suffix(',')?.split_once(" = ")?;
        Some((String::from(error), String::from(number)))
    };
    let mut numbers = vec![(String::from("Done"), String::from("0"))];
    numbers.extend(text("crates/config/src/error.rt").lines().filter_map(of_line));
    assert_eq!(numbers.len(), 16);
    numbers
}

#[test]
fn the_header_has_the_numbers_of_documents_01_and_02() {
    let header = text("bindings/c/qspi.h");
    for (error, number) in numbers() {
        let name = constant(&error);
        let line = header.lines().find_map(|l| l.trim().strip_prefix(&format!("QSPI_{name} = ")));
        let given = line.and_then(|l| l.split([',', ' ']).next());
        assert_eq!(given, Some(number.as_str()), "{name}");
    }
}

#[test]
fn the_package_has_the_numbers_of_documents_01_and_02() {
    let package = text("bindings/rust/src/ended.rs");
    let named = package.lines().filter_map(|l| l.trim().strip_prefix("(")?.split_once(", Number::"));
    let named = named.filter_map(|(number, rest)| Some((rest.split_once(", \"")?.0.into(), number.into())));
    assert_eq!(named.collect::<Vec<(String, String)>>(), numbers());
}

#[test]
fn every_function_is_called_in_both_tests() {
    let c = without(&all_text(root().join("tests/link/c"), "c"), "/*", "*/");
    let rust = text("bindings/rust/tests/calls.rs");
    for name in header().keys() {
        assert!(c.contains(&format!("{name}(")), "{name} in C");
        let name = name.strip_prefix("qspi_").unwrap();
        let called = [format!("qspi::{name}("), format!("qspi::{name})"), format!("by_number::{name}(")];
        assert!(called.iter().any(|call| rust.contains(call)), "{name} in Rust");
    }
}

#[test]
fn declarations_are_read() {
    let c = "/* f(x) */\nuint8_t f(uint32_t *log,\n size_t log_len, const uint8_t *b, size_t b_len, bool q);\nvoid g(void);\n";
    let rust =
        "/// f(x)\npub safe fn f(log: *mut u32, log_len: usize,\n b: *const u8, b_len: usize, q: bool) -> u8;\nfn g();";
    let rattle = "pub extern \"C\" fn f(\n log: &mut [u32], b: &[u8], q: bool) -> u8\n ensures\npub extern \"C\" fn g()\n{\nfn h() {}";
    same(&in_c(c), &in_rust(rust));
    same(&in_c(c), &in_rattle(rattle));
    assert_eq!(in_c(c)["f"].parameters[0], (String::from("log"), String::from("*mut u32")));
    assert_eq!(in_c(c)["g"].gives, "()");
    assert_ne!(in_c(c), in_c(&c.replace("const ", "")));
    assert_ne!(in_c(c), in_c(&c.replace("bool", "uint8_t")));
}

#[test]
fn fields_are_read_in_their_order() {
    let c =
        "struct qspi_counts {\n uint64_t entries; /* a */\n uint64_t taken;\n};\nstatic_assert(sizeof(x) == 2, \"\");";
    let rust =
        "struct A {}\n/// Two.\n#[repr(C)]\npub struct Counts {\n /// a, b\n pub entries: u64,\n pub taken: u64,\n}\n";
    let field = |name| (String::from(name), String::from("u64"));
    assert_eq!(counts_in_c(c), [field("entries"), field("taken")]);
    assert_eq!(counts_in_rust(rust), counts_in_c(c));
    assert!(in_c(c).is_empty());
    assert_ne!(counts_in_c(c), counts_in_c(&c.replace("uint64_t taken", "uint32_t taken")));
    assert!(counts_in_rust(&rust.replace("#[repr(C)]\n", "")).is_empty());
}
