//! Tells cargo where the library is: the folder that QSPI_LIB_DIR names, or target/staticlib of this repository.

use std::env;
use std::path::{Path, PathBuf};

fn folder() -> PathBuf {
    if let Some(named) = env::var_os("QSPI_LIB_DIR") {
        return PathBuf::from(named);
    }
    let here = env::var("CARGO_MANIFEST_DIR").expect("cargo sets CARGO_MANIFEST_DIR");
    Path::new(&here).join("../../target/staticlib")
}

fn main() {
    let folder = folder();
    let archive = folder.join("libexports.a");
    println!("cargo::rerun-if-env-changed=QSPI_LIB_DIR");
    println!("cargo::rerun-if-changed={}", archive.display());
    assert!(
        archive.is_file(),
        "{} is missing: run `bindings/build` in the root of the repository",
        archive.display()
    );
    println!("cargo::rustc-link-search=native={}", folder.display());
    println!("cargo::rustc-link-lib=static=exports");
}
