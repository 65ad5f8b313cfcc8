//! Links `libloxurfa_c.a` from LOXURFA_LIB_DIR, or from `../crates/loxurfa_c/out`, where `rt lib` in
//! crates/loxurfa_c writes it. Tests have its path as LOXURFA_ARCHIVE.

use std::env;
use std::path::PathBuf;

fn main() {
    println!("cargo:rerun-if-env-changed=LOXURFA_LIB_DIR");
    println!("cargo:rerun-if-changed=build.rs");

    let here = PathBuf::from(env::var_os("CARGO_MANIFEST_DIR").expect("set by cargo"));
    let given = env::var_os("LOXURFA_LIB_DIR").filter(|text| !text.is_empty());
    let directory = match given {
        Some(text) => here.join(text),
        None => here.join("../crates/loxurfa_c/out"),
    };
    let archive = directory.join("libloxurfa_c.a");
    println!("cargo:rerun-if-changed={}", archive.display());
    if !archive.is_file() {
        eprintln!(
            "{} is missing: `rt lib` in crates/loxurfa_c makes it, LOXURFA_LIB_DIR names another folder",
            archive.display()
        );
        std::process::exit(1);
    }
    println!("cargo:rustc-env=LOXURFA_ARCHIVE={}", archive.display());
    println!("cargo:rustc-link-search=native={}", directory.display());
    println!("cargo:rustc-link-lib=static=loxurfa_c");
}
