//! Links libcapi.a, which `rt lib` in crates/capi writes to crates/capi/out; SILLBADGER_ARCHIVE names another folder.

use std::env::var;
use std::path::PathBuf;

fn main() {
    println!("cargo:rerun-if-env-changed=SILLBADGER_ARCHIVE");
    let folder = var("SILLBADGER_ARCHIVE").map(PathBuf::from).unwrap_or_else(|_| {
        PathBuf::from(var("CARGO_MANIFEST_DIR").expect("cargo names the package's folder")).join("../../crates/capi/out")
    });
    if !folder.join("libcapi.a").exists() {
        panic!("no libcapi.a in {}: run `rt lib` in crates/capi first", folder.display());
    }
    println!("cargo:rerun-if-changed={}", folder.join("libcapi.a").display());
    println!("cargo:rustc-link-search=native={}", folder.display());
    println!("cargo:rustc-link-lib=static=capi");
}
