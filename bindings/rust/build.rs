//! Names the folder that holds libcapi.a: GASKEYS_LIB if it is set, else the project's target/staticlib.

use std::env;
use std::path::PathBuf;

fn main() {
    println!("cargo:rerun-if-env-changed=GASKEYS_LIB");
    let folder = env::var("GASKEYS_LIB").map(PathBuf::from).unwrap_or_else(|_| {
        let here = env::var("CARGO_MANIFEST_DIR").expect("cargo names the folder of a crate");
        PathBuf::from(here).join("../../target/staticlib")
    });
    let archive = folder.join("libcapi.a");
    println!("cargo:rerun-if-changed={}", archive.display());
    assert!(archive.is_file(), "{} is not there: `tools/build capi` makes it", archive.display());
    println!("cargo:rustc-link-search=native={}", folder.display());
    println!("cargo:rustc-link-lib=static=capi");
}
