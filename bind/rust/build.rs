//! Links the archive that bind/build made, which lies in bind/out or where `ILPSTREAM_OUT` says.

use std::env;
use std::path::PathBuf;

fn main() {
    println!("cargo::rerun-if-env-changed=ILPSTREAM_OUT");
    // (for documentation alone nothing is linked)
    if env::var_os("DOCS_RS").is_some() {
        return;
    }
    let beside = PathBuf::from(env::var_os("CARGO_MANIFEST_DIR").expect("Cargo sets it"));
    let folder = env::var_os("ILPSTREAM_OUT").map_or_else(|| beside.join("../out"), PathBuf::from);
    let archive = folder.join("libilpstream.a");
    println!("cargo::rerun-if-changed={}", archive.display());
    if !archive.is_file() {
        println!(
            "cargo::warning={} is missing: run bind/build",
            archive.display()
        );
    }
    println!("cargo::rustc-link-search=native={}", folder.display());
    println!("cargo::rustc-link-lib=static=ilpstream");
}
