//! Tells the linker where the archive of the proved entries is: `target/staticlib` of the repository, or `TXC_ARCHIVE`.

use std::{env, path::PathBuf};

fn main() {
    println!("cargo:rerun-if-changed=build.rs");
    println!("cargo:rerun-if-env-changed=TXC_ARCHIVE");

    let here = PathBuf::from(env::var_os("CARGO_MANIFEST_DIR").expect("cargo gives the folder"));
    let folder = match env::var_os("TXC_ARCHIVE") {
        Some(folder) if !folder.is_empty() => PathBuf::from(folder),
        _ => here.join("../target/staticlib"),
    };
    let archive = folder.join("libentry.a");
    println!("cargo:rerun-if-changed={}", archive.display());
    println!("cargo:rustc-link-search=native={}", folder.display());
    println!("cargo:rustc-link-lib=static=entry");
    if !archive.exists() {
        println!("cargo:warning={} is missing: `host/archive.sh` writes it", archive.display());
    }
}
