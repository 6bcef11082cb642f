//! The mapper of crate hgvs 4.0.1, put together by `build.rs` from the crate's own files.
#![allow(dead_code, unused_imports, clippy::all)]

include!(concat!(env!("OUT_DIR"), "/crate_root.rs"));
