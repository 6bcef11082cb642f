//! Writes `$OUT_DIR/crate_root.rs`: `#[path]` lines to the unchanged source files of crate hgvs in `HGVS_SRC`, and
//! `$OUT_DIR/sequences.rs`: items cut verbatim out of `sequences.rs`.

use std::{
    env, fs,
    path::{Path, PathBuf},
};

fn main() {
    println!("cargo:rerun-if-env-changed=HGVS_SRC");
    println!("cargo:rerun-if-changed=build.rs");

    let manifest = PathBuf::from(env::var_os("CARGO_MANIFEST_DIR").expect("cargo gives the folder"));
    let out = PathBuf::from(env::var_os("OUT_DIR").expect("cargo gives the folder"));
    let src = env::var_os("HGVS_SRC").filter(|folder| !folder.is_empty()).map(PathBuf::from);
    // `join` keeps an absolute path as it is.
    let src = manifest.join(src.unwrap_or_else(|| PathBuf::from("../../../shared/docs/src/src")));
    let src = src.canonicalize().unwrap_or_else(|error| {
        panic!("HGVS_SRC must name the folder src/ of crate hgvs 4.0.1; {}: {error}", src.display())
    });

    write(&out, "sequences.rs", &sequences(&src));
    // normalizer.rs needs mapper/variant.rs, which is absent: its error type alone.
    let normalizer = item(&read(&src, "normalizer.rs"), "mod error {");
    write(&out, "normalizer.rs", &format!("pub use error::Error;\n\n{normalizer}"));
    write(&out, "crate_root.rs", &root(&src, &out));
}

/// What is needed of sequences.rs, whose other items want generated tables, md5 and bio.
fn sequences(src: &Path) -> String {
    let whole = read(src, "sequences.rs");
    let heads = [
        "mod error {",
        "pub fn trim_common_prefixes(",
        "pub fn trim_common_suffixes(",
        "pub fn trim_common_prefixes_slice<",
        "pub fn trim_common_suffixes_slice<",
        "pub enum TranslationTable {",
    ];
    let items: Vec<String> = heads.iter().map(|head| item(&whole, head)).collect();
    // display.rs calls the stub for protein variants only.
    format!(
        "pub use error::Error;\n\n{}\n\
         pub(crate) fn aa_to_aa3_cow(_seq: &str) -> Result<std::borrow::Cow<'_, str>, Error> {{\n    \
         unimplemented!(\"stub: no amino acid tables\")\n}}\n",
        items.join("\n")
    )
}

/// All of mapper/mod.rs, but each `mod x;` line gets the path of the unchanged file or, where that is absent, goes away.
fn mapper(src: &Path) -> String {
    let mut text = String::new();
    for line in read(src, "mapper/mod.rs").lines() {
        let declared = line.trim().strip_suffix(';');
        match declared.and_then(|l| l.strip_prefix("pub mod ").or_else(|| l.strip_prefix("mod "))) {
            Some(name) if src.join(format!("mapper/{name}.rs")).exists() => {
                text.push_str(&format!("{}\n{line}\n", unchanged(src, &format!("mapper/{name}.rs"))));
            }
            Some(_) => text.push_str(&format!("// absent: {line}\n")),
            None => text.push_str(&format!("{line}\n")),
        }
    }
    text
}

/// The line that points to a file of the crate.
fn unchanged(src: &Path, name: &str) -> String {
    let file = src.join(name);
    println!("cargo:rerun-if-changed={}", file.display());
    assert!(file.exists(), "{} is missing", file.display());
    format!("#[path = {file:?}]")
}

fn root(src: &Path, out: &Path) -> String {
    let made = |name: &str| format!("#[path = {:?}]", out.join(name));
    format!(
        "pub mod data {{\n{}\npub mod error;\n{}\npub mod interface;\n}}\n\n\
         pub mod mapper {{\n{}}}\n\n\
         {}\npub mod normalizer;\n\n\
         pub mod parser {{\n{}\nmod display;\n{}\nmod ds;\n{}\nmod error;\n\
         pub use crate::parser::display::*;\n\
         pub use crate::parser::ds::*;\n\
         pub use crate::parser::error::*;\n}}\n\n\
         {}\npub mod sequences;\n\n\
         pub mod validator {{\n{}\nmod error;\npub use crate::validator::error::Error;\n}}\n",
        unchanged(src, "data/error.rs"),
        unchanged(src, "data/interface.rs"),
        mapper(src),
        made("normalizer.rs"),
        unchanged(src, "parser/display.rs"),
        unchanged(src, "parser/ds.rs"),
        unchanged(src, "parser/error.rs"),
        made("sequences.rs"),
        unchanged(src, "validator/error.rs"),
    )
}

fn write(out: &Path, name: &str, text: &str) {
    fs::write(out.join(name), text).expect("the output folder can be written to");
}

fn read(src: &Path, name: &str) -> String {
    let file = src.join(name);
    println!("cargo:rerun-if-changed={}", file.display());
    fs::read_to_string(&file).unwrap_or_else(|e| panic!("{}: {e}", file.display()))
}

/// The top-level item whose first line starts with `head`, with the doc comments and attributes above it, up to the first line
/// that is `}` at column 0.
fn item(text: &str, head: &str) -> String {
    let lines: Vec<&str> = text.lines().collect();
    let hits: Vec<usize> = (0..lines.len()).filter(|&i| lines[i].starts_with(head)).collect();
    assert_eq!(hits.len(), 1, "{head:?} must occur exactly once");
    let mut first = hits[0];
    // Everything above up to a blank line belongs to the item (doc comments, derives).
    while first > 0 && !lines[first - 1].trim().is_empty() {
        first -= 1;
    }
    let last = (hits[0]..lines.len()).find(|&i| lines[i] == "}").unwrap_or_else(|| panic!("{head:?} has no end"));
    let mut result = lines[first..=last].join("\n");
    result.push('\n');
    result
}
