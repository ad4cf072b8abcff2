//! Finds the original's files and has them built unmodified, where they lie.
//!
//! `TONALKIT_SRC` names another folder than the default, as a checkout of djt358/tonalkit; it holds `crates/`.

use std::path::{Path, PathBuf};
use std::{env, fs};

fn main() {
    println!("cargo:rerun-if-env-changed=TONALKIT_SRC");
    let here = PathBuf::from(env::var("CARGO_MANIFEST_DIR").unwrap());
    let src = env::var("TONALKIT_SRC")
        .map(PathBuf::from)
        .unwrap_or_else(|_| here.join("../../shared/docs/src"));
    let crates = fs::canonicalize(src.join("crates"))
        .unwrap_or_else(|e| panic!("no original in {}: {e}; set TONALKIT_SRC", src.display()));
    let parts = items(
        &file(crates.join("tonekit-decode/src/evidence.rs")),
        &[
            "const MIN_TAIL_FRAMES",
            "fn creaky_tail",
            "fn joins",
            "fn tbu_spans",
        ],
    );
    let out = PathBuf::from(env::var("OUT_DIR").unwrap());
    fs::write(out.join("original.rs"), modules(&crates)).unwrap();
    fs::write(out.join("parts.rs"), parts).unwrap();
    link(&here);
}

/// The original's files as modules.
fn modules(crates: &Path) -> String {
    let decode = crates.join("tonekit-decode/src");
    let mut modules = String::new();
    for (name, path) in [
        ("closed", decode.join("closed.rs")),
        ("evidence", decode.join("evidence.rs")),
        ("duration_original", decode.join("duration.rs")),
        ("joins", crates.join("tonekit-shape/src/joins.rs")),
    ] {
        modules += &format!(
            "#[path = {:?}]\n#[allow(dead_code)]\npub(crate) mod {name};\n",
            file(path)
        );
    }
    // lib.rs is a crate's root and brings modules that are not wanted here, so the items wanted are taken from its text.
    let lib = file(decode.join("lib.rs"));
    let clamp = items(&lib, &["const LOG_CLAMP", "pub(crate) fn clamp_log"]);
    modules += &format!("mod clamp_original {{\n{clamp}}}\n");
    modules + &items(&lib, &["pub(crate) fn count_u32"])
}

fn file(p: PathBuf) -> String {
    assert!(p.is_file(), "{} is missing", p.display());
    println!("cargo:rerun-if-changed={}", p.display());
    p.display().to_string()
}

/// The text of items of a file, each from its first words to its end.
fn items(path: &str, starts: &[&str]) -> String {
    let text = fs::read_to_string(path).unwrap();
    let item = |start: &&str| {
        let at = text
            .find(&format!("\n{start}"))
            .unwrap_or_else(|| panic!("no `{start}` in {path}"))
            + 1;
        let end = if start.contains("const") {
            ";\n"
        } else {
            "\n}\n"
        };
        let len = text[at..].find(end).unwrap() + end.len();
        text[at..at + len].to_string()
    };
    starts.iter().map(item).collect()
}

/// Links our archive, which `tools/staticlib.sh` writes; `TIKUWERO_LIB` names another folder than the default.
fn link(here: &Path) {
    println!("cargo:rerun-if-env-changed=TIKUWERO_LIB");
    let folder = env::var("TIKUWERO_LIB")
        .map(PathBuf::from)
        .unwrap_or_else(|_| here.join("../target/staticlib"));
    println!(
        "cargo:rerun-if-changed={}",
        folder.join("libtikuwero.a").display()
    );
    println!("cargo:rustc-link-search=native={}", folder.display());
    println!("cargo:rustc-link-lib=static=tikuwero");
}
