//! The build script of both crates that compile the Rust's files: finds them, and writes a file of modules that name
//! them by their path. The files themselves are not part of this repository.
use std::path::{Path, PathBuf};
use std::{env, fs};

/// The modules of rand_distr that are compiled: name, file, whether the harness sees them.
const RAND_DISTR: &[(&str, &str, bool)] = &[
    ("binomial", "binomial.rs", false),
    ("exponential", "exponential.rs", false),
    ("normal", "normal.rs", false),
    ("poisson", "poisson.rs", false),
    ("utils", "utils.rs", false),
    ("weighted", "weighted/mod.rs", true),
    ("ziggurat_tables", "ziggurat_tables.rs", true),
];

/// The two that one ziggurat round needs.
const ZIGGURAT: &[(&str, &str, bool)] =
    &[("utils", "utils.rs", false), ("ziggurat_tables", "ziggurat_tables.rs", true)];

/// Files that a module above brings in.
const WITHIN: &[&str] = &["weighted/weighted_alias.rs", "weighted/weighted_tree.rs"];

const VARIABLE: &str = "SLOT_DRAW_RUST_SRC";

fn folder() -> PathBuf {
    match env::var_os(VARIABLE) {
        Some(folder) if !folder.is_empty() => PathBuf::from(folder),
        // the repository is two folders above a crate of this workspace
        _ => Path::new(env!("CARGO_MANIFEST_DIR")).join("../../../shared/docs/src"),
    }
}

fn main() {
    println!("cargo::rerun-if-changed=../source.rs");
    println!("cargo::rerun-if-env-changed={VARIABLE}");
    let crate_name = env::var("CARGO_PKG_NAME").expect("cargo names the crate");
    let modules = if crate_name == "rand_distr" { RAND_DISTR } else { ZIGGURAT };
    let folder = folder();
    let mut text = String::new();
    for file in modules.iter().map(|m| m.1).chain(WITHIN.iter().copied()) {
        if !folder.join(file).is_file() {
            println!("cargo::error=the Rust's file {file} is not in {}", folder.display());
            println!("cargo::error=unpack rand_distr 0.6.0 and set {VARIABLE} to its folder src");
            return;
        }
    }
    let folder = folder.canonicalize().expect("the folder is there");
    for (name, file, public) in modules {
        let path = folder.join(file);
        println!("cargo::rerun-if-changed={}", path.display());
        let visible = if *public { "pub " } else { "" };
        text += &format!("#[path = {path:?}]\n#[allow(dead_code, clippy::all)]\n{visible}mod {name};\n");
    }
    for file in WITHIN {
        println!("cargo::rerun-if-changed={}", folder.join(file).display());
    }
    let out = PathBuf::from(env::var_os("OUT_DIR").expect("cargo names a folder"));
    fs::write(out.join("modules.rs"), text).expect("the file of modules can be written");
}
