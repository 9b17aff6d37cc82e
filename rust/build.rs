//! Finds the static library: the archive that `SLOT_DRAW_LIB` names, or `target/staticlib/libslot_draw.a` of the
//! repository, which `sh tools/archive` writes.
use std::env;
use std::path::PathBuf;

fn main() {
    println!("cargo:rerun-if-env-changed=SLOT_DRAW_LIB");
    let arch = env::var("CARGO_CFG_TARGET_ARCH").unwrap_or_default();
    assert!(
        arch == "x86_64",
        "libslot_draw.a is for x86-64, not for {arch}"
    );
    let archive = match env::var_os("SLOT_DRAW_LIB") {
        Some(path) => PathBuf::from(path),
        None => PathBuf::from(env::var_os("CARGO_MANIFEST_DIR").expect("cargo names the folder"))
            .join("../target/staticlib/libslot_draw.a"),
    };
    assert!(
        archive.is_file(),
        "{} is missing: run `sh tools/archive`, or name the archive in SLOT_DRAW_LIB",
        archive.display()
    );
    let folder = archive.parent().expect("an archive stands in a folder");
    println!("cargo:rerun-if-changed={}", archive.display());
    println!("cargo:rustc-link-search=native={}", folder.display());
    println!("cargo:rustc-link-lib=static=slot_draw");
}
