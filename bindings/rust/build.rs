//! Links libipm_c.a: the path in IPM_C, or what `rt lib` in crates/ipm_c wrote in this repository.

use std::path::PathBuf;

const NAME: &str = "libipm_c.a";

fn main() {
    println!("cargo::rerun-if-env-changed=IPM_C");
    let written = PathBuf::from(env!("CARGO_MANIFEST_DIR")).join("../../crates/ipm_c/out").join(NAME);
    let archive = std::env::var_os("IPM_C").map_or(written, PathBuf::from);
    if !archive.ends_with(NAME) || !archive.is_file() {
        println!("cargo::error=no {NAME} at {}: run `rt lib` in crates/ipm_c, or set IPM_C to its path", archive.display());
        return;
    }
    let folder = archive.parent().expect("a file has a folder");
    println!("cargo::rerun-if-changed={}", archive.display());
    println!("cargo::rustc-link-search=native={}", folder.display());
    println!("cargo::rustc-link-lib=static=ipm_c");
}
