//! With the feature `probes`: links libprobes_c.a, from crates/probes_c/out of the repository, where `rt lib` in
//! crates/probes_c writes it.

use std::env;
use std::path::PathBuf;

fn main() {
    if env::var_os("CARGO_FEATURE_PROBES").is_none() {
        return;
    }
    let folder = PathBuf::from(env::var("CARGO_MANIFEST_DIR").unwrap()).join("../../crates/probes_c/out");
    let archive = folder.join("libprobes_c.a");
    println!("cargo:rerun-if-changed={}", archive.display());
    if !archive.exists() {
        panic!("no {}: write it with 'cd crates/probes_c && rt lib'", archive.display());
    }
    println!("cargo:rustc-link-search=native={}", folder.display());
    println!("cargo:rustc-link-lib=static=probes_c");
}
