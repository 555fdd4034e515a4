//! Links the library. It is looked for
//!
//! 1. in the folder that `WHATIF_LIB_DIR` names, and then nowhere else;
//! 2. in build/ of the repository, where `tools/archive` writes it;
//! 3. by pkg-config, where it is installed.
//!
//! libwhatif.a is linked where it is there, else libwhatif.so; `WHATIF_LINK`, `static` or `shared`, asks for one of
//! them. A library of another major version or an older one ends the build. Without a library there is a warning:
//! `cargo check` and `cargo doc` need none, and a program fails when it is linked.

#[path = "find.rs"]
mod find;

use find::{Found, Link};
use std::env;
use std::path::PathBuf;
use std::process::exit;

const ASKED: [&str; 5] = ["WHATIF_LIB_DIR", "WHATIF_LINK", "PKG_CONFIG", "PKG_CONFIG_PATH", "PKG_CONFIG_LIBDIR"];

fn main() {
    for name in ASKED {
        println!("cargo:rerun-if-env-changed={}", name);
    }
    println!("cargo:rerun-if-changed=build.rs");
    println!("cargo:rerun-if-changed=find.rs");
    match library() {
        Ok(Some(found)) => link(&found),
        Ok(None) => no_library(),
        Err(why) => {
            eprintln!("whatif-sys: {}", why);
            exit(1)
        }
    }
}

fn library() -> Result<Option<Found>, String> {
    let wanted = find::wanted(env::var("WHATIF_LINK").ok().as_deref())?;
    let beside = PathBuf::from(env::var("CARGO_MANIFEST_DIR").unwrap_or_default()).join("../../build");
    let found = match env::var_os("WHATIF_LIB_DIR") {
        Some(named) => find::in_folder(&PathBuf::from(named), wanted),
        None => find::in_folder(&beside, wanted).or_else(|| find::by_pkg_config(wanted)),
    };
    if let Some(version) = found.as_ref().and_then(|found| found.version.as_ref()) {
        find::may_link(version)?;
    }
    Ok(found)
}

fn link(found: &Found) {
    if found.version.is_none() {
        println!("cargo:warning={} has no whatif.pc: its version is not compared", found.folder.display());
    }
    let kind = match found.link {
        Link::Static => "static",
        Link::Shared => "dylib",
    };
    println!("cargo:rerun-if-changed={}", found.file().display());
    println!("cargo:rustc-link-search=native={}", found.folder.display());
    println!("cargo:rustc-link-lib={}=whatif", kind);
}

fn no_library() {
    let ways = "make it with tools/archive, install it, or set WHATIF_LIB_DIR";
    println!("cargo:warning=the library is not there, so nothing can be linked: {}", ways);
    // a file that is never there: the next build looks for the library again
    println!("cargo:rerun-if-changed=library-not-there");
    // not static: that is looked for before anything is linked
    println!("cargo:rustc-link-lib=dylib=whatif");
}
