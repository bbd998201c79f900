//! Links the Rattle functions that crates/probes exports; those of crates/hall_c come with
//! `voqlisna-sys`. Where VOQLISNA_BASE_LIB names another `libhall.a`, it is linked beside, as a
//! copy whose entries are called `base_hall_push` and so on, and the cfg `base` is set.

use std::env;
use std::ffi::OsStr;
use std::path::{Path, PathBuf};
use std::process::Command;

/// A library from before R-5 has no make, one from before R-6 none with a table, one from before R-9
/// no 24-bit samples, one from before R-10 no planes; renaming what is not there changes nothing.
const ENTRIES: [&str; 11] = [
    "push",
    "flush",
    "reset",
    "make",
    "make_with_table",
    "state_size",
    "version",
    "to_planes",
    "from_planes",
    "write_24",
    "read_24",
];

fn main() {
    println!("cargo::rustc-check-cfg=cfg(no_sources)");
    println!("cargo::rustc-check-cfg=cfg(base)");
    println!("cargo::rerun-if-env-changed=VOQLISNA_BASE_LIB");
    if env::var_os("DEP_VOQLISNA_ORACLE_NO_SOURCES").is_some() {
        println!("cargo::rustc-cfg=no_sources");
    }
    let root = PathBuf::from(env::var("CARGO_MANIFEST_DIR").unwrap()).join("../..");
    let folder = root.join("target/staticlib");
    let library = folder.join("libprobes.a");
    println!("cargo::rerun-if-changed={}", library.display());
    if !library.exists() {
        println!(
            "cargo::error=target/staticlib/libprobes.a is missing: run `tools/staticlib probes` first"
        );
        return;
    }
    println!("cargo::rustc-link-search=native={}", folder.display());
    println!("cargo::rustc-link-lib=static=probes");
    if let Some(base) = env::var_os("VOQLISNA_BASE_LIB") {
        link_base(&base);
    }
}

fn link_base(library: &OsStr) {
    println!("cargo::rerun-if-changed={}", Path::new(library).display());
    let out = PathBuf::from(env::var_os("OUT_DIR").unwrap());
    let renamed = ENTRIES.map(|name| format!("--redefine-sym=hall_{name}=base_hall_{name}"));
    let status = Command::new("objcopy")
        .args(renamed)
        .arg(library)
        .arg(out.join("libbase.a"))
        .status();
    if !status.is_ok_and(|status| status.success()) {
        println!("cargo::error=objcopy made no copy of VOQLISNA_BASE_LIB, {library:?}");
        return;
    }
    println!("cargo::rustc-link-search=native={}", out.display());
    println!("cargo::rustc-link-lib=static=base");
    println!("cargo::rustc-cfg=base");
}
