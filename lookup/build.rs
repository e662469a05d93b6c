//! Links the proved lookup: `liblookup.a` in the folder that NACL_LIB_DIR names, or in
//! `target/staticlib` of the repository.

use std::env;
use std::path::{Path, PathBuf};

fn main() {
    println!("cargo:rerun-if-env-changed=NACL_LIB_DIR");
    let crate_dir = env::var_os("CARGO_MANIFEST_DIR").unwrap_or_default();
    let default = || Path::new(&crate_dir).join("../target/staticlib");
    let folder = env::var_os("NACL_LIB_DIR").map_or_else(default, PathBuf::from);
    let folder = folder.canonicalize().unwrap_or(folder);
    let archive = folder.join("liblookup.a");
    println!("cargo:rerun-if-changed={}", archive.display());
    if !archive.is_file() {
        eprintln!("{} is not there; make it with `tools/staticlib lookup`,", archive.display());
        eprintln!("or name the folder of liblookup.a in NACL_LIB_DIR");
        std::process::exit(1);
    }
    println!("cargo:rustc-link-search=native={}", folder.display());
    println!("cargo:rustc-link-lib=static=lookup");
}
