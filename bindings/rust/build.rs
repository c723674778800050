//! Links with libticklocust.a from the folder that TICKLOCUST_LIB names; without it, from the
//! repository's target/staticlib, where `tools/archive` writes it.

use std::path::PathBuf;

fn main() {
    println!("cargo:rerun-if-env-changed=TICKLOCUST_LIB");
    let folder = match std::env::var_os("TICKLOCUST_LIB") {
        Some(folder) => PathBuf::from(folder),
        None => PathBuf::from(env!("CARGO_MANIFEST_DIR")).join("../../target/staticlib"),
    };
    let archive = folder.join("libticklocust.a");
    if !archive.is_file() {
        eprintln!(
            "{} is missing: `tools/archive` in the repository writes target/staticlib; \
             or let TICKLOCUST_LIB name the archive's folder by its whole path",
            archive.display()
        );
        std::process::exit(1);
    }
    println!("cargo:rerun-if-changed={}", archive.display());
    println!("cargo:rustc-link-search=native={}", folder.display());
    println!("cargo:rustc-link-lib=static=ticklocust");
}
