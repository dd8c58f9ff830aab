//! Links the archive. Its folder is VELICHUNDAM_LIB_DIR; or ../build, where `make` leaves it; or ../crates/velichundam/out, where `rt lib` does.

use std::path::PathBuf;

fn main() {
    println!("cargo:rerun-if-env-changed=VELICHUNDAM_LIB_DIR");
    if std::env::var_os("CARGO_FEATURE_UNLINKED").is_some() {
        return;
    }
    let here = PathBuf::from(std::env::var_os("CARGO_MANIFEST_DIR").expect("cargo sets it"));
    let folders = match std::env::var_os("VELICHUNDAM_LIB_DIR") {
        Some(folder) => vec![here.join(folder)],
        None => vec![here.join("../build"), here.join("../crates/velichundam/out")],
    };
    for folder in &folders {
        println!("cargo:rerun-if-changed={}", folder.join("libvelichundam.a").display());
    }
    let folder = folders.iter().find(|folder| folder.join("libvelichundam.a").is_file());
    let folder = folder.unwrap_or_else(|| panic!("no libvelichundam.a in {folders:?}: run `make` first, or set VELICHUNDAM_LIB_DIR"));
    println!("cargo:rustc-link-search=native={}", folder.display());
    println!("cargo:rustc-link-lib=static=velichundam");
}
