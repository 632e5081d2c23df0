//! Links `libcoarse.a`, from the folder that `COARSE_LIB_DIR` names or else from `out` of the repository that this crate stands in, where
//! `tools/archive` puts it.
use std::env;
use std::path::PathBuf;
use std::process::exit;

fn main() {
    let beside =
        PathBuf::from(env::var_os("CARGO_MANIFEST_DIR").unwrap_or_default()).join("../out");
    let folder = env::var_os("COARSE_LIB_DIR").map_or(beside, PathBuf::from);
    let archive = folder.join("libcoarse.a");
    println!("cargo:rerun-if-env-changed=COARSE_LIB_DIR");
    println!("cargo:rerun-if-changed={}", archive.display());
    if !archive.is_file() {
        eprintln!(
            "there is no {}: `tools/archive` at the top of the repository makes libcoarse.a in its folder `out`, `make install` \
             puts it elsewhere, and COARSE_LIB_DIR names the folder that has it",
            archive.display()
        );
        exit(1);
    }
    println!("cargo:rustc-link-search=native={}", folder.display());
    println!("cargo:rustc-link-lib=static=coarse");
}
