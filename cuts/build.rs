//! Links the archive that `run` wrote. Without it the stand-ins can still be run and tested.
use std::path::Path;

fn main() {
    let root = std::env::var("CARGO_MANIFEST_DIR").expect("cargo sets it");
    let folder = format!("{root}/target/archive");
    let archive = format!("{folder}/libtiming.a");
    println!("cargo:rustc-check-cfg=cfg(with_library)");
    println!("cargo:rerun-if-changed={archive}");
    if Path::new(&archive).exists() {
        println!("cargo:rustc-cfg=with_library");
        println!("cargo:rustc-link-search=native={folder}");
        println!("cargo:rustc-link-lib=static=timing");
    }
}
