// Links the archives that `archive` and `bytewise` wrote, and the crate's shared library where CRATE_RUNS names its folder.
fn main() {
    let root = std::env::var("CARGO_MANIFEST_DIR").expect("cargo sets it");
    println!("cargo:rustc-link-search=native={root}/target/archive");
    for name in ["timing", "bytewise"] {
        println!("cargo:rustc-link-lib=static={name}");
        println!("cargo:rerun-if-changed={root}/target/archive/lib{name}.a");
    }
    println!("cargo:rerun-if-env-changed=CRATE_RUNS");
    println!("cargo:rustc-check-cfg=cfg(with_crate)");
    if let Ok(folder) = std::env::var("CRATE_RUNS") {
        println!("cargo:rustc-cfg=with_crate");
        println!("cargo:rustc-link-search=native={folder}");
        println!("cargo:rustc-link-lib=dylib=crate_runs");
        println!("cargo:rustc-link-arg=-Wl,-rpath,{folder}");
        println!("cargo:rerun-if-changed={folder}/libcrate_runs.so");
    }
}
