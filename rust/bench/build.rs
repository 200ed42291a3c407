//! Finds the benchmark's own static library where the library's stands: in `UADP_LIB_DIR`, else in `target/staticlib` of the repository.
use std::env;
use std::path::PathBuf;

fn main() {
    println!("cargo::rerun-if-env-changed=UADP_LIB_DIR");
    let here = PathBuf::from(env::var_os("CARGO_MANIFEST_DIR").unwrap_or_default());
    let folder = env::var_os("UADP_LIB_DIR").map_or_else(|| here.join("../../target/staticlib"), PathBuf::from);
    let file = folder.join("libmarks.a");
    println!("cargo::rerun-if-changed={}", file.display());
    println!("cargo::rustc-link-search=native={}", folder.display());
    println!("cargo::rustc-link-lib=static=marks");
    if !file.is_file() {
        println!("cargo::warning=no {}: make it with `make by_one` at the top of the repository", file.display());
    }
}
