//! Finds the static library: in `UADP_LIB_DIR`, else in `target/staticlib` of the repository.
use std::env;
use std::path::PathBuf;

/// The names under which the library is built and installed.
const NAMES: [&str; 2] = ["uadp_c", "uadp"];

fn main() {
    println!("cargo::rerun-if-env-changed=UADP_LIB_DIR");
    let here = PathBuf::from(env::var_os("CARGO_MANIFEST_DIR").unwrap_or_default());
    let folder = env::var_os("UADP_LIB_DIR").map_or_else(|| here.join("../../target/staticlib"), PathBuf::from);
    for name in NAMES {
        let file = folder.join(format!("lib{name}.a"));
        if file.is_file() {
            println!("cargo::rerun-if-changed={}", file.display());
            println!("cargo::rustc-link-search=native={}", folder.display());
            println!("cargo::rustc-link-lib=static={name}");
            return;
        }
    }
    println!("cargo::rerun-if-changed={}", folder.display());
    println!(
        "cargo::error=no libuadp_c.a in {}: make it with `make library` at the top of the repository, or say in UADP_LIB_DIR where it is",
        folder.display()
    );
}
