//! Says where the archive is that `tools/archive.sh` makes: MUHAREGODEN_LIB, or target/staticlib of this repository.

use std::env;

fn main() {
    let here = env::var("CARGO_MANIFEST_DIR").unwrap_or_default();
    let folder =
        env::var("MUHAREGODEN_LIB").unwrap_or_else(|_| format!("{here}/../../target/staticlib"));
    println!("cargo:rerun-if-env-changed=MUHAREGODEN_LIB");
    println!("cargo:rustc-link-search=native={folder}");
    println!("cargo:rustc-link-lib=static=expander");
}
