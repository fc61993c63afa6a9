//! Links libbracepuffin.a from the folder BRACEPUFFIN_LIB, else from target/staticlib of the repository. Where it is
//! not made yet, `cargo check`, `cargo doc` and `cargo clippy` still run: only what links a program needs it.

use std::env;
use std::path::PathBuf;

fn main() {
    println!("cargo:rerun-if-changed=build.rs");
    println!("cargo:rerun-if-env-changed=BRACEPUFFIN_LIB");
    let folder = match env::var_os("BRACEPUFFIN_LIB") {
        Some(folder) => PathBuf::from(folder),
        None => {
            let here = env::var_os("CARGO_MANIFEST_DIR").expect("cargo sets CARGO_MANIFEST_DIR");
            PathBuf::from(here).join("../../target/staticlib")
        }
    };
    let archive = folder.join("libbracepuffin.a");
    println!("cargo:rerun-if-changed={}", archive.display());
    if archive.is_file() {
        println!("cargo:rustc-link-search=native={}", folder.display());
        println!("cargo:rustc-link-lib=static=bracepuffin");
    } else {
        println!(
            "cargo:warning=no {}: `tools/archive` at the root of the repository makes it; nothing links until then",
            archive.display()
        );
    }
    // For the build scripts of those who depend on this crate: DEP_BRACEPUFFIN_ARCHIVE.
    println!("cargo:archive={}", archive.display());
}
