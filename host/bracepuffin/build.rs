//! Hands the place of the archive on to the tests, which link a program in C.

use std::env;

fn main() {
    println!("cargo:rerun-if-changed=build.rs");
    let archive = env::var("DEP_BRACEPUFFIN_ARCHIVE").expect("bracepuffin-sys says where it is");
    println!("cargo:rustc-env=BRACEPUFFIN_ARCHIVE={archive}");
}
