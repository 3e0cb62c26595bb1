//! Links the comparison with the library of the program `overlay`, which is in the folder that OVERLAY_LIB names, as tests/run has it.

use std::env::var;

fn main() {
    println!("cargo:rerun-if-env-changed=OVERLAY_LIB");
    if let (Ok(_), Ok(folder)) = (var("CARGO_FEATURE_LIBRARY"), var("OVERLAY_LIB")) {
        println!("cargo:rerun-if-changed={folder}/libprogram.a");
        println!("cargo:rustc-link-arg-bin=library={folder}/libprogram.a");
    }
}
