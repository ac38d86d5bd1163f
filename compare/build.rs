//! Says where the static library of the proved functions lies, when the comparison with them is built.

use std::env;

fn main() {
    println!("cargo:rerun-if-env-changed=PROVED_LIBRARY");
    if env::var_os("CARGO_FEATURE_PROVED").is_none() {
        return;
    }
    let folder = env::var("PROVED_LIBRARY")
        .expect("PROVED_LIBRARY names the folder of libexport.a; tools/compare sets it");
    println!("cargo:rerun-if-changed={folder}/libexport.a");
    println!("cargo:rustc-link-search=native={folder}");
    println!("cargo:rustc-link-lib=static=export");
}
