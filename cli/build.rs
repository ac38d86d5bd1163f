//! Links the static library of the proved functions, as tools/library leaves it, and tells the program which one it is.

use std::env;
use std::fs;
use std::path::PathBuf;

fn main() {
    let folder = PathBuf::from(env::var_os("CARGO_MANIFEST_DIR").expect("cargo sets it"))
        .join("../target/staticlib");
    println!(
        "cargo:rerun-if-changed={}",
        folder.join("libexport.a").display()
    );
    println!("cargo:rustc-link-search=native={}", folder.display());
    println!("cargo:rustc-link-lib=static=export");
    for (file, name) in [("export.sum", "LIBRARY_SUM"), ("export.kit", "LIBRARY_KIT")] {
        let path = folder.join(file);
        println!("cargo:rerun-if-changed={}", path.display());
        let line = fs::read_to_string(&path).unwrap_or_else(|why| {
            panic!("{}: {why}; tools/library makes the library", path.display())
        });
        println!("cargo:rustc-env={name}={}", line.trim());
    }
}
