//! Links the archives of the proved engine, from the folder that NATIVE names.

use std::env;
use std::path::PathBuf;

fn main() {
    println!("cargo:rerun-if-env-changed=NATIVE");
    let folder = match env::var_os("NATIVE") {
        Some(folder) => PathBuf::from(folder),
        None => PathBuf::from(env::var_os("CARGO_MANIFEST_DIR").unwrap()).join("../../target/native"),
    };
    println!("cargo:rustc-link-search=native={}", folder.display());
    for name in ["gazenohyri", "probe"] {
        let archive = folder.join(format!("lib{}.a", name));
        println!("cargo:rerun-if-changed={}", archive.display());
        println!("cargo:rustc-link-lib=static={}", name);
    }
}
