//! With the feature `engine`, links the archive of the proved engine, from the folder that NATIVE names.

use std::env;
use std::path::PathBuf;

fn main() {
    println!("cargo:rerun-if-env-changed=NATIVE");
    if env::var_os("CARGO_FEATURE_ENGINE").is_none() {
        return;
    }
    let folder = PathBuf::from(env::var_os("NATIVE").expect("NATIVE names the folder of the archive"));
    println!("cargo:rustc-link-search=native={}", folder.display());
    println!("cargo:rerun-if-changed={}", folder.join("libgazenohyri.a").display());
    println!("cargo:rustc-link-lib=static=gazenohyri");
}
